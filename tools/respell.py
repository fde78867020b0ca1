#!/usr/bin/env python3
"""Respells the repository's own definitions and lemmas: a-name becomes a_name, and A-name becomes AName.

usage: python3 tools/respell.py [--list]     at the top of the repository, once, after the toolchain's own script

A name is taken if specs/, proofs/ or a ghost item of src/ defines it. Names of the library, and the goals that an
answer or an invariant is written for, keep their spelling. Comments are prose and stay; pages say names in backticks.
It stops, and changes nothing, where two names would fall together.
"""

import collections
import glob
import re
import sys

NAME = r"[A-Za-z][\w']*(?:-[\w']+)+"
WORD = re.compile(r"(?<![\w'.◌-])" + NAME + r"(?![\w'◌-])|(?<=\.)" + NAME + r"(?![\w'◌-])")
DEFINED = re.compile(r"^\s*(?:(?:abbrev|unfoldable|pub)\s+)*(?:(?:record|data|module)\s+(" + NAME + r")|(" + NAME + r")\s*:)")
BOUND = re.compile(r"\b(?:let|as)\s+(" + NAME + r")(?=\s*[:=,}])")
GHOST = re.compile(r"^\s*ghost\s+(" + NAME + r")\s*[:=]")
# A definition may have the name of the function that it tells of: a clause calls no code.
CODE = {"depth_over", "is_net", "is_portfolio"}
LIBRARY = re.compile(r"^\s*(?:ghost )?use (?:Rattle\.std|borrow|Prim|mathlib|native|lib)\.[\w.'·]*\.\{([^}]*)\}")


def respelled(name):
    parts = name.split("-")
    if name[0].isupper():
        return "".join(p[0].upper() + p[1:] for p in parts)
    return "_".join(parts)


def code_and_comment(line, mark):
    at = line.find(mark)
    return (line, "") if at < 0 else (line[:at], line[at:])


def texts():
    return sorted(glob.glob("crates/*/specs/**/*.antt", recursive=True)
                  + glob.glob("crates/*/proofs/**/*.antt", recursive=True)
                  + glob.glob("crates/*/src/**/*.rt", recursive=True))


def goals(text):
    """Names that an answer or an invariant is written for."""
    return set(re.findall(r"(" + NAME + r")\s*:\s*goal\.", text)) | set(re.findall(r"goal\.(" + NAME + r")", text))


def main():
    files = {p: open(p, encoding="utf-8").read() for p in texts()}
    defined, kept = {"open-result"}, collections.defaultdict(set)  # a parameter, which no line defines
    for p, t in files.items():
        mark = "//" if p.endswith(".rt") else "--"
        answers = goals(t)
        for line in t.splitlines():
            code, _ = code_and_comment(line, mark)
            found = set(BOUND.findall(code))
            m = (GHOST if p.endswith(".rt") else DEFINED).match(code)
            if m:
                found.add(next(g for g in m.groups() if g))
            defined |= found - answers
            m = LIBRARY.match(code)
            if m:
                kept[p] |= {n.strip() for n in m.group(1).split(",")}
        kept[p] |= answers
    new = {n: respelled(n) for n in defined}
    taken = collections.defaultdict(set)
    for n, r in new.items():
        taken[r].add(n)
    words = set()
    for p, t in files.items():
        words |= set(re.findall(r"[A-Za-z][\w']*", t))
    clashes = [(r, sorted(ns)) for r, ns in taken.items() if len(ns) > 1] + [(r, sorted(taken[r])) for r in taken if r in words - CODE]
    if "--list" in sys.argv:
        for n in sorted(new):
            print(n, new[n])
        library = set().union(*kept.values())
        print("library too:", sorted(defined & library))
    if clashes:
        for r, ns in sorted(clashes):
            print("falls together:", r, ns)
        if "--list" not in sys.argv:
            raise SystemExit(1)
    if "--list" in sys.argv:
        return
    for p, t in files.items():
        mark = "//" if p.endswith(".rt") else "--"
        turn = lambda m: new.get(m.group(0), m.group(0)) if m.group(0) not in kept[p] else m.group(0)
        lines = []
        for line in t.split("\n"):
            code, comment = code_and_comment(line, mark)
            lines.append(WORD.sub(turn, code) + comment)
        if "\n".join(lines) != t:
            open(p, "w", encoding="utf-8").write("\n".join(lines))
    for p in ["README.md"] + sorted(glob.glob("docs/*.md")):
        t = open(p, encoding="utf-8").read()
        u = re.sub(r"`[^`\n]+`", lambda m: WORD.sub(lambda w: new.get(w.group(0), w.group(0)), m.group(0)), t)
        if u != t:
            open(p, "w", encoding="utf-8").write(u)


main()
