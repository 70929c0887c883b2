#!/usr/bin/env python3
"""Brings the names of this repository's own definitions and lemmas to the spelling of today's Rattle: snake case.

usage: python3 tools/respell.py [--dry]     at the top of the repository, once, right after the kit's port.py

A name that specs/ or proofs/ declare, in camel case or with dashes, gets snake case, wherever it stands in .antt files
and in the clauses of .rt files. Types and facts (with a capital first), functions of src/, strings, and the names that
Rattle makes for goals keep theirs. A lemma that would have a definition's name gets _lem behind it. Other names that
would fall together are listed, and nothing is written then.
"""
import os
import re
import sys

WORD = r"[A-Za-z0-9_'\-]"
# a signature, also one inside a module; a field of a record
SIGNATURE = re.compile(r"^ *(?:abbrev |unfoldable )?(?:pub )?([a-z][A-Za-z0-9_'\-]*) :(?!:) ?(.*)$")
FIELD = re.compile(r"^ +(?:pub )?([a-z][A-Za-z0-9_'\-]*) : (.*)$")
LEMMAS = {"tick-answer": "tick_answer_lem", "level-answer": "level_answer_lem", "two-tasks": "two_tasks_lem"}
MADE = re.compile(r"^(goal|given|need)\b")


def snake(name):
    if name in LEMMAS:
        return LEMMAS[name]
    name = re.sub(r"([a-z0-9])([A-Z])(?=[a-z]|\b|_|-|')", lambda m: m.group(1) + "_" + m.group(2).lower(), name)
    return name.replace("-", "_")


def files(top):
    for folder, dirs, names in os.walk(os.path.join(top, "crates")):
        dirs[:] = sorted(d for d in dirs if d != "out")
        for n in sorted(names):
            if n.endswith((".antt", ".rt")):
                yield os.path.join(folder, n)


def declared(path):
    """The names that a file declares, each with whether it is a field of a record; goals are left out."""
    in_record = False
    with open(path, encoding="utf-8") as f:
        for line in f:
            if re.match(r"^(pub )?(record|data)\b", line):
                in_record = True
            elif line.strip() and not line.startswith((" ", "--")):
                in_record = False
            m = SIGNATURE.match(line)
            if m and not MADE.match(m.group(2)):
                yield m.group(1), False
            m = in_record and FIELD.match(line)
            if m:
                yield m.group(1), True


def main():
    top = os.getcwd()
    plain, fields, all_names = {}, {}, set()
    for p in files(top):
        if not p.endswith(".antt"):
            continue
        for name, is_field in declared(p):
            all_names.add(name)
            if snake(name) != name:
                (fields if is_field else plain)[name] = snake(name)
    clash = [(n, t) for n, t in {**plain, **fields}.items() if t in all_names]
    seen = {}
    for n, t in {**plain, **fields}.items():
        if seen.setdefault(t, n) != n:
            clash.append((seen[t], n, t))
    for c in clash:
        print("falls together:", *c)
    print(len(plain), "definitions and lemmas,", len(fields), "fields")
    if "--dry" in sys.argv:
        for n, t in sorted({**plain, **fields}.items()):
            print(n, "->", t)
        return 0
    if clash:
        return 1
    token = re.compile(r"(?<!" + WORD + r")(\.?)([a-z][A-Za-z0-9_'\-]*)(?!" + WORD + ")")

    def swap(m):
        dot, name = m.groups()
        return dot + (fields.get(name, name) if dot else plain.get(name, fields.get(name, name)))

    for p in files(top):
        with open(p, encoding="utf-8") as f:
            text = f.read()
        if p.endswith(".rt"):
            # names with dashes stand in clauses and ghost items alone, and so do names in camel case
            new = re.sub(r'"(?:\\.|[^"\\])*"|//[^\n]*|' + token.pattern, lambda m: swap(m) if m.group(2) else m.group(0), text)
        else:
            new = re.sub(r"--[^\n]*|" + token.pattern, lambda m: swap(m) if m.group(2) else m.group(0), text)
        if new != text:
            with open(p, "w", encoding="utf-8") as f:
                f.write(new)
    return 0


if __name__ == "__main__":
    sys.exit(main())
