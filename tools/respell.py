#!/usr/bin/env python3
"""Spells this repository's own names in snake case: definitions, record fields and lemmas of specs/ and proofs/.

usage: python3 tools/respell.py [--list]      at the top of the repository, after the kit's port.py

A name is the repository's own where a file of specs/ or proofs/ declares it: at the top, in a module or a `where`, or as a
field of a record. What a proof folder answers (`pub x : goal.x`) keeps its name, since the kit makes it. A whole word that is
such a name is respelled, dash to underscore, in the .rt, .antt and .edit files of crates/. In a proof folder `w.x-is` keeps its
name: the kit makes it of a variable x. It stops, and writes nothing, where two names would fall together.
"""

import pathlib
import re
import sys

LETTERS = r"[^\s(){}\[\];,.:«»|@λ\"`]"
DECLARED = re.compile(r"^ *(?:(?:unfoldable|abbrev|pub|data|record) )*(" + LETTERS + r"+) (?:: |\()(?!goal\.)", re.M)
WORD = re.compile(LETTERS + r"+")


def files(root):
    for p in sorted(root.glob("crates/*/**/*")):
        if p.suffix in (".rt", ".antt", ".edit") and "out" not in p.relative_to(root).parts:
            yield p


def own_names(root):
    names, plain = set(), set()
    for p in files(root):
        if p.suffix != ".antt":
            continue
        for line in p.read_text().splitlines():
            m = DECLARED.match(line)
            if m and not re.search(r": goal\.", line):
                (names if "-" in m[1] else plain).add(m[1])
    return {n for n in names if re.fullmatch(r"[A-Za-z][A-Za-z0-9_'-]*", n)}, plain


def main():
    root = pathlib.Path(__file__).resolve().parent.parent
    names, plain = own_names(root)
    to = {n: n.replace("-", "_") for n in names}
    together = sorted(n for n in names if to[n] in plain or sum(to[n] == w for w in to.values()) > 1)
    if "--list" in sys.argv:
        print("\n".join(sorted(names)))
        print("fall together: " + ", ".join(together))
        return 0
    if together:
        print("these would fall together with another name: " + ", ".join(together))
        return 1
    changed = 0
    for p in files(root):
        text = p.read_text()
        new = WORD.sub(lambda m: m[0] if m[0].endswith("-is") and text[: m.start()].endswith("w.") else to.get(m[0], m[0]), text)
        if new != text:
            p.write_text(new)
            changed += 1
    print(f"respell: {len(names)} names, {changed} files")
    return 0


raise SystemExit(main())
