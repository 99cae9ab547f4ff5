#!/usr/bin/env python3
"""Spells this repository's own definitions, fields and lemmas in snake case.

usage: python3 tools/snake_names.py [--list]      at the top of the repository

Run once, after the kit's port.py, when the repository came over to a newer Rattle: `rowCount` becomes `row_count` and
`start-le` becomes `start_le`. Names that the check makes from the code, of goals and their parts, keep their dashes, and so
does everything in the code itself: a definition may have the name of the function that it is about. Two names of the antt
files that would fall together stop the script before it writes. --list only prints.
"""

import os
import re
import sys

SIGNATURE = re.compile(r"^\s*(?:(?:abbrev|unfoldable|pub|record|data) )*([^\s:{}()\[\],;=.]+)(?: [({].*)? : (.*)$")
NAME = r"A-Za-z0-9_'\-·◌≤≥ℤℕ"

# Where the plain spelling would be that of another definition or lemma.
OTHERWISE = {
    "cell-null": "cell_when_null",
    "cell-valid": "cell_when_valid",
    "cells-from": "cells_from_front",
    "wholeFrom": "all_whole_from",
}


def texts(kinds):
    for folder, dirs, files in os.walk("crates"):
        dirs[:] = sorted(d for d in dirs if d != "out")
        for f in sorted(files):
            if f.endswith(kinds):
                yield os.path.join(folder, f)


def read(path):
    with open(path, encoding="utf-8") as f:
        return f.read()


def snake(name):
    if name in OTHERWISE:
        return OTHERWISE[name]
    name = re.sub(r"(?<=[a-z0-9])([A-Z])", lambda m: "_" + m.group(1).lower(), name)
    return name.replace("-", "_").replace("′", "'")


def own_names():
    """The names that the repository declares: not those of goals, nor of types and of lemmas that begin with a type."""
    names = {}
    for path in texts((".antt",)):
        for line in read(path).splitlines():
            m = SIGNATURE.match(line)
            if m and m.group(1)[0].islower() and not m.group(2).startswith("goal."):
                names.setdefault(m.group(1), path)
    return names


def tokens(text):
    return set(re.findall(f"[{NAME}]+", text))


def main(argv):
    declared = own_names()
    turned = {n: snake(n) for n in declared if snake(n) != n}
    files = {p: read(p) for p in texts((".antt", ".rt"))}
    seen = {p: tokens(t) for p, t in files.items()}
    clashes = []
    targets = {}
    for old, new in turned.items():
        if new in targets:
            clashes.append(f"{old} and {targets[new]} would both be {new}")
        targets[new] = old
        clashes += [f"{old}: {p} has {new} already" for p in files if p.endswith(".antt") and old in seen[p] and new in seen[p]]
    if "--list" in argv:
        for old in sorted(turned):
            print(old, turned[old])
    if clashes:
        print("\n".join(clashes), file=sys.stderr)
        return 1
    if "--list" in argv:
        return 0
    longest_first = sorted(turned, key=len, reverse=True)
    any_of = re.compile(f"(?<![{NAME}])(" + "|".join(map(re.escape, longest_first)) + f")(?![{NAME}])")
    for path, text in files.items():
        new = any_of.sub(lambda m: turned[m.group(1)], text)
        if new != text:
            with open(path, "w", encoding="utf-8") as f:
                f.write(new)
    print(f"{len(turned)} names turned")
    return 0


if __name__ == "__main__":
    raise SystemExit(main(sys.argv[1:]))
