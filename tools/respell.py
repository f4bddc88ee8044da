#!/usr/bin/env python3
"""Respells the repository's own definitions and lemmas: words in snake case, types in camel case, a dash only where it joins two names.

usage: python3 tools/respell.py [ROOT]

Run once, on what port.py left. tools/respell.tsv has a line for each name: the old one, the new one and, where only some files are
meant, a pattern of their paths below crates/. Functions of src/, exported names, strings, inputs and outputs are not touched: a name
of the table is replaced where it stands as a whole word of a specification, a proof, a clause or a must-fail edit.
"""
import os
import re
import sys

WORD = re.compile(r"\"(?:[^\"\\]|\\.)*\"|[^\s(){}.;,:«»\"@|⌜⌝`]+")


def table(path):
    everywhere, some = {}, []
    with open(path, encoding="utf-8") as lines:
        for line in lines:
            cells = line.rstrip("\n").split("\t")
            if len(cells) == 2:
                everywhere[cells[0]] = cells[1]
            else:
                some.append((cells[0], cells[1], re.compile(cells[2])))
    return everywhere, some


def respelled(text, names):
    return WORD.sub(lambda m: names.get(m[0], m[0]), text)


def main():
    root = sys.argv[1] if len(sys.argv) > 1 else "."
    here = os.path.dirname(os.path.realpath(__file__))
    everywhere, some = table(os.path.join(here, "respell.tsv"))
    crates = os.path.join(root, "crates")
    changed = 0
    for folder, inner, files in os.walk(crates):
        inner[:] = sorted(d for d in inner if d != "out")
        for name in sorted(files):
            if not name.endswith((".antt", ".rt", ".edit")):
                continue
            path = os.path.join(folder, name)
            below = os.path.relpath(path, crates)
            names = dict(everywhere)
            names.update({old: new for old, new, where in some if where.match(below)})
            with open(path, encoding="utf-8") as f:
                text = f.read()
            new = respelled(text, names)
            if new != text:
                changed += 1
                with open(path, "w", encoding="utf-8") as f:
                    f.write(new)
    print(f"respell: {changed} files changed")


if __name__ == "__main__":
    main()
