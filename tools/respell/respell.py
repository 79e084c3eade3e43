#!/usr/bin/env python3
"""Gives the repository's own definitions and lemmas today's spelling: words in snake case, a dash only between two words.

usage: respell.py [FOLDER]      (the top of a checkout; by default the one that this file lies in)

names.tsv beside this file has a row for each name: old, a tab, new. Whole names turn, in the .antt and .rt files below crates/;
in a comment too. It was run once, on the tree that port.py had turned; a second run changes nothing.
"""
import os
import re
import sys

HERE = os.path.dirname(os.path.realpath(__file__))
NAME = re.compile(r"[^\s(){}.;,@\"«»`]+")


def table():
    with open(os.path.join(HERE, "names.tsv"), encoding="utf-8") as f:
        return dict(line.rstrip("\n").split("\t") for line in f if line.strip())


def turned(text, names):
    return NAME.sub(lambda m: names.get(m.group(0), m.group(0)), text)


def main(argv):
    top = argv[0] if argv else os.path.join(HERE, "..", "..")
    names = table()
    changed = 0
    for folder, dirs, files in os.walk(os.path.join(top, "crates")):
        dirs[:] = [d for d in dirs if d != "out"]
        for name in files:
            if name.endswith((".antt", ".rt")):
                path = os.path.join(folder, name)
                with open(path, encoding="utf-8") as f:
                    old = f.read()
                new = turned(old, names)
                if new != old:
                    with open(path, "w", encoding="utf-8") as f:
                        f.write(new)
                    changed += 1
    print(f"{changed} files, {len(names)} names")


if __name__ == "__main__":
    main(sys.argv[1:])
