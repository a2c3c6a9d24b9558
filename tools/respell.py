#!/usr/bin/env python3
"""Respells this repository's own names: definitions in snake case, no dash in a field or a constructor, no middle dot.

usage: tools/respell.py [FOLDER]     FOLDER is a checkout that port.py has just turned; the current folder if left out

tools/respell.json is the table, old name to new; no two names fall together in it. A name is replaced where it stands as a whole word of
antt, in .antt and .rt files below crates/, in the edits of must-fail/ and in the pages. Names of functions, types, inputs and outputs stay.
"""
import json
import os
import re
import sys

HERE = os.path.dirname(os.path.realpath(__file__))
SPLIT = re.compile(r"([\s(){};,\"«».`\[\]]+)")


# A lemma that gives its name to a definition; a function of src/ may have that name too, and keeps it.
LEMMA = re.compile(r"[a-z_]+")


def respelled(text, table, antt):
    words = SPLIT.split(text)
    for i, word in enumerate(words):
        if LEMMA.fullmatch(word):
            # in antt a dot beside such a word makes it a path to the function
            path = words[i - 1].endswith(".") if i else False
            path = path or (i + 1 < len(words) and words[i + 1].startswith("."))
            if not antt or path:
                continue
        words[i] = table.get(word, word)
    return "".join(words)


def files(root):
    for folder, dirs, names in os.walk(os.path.join(root, "crates")):
        dirs[:] = sorted(d for d in dirs if d not in ("out", "data"))
        yield from (os.path.join(folder, n) for n in sorted(names) if n.endswith((".antt", ".rt", ".edit")))
    for folder in ("docs", "."):
        here = os.path.join(root, folder)
        yield from (os.path.join(here, n) for n in sorted(os.listdir(here)) if n.endswith(".md") and n != "PORT.md")


def main(root="."):
    with open(os.path.join(HERE, "respell.json"), encoding="utf-8") as it:
        table = json.load(it)
    assert len(set(table.values())) == len(table), "two names fall together"
    changed = 0
    for path in files(root):
        with open(path, encoding="utf-8") as it:
            old = it.read()
        new = respelled(old, table, path.endswith(".antt"))
        if new != old:
            with open(path, "w", encoding="utf-8") as it:
                it.write(new)
            changed += 1
    print(f"respell: {changed} files")


if __name__ == "__main__":
    main(*sys.argv[1:])
