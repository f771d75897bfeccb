#!/usr/bin/env python3
"""Spells this repository's own definitions and lemmas as Rattle's library spells its own: words in snake case.

usage: tools/respell.py [TREE]     once, at the top of the repository, after the kit's port.py

The table beside this file, respell.tsv, has a line for each name: as it was, a tab, as it is now. A name is replaced
where it stands whole: in proofs and definitions everywhere (in their comments a name with a dash only between
backticks, since prose has such words too), in sources and must-fail edits where a table's name has no dash.
"""
import os
import re
import sys

HERE = os.path.dirname(os.path.realpath(__file__))
WORD = re.compile(r"[^\s(){}\[\],;.:«»\"`λ]+")
COMMENT = re.compile(r"(?:^|(?<=\s))(?:--|//)\s.*$", re.M)


def table():
    names = {}
    with open(os.path.join(HERE, "respell.tsv"), encoding="utf-8") as f:
        for line in f:
            old, new = line.rstrip("\n").split("\t")
            names[old] = new
    return names


def in_words(text, names):
    return WORD.sub(lambda m: names.get(m[0], m[0]), text)


def in_comment(text, names):
    """Names between backticks, and elsewhere those without a dash."""
    bare = {o: n for o, n in names.items() if "-" not in o}
    parts = text.split("`")
    return "`".join(in_words(p, names if i % 2 else bare) for i, p in enumerate(parts))


def respelled(text, names, plain):
    used = {o: n for o, n in names.items() if "-" not in o} if plain else names
    out, at = [], 0
    for m in COMMENT.finditer(text):
        out.append(in_words(text[at:m.start()], used))
        out.append(in_comment(m[0], names))
        at = m.end()
    out.append(in_words(text[at:], used))
    return "".join(out)


def main(argv):
    root = argv[0] if argv else "."
    names = table()
    for folder, dirs, files in os.walk(os.path.join(root, "crates")):
        dirs[:] = [d for d in dirs if d not in ("out", "data", "target")]
        for f in files:
            if not f.endswith((".antt", ".rt", ".edit")):
                continue
            path = os.path.join(folder, f)
            with open(path, encoding="utf-8") as it:
                text = it.read()
            new = respelled(text, names, f.endswith(".rt"))
            if new != text:
                with open(path, "w", encoding="utf-8") as it:
                    it.write(new)


if __name__ == "__main__":
    main(sys.argv[1:])
