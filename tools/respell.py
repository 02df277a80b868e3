#!/usr/bin/env python3
"""Spells the definitions and lemmas of this repository as Rattle's own are spelled, by names.tsv beside this file.

usage: python3 tools/respell.py [FOLDER]

FOLDER is a checkout (by default the one that the script lies in). A row of names.tsv is an old name, a tab and the new one.
A definition, a field and a lemma are in snake case, a fact is in camel case, and a dash joins two names in the name of a lemma.
It turns whole words of the specs and proofs, of the clauses, ghost lines and comments of the sources, and code spans of the documents.
A second run changes nothing, since no new name is an old one. docs/PORT.md stays: it has the old names on purpose.
"""

import os
import re
import sys

HERE = os.path.dirname(os.path.realpath(__file__))
# antt's words may have dashes; a dot or a bracket ends one
WORD = re.compile(r"[A-Za-z][A-Za-z0-9_'-]*")
SPAN = re.compile(r"`[^`\n]+`")


def table():
    with open(os.path.join(HERE, "names.tsv"), encoding="utf-8") as f:
        return dict(line.rstrip("\n").split("\t") for line in f if line.strip())


def respelled(text, names):
    return WORD.sub(lambda m: names.get(m[0], m[0]), text)


def main(argv):
    top = argv[0] if argv else os.path.dirname(HERE)
    names = table()
    met = sorted(set(names) & set(names.values()))
    if met:
        print("an old name is also a new one: " + ", ".join(met))
        return 1
    changed = 0
    for folder, dirs, files in os.walk(top):
        dirs[:] = sorted(d for d in dirs if d not in (".git", "out", "target", "tools"))
        for name in sorted(files):
            path = os.path.join(folder, name)
            if name == "PORT.md" or not name.endswith((".rt", ".antt", ".md", ".edit")):
                continue
            with open(path, encoding="utf-8") as f:
                text = f.read()
            if name.endswith(".md"):
                new = SPAN.sub(lambda m: respelled(m[0], names), text)
            else:
                new = respelled(text, names)
            if new != text:
                changed += 1
                with open(path, "w", encoding="utf-8") as f:
                    f.write(new)
    print(f"{changed} files respelled, by {len(names)} names")
    return 0


if __name__ == "__main__":
    raise SystemExit(main(sys.argv[1:]))
