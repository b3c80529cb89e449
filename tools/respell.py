#!/usr/bin/env python3
"""Brings this repository's own names to Rattle's spelling: words in snake case, types in camel case.

usage: python3 tools/respell.py [FOLDER]     once, at the top of a tree whose files port.py has turned

Each line of respell.txt is a name and what stands for it. Only whole words are turned, and none in a comment or a string of the code.
"""

import os
import re
import sys

HERE = os.path.dirname(os.path.realpath(__file__))
WORD = re.compile(r"[^\s(){}\[\];,.:=|`\"⌜⌝]+")


def table():
    with open(os.path.join(HERE, "respell.txt"), encoding="utf-8") as rows:
        return dict(row.split() for row in rows)


def turned(text, names):
    return WORD.sub(lambda m: names.get(m[0], m[0]), text)


def line_turned(line, names, comment):
    if line.lstrip().startswith(comment):
        return re.sub(r"`[^`]*`", lambda m: turned(m[0], names), line)
    return turned(line, names)


def files(root):
    for folder, dirs, found in os.walk(os.path.join(root, "crates")):
        dirs[:] = [d for d in dirs if d != "out"]
        for name in found:
            if name.endswith((".rt", ".antt", ".edit")):
                yield os.path.join(folder, name)


def main(root):
    names = table()
    for path in files(root):
        with open(path, encoding="utf-8") as f:
            text = f.read()
        comment = "//" if path.endswith(".rt") else "--"
        new = "".join(line_turned(line, names, comment) for line in text.splitlines(keepends=True))
        if new != text:
            with open(path, "w", encoding="utf-8") as f:
                f.write(new)


if __name__ == "__main__":
    main(sys.argv[1] if len(sys.argv) > 1 else ".")
