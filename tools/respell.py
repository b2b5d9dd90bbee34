#!/usr/bin/env python3
"""Brings the repository's own definitions and lemmas to snake case.

usage: python3 tools/respell.py [ROOT]

Renames each word of tools/respell.tsv (old name, tab, new name) where it stands alone, in the .antt files below ROOT/crates and in the
clauses and imports of the .rt files there. It was run once, right after the files had been brought to the newer Rattle.
"""

import os
import re
import sys

HERE = os.path.dirname(os.path.realpath(__file__))
WORD = re.compile(r"[^\s(){}\[\];,.@\"`]+")
CLAUSE = re.compile(r"\b(ghost use|requires|ensures|ghost|invariant)\b")


def names():
    with open(os.path.join(HERE, "respell.tsv"), encoding="utf-8") as f:
        return dict(line.rstrip("\n").split("\t") for line in f)


def words(text, new):
    return WORD.sub(lambda m: new.get(m.group(), m.group()), text)


def comment(text, new):
    """Only what stands between backquotes, and words in camel case: `kept-run` is a name there, and well-formed is English."""
    camel = {old: name for old, name in new.items() if "-" not in old and re.search("[a-z][A-Z]", old)}
    parts = text.split("`")
    return "`".join(words(part, new if i % 2 else camel) for i, part in enumerate(parts))


def turned(text, new):
    lines = []
    for line in text.split("\n"):
        code, mark, rest = re.match(r"((?:(?!(?<!\S)--(?!\S)).)*)(--)?(.*)", line).groups()
        lines.append(words(code, new) + (mark or "") + comment(rest, new))
    return "\n".join(lines)


def turned_source(text, new):
    """Only imports and clauses: a clause goes on to the line that closes its bracket."""
    lines, depth = [], 0
    for line in text.split("\n"):
        code = line.lstrip()
        if not code.startswith("//") and (depth > 0 or CLAUSE.search(line)):
            line = words(line, new)
            depth = max(0, depth + line.count("{") - line.count("}"))
        lines.append(line)
    return "\n".join(lines)


def main():
    root = sys.argv[1] if len(sys.argv) > 1 else "."
    new = names()
    for folder, dirs, files in os.walk(os.path.join(root, "crates")):
        dirs[:] = sorted(d for d in dirs if d != "out")
        for name in sorted(files):
            if not name.endswith((".antt", ".rt")):
                continue
            path = os.path.join(folder, name)
            with open(path, encoding="utf-8") as f:
                old = f.read()
            text = turned(old, new) if name.endswith(".antt") else turned_source(old, new)
            if text != old:
                with open(path, "w", encoding="utf-8") as f:
                    f.write(text)


if __name__ == "__main__":
    main()
