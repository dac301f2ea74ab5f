#!/usr/bin/env python3
"""The README's marked blocks against files: the block after a line `<!-- FILE -->` holds that file's text, and after a line
`<!-- FILE, from TEXT -->` its lines from the first one on that begins with TEXT.

usage: readme.py [--write] FILE...     the files that must have one block each; a fault is printed and ends it with status 1
                                       --write puts the files' text into the blocks instead
"""
import os
import re
import sys

from cases import ROOT, blocks, text_of

README = os.path.join(ROOT, "README.md")


def right(mark):
    """The text that the block with this mark must hold."""
    name, _, start = mark.partition(", from ")
    lines = text_of(os.path.join(ROOT, name)).splitlines(keepends=True)
    first = next((at for at, line in enumerate(lines) if line.startswith(start)), None)
    if first is None:
        sys.exit(f"README.md: no line of {name} begins with '{start}'")
    return "".join(lines[first:])


def main():
    write = sys.argv[1:2] == ["--write"]
    document = text_of(README)
    for name in sys.argv[2 if write else 1:]:
        found = [(mark, text) for mark, text in blocks(document) if re.fullmatch(re.escape(name) + "(, from .*)?", mark)]
        if len(found) != 1:
            sys.exit(f"README.md has {len(found)} blocks for {name}, one is right")
        mark, text = found[0]
        if write:
            document = document.replace(f"<!-- {mark} -->\n```\n{text}```\n", f"<!-- {mark} -->\n```\n{right(mark)}```\n")
        elif text != right(mark):
            sys.exit(f"README.md: its block does not hold {mark}")
    if write:
        with open(README, "w", encoding="utf-8", newline="") as file:
            file.write(document)


if __name__ == "__main__":
    main()
