#!/usr/bin/env python3
"""The printed cases, docs/CASES.md, and the class sheet, docs/SHEET.md, made from captures/ and from the prose in host/cases/.

usage: cases.py            each line that it prints is a fault: a case without its three files or its entry, a page that is not what is made
       cases.py --write    makes both pages anew

A case is three files, captures/NAME.capture, NAME.answer and NAME.shown, and one entry in host/cases/cases.txt.
"""
import os
import re
import sys

from case_files import ENDINGS, FOLDER, ROOT, text_of
from case_page import entry_faults, page, page_faults

PAGES = {"page.md": "docs/CASES.md", "sheet.md": "docs/SHEET.md"}
FILE = r"[a-z0-9-]+\.(?:" + "|".join(ENDINGS) + ")"


def blocks(document):
    """A document's marks `<!-- FILE -->` with the text of the code block after each, in its order. host/readme.py asks for them."""
    lines, found, at = document.split("\n"), [], 0
    while at < len(lines):
        mark = re.fullmatch(r"<!-- (.*) -->", lines[at])
        at += 1
        if not mark:
            continue
        if at == len(lines) or lines[at] != "```":
            raise ValueError(f"{mark[1]}: no code block stands on the next line")
        if "```" not in lines[at + 1:]:
            raise ValueError(f"{mark[1]}: its code block has no end")
        end = lines.index("```", at + 1)
        found.append((mark[1], "".join(line + "\n" for line in lines[at + 1:end])))
        at = end + 1
    return found


def case_names(files):
    return sorted({file.rsplit(".", 1)[0] for file in files if re.fullmatch(FILE, file)})


def file_faults(files):
    """Files of other names, and cases that lack one of their three files."""
    for file in files:
        if not re.fullmatch(FILE, file):
            yield f"captures/{file}: its ending is none of {', '.join(ENDINGS)}"
    for name in case_names(files):
        for ending in ENDINGS:
            if f"{name}.{ending}" not in files:
                yield f"captures/{name}.{ending}: there is no such file"


def stale(path, text):
    """Where the page is not what is made, the first line that differs."""
    if not os.path.exists(os.path.join(ROOT, path)):
        yield f"{path}: there is no such file; python3 host/cases.py --write makes it"
        return
    here, there = text_of(os.path.join(ROOT, path)).split("\n"), text.split("\n")
    if here != there:
        number = next(at for at in range(len(here) + 1) if here[at:at + 1] != there[at:at + 1]) + 1
        yield f"{path}: line {number} is not what is made from captures/ and host/cases/; python3 host/cases.py --write makes the page"


def faults(write):
    files = sorted(os.listdir(FOLDER))
    found = [*file_faults(files), *entry_faults(case_names(files))]
    yield from found
    if found:
        return
    for frame, path in PAGES.items():
        text = page(frame)
        yield from page_faults(frame, text)
        if write:
            with open(os.path.join(ROOT, path), "w", encoding="utf-8", newline="") as file:
                file.write(text)
        else:
            yield from stale(path, text)


def main():
    if sys.argv[1:] not in ([], ["--write"]):
        sys.exit(__doc__)
    try:
        found = list(faults(bool(sys.argv[1:])))
    except ValueError as error:
        found = [str(error)]
    for fault in found:
        print(fault)
    sys.exit(1 if found else 0)


if __name__ == "__main__":
    main()
