#!/usr/bin/env python3
"""Whether crates.txt lists what each crate uses, and docs/CRATES.md each crate once. Says what differs; exit 1 if something does.

A crate uses those whose name stands in its code, contracts, definitions or proofs: `NAME::` or `Rattle.NAME`. The toolchain's `std` is
never listed.
"""
import os
import re
import sys

lines = [re.match(r"(\w+)(?: +staticlib)?:(.*)", line) for line in open("crates.txt", encoding="utf8")]
listed = {m.group(1): m.group(2).split() for m in lines if m}
wrong = []

for name, uses in listed.items():
    text = ""
    for part in ("src", "specs", "proofs"):
        for folder, _, files in os.walk(f"crates/{name}/{part}"):
            for file in files:
                comment = r"//.*" if file.endswith(".rt") else r"--.*"
                with open(os.path.join(folder, file), encoding="utf8") as source:
                    text += re.sub(comment, "", source.read())
    others = {*listed, *uses} - {name}
    named = {other for other in others if re.search(rf"(?<![\w.])Rattle\.{other}\.|(?<![\w:]){other}::", text)}
    for other in sorted(named - set(uses)):
        wrong.append(f"crates.txt: {name} uses {other} and does not list it")
    for other in sorted(set(uses) - named):
        wrong.append(f"crates.txt: {name} lists {other} and does not use it")

page = re.findall(r"^\| `(\w+)` \|", open("docs/CRATES.md", encoding="utf8").read(), flags=re.M)
for name in sorted(set(listed) | set(page)):
    if (name in listed, page.count(name)) != (True, 1):
        wrong.append(f"docs/CRATES.md: {name} stands there {page.count(name)} times")

print("\n".join(wrong) or f"{len(listed)} crates, each with what it uses and one line in docs/CRATES.md")
sys.exit(1 if wrong else 0)
