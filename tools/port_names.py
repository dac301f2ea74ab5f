#!/usr/bin/env python3
"""Brings the repository's own definitions and lemmas to the spelling of today's Rattle: words in snake case.

usage: python3 tools/port_names.py [--check]     at the top, once, after the kit's port.py

What was in lower camel case (definitions, fields, constructors) or in kebab case (lemmas) is in snake case after it: in specs/, proofs/,
clauses, must-fail edits, and between backquotes in README.md and docs/. All names of src/, types, and what stands in strings keep their
spelling. The crate `hex` becomes `hexadecimal`, since Rattle has a library of that name. Where a lemma's new name is already that of
something else, in its file or among the names that are turned, it ends in `_lem`.

--check writes nothing, and prints each old name with its new one.
"""
import collections
import glob
import os
import re
import sys

# Lemmas that port.py has put into snake case itself, and whose name is now a definition's in the same file: the files below crates/, and
# the lemma as port.py left it.
LEMMAS = [
    ("table_laws/proofs/*.antt", "text_at"),
    ("table_laws/proofs/*.antt", "flag_at"),
    ("table_laws/proofs/RowColumns.antt", "rows_then"),
    ("packet_kinds/proofs/Tests.antt", "same_bool"),
    ("check_table/proofs/Sound.antt", "next_small"),
    ("server_laws/proofs/Functions.antt", "names_apart"),
    ("hex/proofs/*.antt", "digit_value"),
    ("packet_laws/proofs/Values.antt", "values-of"),
]

TOKEN = re.compile(r"[^\s(){}\[\].;,@\"«»`|]+")
CAMEL = re.compile(r"[a-z][a-z0-9]*(?:[A-Z][A-Za-z0-9]*)+(?:[-_'₀-₉A-Za-z0-9]*)$")
USE = re.compile(r"^(?:ghost |pub )*use ([^\s{;]+)\.\{([^}]*)\}", re.M)

# Where a name is declared: at the left margin, indented, as a field or a constructor, or by a binder.
TOP = re.compile(r"^(?:(?:abbrev|unfoldable|pub|data|record|ruleset) )*([^\s:(){}]+)(?:\s+[({][^:]*:[^)}]*[)}])*\s*:(?:\s|$)")
NESTED = re.compile(r"(?<![\w.'-])([A-Za-z][^\s(){}\[\].;,@\"«»`|≡→]*-[^\s(){}\[\].;,@\"«»`|≡→]*) :(?= )")
FIELD = re.compile(r"^\s+(?:pub )?([^\s:(){}]+(?: [^\s:(){}]+)*) :\s")
BOUND = re.compile(r"(?<![.\w'-])([A-Za-z][\w']*(?:-[\w'₀-₉]+)+)(?![\w'-])")


def snake(name):
    return re.sub(r"(?<=[a-z0-9])([A-Z])", lambda m: "_" + m[1].lower(), name).replace("-", "_")


def read(path):
    with open(path, encoding="utf-8") as f:
        return f.read()


def write(path, text):
    with open(path, "w", encoding="utf-8") as f:
        f.write(text)


def antt_files():
    for folder in ("specs", "proofs"):
        yield from sorted(glob.glob(f"crates/*/{folder}/**/*.antt", recursive=True))


def is_walk(path):
    """A proof that walks the code by hand: most of its names are Rattle's own."""
    return path.endswith("Proof.antt")


def code_of(text):
    return re.sub(r"^\s*--.*$", "", text, flags=re.M)


# ---- which names are turned


def declared_in(path):
    text = read(path)
    names = set() if is_walk(path) else set(NESTED.findall(code_of(text)))
    for item in re.split(r"\n(?=\S)", text):
        if item.startswith(("use ", "--", "pub use", "pub mod", "mod ", "infix")):
            continue
        top = TOP.match(item)
        if top and not re.search(r"tie\.(?:Need|invariant|decreases)", item):
            names.add(top[1])
        if re.match(r"^(?:abbrev |pub )*(?:data|record) ", item):
            for field in map(FIELD.match, item.split("\n")[1:]):
                names.update(field[1].split() if field else [])
    return names


def bound_in(path):
    """Other names of today's old spelling in a file: variables, in camel case anywhere and in kebab case where nothing imports them."""
    names = {it for it in TOKEN.findall(read(path)) if CAMEL.match(it)}
    if not is_walk(path):
        code = code_of(read(path))
        imported = {n for m in re.finditer(r"^(?:ghost |pub )*use [^{\n]*\{([^}]*)\}", code, re.M) for n in re.split(r"[ ,]+", m[1])}
        names |= set(BOUND.findall(code)) - imported
    return names


def new_names():
    """Each old name with its new one."""
    files = list(antt_files())
    names = {n for path in files for n in declared_in(path) if re.match(r"[A-Za-z]", n) and ("-" in n or CAMEL.match(n))}
    names |= {n for path in files for n in bound_in(path)}
    table = {n: snake(n) for n in names}
    together = collections.defaultdict(set)
    taken = set()
    for path in files:
        text = read(path)
        for token in TOKEN.findall(text):
            if CAMEL.match(token) or "-" in token:
                together[snake(token)].add(token)
        if not is_walk(path):
            # A module's path names no thing of the file.
            here = set(TOKEN.findall(re.sub(r"(?m)^((?:pub )?use )[^\s{]+", r"\1", code_of(text))))
            taken |= {n for n in here if "-" in n and table.get(n) in here}
    for n in names:
        if n in taken or "-" in n and any("-" not in other and other in table for other in together[snake(n)]):
            table[n] += "_lem"
    return {a: b for a, b in table.items() if a != b}


def foreign(text, crates):
    """The names that a file imports from another place than this repository's crates."""
    places = ((m[1].split("."), m[2]) for m in USE.finditer(text))
    return {n.split(" as ")[0].strip() for path, items in places if path[0] != "Rattle" or path[1] not in crates for n in items.split(",")}


# ---- turning them


def turned(text, table):
    return TOKEN.sub(lambda m: table.get(m[0], m[0]), text)


def outside_strings(text, table):
    parts = re.split(r'("(?:[^"\\\n]|\\.)*")', text)
    return "".join(p if i % 2 else turned(p, table) for i, p in enumerate(parts))


def in_backquotes(text, table):
    """A page: what stands between backquotes on one line, and in no block of code."""
    blocks = re.split(r"(^```.*?^```$)", text, flags=re.M | re.S)
    for i in range(0, len(blocks), 2):
        blocks[i] = re.sub(r"`[^`\n]+`", lambda m: "`" + turned(m[0][1:-1], table) + "`", blocks[i])
    return "".join(blocks)


def with_lemmas(text, table):
    """In a comment such a name is the definition's or the function's."""
    return "\n".join(line if line.lstrip().startswith("--") else turned(line, table) for line in text.split("\n"))


def with_crate(text):
    text = re.sub(r"\bRattle\.hex\.", "Rattle.hexadecimal.", text)
    text = re.sub(r"(?<![\w:.])hex::", "hexadecimal::", text)
    return re.sub(r"\bcrates/hex\b", "crates/hexadecimal", text)


def main():
    table = new_names()
    if "--check" in sys.argv[1:]:
        print("\n".join(f"{a}\t{b}" for a, b in sorted(table.items())))
        return
    lemmas = collections.defaultdict(dict)
    for files, name in LEMMAS:
        for path in glob.glob("crates/" + files):
            lemmas[path][name] = snake(name) + "_lem"
    crates = set(re.findall(r"^(\w+):", read("crates.txt"), re.M))
    for path in antt_files():
        text = read(path)
        own = {a: b for a, b in table.items() if a not in foreign(text, crates)}
        write(path, with_crate(outside_strings(with_lemmas(text, lemmas[path]), own)))
    for path in glob.glob("crates/*/src/**/*.rt", recursive=True) + glob.glob("crates/*/must-fail/*.edit"):
        write(path, with_crate(outside_strings(read(path), table)))
    for path in ["README.md"] + glob.glob("docs/*.md"):
        write(path, with_crate(in_backquotes(read(path), table)).replace("`hex`", "`hexadecimal`"))
    write("crates.txt", re.sub(r"(?<=[ \n])hex(?=[ :\n])", "hexadecimal", read("crates.txt")))
    os.rename("crates/hex", "crates/hexadecimal")


if __name__ == "__main__":
    main()
