#!/usr/bin/env python3
"""Right after a run of `rt ci` that passed: its programs as target/bin/NAME, and the archive target/staticlib/liblap.a, with the sums by which
host/programs.sh and host/archive.sh know them.

`rt ci` builds programs and libraries and proves the archive's crate, but makes no archive, and `rt lib` would prove every crate below it
once more. So the toolchain's `rattle build` is called as `rt lib` calls it, over the libraries that `rt ci` has just left in out/: it
proves the archive's own crate, and builds it only then. Where `rt ci` left out/ as an earlier check of one's own made it, host/archive.sh
does it by `rt lib`.
"""
import os
import re
import shutil
import subprocess
import sys

ROOT = os.path.dirname(os.path.dirname(os.path.abspath(__file__)))
KIT = os.path.dirname(os.path.dirname(os.path.realpath(shutil.which("rt"))))
ARCHIVE = "lap"


def listed():
    """The crates of crates.txt, each with those that it uses."""
    with open("crates.txt", encoding="utf8") as lines:
        found = [re.match(r"(\w+)[^:#]*:([^#]*)", line) for line in lines]
    return {it[1]: it[2].split() for it in found if it}


def below(crates, name):
    """The crates below this one, each after those that it uses."""
    found = []
    for use in crates[name]:
        for crate in [*(below(crates, use) if use in crates else []), use]:
            if crate not in found:
                found.append(crate)
    return found


def build(crates):
    """Proves the archive's crate over the libraries in out/, and builds the archive; whether that could be done."""
    libraries = [it for it in below(crates, ARCHIVE) if it in crates]
    # A library with a stamp is one of a check of one's own, put back.
    if any(os.path.exists(f"crates/{it}/out/rlib/stamp") or not os.path.isdir(f"crates/{it}/out/rlib/{it}.rlib") for it in libraries):
        return False
    words = [f"{KIT}/bin/rattle", "build", "--crate-name", ARCHIVE, "src/lib.rt", "--crate-type", "staticlib"]
    words += ["--extern", f"std={KIT}/rlibs/std.rlib", "-L", f"dependency={KIT}/rlibs"]
    for it in libraries:
        words += ["-L", f"dependency=../{it}/out/rlib"]
        words += ["--extern", f"{it}=../{it}/out/rlib/{it}.rlib"] if it in crates[ARCHIVE] else []
    words += ["--antt-project", f"{KIT}/rattle/logic/antt-project.json", "--logic-built", f"{KIT}/logic_built", "--jobs", "2"]
    words += ["--toolchain", f"{KIT}/toolchain", "--backend", "llvm", "-o", f"out/lib{ARCHIVE}.a"]
    with open("target/archive.log", "w", encoding="utf8") as log:
        return subprocess.run(words, cwd=f"crates/{ARCHIVE}", stdout=log, stderr=subprocess.STDOUT).returncode == 0


def main():
    os.chdir(ROOT)
    os.makedirs("target/bin", exist_ok=True)
    os.makedirs("target/staticlib", exist_ok=True)
    total = subprocess.run(["bash", "host/sum.sh"], check=True, capture_output=True, text=True).stdout
    crates = listed()
    for name in crates:
        if os.path.exists(f"crates/{name}/src/main.rt"):
            shutil.copy(f"crates/{name}/out/{name}", f"target/bin/{name}")
            with open(f"target/bin/{name}.sum", "w", encoding="utf8") as mark:
                mark.write(total)
    if build(crates):
        shutil.copy(f"crates/{ARCHIVE}/out/lib{ARCHIVE}.a", f"target/staticlib/lib{ARCHIVE}.a")
        with open("target/staticlib/sum", "w", encoding="utf8") as mark:
            mark.write(total)
    else:
        subprocess.run(["bash", "host/archive.sh"], check=True)


if __name__ == "__main__":
    sys.exit(main())
