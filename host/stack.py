#!/usr/bin/env python3
"""How much stack one call of the archive can need at the most, from its machine code. usage: stack.py ARCHIVE

It adds up what each function pushes and takes from the stack pointer, and looks for the deepest chain of calls, return addresses
included. The one function that calls itself splits a packet's data into arguments: at most 5 times. memcpy and memset are the C
library's and not counted.
"""
import platform
import re
import subprocess
import sys

WORD = 8
MOST_ARGUMENTS = 5
OUTSIDE = ("memcpy", "memset")
# The archive is x86-64 code; another machine reads it with the cross tools of host/x86_64.sh.
OBJDUMP = "objdump" if platform.machine() == "x86_64" else "x86_64-linux-gnu-objdump"


def instructions(archive):
    """For each function its instructions: a word, its operands, and the function that it calls or jumps to, if any."""
    command = [OBJDUMP, "-dr", "--no-show-raw-insn", archive]
    found = {}
    for line in subprocess.run(command, check=True, capture_output=True, text=True).stdout.split("\n"):
        if start := re.match(r"[0-9a-f]+ <(.+)>:$", line):
            code = found[start[1]] = []
        elif relocation := re.search(r"R_X86_64_PLT32\s+(?:\.text\.)?(.+)-0x4$", line):
            code[-1][2] = relocation[1]
        elif instruction := re.match(r"\s+[0-9a-f]+:\t(\S+)\s*(.*)$", line):
            word, operands = instruction[1], instruction[2]
            inside = re.search(r"<([^+>]+)>$", operands) if word == "call" else None
            code.append([word, operands, inside[1] if inside else None])
    return found


def depths(code):
    """The most that the function takes by itself, and the depth at each of its calls."""
    depth = body = most = WORD
    calls = []
    for word, operands, callee in code:
        amount = re.match(r"\$(0x[0-9a-f]+),%rsp", operands)
        if word == "push":
            depth += WORD
        elif word == "pop":
            depth -= WORD
        elif amount:
            depth += int(amount[1], 16) * {"sub": 1, "add": -1, "and": 0}[word]
        if callee:
            calls.append((callee, depth))
        most = max(most, depth)
        if word in ("jmp", "ret"):
            # What follows is reached from elsewhere, with all that the function's start has taken.
            depth = body
        elif not calls:
            body = max(body, depth)
    return most, calls


def deepest(found, name, chain=()):
    """The deepest chain of calls from here."""
    most, calls = found[name]
    best = (most, (name,))
    if chain.count(name) + 1 == MOST_ARGUMENTS:
        return best
    for callee, depth in calls:
        if callee not in OUTSIDE:
            below, rest = deepest(found, callee, chain + (name,))
            best = max(best, (depth + below, (name,) + rest))
    return best


def main():
    found = {name: depths(code) for name, code in instructions(sys.argv[1]).items()}
    for name in sorted(found):
        if name.startswith("lap_"):
            depth, chain = deepest(found, name)
            print(f"{name}: {depth} bytes: {' > '.join(dict.fromkeys(chain))}")


main()
