#!/usr/bin/env python3
"""Counts the places of the points of docs/DESIGN-PASS.md in crates/*/src (point 8: in crates/*/proofs).

usage: tools/design_count.py [--list] [POINT ..]      at the top of the repository

1  enums of the shape of Option or Result; numbers and flags in their place
2  groups of functions that are the same but for names and numbers
3  loops that count or test by hand: while, loop
4  copies of a struct field by field, and casts that a From could be
5  facts that stand in three or more requires; runs of three or more parameters that three or more functions share
6  an array with a length beside it, in a struct
7  matches that choose a step, an order or a change to carry out
8  lines of proof files above 160 characters
"""
import glob
import re
import sys
from collections import defaultdict

SOURCES = sorted(glob.glob('crates/*/src/*.rt'))
OUTCOMES = r'None|Nothing|Nowhere|Bad|Refused|Absent|Foreign'


def read(path):
    return open(path, encoding='utf-8').read()


def code(path):
    return '\n'.join(re.sub(r'//.*', '', line) for line in read(path).split('\n'))


def line_of(text, place):
    return text.count('\n', 0, place) + 1


def functions(path):
    """Each function at the left margin: name, line, signature with its clauses, body."""
    text = read(path)
    for m in re.finditer(r'^(?:pub )?(?:unsafe )?(?:extern "C" )?fn (\w+)(.*?)^(?:\{\n(.*?)^\}|[^\n]*\{\n(.*?)^\})', text, re.M | re.S):
        yield m.group(1), line_of(text, m.start()), m.group(2), m.group(3) or m.group(4) or ''


def point_1():
    for path in SOURCES:
        text = code(path)
        for m in re.finditer(r'^(?:pub )?enum (\w+) \{(.*?)^\}', text, re.M | re.S):
            variants = re.findall(r'^    (\w+)', m.group(2), re.M)
            if len(variants) <= 3 and re.search(rf'^    (?:{OUTCOMES})\b', m.group(2), re.M) or 'Nothing' in variants or 'Foreign' in variants or 'Absent' in variants:
                yield path, line_of(text, m.start()), f'enum {m.group(1)}: {", ".join(variants)}'
        for m in re.finditer(r'^(?:pub )?fn ((?:state_)?refusal|admission|fresh|digit_value|number_of|opaque_place)\b[^{]*?-> (u8|u64|usize)\b', text, re.M | re.S):
            yield path, line_of(text, m.start()), f'{m.group(1)} answers a number for none or a refusal'
        for m in re.finditer(r'^    pub (number|over|failed|overlong|ended|rank|holder|priority): (?:u8|u16|u64|bool)\b', text, re.M):
            yield path, line_of(text, m.start()), f'field or parameter {m.group(1)}'
        for m in re.finditer(r'\b(request|is_response|to_open|uniq): bool', text):
            yield path, line_of(text, m.start()), f'flag {m.group(1)} for a kind'


def point_2():
    groups = defaultdict(list)
    for path in SOURCES:
        for name, line, head, body in functions(path):
            plain = re.sub(r'//.*', '', body)
            if plain.count('\n') < 3:
                continue
            shape = re.sub(r'\b[A-Za-z_]\w*\b', lambda m: m.group(0) if m.group(0) in KEYWORDS else 'x', plain)
            shape = re.sub(r'x::', '', re.sub(r'\b\d+\b', '0', shape))
            shape = re.sub(r'b"[^"]*"', 'b""', shape)
            groups[re.sub(r'\s+', ' ', shape)].append((path, line, name))
    for n, (shape, places) in enumerate(sorted(groups.items(), key=lambda g: g[1])):
        if len(places) > 1:
            for path, line, name in places:
                yield path, line, f'group {n}: {name}'


KEYWORDS = set('let mut if else while for in match return true false as fn usize u8 u16 u32 u64'.split())


def point_3():
    for path in SOURCES:
        for n, line in enumerate(code(path).split('\n'), 1):
            if re.match(r'\s*(while|loop)\b', line):
                yield path, n, line.strip()


def point_4():
    for path in SOURCES:
        for n, line in enumerate(code(path).split('\n'), 1):
            if re.match(r'\s*let mut next = \w+;', line):
                yield path, n, line.strip()
            elif re.search(r'\bas (u16|u32|u64|usize)\b|octets::wide\(', line) and not line.startswith('use') and not re.match(r'(pub )?const', line):
                yield path, n, line.strip()


def point_5():
    facts = defaultdict(list)
    runs = defaultdict(list)
    for path in SOURCES:
        for name, line, head, body in functions(path):
            m = re.search(r'requires \{(.*?)\}\n', head, re.S)
            for fact in re.split(r'\s×\s', m.group(1)) if m else []:
                facts[re.sub(r'\s+', ' ', fact.strip().strip('()')).replace('.old', '.now')].append((path, line, name))
            m = re.match(r'(?:<[^>]*>)?\((.*?)\)\s*(?:->|\n|$)', head, re.S)
            parts = [re.sub(r'\s+', ' ', p.strip()) for p in re.split(r',\s', m.group(1))] if m else []
            parts = [p.rstrip(',') for p in parts if ':' in p]
            for k in range(len(parts) - 2):
                runs[', '.join(parts[k:k + 3])].append((path, line, name))
    for kind, table in (('fact', facts), ('run', runs)):
        for text, places in sorted(table.items(), key=lambda e: -len(e[1])):
            if len(places) >= 3:
                for path, line, name in places:
                    yield path, line, f'{kind} {text}: {name}'


def point_6():
    for path in SOURCES:
        text = code(path)
        for m in re.finditer(r'^(?:pub )?struct (\w+) \{(.*?)^\}', text, re.M | re.S):
            if re.search(r': \[', m.group(2)) and re.search(r'\b(length|count|end): usize', m.group(2)):
                yield path, line_of(text, m.start()), f'struct {m.group(1)}'


def point_7():
    for path in SOURCES:
        for n, line in enumerate(code(path).split('\n'), 1):
            if re.match(r'\s*match (step|order|change|how|kind|frame|shape|rule)\b', line):
                yield path, n, line.strip()


def point_8():
    for path in sorted(glob.glob('crates/*/proofs/**/*.antt', recursive=True)):
        for n, line in enumerate(read(path).split('\n'), 1):
            if len(line) > 160 and not line.startswith('use '):
                yield path, n, line.strip()[:80]


POINTS = [point_1, point_2, point_3, point_4, point_5, point_6, point_7, point_8]


def main():
    listed = '--list' in sys.argv
    chosen = [int(a) for a in sys.argv[1:] if a.isdigit()] or range(1, 9)
    for k in chosen:
        places = list(POINTS[k - 1]())
        print(f'{k}: {len(places)}')
        if listed:
            for path, line, what in places:
                print(f'    {path}:{line}: {what}')


main()
