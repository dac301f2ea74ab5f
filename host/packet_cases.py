#!/usr/bin/env python3
"""The packet layer's cases, and what is expected of them, written from the texts alone: document 01 ("Packet layout", "Refusal
numbers"), document 02, ask 1 (SET_CLIENT_ID), and document 000's example. It shares no code with the packet layer and reads nothing of
it.

usage: packet_cases.py stdin|stdout [packet_print|packet_cases]      (packet_print, where no program is named)

It prints what the program is run on, or what it must write then: crates/PROGRAM/stdin and crates/PROGRAM/stdout.

packet_print reads packets in hexadecimal, one a line, and says what each is.
packet_cases writes packets, one call a line, and says what the writer answers; see crates/packet_cases/src/main.rt for its lines.
"""
import re
import sys

# ---- the layout: what one argument may be, by its least and most length and its bytes

ANY = 10**6  # no limit of its own; the packet's data is limited


class Rule:
    def __init__(self, least, most, alphabet, opaque=False):
        self.least, self.most, self.alphabet, self.opaque = least, most, alphabet, opaque

    def fits(self, a):
        """Whether the bytes are an argument of this kind: its sizes, and "none with a zero byte" unless it is opaque."""
        if self.opaque:
            return True
        return self.least <= len(a) <= self.most and 0 not in a and (self.alphabet is None or set(a) <= set(self.alphabet))


FUNCTION = Rule(1, 32, None)
UNIQUE = Rule(0, 64, None)
HANDLE = Rule(1, 63, None)
NUMBER = Rule(1, 10, b"0123456789")  # numerator, denominator
CLIENT_ID = Rule(1, 64, None)
CODE = Rule(2, 2, b"0123456789")  # the two digits of ERROR
FLAG = Rule(1, 1, b"01")  # known, running
ANY_TEXT = Rule(0, ANY, None)  # option name, ERROR text
OPAQUE = Rule(0, ANY, None, opaque=True)

SUBMISSION = [FUNCTION, UNIQUE, OPAQUE]
WORK = [HANDLE, OPAQUE]
STATUS = [HANDLE, NUMBER, NUMBER]

SERVED = {
    1: [FUNCTION], 2: [FUNCTION],
    3: [], 4: [], 9: [], 30: [],
    7: SUBMISSION, 18: SUBMISSION, 21: SUBMISSION, 32: SUBMISSION, 33: SUBMISSION, 34: SUBMISSION,
    12: STATUS,
    13: WORK, 25: WORK, 28: WORK, 29: WORK,
    14: [HANDLE], 15: [HANDLE],
    16: [OPAQUE],
    22: [CLIENT_ID],
    26: [ANY_TEXT],
}
SENT = {
    6: [], 10: [],
    8: [HANDLE],
    11: [HANDLE, FUNCTION, OPAQUE],
    31: [HANDLE, FUNCTION, UNIQUE, OPAQUE],
    17: [OPAQUE],
    19: [CODE, ANY_TEXT],
    20: [HANDLE, FLAG, FLAG, NUMBER, NUMBER],
    27: [ANY_TEXT],
    12: STATUS,
    13: WORK, 25: WORK, 28: WORK, 29: WORK,
    14: [HANDLE],
}


class Direction:
    def __init__(self, name, letter, magic, most, types):
        self.name, self.letter, self.magic, self.most, self.types = name, letter, magic, most, types


REQUEST = Direction("request", "q", b"\0REQ", 1024, SERVED)
RESPONSE = Direction("response", "s", b"\0RES", 1088, SENT)
DIRECTIONS = [REQUEST, RESPONSE]

# ---- reading and writing

def number(b):
    return int.from_bytes(b, "big")


def split(rules, data):
    """The arguments: at each zero byte the next begins, until there are as many as the type has; the last runs to the end."""
    if not rules:
        return [] if data == b"" else None
    parts = data.split(b"\0", len(rules) - 1)
    if len(parts) != len(rules) or not all(r.fits(a) for r, a in zip(rules, parts)):
        return None
    return parts


def read(way, s):
    """The number of the refusal, or the type and its arguments."""
    if len(s) < 12:
        return 5
    if s[:4] != way.magic:
        return 6
    size = number(s[8:12])
    if size > way.most:
        return 7
    if len(s) != 12 + size:
        return 8
    kind = number(s[4:8])
    if kind not in way.types:
        return 9
    arguments = split(way.types[kind], s[12:])
    return 10 if arguments is None else (kind, arguments)


def write(way, kind, arguments, room):
    """The number, and the packet: "a foreign type by 9, bad arguments by 10, too much data by 7 and an output shorter [..] by 1"."""
    data = b"\0".join(arguments)
    rules = way.types.get(kind)
    if rules is None:
        return 9, b""
    if len(arguments) != len(rules) or not all(r.fits(a) for r, a in zip(rules, arguments)):
        return 10, b""
    if len(data) > way.most:
        return 7, b""
    if room < 12 + len(data):
        return 1, b""
    return 0, packet(way, kind, data)


def packet(way, kind, data, size=None):
    return way.magic + kind.to_bytes(4, "big") + (len(data) if size is None else size).to_bytes(4, "big") + data


# ---- the sizes to try

def lengths_to_try(rule, room):
    """The least and the most length, and one byte less and more; `room` is what the other arguments leave of the data."""
    most = room if rule.most == ANY else rule.most
    return sorted({n for n in (rule.least - 1, rule.least, rule.least + 1, most - 1, most, most + 1) if n >= 0})


def largest(rules, most):
    """The lengths at which the arguments are as long as their type and the data allow."""
    lengths = [0 if r.most == ANY else r.most for r in rules]
    left = most - sum(lengths) - (len(rules) - 1)
    return [n + (left if r.most == ANY else 0) for n, r in zip(lengths, rules)]


def length_cases(way, kind):
    """Lists of lengths, one for each argument: the smallest, the largest, and each argument around its bounds."""
    rules = way.types[kind]
    least = [r.least for r in rules]
    cases = [least, largest(rules, way.most)] if rules else [[]]
    for i, rule in enumerate(rules):
        room = way.most - (sum(least) - least[i]) - (len(rules) - 1)
        cases += [least[:i] + [n] + least[i + 1:] for n in lengths_to_try(rule, room)]
    kept = []
    for c in cases:
        if c not in kept:
            kept.append(c)
    return kept


# ---- packet_print: lines of hexadecimal

LONGEST = 2200  # digits of a line


def filled(rule, n):
    """An argument of n bytes: its own letters for a text, digits where it has to have digits."""
    letters = rule.alphabet or b"reverse/H:lap:"
    return (letters * (n // len(letters) + 1))[:n]


def sized(way):
    """Every type at the sizes to try. A packet of more than 1,100 bytes has no line."""
    for kind in sorted(way.types):
        rules = way.types[kind]
        for lengths in length_cases(way, kind):
            data = b"\0".join(filled(r, n) for r, n in zip(rules, lengths))
            if 12 + len(data) <= LONGEST // 2:
                yield packet(way, kind, data)


def refused(way):
    """Refusals 5 to 10, each alone and before those that come later."""
    short = packet(way, 16, b"")
    for n in (0, 1, 4, 8, 11):
        yield short[:n]
    yield b"\1" * 11
    for size in (way.most + 1, 65536, 2**32 - 1):
        yield packet(way, 0, b"", size)
    yield packet(way, 999, b"x" * (way.most - 1), way.most + 1)
    for data, size in ((b"", 1), (b"x", 0), (b"xy", 1), (b"xy", 3), (b"x" * 20, way.most), (b"x" * 256, 0), (b"x" * way.most, way.most - 1)):
        yield packet(way, 17, data, size)
        yield packet(way, 5, data, size)
    for kind in list(range(41)) + [255, 256 + 7, 65536 + 8, 2**24 + 9, 2**31, 2**32 - 1]:
        yield packet(way, kind, b"")
        yield packet(way, kind, b"x")
        yield packet(way, kind, b"a\0b\0c")


def foreign():
    """Neither magic: read as a request, refused by 6."""
    tail = packet(REQUEST, 1, b"f")[4:]
    for magic in (b"\1REQ", b"\0rEQ", b"\0ReQ", b"\0REq", b"\0RET", b"REQ\0", b"\0\0\0\0", b"\xff\xff\xff\xff"):
        yield magic + tail
    yield b"\1REQ" + packet(REQUEST, 1, b"f", 2000)[4:]


def split_cases():
    """Arguments that split in another way than it seems."""
    every = bytes(range(256))
    for way, kinds in ((REQUEST, (7, 18, 21, 32, 33, 34)), (RESPONSE, (11,))):
        for kind in kinds:
            for data in (b"", b"\0", b"f\0", b"f\0u", b"f\0u\0", b"f\0u\0\0", b"f\0u\0w\0x\0", b"\0u\0w", b"f\0\0" + every, b"f" * 33 + b"\0u\0w", b'"\\ \x7f\x1f\0\xff\0w'):
                yield packet(way, kind, data)
    for way in DIRECTIONS:
        for kind in (13, 25, 28, 29):
            for data in (b"", b"\0", b"h\0", b"h\0\0", b"\0h", b"h\0" + every, b"h" * 64 + b"\0x"):
                yield packet(way, kind, data)
        for data in (b"h\x001\x002", b"h\x001\0", b"h\x001\0" + b"12345678901", b"h\0-1\x002", b"h\x001\x002\x003", b"h\x001\x00a", b"h\0\x002", b"h\x000000000000\x009999999999"):
            yield packet(way, 12, data)
        yield packet(way, 16, every)
        yield packet(way, 17, every)
        yield packet(way, 14, b"h\0")
        yield packet(way, 26, b"exceptions")
        yield packet(way, 26, b"exc\0ptions")
        yield packet(way, 27, b"exc\0ptions")
    for data in (b"board-7", b"board 7\xff", b"board\x007", b"\0board", b"board\0"):
        yield packet(REQUEST, 22, data)
    for data in (b"h\0f\0u\0", b"h\0f\0u\0w\0w", b"h\0f\0u", b"h\0f\0" + b"u" * 65 + b"\0w", b"h\0f\0\0" + every):
        yield packet(RESPONSE, 31, data)
    for data in (b"09\0type", b"9\0type", b"009\0type", b"0x\0type", b"09type", b"09\0ty\0pe", b"09\0"):
        yield packet(RESPONSE, 19, data)
    for data in (b"h\x001\x000\x003\x009", b"h\x002\x000\x003\x009", b"h\x001\x00:\x003\x009", b"h\x0011\x000\x003\x009", b"h\x001\x000\x003\x009\0", b"h\x001\0\x003\x009", b"h\x001\x000\x003"):
        yield packet(RESPONSE, 20, data)


# document 000, "Binary Protocol Example", every packet in order
EXAMPLE = [
    (REQUEST, 1, b"reverse"),
    (REQUEST, 9, b""), (RESPONSE, 10, b""), (REQUEST, 4, b""),
    (REQUEST, 7, b"reverse\0\0test"), (RESPONSE, 8, b"H:lap:1"), (RESPONSE, 6, b""),
    (REQUEST, 9, b""), (RESPONSE, 11, b"H:lap:1\0reverse\0test"),
    (REQUEST, 13, b"H:lap:1\0tset"), (RESPONSE, 13, b"H:lap:1\0tset"),
]


def packet_lines():
    """The lines that packet_print is run on; the last one has no line end."""
    cases = [packet(*p) for p in EXAMPLE]
    for way in DIRECTIONS:
        cases += list(sized(way)) + list(refused(way))
    cases += list(foreign()) + list(split_cases())
    lines = []
    for c in cases:
        if c.hex() not in lines:
            lines.append(c.hex())
    whole = packet(RESPONSE, 17, b"\0" * 1088).hex()  # exactly as long as a line may be
    return lines + [
        "0", "00 52", "0052455100000001000000016G", "0052455100000001000000016A", "005245510000000100000001" + "6/", "005245510000000100000001" + "6:",
        "005245510000000100000001" + "6`", "005245510000000100000001" + "6g", "005245510000000100000001" + "66\r", "", "zz", "\x7f\x7f", "0x00",
        whole, whole + "0", whole + "00", "0" * 5000, "f" * 4096, "g" * 3000, "005245510000000900000000",
    ]


def escaped(a):
    return "".join(chr(x) if 33 <= x <= 126 and x not in b'"\\' else "\\x%02x" % x for x in a)


def said(line):
    """What packet_print says of a line."""
    if len(line) > LONGEST or len(line) % 2 or not re.fullmatch("[0-9a-f]*", line):
        return "not hexadecimal"
    s = bytes.fromhex(line)
    way = RESPONSE if s[:4] == RESPONSE.magic else REQUEST
    found = read(way, s)
    if isinstance(found, int):
        return f"refused {found}"
    kind, arguments = found
    return " ".join([way.name, str(kind)] + [f'"{escaped(a)}"' for a in arguments] + ["same"])


# ---- packet_cases: calls of the writer

LENT = 4096  # the longest argument and output


def calls():
    """(direction, type, count, five lengths, fill, room). `1` fits every rule but an empty one, `a` no digits, a zero byte no text."""
    for way in DIRECTIONS:
        for kind in sorted(way.types):
            for lengths in length_cases(way, kind):
                size = sum(lengths) + max(len(lengths) - 1, 0)
                for room in (12 + size, LENT, 11 + size):
                    yield way, kind, len(lengths), lengths, 49, room
            least = [r.least for r in way.types[kind]]
            for fill in (0, 48, 50, 58, 97, 255):
                yield way, kind, len(least), least, fill, 200
            for count in range(8):
                yield way, kind, count, (least + [1] * 5)[:5], 49, 200
            yield way, kind, len(least), [2000] * len(least), 49, 0  # the order of refusals: 10 before 7, 7 before 1
            yield way, kind, len(least), [2000] * len(least), 0, 0
            yield way, kind, len(least), least, 49, 0
        for kind in list(range(41)) + [255, 256 + 7, 65536 + 8, 2**31, 2**32 - 1]:
            yield way, kind, 0, [], 49, 200
            yield way, kind, 1, [1], 49, 200
            yield way, kind, 1, [LENT], 49, LENT
            yield way, kind, 1, [LENT], 0, 0
            yield way, kind, LENT, [1, 1, 1, 1, 1], 49, 0
            yield way, kind, 5, [LENT] * 5, 49, LENT


def call_line(way, kind, count, lengths, fill, room):
    five = (list(lengths) + [0] * 5)[:5]
    return " ".join(str(x) for x in [way.letter, kind, count] + five + [fill, room])


def answered(way, kind, count, lengths, fill, room):
    """What packet_cases says of a call."""
    five = (list(lengths) + [0] * 5)[:5]
    arguments = [bytes([fill]) * n for n in five][:count] + [b""] * max(count - 5, 0)
    refusal, written = write(way, kind, arguments, room)
    back = ""
    if refusal == 0:
        assert read(way, written) == (kind, arguments)
        back = " reads back"
    return f"{kind} -> number {refusal} length {len(written)}{back}"


def unique_calls():
    seen, kept = set(), []
    for c in calls():
        line = call_line(*c)
        if line not in seen:
            seen.add(line)
            kept.append(c)
    return kept


# ---- what is printed

def text(program, which):
    if program == "packet_print":
        lines = packet_lines()
        if which == "stdin":
            return "\n".join(lines)
        return "".join(said(line) + "\n" for line in lines)
    if which == "stdin":
        return "".join(call_line(*c) + "\n" for c in unique_calls())
    return "".join(answered(*c) + "\n" for c in unique_calls())


def main():
    which, program = sys.argv[1], (sys.argv[2:] + ["packet_print"])[0]
    if which not in ("stdin", "stdout") or program not in ("packet_print", "packet_cases"):
        sys.exit(__doc__)
    sys.stdout.buffer.write(text(program, which).encode("latin-1"))


if __name__ == "__main__":
    main()
