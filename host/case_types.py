"""The packet types, and a packet taken apart as document 000 does. Names are document 000's, arguments document 01's and 02's."""
from case_files import lines_of

# Number, name, arguments of the request, arguments of the response; `-` where it has no data, nothing where there is no such packet.
TYPES = """
1 CAN_DO|function|
2 CANT_DO|function|
3 RESET_ABILITIES|-|
4 PRE_SLEEP|-|
5 (unused)||
6 NOOP||-
7 SUBMIT_JOB|function, unique, workload|
8 JOB_CREATED||handle
9 GRAB_JOB|-|
10 NO_JOB||-
11 JOB_ASSIGN||handle, function, workload
12 WORK_STATUS|handle, numerator, denominator|handle, numerator, denominator
13 WORK_COMPLETE|handle, data|handle, data
14 WORK_FAIL|handle|handle
15 GET_STATUS|handle|
16 ECHO_REQ|data|
17 ECHO_RES||data
18 SUBMIT_JOB_BG|function, unique, workload|
19 ERROR||number, text
20 STATUS_RES||handle, known, running, numerator, denominator
21 SUBMIT_JOB_HIGH|function, unique, workload|
22 SET_CLIENT_ID|id|
23 CAN_DO_TIMEOUT||
24 ALL_YOURS||
25 WORK_EXCEPTION|handle, data|handle, data
26 OPTION_REQ|option|
27 OPTION_RES||option
28 WORK_DATA|handle, data|handle, data
29 WORK_WARNING|handle, data|handle, data
30 GRAB_JOB_UNIQ|-|
31 JOB_ASSIGN_UNIQ||handle, function, unique, workload
32 SUBMIT_JOB_HIGH_BG|function, unique, workload|
33 SUBMIT_JOB_LOW|function, unique, workload|
34 SUBMIT_JOB_LOW_BG|function, unique, workload|
35 SUBMIT_JOB_SCHED||
36 SUBMIT_JOB_EPOCH||
"""
LABELS = {"unique": "Unique ID", "handle": "Job handle"}  # document 000's words in its example
KINDS = {1: "open", 2: "close", 3: "packet"}


def types():
    """For each number its name, and the arguments of the request and of the response."""
    for row in TYPES.split("\n")[1:-1]:
        head, request, response = row.split("|")
        number, name = head.split(" ", 1)
        yield int(number), name, request, response


def type_table():
    """The types in decimal and in hexadecimal, as a table."""
    yield "| Type | In the packet | Name | Request: arguments | Response: arguments |"
    yield "|---|---|---|---|---|"
    for number, name, request, response in types():
        words = ["no data" if words == "-" else words for words in (request, response)]
        if not any(words):
            words = ["not served", ""]
        yield f"| {number} | `{number:08x}` | {name} | {words[0]} | {words[1]} |"


def apart(name, number):
    """One line of a capture and its answer, byte by byte."""
    line = lines_of(name)[number - 1]
    frame = bytes.fromhex(line.digits)
    yield from rows([(frame[:1], str(frame[0]), f"Kind of the line: {KINDS[frame[0]]}"), (frame[1:2], str(frame[1]), "Connection")])
    yield from packet_rows(frame[2:])
    for digits in line.packets:
        yield ""
        sent = bytes.fromhex(digits)
        yield from rows([(sent[:1], str(sent[0]), "Connection that gets it")])
        yield from packet_rows(sent[1:])
    yield ""
    code = bytes.fromhex(line.code)
    yield from rows([(code, str(code[0]), f"Number of the answer: {line.verdict}")])


def packet_rows(packet):
    """Magic, type, size, and each argument with the zero byte that ends it."""
    number = int.from_bytes(packet[4:8], "big")
    _, name, request, response = next(row for row in types() if row[0] == number)
    found = [(packet[:4], text(packet[:4]), "Magic"), (packet[4:8], str(number), f"Packet type: {name}"),
             (packet[8:12], str(int.from_bytes(packet[8:12], "big")), "Packet length")]
    data, words = packet[12:], (request if packet[3:4] == b"Q" else response).split(", ")
    if words == ["-"]:
        return rows(found)
    for at, word in enumerate(words):
        end = len(data) if at == len(words) - 1 else data.index(0) + 1
        found.append((data[:end], text(data[:end]), LABELS.get(word, word.capitalize())))
        data = data[end:]
    return rows(found)


def rows(found):
    """Document 000's three columns: bytes, what they say, and what this is."""
    return [f"{data.hex(' '):27}{said:13}({what})" for data, said, what in found]


def text(data):
    """Bytes as document 000 prints them."""
    return "".join(chr(byte) if 32 < byte < 127 else "\\0" if byte == 0 else "?" for byte in data)
