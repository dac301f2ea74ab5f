"""docs/CASES.md and docs/SHEET.md, made from captures/ and host/cases/: cases.txt has the prose, page.md and sheet.md what stands around
it. In these two a line `{{NAME ..}}` stands for what is made."""
import os
import re
import textwrap

from case_files import ROOT, lines_of, text_of
from case_rows import HARD, NUMBER, WIDTH, block_of, frame_digits
from case_types import apart, type_table

SOURCE = os.path.join(ROOT, "host", "cases")
ONCE = ("title", "shows", "ask")


class Case:
    """One entry of cases.txt."""

    def __init__(self, name):
        self.name, self.title, self.shows, self.ask = name, "", "", ""
        self.quotes = []  # document, sentence


def sections():
    """The sections of cases.txt: title and cases."""
    found = []
    text = re.sub(r"\n  (?=\S)", " ", text_of(os.path.join(SOURCE, "cases.txt")))
    for row in text.split("\n"):
        if row == "" or row.startswith("#"):
            continue
        field, _, words = row.partition(": ")
        if field == "section":
            found.append((words, []))
        elif field == "case":
            found[-1][1].append(Case(words))
        elif field in ONCE and not getattr(found[-1][1][-1], field):
            setattr(found[-1][1][-1], field, words)
        elif field in ("01", "02", "000"):
            found[-1][1][-1].quotes.append((field, words))
        else:
            raise ValueError(f"host/cases/cases.txt: '{row[:40]}' is no field, or the second of its kind")
    return found


def cases():
    return [case for _, found in sections() for case in found]


def class_set():
    return [case for case in cases() if case.ask]


def entry_faults(names):
    """Cases without an entry or with two, entries without a case, and entries that lack a field."""
    entries = [case.name for case in cases()]
    for name in sorted({*names, *entries}):
        if entries.count(name) != 1:
            yield f"host/cases/cases.txt: {entries.count(name)} entries for the case {name}, one is right"
        if name not in names:
            yield f"host/cases/cases.txt: captures/ has no case {name}"
    for case in cases():
        documents = {document for document, _ in case.quotes}
        if not case.title or not case.shows or "000" not in documents or not documents & {"01", "02"}:
            yield f"host/cases/cases.txt: the case {case.name} lacks its title, what it shows, or a sentence of 01 or 02, and of 000"


def wrapped(text, first="", later=""):
    """The text in lines of the page's width, none of which Markdown takes for the start of a list or a heading."""
    found = textwrap.wrap(text, WIDTH, initial_indent=first, subsequent_indent=later, break_long_words=False, break_on_hyphens=False)
    for row in found[1:]:
        if re.match(r" *([-+*>#]|\d+[.)]) ", row):
            raise ValueError(f"host/cases/cases.txt: a line would begin with '{row[:20]}', which begins a list or a heading")
    return found


def quotes_of(case):
    """The sentences as a list."""
    for document, sentence in case.quotes:
        said = f'{document}: "{sentence}"' if sentence != "-" else f"{document} has no sentence on it."
        yield from wrapped(said, "- ", "  ")


def fenced(rows):
    return ["```", *rows, "```"]


def case_text(case):
    """A case of docs/CASES.md."""
    rows = list(block_of(lines_of(case.name))) or ["(the capture is empty, and so are its answer and its words)"]
    return [f"### {case.name}", "", *wrapped(case.shows), "", *quotes_of(case), "", *fenced(rows), ""]


def all_cases():
    for title, found in sections():
        yield from [f"## {title}", ""]
        for case in found:
            yield from case_text(case)


def index():
    """A line for each case; a number marks the class set."""
    numbers = {case.name: str(at + 1) for at, case in enumerate(class_set())}
    yield from ["| Case | Class | What it is about |", "|---|---|---|"]
    for title, found in sections():
        yield f"| **{title}** | | |"
        for case in found:
            yield f"| [{case.name}](#{case.name}) | {numbers.get(case.name, '')} | {case.title} |"


def sheet_cases():
    """The class set without answers."""
    for at, case in enumerate(class_set()):
        rows = [f"{line.number:3}".ljust(NUMBER) + frame_digits(line).replace(HARD, " ") for line in lines_of(case.name)]
        yield from [f"## {at + 1}. {case.name}", "", *wrapped(case.ask), "", *quotes_of(case), "", *fenced(rows), ""]


def part(name, first, last):
    """Some lines of a case; nobody sleeps before them."""
    return fenced(block_of(lines_of(name)[int(first) - 1:int(last)]))


MADE = {"index": index, "types": type_table, "cases": all_cases, "sheet": sheet_cases, "part": part,
        "apart": lambda name, number: fenced(apart(name, int(number)))}


def page(frame):
    """The text of a page: the frame of this name, with everything that is made."""
    rows = []
    for row in text_of(os.path.join(SOURCE, frame)).split("\n"):
        mark = re.fullmatch(r"\{\{(.*)\}\}", row)
        if mark:
            name, *words = mark[1].split(" ")
            if name not in MADE:
                raise ValueError(f"host/cases/{frame}: nothing is made for {row}")
            made = list(MADE[name](*words))
            rows += made[:-1] if made[-1] == "" else made
        else:
            rows.append(row)
    return "\n".join(rows)


def page_faults(frame, text):
    """Lines that are too long for print."""
    for number, row in enumerate(text.split("\n"), 1):
        if len(row) > WIDTH:
            yield f"host/cases/{frame}: line {number} of the page has more than {WIDTH} characters"
