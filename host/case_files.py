"""A case's three files, captures/NAME.capture, NAME.answer and NAME.shown, read into one list of lines. Of the words it takes only the
structure of docs/SHOW.md: `line N DIGITS`, and below it, indented by four spaces, what the line says, a `<-` line for each packet sent,
`done` or `refused ..`, `asleep ..`, and lines about jobs. Where the files do not agree with each other it raises ValueError."""
import os
import re

ROOT = os.path.dirname(os.path.dirname(os.path.abspath(__file__)))
FOLDER = os.path.join(ROOT, "captures")
ENDINGS = ("capture", "answer", "shown")
INDENT = "    "


class Line:
    """One line of a capture, with what was answered and what `show` says of it."""

    def __init__(self, number, digits, ended):
        self.number, self.digits, self.ended = number, digits, ended  # ended: the line has a line end
        self.packets, self.code = [], ""  # sent: digits, one text each; the number in two digits
        self.said, self.sent, self.verdict, self.asleep, self.jobs = [], [], "", "", []


def text_of(path):
    """The text as it is: no line end is changed."""
    with open(path, encoding="utf-8", newline="") as file:
        return file.read()


def lines_of(name):
    """The lines of the case of this name."""
    capture, answer, shown = (text_of(os.path.join(FOLDER, f"{name}.{ending}")) for ending in ENDINGS)
    lines = [Line(at + 1, digits, end == "\n") for at, (digits, end) in enumerate(re.findall(r"([^\n]*)(\n|\Z)", capture))]
    if lines[-1].digits == "" and not lines[-1].ended:
        lines.pop()
    try:
        read_answer(lines, answer)
        read_words(lines, shown)
    except ValueError as error:
        raise ValueError(f"the case {name}: {error}") from None
    return lines


def read_answer(lines, answer):
    """For each line the packets, and the number after them."""
    waiting = iter(answer.split("\n"))
    for line in lines:
        for text in waiting:
            if len(text) == 2:
                line.code = text
                break
            line.packets.append(text)
    if any(re.fullmatch("[0-9a-f]{2}", line.code) is None for line in lines) or list(waiting) != [""]:
        raise ValueError("the answer has not one number for each line of the capture")


def read_words(lines, shown):
    """For each line its words, held to the digits and to the answer."""
    blocks = re.findall(r"line (\d+)(?: ([0-9a-f]*))?\n((?:" + INDENT + r".*\n)*)", shown)
    if "".join(f"line {number}{' ' * bool(digits)}{digits}\n{words}" for number, digits, words in blocks) != shown:
        raise ValueError("the words are not laid out as docs/SHOW.md says")
    if [block[0] for block in blocks] != [str(line.number) for line in lines]:
        raise ValueError("the words have not one block for each line of the capture")
    for line, (_, digits, words) in zip(lines, blocks):
        if not line.digits.startswith(digits):
            raise ValueError(f"line {line.number}: the words have other digits")
        for text in words.split("\n")[:-1]:
            place(line, text.removeprefix(INDENT))
        held_to_answer(line)


def place(line, text):
    """One line of words, put where it belongs."""
    if re.match(r"\d+ <- ", text):
        line.sent.append(text)
    elif text.startswith("asleep "):
        line.asleep = text
    elif text == "done" or text.startswith("refused "):
        line.verdict = text
    elif line.verdict or line.sent:
        line.jobs.append(text)
    else:
        line.said.append(text)


def held_to_answer(line):
    """The words have as many packets as the answer, and its number."""
    if len(line.sent) != len(line.packets):
        raise ValueError(f"line {line.number}: {len(line.sent)} packets in words, {len(line.packets)} in the answer")
    number = int(line.code, 16)
    right = "done" if number == 0 else f"refused {number}"
    if not (line.verdict + " ").startswith(right + " "):
        raise ValueError(f"line {line.number}: '{line.verdict}' in words, {line.code} in the answer")
