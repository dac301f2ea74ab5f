"""The block of a case: its lines in two columns, digits at the left and words at the right. A row is a pair of texts; the page is WIDTH
characters wide, and each case has its own column for the words, the one that takes the fewest rows."""
import re
import textwrap

WIDTH = 120
NUMBER = 5  # columns for a line's number
MIDDLE = 46  # where there are digits up to here, the words start no further left
KEPT_HEAD, KEPT_TAIL = 12, 4  # bytes that stay of an argument that is cut
LONGEST = 40  # bytes of data, or characters of a word, that are printed whole
SHORTEST_RUN = 4  # lines that only count up are cut from this many on
HARD = "\0"  # a space at which no text is broken


def cut(text, width):
    """The text, or its first and last bytes around the number of those left out; a byte takes `width` characters."""
    if len(text) <= LONGEST * width:
        return text
    left_out = len(text) - (KEPT_HEAD + KEPT_TAIL) * width
    count = f"{left_out // width}{HARD}bytes" if left_out % width == 0 else f"{left_out}{HARD}digits"
    return f"{text[:KEPT_HEAD * width]}[{count}]{text[len(text) - KEPT_TAIL * width:]}"


def frame_digits(line):
    """The line's digits; in quotes where it has other characters, or none."""
    if not re.fullmatch("[0-9a-f]+", line.digits):
        digits = f'"{line.digits}"'
    else:
        digits = line.digits[:28] + cut(line.digits[28:], 2)
    return digits if line.ended else digits + " (no line end)"


def rows_of(line, asleep):
    """The rows of one line. `asleep` is what was asleep before it: only a change is printed."""
    rows = [(f"{line.number:3}  {frame_digits(line)}", line.said[0] if line.said else line.verdict)]
    rows += [("", words) for words in line.said[1:]]
    for digits, words in zip(line.packets, line.sent):
        rows.append((" " * (NUMBER + 2) + digits[:26] + cut(digits[26:], 2), words))
    if line.said and line.verdict != "done":
        rows.append((" " * (NUMBER + 2) + line.code, line.verdict))
    if line.asleep not in ("", asleep):
        rows.append(("", line.asleep))
    rows += [("", words) for words in line.jobs]
    return [(left, " ".join(cut(word, 1) for word in right.split(" "))) for left, right in rows]


def laid(rows, column):
    """The rows as text. Words start at the column, or further left where they are too long for it; below their digits where these are."""
    for left, right in rows:
        start = min(column, max(NUMBER + 10, WIDTH - len(right)))
        if left and len(left) + 2 > start:
            yield left.replace(HARD, " ")
            left = ""
        for piece in textwrap.wrap(right, WIDTH - start, subsequent_indent="    ", break_long_words=False, break_on_hyphens=False):
            yield f"{left:{start}}{piece}".replace(HARD, " ")
            left = ""


def price(rows, column):
    """What a column costs: its lines, and two more for each text of words that does not start there."""
    return len(list(laid(rows, column))) + 2 * sum(len(right) > WIDTH - column for _, right in rows)


def block_of(lines):
    """The case's block, without the fences."""
    groups, asleep, at = [], "asleep none", 0
    while at < len(lines):
        rows = rows_of(lines[at], asleep)
        count, mark = run_from(lines[at:], asleep)
        asleep = lines[at].asleep or asleep
        groups.append((rows, mark))
        at += count
    every = [row for rows, _ in groups for row in rows]
    least = min(MIDDLE, max((len(left) + 2 for left, _ in every), default=MIDDLE))
    column = min(range(least, WIDTH - MIDDLE), key=lambda at: price(every, at))
    for rows, mark in groups:
        yield from laid(rows, column)
        yield from mark


def words_of(line):
    """All that is said of a line, as single words."""
    return " \n ".join([*line.said, *line.sent, line.verdict, line.asleep, *line.jobs]).split(" ")


def run_from(lines, asleep):
    """How many lines the first one stands for, and the text that says so: lines of the same words, but for those that rise by one."""
    said = [words_of(line) for line in lines]
    count = 1
    while count < len(lines) and goes_on(said[0], said[1], said[count], count):
        count += 1
    changed = dict.fromkeys(words for words in zip(said[0], said[1], said[count - 1]) if words[0] != words[2]) if count > 1 else {}
    if count < SHORTEST_RUN or not changed or lines[0].asleep != asleep:
        return 1, []
    changes = ", ".join(f"{second} to {last} for {first}" for first, second, last in changed)
    mark = f"{lines[1].number:3} to {lines[count - 1].number}: the words of line {lines[0].number} with {changes}, rising by one a line"
    return count, textwrap.wrap(mark, WIDTH, subsequent_indent=" " * NUMBER, drop_whitespace=False, break_on_hyphens=False)


def goes_on(first, second, later, steps):
    """Whether the later line says what the first does, but for words that rise by one a line; the second line shows which these are."""
    if not len(first) == len(second) == len(later):
        return False
    return all(c == a if a == b else b == raised(a, 1) and c == raised(a, steps) for a, b, c in zip(first, second, later))


def raised(word, steps):
    """What the word becomes by this many steps: a letter, or a number after a colon. None where it does not count."""
    if re.fullmatch("[a-z]", word) and ord(word) + steps <= ord("z"):
        return chr(ord(word) + steps)
    number = re.fullmatch(r"(.*:)([1-9][0-9]*)", word)
    return f"{number[1]}{int(number[2]) + steps}" if number else None
