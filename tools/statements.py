"""What a score has, as far as hints of `play` need it: its statements with their fields, and its notes with the fields
that they take. It's a rough reading: csplay itself decides what is refused."""
import re

from orchestra import without_comments

NUMBER = re.compile(r"[-+]?(?:\d+\.?\d*|\.\d+)$")
OF_TABLE = ("The table's number", "The time", "The size", "The GEN")
BLANKS = " \t\r"
# Statements looked at; a longer score is left at that.
MOST = 20000


class Statement:
    """A line of a score: its letter, and its fields as they are written."""

    def __init__(self, line, text):
        self.line, self.whole, self.text = line, text, text.strip(BLANKS)
        self.letter, self.fields = self.text[:1], re.findall(f"[^{BLANKS}]+", self.text[1:])

    def named(self, at):
        """What a field is, by its place from 0, with its text, as a sentence begins."""
        name = f"Field {at + 1}"
        if self.letter == "i":
            name = f"p{at + 1}"
        elif self.letter == "f" and at < len(OF_TABLE):
            name = OF_TABLE[at]
        return f"{name}, `{self.fields[at]}`"

    def number(self, at):
        """The number of a field; None where it is none."""
        is_there = at < len(self.fields) and NUMBER.match(self.fields[at])
        return float(self.fields[at]) if is_there else None


class Score:
    """The statements of a score up to its end, with the instruments and tables that they name."""

    def __init__(self, text, first=1, most=MOST):
        self.statements, self.instruments, self.tables = [], {}, {}
        self.first, self.raws = first, text.split("\n")
        for at, line in enumerate(without_comments(text).split("\n"), first):
            if not line.strip(BLANKS):
                continue
            self.statements.append(Statement(at, line))
            if self.statements[-1].letter == "e" or len(self.statements) > most:
                break
        for it in self.statements:
            number = it.number(0)
            if number and number == int(number) and it.letter in "if":
                (self.instruments if it.letter == "i" else self.tables).setdefault(int(number), it.line)

    def at(self, line):
        return next((it for it in self.statements if it.line == line), None)

    def raw(self, line):
        """A line with its comment."""
        return self.raws[line - self.first] if 0 <= line - self.first < len(self.raws) else ""

    def before(self, statement):
        """The statement right before one; None before the first."""
        at = self.statements.index(statement)
        return self.statements[at - 1] if at else None


class Note:
    """A note of the score: line, instrument, and fields as numbers, taken ones too (None if one is no number)."""

    def __init__(self, line, fields):
        self.line, self.fields = line, fields
        self.instrument = int(fields[0]) if fields and fields[0] else 0

    def field(self, number):
        return self.fields[number - 1] if number <= len(self.fields) else 0


def notes_of(score):
    """The notes of a score, with the fields that they take from the statement before."""
    found, before = [], []
    for it in score.statements:
        words = it.fields
        if it.letter != "i":
            before = []
            continue
        if before and words[:1] in ([], ["."], before[:1]):
            words = [before[at] if word == "." and at < len(before) else word for at, word in enumerate(words)]
            words += before[len(words) :]
        before = words
        numbers = [float(word) if NUMBER.match(word) else None for word in words]
        if numbers and (numbers[0] or 0) > 0:
            found.append(Note(it.line, numbers))
    return found
