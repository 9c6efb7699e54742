"""What the documents say, for the hints of `play`: rows of docs/LANGUAGE.md and docs/CSOUND.md, the calls of the
manual's pages, and the words of the profile. If a page is missing, nothing is found."""
import functools
import os
import re

import entries

DOCS = f"{os.path.dirname(os.path.dirname(os.path.realpath(__file__)))}/docs"
# Words, numbers, signs of two and three bytes, and single signs of a line of either text.
TOKEN = re.compile(
    r"0dbfs\b|\d*\.?\d+(?:[eE][-+]?\d+)?|[A-Za-z_]\w*|<=|>=|==|!=|&&|\|\||<<|>>|\+=|-=|\*=|/=|</?\w+>?|\S"
)


@functools.cache
def page(name):
    try:
        with open(f"{DOCS}/{name}.md", encoding="utf-8") as it:
            return it.read()
    except OSError:
        return ""


def cells(row):
    return [it.strip().replace("\\|", "|") for it in re.split(r"(?<!\\)\|", row)[1:-1]]


@functools.cache
def advices():
    """The last cell of each row of docs/LANGUAGE.md's tables whose last column says what to do, by the head of the
    first column (`kind`, `limit`, `status`, `the report says`) and the row's first cell."""
    found, head = {}, None
    for line in page("LANGUAGE").split("\n"):
        row = cells(line) if line.startswith("|") else None
        if row is None or head is None:
            head = row
        elif head[-1] == "what to do" and row[0].strip("-") and row[-1]:
            found[head[0], row[0]] = row[-1]
    return found


def advice(table, kind):
    return advices().get((table, kind))


def listed(before, after="\n\n"):
    """The words in code type of one place of docs/LANGUAGE.md."""
    text = page("LANGUAGE").partition(before)[2].partition(after)[0]
    return set(re.findall(r"[\w]+", " ".join(re.findall(r"`([^`]*)`", text))))


def opcodes():
    """The call of each opcode of the profile, as its page in the manual writes it, by its name."""
    return entries.calls()


def results(word):
    """The rates that the result of an opcode may have; none if it has no result."""
    return entries.results(word)


def place(word):
    """Where an opcode is explained."""
    return f"docs/manual/{word}.md"


@functools.cache
def outside():
    return listed("**Words outside the profile:**")


@functools.cache
def keywords():
    return listed("The **keywords** are", ".")


@functools.cache
def headers():
    return {"sr", "kr", "ksmps", "nchnls", "0dbfs"}


FUNCTIONS = {"int", "frac", "abs", "floor", "cpspch", "i"}


def is_name(word):
    return re.match(r"g?[ika]", word) is not None


def tokens(line):
    return TOKEN.findall(line)


def keys(span):
    """The words and signs by which a row's form is found: a word before a bracket with that bracket."""
    found, parts = [], tokens(span)
    for at, it in enumerate(parts):
        is_called = at + 1 < len(parts) and parts[at + 1] == "("
        found.append(f"{it}(" if is_called and re.match(r"[A-Za-z_]", it) else it)
    return found


@functools.cache
def rows(place):
    """The rows of docs/CSOUND.md on what is refused in a place (`orchestra`, `score`, `csd`): forms and text."""
    text = page("CSOUND").partition(f"<!-- bench/otherwise {place} -->\n")[2]
    text = text.partition("<!-- end of ")[0]
    found = []
    for row in text.split("\n"):
        parts = cells(row) if row.startswith("| `") else []
        if len(parts) == 2:
            found.append((re.findall(r"`([^`]*)`", parts[0]), parts[1]))
    return found


def row_of(place, key, is_first=False):
    """The text of the first row with this form, or a form that has this word or sign, at its head if `is_first`; None
    if there is none."""
    for forms, text in rows(place):
        for form in forms:
            found = keys(form)
            if key == form or key in (found[:1] if is_first else found):
                return text
    return None
