"""Reads the pages of the manual, docs/manual/NAME.md: the one source of the man pages, the site, the pages on a
terminal, the index, and the rows that the hints of `play` show. Where a page is missing, nothing is found."""
import functools
import os
import re

from markdown import blocks

TOP = os.path.dirname(os.path.dirname(os.path.realpath(__file__)))
FOLDER = f"{TOP}/docs/manual"
GROUPS = (
    "Oscillators", "Envelopes and ramps", "Filters and delays", "Control values", "Tables", "Output",
    "Shared between notes", "Notes", "The language", "The score",
)
HEADINGS = (
    "Syntax", "Arguments", "Initialization", "Performance", "Formula", "Example", "In numbers", "In Csound", "See also",
)
PIECES = "Pieces: "
# The groups in which no opcode is.
TEXTS = ("The language", "The score")
# The title of a page, its group, and the lines of its syntax.
HEAD = re.compile(r"# (\S+)\n.*?<!-- group: (.*?) -->\n.*?## Syntax\n+```\n(.*?)\n```", re.S)



class Entry:
    """A page of the manual. `name` is its file's name without `.md`."""

    def __init__(self, name, text):
        self.name, self.text = name, text
        head, *rest = re.split(r"(?m)^## ", text)
        self.title = head.partition("\n")[0].removeprefix("# ").strip()
        parts = blocks(head.partition("\n")[2])
        self.sentence = next((it.lines[0] for it in parts if it.kind == "text"), "")
        said = dict(it.word.partition(": ")[::2] for it in parts if it.kind == "comment")
        self.group = said.get("group", "")
        self.found_by = [it.strip() for it in said.get("find", "").split(",") if it.strip()]
        pairs = [it.partition("\n")[::2] for it in rest]
        self.headings = [name.strip() for name, _ in pairs]
        self.sections = {name.strip(): blocks(part) for name, part in pairs}

    def section(self, heading):
        return self.sections.get(heading, [])

    def syntax(self):
        """The lines of the syntax."""
        return [line for it in self.section("Syntax") if it.kind == "code" for line in it.lines if line.strip()]

    def call(self):
        """The call of an opcode without its result; empty if the page is of none."""
        return call_in(next(iter(self.syntax()), ""), self.title)

    def code(self, word):
        """The text of the example's block of this language, or None."""
        found = (it for it in self.section("Example") if it.kind == "code" and it.word == word)
        block = next(found, None)
        return None if block is None else "".join(f"{it}\n" for it in block.lines)

    def pictures(self):
        return [it for block in self.all_blocks() if block.kind == "pictures" for it in block.pictures]

    def all_blocks(self):
        return [it for part in self.sections.values() for it in part]

    def keys(self):
        """The keys of rows of bench/otherwise.txt."""
        found = (it.word for it in self.section("In Csound") if it.kind == "comment")
        return [it.removeprefix("otherwise: ") for it in found]


@functools.cache
def entry(name):
    try:
        with open(f"{FOLDER}/{name}.md", encoding="utf-8") as it:
            return Entry(name, it.read())
    except OSError:
        return None


@functools.cache
def names():
    """The names of all pages, in their order."""
    try:
        return sorted(it[:-3] for it in os.listdir(FOLDER) if it.endswith(".md") and it != "README.md")
    except OSError:
        return []


def all_entries():
    return [entry(it) for it in names()]


def named(word):
    """The page of a name or title, in capitals or not; None if there is none."""
    word = word.lower()
    return next((it for it in all_entries() if word in (it.name, it.title.lower())), None)


def found_by(word):
    """The pages in whose title, sentence or further words a word is; if there are none, those that have it anywhere."""
    word = word.lower()
    found = [it for it in all_entries() if word in " ".join([it.title, it.sentence, *it.found_by]).lower()]
    return found or [it for it in all_entries() if word in it.text.lower()]


def call_in(line, name):
    """The call of an opcode in a line of syntax, without its result; empty if the line calls another."""
    match = re.match(rf"(?:[aki]res )?({re.escape(name)}(?: .*|$))", line)
    return match[1] if match else ""


@functools.cache
def opcodes():
    """The lines of the syntax of each opcode by its name; the pages are only looked through."""
    found = {}
    for name in names():
        with open(f"{FOLDER}/{name}.md", encoding="utf-8") as it:
            match = HEAD.match(it.read())
        if match and match[2] not in TEXTS and call_in(match[3], match[1]):
            found[match[1]] = match[3].split("\n")
    return found


@functools.cache
def calls():
    """The call of each opcode by its name, without its result."""
    return {name: call_in(lines[0], name) for name, lines in opcodes().items()}


def results(name):
    """The rates that the result of an opcode may have, fastest first; none if it has no result."""
    return [line[0] for line in opcodes().get(name, []) if re.match(r"[aki]res ", line)]
