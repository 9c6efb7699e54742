"""The rows of docs/CSOUND.md (bench/otherwise.txt, whose head says how they are written), and the tables that are made
of them: for bench/otherwise."""
import os
import re

import pages

ROWS = f"{os.path.dirname(os.path.realpath(__file__))}/otherwise.txt"
# The keys of a row that may stand once; all others may stand several times.
ONCE = "in kind note lead out within loud plays near what text there wide quiet count show".split()
BOUND = 2
# Words of forms that are no opcode: names, and words between others.
NO_OPCODES = "sig dur xamp freq more or for".split()


class Row(dict):
    """A row of bench/otherwise.txt: its keys, each with its texts; and of how many of its forms Csound took so far."""

    taken, is_told = 0, False

    def one(self, key, default=None):
        return self[key][0] if key in self else default

    def all(self, key):
        return self.get(key, [])

    def is_refused(self):
        """Whether it is of a form that csplay refuses."""
        return "form" in self or "also" in self

    def forms(self):
        """The forms, as (how the page shows it, its lines)."""
        for it in self.all("form"):
            yield it, it.split(" // ")
        for it in self.all("also"):
            shown, _, text = it.partition(" | ")
            words = [] if shown.startswith("GEN") or not text else re.findall(r"[\w$]+", shown)
            if any(word not in text for word in words):
                raise SystemExit(f"bench/otherwise.txt: `{shown}` doesn't stand in `{text}`")
            yield shown, (text or shown).split(" // ")


def rows():
    """Each part of the file as (name, rows), in order."""
    parts = []
    with open(ROWS, encoding="utf-8") as it:
        text = "".join(line for line in it if not line.startswith("#"))
    for block in re.split(r"\n{2,}", text.strip("\n")):
        row = Row()
        for line in block.split("\n"):
            key, _, rest = line.partition(" ")
            if key == "part":
                parts.append((rest, []))
                continue
            if key in ONCE and key in row:
                raise SystemExit(f"bench/otherwise.txt: a second `{key}` in a row: {block}")
            row.setdefault(key, []).append(rest.strip())
        if row:
            parts[-1][1].append(row)
    return parts


def span(text):
    """A piece of code for a table's cell."""
    return f"`{text}`".replace("|", "\\|")


def shown_forms(row):
    """What the page shows of each form: its word, or its first line."""
    return list(dict.fromkeys(shown.split(" // ")[0] for shown, _ in row.forms()))


def bound(row):
    if "near" in row:
        return " (sounds different)"
    if "within" in row and float(row.one("within")) > BOUND:
        return f" (within {row.one('within')} %)"
    return f" (as loud within {row.one('loud')} %)" if "loud" in row else ""


def instead(row):
    """What to write instead of a form."""
    code = row.one("show") or " // ".join(row.all("here"))
    text = ", ".join(map(span, code.split(" // "))) if code else ""
    if row.all("above"):
        text += f", with {' and '.join(map(span, row.all('above')))} before"
    if row.all("table"):
        text += f", and {' and '.join(map(span, row.all('table')))} in the score"
    text, note = f"{row.one('lead', '')} {text}".strip(), row.one("note", "")
    if text and note.startswith(("of `", "with ", "as ", "for ")):
        joined, _, note = note.partition("; ")
        text += f" {joined}"
    text += bound(row)
    return text + ("; " if text and note else "") + note


def called(shown):
    """Csound's opcodes and functions in a form that csplay refuses, as the page shows it: those that head a line, and
    those before a bracket."""
    words = shown.split(", ")
    before_bracket = re.findall(r"[A-Za-z_]\w+(?=(?::[aik])?\()", shown)
    if all(re.fullmatch(r"[A-Za-z_]\w+", it) for it in words):
        return words, before_bracket
    rest = re.sub(r"^(?:g?[aikS](?:\d*|[A-Z]\w*)(?:\[\])?(?:, | |$))+", "", shown)
    opcode = re.match(r"[A-Za-z_]\w+(?= (?!=)|$)", rest)
    return [opcode[0]] if opcode else [], before_bracket


def index():
    """Csound's opcodes and functions that csplay refuses, by letter, each with a link to its table in the page."""
    known = {*pages.opcodes(), *pages.keywords(), *pages.FUNCTIONS, *pages.headers(), *NO_OPCODES}
    heads, places = {}, {}
    for name, found in rows():
        place, title = (it.strip() for it in name.split(":", 1))
        link = re.sub(r"[^\w ]", "", title).lower().replace(" ", "-")
        shown = [it for row in found if "hidden" not in row for it in shown_forms(row)]
        for it in shown if place == "orchestra" else []:
            for group, words in zip((heads, places), called(it)):
                for word in words:
                    group.setdefault(word, link)
    lines = {}
    for word, link in sorted({**places, **heads}.items(), key=lambda it: it[0].lower()):
        if word not in known:
            lines.setdefault(word[0].lower(), []).append(f"[`{word}`](#{link})")
    found = [f"| {letter} | {' '.join(words)} |" for letter, words in lines.items()]
    return "\n".join(["| letter | opcodes and functions |", "|---|---|", *found])


def cells(row):
    """The cells of a row in the page."""
    if row.is_refused():
        return [", ".join(map(span, shown_forms(row))), instead(row)]
    lines = [it for line in row.all("line") for it in line.split(" // ")]
    written = row.one("text", "").replace("|", "\\|") or ", ".join(map(span, lines))
    return [row.one("what", ""), written, row.one("here"), row.one("there")]


def tables():
    """The text of each part of the page."""
    made = {}
    for name, found in rows():
        place, title = (it.strip() for it in name.split(":", 1))
        shown = [it for it in found if "hidden" not in it]
        if not shown:
            continue
        if place == "same":
            made[place] = ["\n".join(f"- {it.one('what')}" for it in shown)]
            continue
        forms = shown[0].is_refused()
        head = ["in Csound", "write instead"] if forms else ["what", "written", "csplay", "Csound"]
        lines = [f"| {' | '.join(head)} |", f"|{'---|' * len(head)}"]
        lines += [f"| {' | '.join(cells(it))} |" for it in shown]
        heading = f"#### {title}\n\n" if forms and title else ""
        made.setdefault(place, []).append(heading + "\n".join(lines))
    made["index"] = [index()]
    return {place: "\n\n".join(it) + "\n" for place, it in made.items()}
