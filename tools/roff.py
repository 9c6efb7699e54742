"""Makes the man pages: csplay(1) from docs/LANGUAGE.md, and csplay-NAME(7) from each page of the manual."""
import re

import entries
import pages
from markdown import blocks

SECTIONS = ("Options, names and the demo", "How a run ends", "Limits")
KINDS = (("REFUSALS OF AN ORCHESTRA", "orchestra"), ("REFUSALS OF A SCORE", "score"), ("REFUSALS OF A .CSD", "csd"))
HEAD = r""".TH CSPLAY 1 "" "csplay {version}"
.SH NAME
csplay \- renders an orchestra and a score in a subset of Csound's language to a WAV file
.SH SYNOPSIS
.B csplay
[\-j N] [\-o FILE] [\-W] [\-s] [\-d] [\-n] [\-3] [\-\-turns] [\-\-pool] (ORC SCO | CSD | \-\-demo N)
"""
EXAMPLES = r""".SH EXAMPLES
.TP
.B csplay tune.orc tune.sco
Renders a piece to test.wav, in the folder where csplay was called.
.TP
.B csplay \-j 4 \-o tune.wav tune.csd
Renders both texts of one file with four workers. The sound is the same with any number of workers.
.TP
.B csplay \-n tune.csd
Performs the piece and prints the report, without a sound file.
.SH FILES
.TP
.I test.wav
The sound file if
.B \-o
names no other.
.TP
.I share/doc/csplay/index.html
The manual as a website, below the folder of the installation.
.TP
.I share/csplay/examples
Pieces to play.
"""


def plain(text):
    """A text of the page as roff: code in bold."""
    text = re.sub(r"!?\[([^\]]*)\]\([^)]*\)", r"\1", text)
    text = text.replace("\\|", "|").replace("\\", "\\\\").replace("-", "\\-")
    text = re.sub(r"\*\*([^*]*)\*\*", r"\1", text)
    text = re.sub(r"`([^`]*)`", r"\\fB\1\\fR", text)
    return re.sub(r"(?m)^([.'])", r"\\&\1", text)


def table(rows):
    """A table as a list of items: its first cell, and below it the others, each with its head if there are several."""
    heads, lines = rows[0], []
    for first, *others in rows[1:]:
        named = [(head, it) for head, it in zip(heads[1:], others) if it]
        said = (f"{head}: {it}" if len(heads) > 2 and head else it for head, it in named)
        lines += [".TP", plain(first) or "\\&", plain("; ".join(said)) or "\\&"]
    return lines


def block(it):
    if it.kind == "table":
        return table(it.rows)
    if it.kind == "code":
        return [".PP", ".nf", *map(plain, it.lines), ".fi"]
    if it.kind in ("list", "steps"):
        signs = ("\\(bu 2" if it.kind == "list" else f"{at}. 3" for at in range(1, len(it.lines) + 1))
        return [line for sign, item in zip(signs, it.lines) for line in (f".IP {sign}", plain(item))]
    if it.kind == "heading":
        return [f".SS {plain(it.lines[0])}"]
    return [".PP", plain(it.lines[0])] if it.kind == "text" else []


def kinds():
    """The rows of docs/LANGUAGE.md on kinds of refusals, by the text that is refused."""
    found, place = {name: [] for _, name in KINDS}, "orchestra"
    for it in blocks(pages.page("LANGUAGE")):
        if it.kind == "heading" and it.level == 2:
            words = it.lines[0].lower()
            place = "score" if "score" in words else "csd" if "file" in words else "orchestra"
        elif it.kind == "table" and it.rows[0][0] == "kind" and it.rows[0][-1] == "what to do":
            found[place] += [row for row in it.rows[1:] if row[0]]
    return found


def refusals():
    """A section for each text, with a kind's cause, an example and what to do about it."""
    lines = []
    for title, name in KINDS:
        lines.append(f".SH {title}")
        for kind, where, *example, what in kinds()[name]:
            said = "" if where == "see below" else f"{where[:1].upper()}{where[1:]}. "
            shown = f"Example: {example[0]}. " if example and example[0] else ""
            lines += [".TP", plain(kind), plain(f"{said}{shown}To do: {what}.")]
    return lines


def made(version):
    """The man page csplay(1)."""
    text, lines = pages.page("LANGUAGE"), []
    for name in SECTIONS:
        section = text.partition(f"\n## {name}\n")[2].partition("\n## ")[0]
        lines.append(f".SH {plain(name.upper())}")
        lines += [line for it in blocks(section) for line in block(it)]
    lines += refusals()
    found = ", ".join(f"\\fBcsplay\\-{plain(it)}\\fR(7)" for it in entries.names())
    lines += [EXAMPLES.rstrip("\n"), ".SH SEE ALSO", found or "csplay's documents"]
    return HEAD.format(version=version) + "\n".join(lines) + "\n"


def of_entry(entry, version):
    """The man page csplay-NAME(7) of a page of the manual."""
    lines = [f'.TH CSPLAY\\-{plain(entry.name.upper())} 7 "" "csplay {version}"', ".SH NAME"]
    said = entry.sentence[:1].lower() + entry.sentence[1:].rstrip(".")
    lines.append(f"csplay\\-{plain(entry.name)} \\- {plain(said)}")
    for heading in entry.headings:
        lines.append(f".SH {plain(heading.upper())}")
        if heading == "See also":
            lines.append(see_also(entry))
        lines += [line for it in entry.section(heading) if heading != "See also" for line in block(it)]
    return "\n".join(lines) + "\n"


def see_also(entry):
    """The pages and pieces that a page links to."""
    text = "\n".join(it.lines[0] for it in entry.section("See also") if it.kind == "text")
    named = [f"\\fBcsplay\\-{plain(it)}\\fR(7)" for it in re.findall(r"\]\(([\w-]+)\.md\)", text)]
    pieces = re.findall(r"\]\(../../(examples/[\w.]+)\)", text)
    return ", ".join(dict.fromkeys([*named, "\\fBcsplay\\fR(1)", *map(plain, pieces)]))
