#!/usr/bin/env python3
"""The manual's tool: tools/manual.py write PROGRAM [NAME..], or check PROGRAM, from any folder.

`write` puts into the pages of docs/manual what a program makes: the report of each example, the pictures that the page
names, and the line of the pieces that use the entry; and it writes the index, docs/manual/README.md. Then, and by
`check`, it prints what is wrong with a page: its form, its syntax against the catalogue, a report, a worked row, a
picture or a link that isn't right. Ends with 1 if something is."""
import os
import re
import sys

sys.path.insert(0, os.path.dirname(os.path.realpath(__file__)))
import catalogue
import entries
import picture
import worked
from soundfile import Sound

TOP, FOLDER = entries.TOP, entries.FOLDER
PICTURE = re.compile(r"pictures/([\w-]+)-(wave|spectrum|level|piece)\.png")
DRAWN = {"spectrum": picture.of_spectrum, "level": picture.of_level, "piece": picture.of_piece}
COLUMNS = 5
FUNCTIONS = ("int", "frac", "abs", "floor", "cpspch", "i")
OUTSIDE = {"GEN02": "2", "GEN07": "7", "GEN10": "10"}


def read(path):
    with open(path, encoding="utf-8") as it:
        return it.read()


def write(path, data):
    os.makedirs(os.path.dirname(path), exist_ok=True)
    with open(path, "wb") as it:
        it.write(data if isinstance(data, bytes) else data.encode())


def pieces_of(entry):
    """The names of the pieces of examples/ that use an opcode, a function or a GEN."""
    found, title = [], entry.title
    for file in sorted(os.listdir(f"{TOP}/examples")):
        name, _, kind = file.partition(".")
        if kind != ("sco" if title in OUTSIDE else "orc") or name == "misspelt":
            continue
        text = re.sub(r";.*|//.*|/\*.*?\*/", "", read(f"{TOP}/examples/{file}"))
        if title in OUTSIDE:
            is_used = re.search(rf"(?m)^\s*f\s*\d+\s+\S+\s+\S+\s+-?{OUTSIDE[title]}\b", text)
        elif entry.name in FUNCTIONS:
            is_used = re.search(rf"\b{title}\(", text)
        else:
            is_used = title in entries.calls() and re.search(rf"\b{title}\b(?!\()", text)
        found += [name] if is_used else []
    return found


def pieces_line(entry):
    kind = "sco" if entry.title in OUTSIDE else "orc"
    links = [f"[{it}](../../examples/{it}.{kind})" for it in pieces_of(entry)]
    return f"{entries.PIECES}{', '.join(links)}" if links else ""


def with_pieces(entry, text):
    text = re.sub(rf"(?m)\n*^{entries.PIECES}.*$", "", text).rstrip("\n")
    line = pieces_line(entry)
    if line and "\n## See also\n" not in text:
        text += "\n\n## See also"
    return f"{text}\n\n{line}\n" if line else f"{text}\n"


def with_report(text, report):
    """The page with this report in the block of its example."""
    return re.sub(r"(?ms)^```report\n.*?^```$", lambda _: f"```report\n{report}```", text, count=1)


def drawn(program, entry):
    """The bytes of each picture that the page names, of the sound of its example."""
    found = {}
    with Sound(program.sound) as sound:
        for words, path in entry.pictures():
            match = PICTURE.fullmatch(path)
            if not match or match[1] != entry.name:
                continue
            if match[2] == "wave":
                wide = re.search(r"([\d.]+) ms", words)
                start = re.search(r"from ([\d.]+) s", words)
                found[path] = picture.of_wave(sound, float(start[1]) if start else 0, float(wide[1]) if wide else 10)
            else:
                found[path] = DRAWN[match[2]](sound)
    return found


def index():
    """The text of docs/manual/README.md: all pages by what they are for, and by name."""
    lines = ["# Manual", "", INTRODUCTION, "", "## By purpose"]
    for group in entries.GROUPS:
        lines += ["", f"### {group}", "", "| page | what it is for | find it by |", "|---|---|---|"]
        found = [it for it in entries.all_entries() if it.group == group]
        lines += [f"| [{it.title}]({it.name}.md) | {it.sentence} | {', '.join(it.found_by)} |" for it in found]
    found = sorted(entries.all_entries(), key=lambda it: it.title.lower())
    links = [f"[{it.title}]({it.name}.md)" for it in found]
    rows = [links[at : at + COLUMNS] for at in range(0, len(links), COLUMNS)]
    lines += ["", "## By name", "", "| " + " | " * (COLUMNS - 1) + " |", "|" + "---|" * COLUMNS]
    lines += [f"| {' | '.join([*row, *[''] * (COLUMNS - len(row))])} |" for row in rows]
    return "\n".join([*lines, ""])


INTRODUCTION = (
    "A page for each opcode, function and statement: syntax, arguments, what it does, an example to play, and worked "
    "numbers. `./play --manual oscili` shows a page on a terminal, and `./play --manual echo` finds the pages about a "
    "word. `./play --manual site/` writes the manual as a website with pictures and sounds. After "
    "`./play --install DIR`, `man csplay-oscili` shows a page too. [LANGUAGE](../LANGUAGE.md) has the grammar, the "
    "rules for rates and names, and every refusal."
)


def faults_of_form(entry):
    """What is wrong with the parts of a page and their order."""
    found = [] if entry.sentence else ["no sentence under the title"]
    found += [] if entry.group in entries.GROUPS else [f"no such group: {entry.group}"]
    order = [entries.HEADINGS.index(it) for it in entry.headings if it in entries.HEADINGS]
    others = [it for it in entry.headings if it not in entries.HEADINGS]
    found += [f"no such heading: {it}" for it in others]
    found += [] if order == sorted(set(order)) else ["its headings have another order"]
    if arguments := re.findall(r"\b[iakxS]\w+|\"i\"", entry.call().partition(" ")[2]):
        table = next((it for it in entry.section("Arguments") if it.kind == "table"), None)
        named = " ".join(row[0] for row in table.rows[1:]) if table else ""
        lacking = [it for it in arguments if entry.title in entries.calls() and f"`{it}" not in named]
        found += [f"Arguments: no row of `{it}`" for it in lacking if not re.search(r"\d$", it)]
    for block in entry.all_blocks():
        if block.kind == "table" and any(len(row) != len(block.rows[0]) for row in block.rows):
            found.append(f"a row of the table under `{block.rows[0][0]}` has another number of cells")
    return found


def faults_of_links(entry):
    text = "\n".join(line for line in entry.text.split("\n") if not line.startswith("    "))
    links = re.findall(r"\]\(([^)#\s]+)[^)]*\)", re.sub(r"(?ms)^```.*?^```$", "", text))
    return [f"a dead link: {it}" for it in links if ":" not in it and not os.path.exists(f"{FOLDER}/{it}")]


def faults_of_keys(entry):
    forms = re.findall(r"(?m)^(?:what|form|also) (.*)$", read(f"{TOP}/bench/otherwise.txt"))
    forms = [it.replace("**", "") for it in forms]
    dead = (it for it in entry.keys() if not any(form.startswith(it.replace("**", "")) for form in forms))
    return [f"bench/otherwise.txt has no row: {it}" for it in dead]


def faults_of_catalogue():
    rows = catalogue.rows()
    found = [f"{it}: an opcode without a page" for it in rows if not entries.entry(it)]
    found += [f"{it}: a page like an opcode's, of none" for it in entries.calls() if it not in rows]
    for name, row in rows.items():
        entry = entries.entry(name)
        found += [f"{name}: {it}" for it in catalogue.faults(name, row, entry.syntax())] if entry else []
    return found


def faults_of_example(program, entry, is_to_be_written):
    """Plays the example. Its report and pictures are compared with the page's, or written."""
    orc, sco = entry.code("orc"), entry.code("sco")
    if orc is None or sco is None:
        return ["an example needs a block `orc` and a block `sco`"] if entry.section("Example") else []
    report = program.run(orc, sco)
    if not report.startswith("frames "):
        return [f"its example: {report.strip()}"]
    found = [] if "\nnot started 0\nout of range 0\n" in report else [f"its example: {report.strip()}"]
    if is_to_be_written:
        write(f"{FOLDER}/{entry.name}.md", with_pieces(entry, with_report(entry.text, report)))
        for path, data in drawn(program, entry).items():
            write(f"{FOLDER}/{path}", data)
        return found
    found += [] if entry.code("report") == report else [f"the report of its example is {report.strip()}"]
    for path, data in drawn(program, entry).items():
        if not os.path.exists(f"{FOLDER}/{path}") or not picture.is_alike(data, f"{FOLDER}/{path}"):
            found.append(f"{path} isn't the picture of its example")
    return found


def faults(program, entry, is_to_be_written=False):
    found = [*faults_of_form(entry), *faults_of_example(program, entry, is_to_be_written)]
    found += [*faults_of_keys(entry), *worked.faults(program, entry)]
    if not is_to_be_written and entry.text != with_pieces(entry, entry.text):
        found.append(f"its line of pieces is: {pieces_line(entry)}")
    if is_to_be_written and entry.code("orc") is None:
        write(f"{FOLDER}/{entry.name}.md", with_pieces(entry, entry.text))
    return [f"{entry.name}: {it}" for it in [*found, *faults_of_links(entry)]]


def all_faults(program, names=(), is_to_be_written=False):
    chosen = [it for it in entries.all_entries() if not names or it.name in names]
    found = [it for entry in chosen for it in faults(program, entry, is_to_be_written)]
    if is_to_be_written:
        write(f"{FOLDER}/README.md", index())
    elif not os.path.exists(f"{FOLDER}/README.md") or read(f"{FOLDER}/README.md") != index():
        found.append("docs/manual/README.md isn't the index of the pages")
    return found if names else [*faults_of_catalogue(), *found]


def main():
    if len(sys.argv) < 3 or sys.argv[1] not in ("write", "check"):
        raise SystemExit(__doc__)
    program = worked.Program(sys.argv[2])
    found = all_faults(program, sys.argv[3:], sys.argv[1] == "write")
    print("\n".join(found) if found else f"{len(entries.names())} pages are right")
    return 1 if found else 0


if __name__ == "__main__":
    sys.exit(main())
