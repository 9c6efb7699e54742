"""Reads the forms of Markdown that the documents use: headings, paragraphs, lists, tables, code blocks, pictures and
comments. A paragraph and a list's item are one line each."""
import re

ITEM = re.compile(r"(?:- |\d+\. )")


def cells(row):
    return [it.strip().replace("\\|", "|") for it in re.split(r"(?<!\\)\|", row.strip())[1:-1]]


class Block:
    """A part of a page: `kind` is heading, text, list, steps, table, code, pictures or comment.

    `lines` are the lines of a heading, a text, a list's items or a code block; `rows` the cells of a table, its head
    first; `pictures` pairs of an alternative text and a path; `word` the language of a code block or a comment's text;
    `level` that of a heading."""

    def __init__(self, kind, lines=(), rows=(), pictures=(), word="", level=0):
        self.kind, self.lines, self.rows = kind, list(lines), list(rows)
        self.pictures, self.word, self.level = list(pictures), word, level


def sign_of(line):
    """What the lines of one block begin with alike."""
    if line.startswith("|"):
        return "|"
    return "item" if ITEM.match(line) else "text"


def ends_text(line):
    return not line.strip() or line.startswith(("```", "<!--", "![", "#"))


def blocks(text):
    """The parts of a text, in order."""
    found, lines = [], text.strip("\n").split("\n")
    at = 0
    while at < len(lines):
        first, begin = lines[at], at
        at += 1
        if not first.strip():
            continue
        if first.startswith("```"):
            while at < len(lines) and lines[at] != "```":
                at += 1
            at += 1
            found.append(Block("code", lines[begin + 1 : at - 1], word=first[3:].strip()))
        elif match := re.fullmatch(r"<!-- (.*) -->", first):
            found.append(Block("comment", word=match[1]))
        elif match := re.match(r"(#+) (.*)", first):
            found.append(Block("heading", [match[2]], level=len(match[1])))
        elif re.fullmatch(r"(!\[[^\]]*\]\([^)]*\)\s*)+", first):
            found.append(Block("pictures", pictures=re.findall(r"!\[([^\]]*)\]\(([^)]*)\)", first)))
        else:
            while at < len(lines) and not ends_text(lines[at]) and sign_of(lines[at]) == sign_of(first):
                at += 1
            found.append(block_of(lines[begin:at]))
    return found


def block_of(lines):
    sign = sign_of(lines[0])
    if sign == "|":
        rows = [cells(it) for it in lines]
        return Block("table", rows=[rows[0], *rows[2:]])
    if sign == "item":
        return Block("list" if lines[0].startswith("- ") else "steps", [ITEM.sub("", it, count=1) for it in lines])
    return Block("text", [" ".join(lines)])


def plain(text):
    """A line without its marks."""
    text = re.sub(r"!?\[([^\]]*)\]\([^)]*\)", r"\1", text)
    return re.sub(r"\*\*([^*]*)\*\*", r"\1", text).replace("`", "").replace("\\|", "|")
