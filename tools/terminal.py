"""Shows a page of the manual on a terminal: text in lines of at most WIDE signs, tables as lists, code as it is."""
import textwrap

from markdown import plain

WIDE = 88
BOLD, END = "\x1b[1m", "\x1b[0m"


def filled(text, first="  ", later="  "):
    return textwrap.wrap(plain(text), WIDE, initial_indent=first, subsequent_indent=later) or [first.rstrip()]


def table(rows):
    """A row as its first cell, and below it the others, each with its head if there are several."""
    heads, lines = rows[0], []
    for first, *others in rows[1:]:
        said = [f"{head}: {it}" if len(heads) > 2 and head else it for head, it in zip(heads[1:], others) if it]
        lines += [*filled(first), *filled("; ".join(said), "      ", "      ")]
    return lines


def block(it):
    if it.kind == "table":
        return table(it.rows)
    if it.kind == "code":
        return [f"    {line}" for line in it.lines]
    if it.kind in ("list", "steps"):
        signs = ["- " if it.kind == "list" else f"{at}. " for at in range(1, len(it.lines) + 1)]
        return [line for sign, item in zip(signs, it.lines) for line in filled(item, f"  {sign}", "     ")]
    return filled(it.lines[0]) if it.kind in ("text", "heading") else []


def of_entry(entry, is_bold):
    """The lines of a page."""
    strong = (lambda text: f"{BOLD}{text}{END}") if is_bold else (lambda text: text)
    lines = [strong(entry.title), *filled(entry.sentence)]
    for heading in entry.headings:
        lines += ["", strong(heading)]
        parts = [made for it in entry.section(heading) if (made := block(it))]
        lines += [line for at, made in enumerate(parts) for line in ([""] if at else []) + made]
    return lines


def of_index(found):
    """A line for each page: its title and its sentence."""
    wide = max((len(it.title) for it in found), default=0) + 2
    return [line for it in found for line in filled(it.sentence, f"{it.title:<{wide}}", " " * wide)]
