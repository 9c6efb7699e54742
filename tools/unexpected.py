"""Which token of an orchestra's line fits no rule (kind 5), by the forms that people write, for `play`."""
import re

import foreign
import hints
import pages
from orchestra import COMPARISONS, JOINS

OPERATORS = ("+", "-", "*", "/", "%", "<", ">", "<=", ">=", "==", "!=", "&&", "||", "=", "+=", ",", "?", ":", "(")
ASSIGNS = ("-=", "*=", "/=")


def is_value(token):
    return re.match(r"[\w.\"]", token) is not None


def of_condition(found):
    """A line of `if`, `elseif` or `else`."""
    if found[0] == "else" and found[1:2] == ["if"]:
        return ["Write `elseif .. then`, in one word, instead of `else if`."]
    if found[0] == "else" and len(found) > 1:
        return ["Nothing may follow `else` in its line: write the rest in the next line."]
    if "then" in found and found[-1] != "then":
        return ["Nothing may follow `then` in its line: write the rest, and `endif`, in lines after it."]
    for one, two in (("=", ">"), ("=", "<"), (">", "="), ("<", "=")):
        if (one, two) in zip(found, found[1:]):
            right = {">": ">=", "<": "<="}[two if one == "=" else one]
            return [f"Write `{right}` instead of `{one}{two}`." if one == "=" else f"Write `{right}` without a blank."]
    if '"' in found:
        return ["A condition compares numbers, and no texts: give each text a number, and compare that."]
    if "then" not in found and comma(found[1:], 0):
        return ["`then` is missing after the condition: write `then` there, and the rest in the next line."]
    if "=" in found:
        return ["Write `==` instead of `=`: `==` compares, and `=` gives a name its value."]
    for it in ("and", "or", "not", "&", "|"):
        if it in found:
            better = {"and": "&&", "or": "||", "&": "&&", "|": "||"}.get(it)
            return [f"Write `{better}` instead of `{it}`."] if better else hints.row("!", "`not`")
    signs = sum(it in COMPARISONS for it in found)
    joins = sum(it in JOINS for it in found)
    if "then" not in found:
        return ["`then` is missing at the end of this line."]
    if signs > joins + 1:
        return ["A comparison has two sides: write `k1 < k2 && k2 < k3` instead of `k1 < k2 < k3`."]
    return comma(found[1:-1], 0)


def of_definition(found):
    word = found[1] if len(found) > 1 else ""
    if word in pages.opcodes() or word in pages.outside() or word in pages.headers() | pages.FUNCTIONS:
        other = word.capitalize()
        return [
            f"`{word}` can't be the name of a definition: csplay has the word already. Write `{other}`, for example."
        ]
    if found.count(",") != 2 or len(found) != 6:
        return [
            "A definition begins `opcode Name, results, inputs`, with two commas; `0` stands for no results or "
            "inputs."
        ]
    return []


def brackets(found):
    opened = found.count("(") - found.count(")")
    if opened:
        many = f"{abs(opened)} bracket{'s' * (abs(opened) > 1)}"
        verb = "is" if abs(opened) == 1 else "are"
        if opened > 0:
            return [f"{many} of this line {verb}n't closed: write `)` where the expression ends."]
        return [f"{many} of this line {verb} closed and not opened: remove a `)`, or write `(` before."]
    return []


def comma(found, first):
    """A value behind a value, or a comma without one."""
    for one, two in zip(found[first:], found[first + 1 :]):
        if (is_value(one) or one == ")") and two in pages.opcodes() and one not in pages.keywords():
            return [f"A second statement begins with `{two}`: write it in a line of its own."]
        if (is_value(one) or one == ")") and is_value(two) and one not in pages.keywords():
            return [f"A comma or an operator is missing between `{one}` and `{two}`."]
        if one in OPERATORS and two in (",", ")") or one == "," and two in OPERATORS[2:]:
            return [f"A value is missing between `{one}` and `{two}`."]
        if one in OPERATORS and two in ("+", *OPERATORS[2:13]) and two not in ("-",):
            no_plus = "remove the `+`: no number has a plus sign" if two == "+" else "write a value between them"
            return [f"`{two}` can't follow `{one}`: {no_plus}."]
    if found and found[-1] in OPERATORS:
        return [f"The line ends with `{found[-1]}`: write a value after it, or `\\` if the next line goes on."]
    return []


def of_place(orchestra, found, line):
    """What may not stand inside instruments, or not outside."""
    head = found[0]
    is_inside = orchestra.is_inside(line)
    if head in pages.headers() and "=" in found[:2] and is_inside:
        return [f"`{head} = ..` must be outside instruments, at the head of the text: move the line there."]
    if head == "zakinit" and is_inside:
        return ["`zakinit` must be outside instruments, at the head of the text: move the line there."]
    if head in ("endin", "endop", "endif", "else", "elseif", "xin", "xout", "then", "do", "od"):
        opens = {"endif": "if", "else": "if", "elseif": "if", "then": "if", "endin": "instr"}.get(head, "opcode")
        if head == "xout" and orchestra.is_inside(line):
            return ["`xout` belongs in a definition (`opcode`): an instrument's sound goes to `out`."]
        around = next((it[0] for at in orchestra.body_of(line) if (it := orchestra.lines[at]) and at < line), "")
        if head in ("endin", "endop") and around in ("instr", "opcode") and around != opens:
            other = "endop" if head == "endin" else "endin"
            return [f"This body begins with `{around}`: write `{other}` instead of `{head}`."]
        return [f"No `{opens}` is open in this line: remove `{head}`, or write the `{opens}` that it ends."]
    if head == "instr" and is_inside:
        return ["`instr` can't be here: write `endin` or `endop` before it."]
    if found[:2] == ["end", "if"] or head == "endif" and len(found) > 1:
        return ["`endif` is one word, in a line of its own."]
    return []


def of_comment(found):
    """Of a line that is a comment in another language."""
    if found[0] in ("-", "#", "%", "!", "*", "'") or found[:1] == ["/"]:
        shown = "--" if found[:2] == ["-", "-"] else found[0]
        return [f"csplay has no comments with `{shown}`: a comment begins with `;`."]
    return []


def of_score(found):
    """Of a line of a score."""
    is_note = re.match(r"[if]\d+$", found[0]) and len(found) > 2 and is_value(found[1]) and is_value(found[2])
    if is_note or found[0] in ("i", "f") and len(found) > 3 and is_value(found[1]) and is_value(found[2]):
        return ["This is a line of a score: the orchestra is the first file, and the score the second."]
    return []


def about(orchestra, line):
    found = orchestra.lines.get(line, [])
    if not found:
        return []
    head, at = found[0], orchestra.opcode_of(found)
    if head == "opcode" and line > orchestra.first and orchestra.is_inside(line - 1):
        return ["`opcode` can't be inside an instrument or definition: move the definition before the first `instr`."]
    if head == "opcode":
        return of_definition(found)
    capital = next((at for at, it in orchestra.lines.items() if at <= line and it and it[0] not in pages.keywords()
                    and it[0].lower() in pages.keywords()), None)  # fmt: skip
    if capital:
        word = orchestra.lines[capital][0]
        return [f"A keyword is in small letters: write `{word.lower()}` instead of `{word}` in line {capital}."]
    if said := of_comment(found) or hints.of_head(orchestra, found):
        return said
    if head in ("else", "elseif", "endif") and not orchestra.open_ifs(line):
        return [f"No `if` is open in this line: remove `{head}`, or write `if .. then` before."]
    if head == "instr" and found[-1] == ",":
        return ["A number is missing after the last comma: remove the comma, or write another instrument's number."]
    if head == "instr":
        return comma(found, 1)
    if head in ("if", "elseif", "else"):
        return brackets(found) or foreign.of_operator(found) or of_condition(found)
    if re.match(r"p\d+$", head) and len(found) > 1:
        return [
            "A field can't be changed: give the value a name, as `idur = ..`. The length of a note is set in the "
            "score."
        ]
    if sign := next((it for it in found if it in ASSIGNS), None):
        return hints.row(sign)
    for sign in ("<<", ">>", "&", "|"):
        if sign in found:
            return hints.row("&", f"`{sign}`")
    if said := of_place(orchestra, found, line):
        return said
    is_defined = any(orchestra.lines[at][:1] == ["opcode"] for at in orchestra.body_of(line))
    if found[-1] in ("xin", "xout") and not is_defined:
        return [f"`{found[-1]}` belongs in a definition (`opcode`): an instrument reads `p4`, `p5` and so on."]
    if said := of_score(found) or hints.written_otherwise(orchestra, line):
        return said
    if "=" in found and re.match(r"[A-Za-z_]", (found + [""])[1]) and found[2:3] == ["="]:
        return ["`=` gives a value to one name: write a line for each name."]
    if found[1:2] == ["("] and re.match(r"[A-Za-z_]", head):
        text = "".join(it if it != "," else ", " for it in found[2:-1])
        return [f"An opcode's arguments have no brackets around them: write `{head} {text}`."]
    if found[1:2] == [","] and "=" in found:
        return ["`=` gives a value to one name: write a line for each name."]
    if said := hints.hyphen(orchestra, found) or brackets(found):
        return said
    if "?" in found and "=" in found:
        if ":" not in found:
            return ["A choice has two values: write `:` and the value for the other case, as `(k1 > 0 ? 1 : 0)`."]
        text = "".join(f" {it} " if it in ("?", ":") or it in OPERATORS else it for it in found[2:]).replace("  ", " ")
        return [f"A choice has brackets around all of it: write `{head} = ({text.strip()})`."]
    if found[1:2] in (["++"], ["+"]) and found[2:3] == ["+"] or found[1:3] == ["-", "-"]:
        return [f"csplay has no `{found[1]}{found[2]}`: write `{head} = {head} {found[1]} 1`."]
    if found[1:2] == ["=="]:
        return [f"`==` compares two values: write `{head} = ..` to give `{head}` its value."]
    first = 2 if found[1:2] in (["="], ["+="]) else (at or 0) + 1
    return comma(found, first) or keyword(found)


def keyword(found):
    word = next((it for it in found[1:] if it in pages.keywords()), None)
    return [f"`{word}` is a keyword: write it in a line of its own."] if word else []
