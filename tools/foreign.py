"""Words and signs of other languages than csplay's that people write, and what to write instead, for `play`."""
import re

import pages
from orchestra import without_comments

# A word at the head of a line of an orchestra.
HEADS = {
    "return": "write `out a1` in an instrument, or `xout a1` at the end of a definition",
    "def": "a definition begins with `opcode Name, a, k`", "function": "a definition begins with `opcode Name, a, k`",
    "float": "a variable needs no declaration: its rate is the first letter of its name",
    "var": "a variable needs no declaration: its rate is the first letter of its name",
    "let": "a variable needs no declaration: its rate is the first letter of its name",
    "const": "a variable needs no declaration: its rate is the first letter of its name",
    "import": "csplay reads no other files: copy the lines", "include": "csplay reads no other files: copy the lines",
    "elif": "write `elseif .. then` instead", "elsif": "write `elseif .. then` instead",
    "elsei": "write `elseif .. then` instead", "play": "a sound is played by `out a1`",
    "begin": "remove the line: an instrument begins with `instr 1`", "instrument": "write `instr 1`",
    "orchestra": "remove the line, or begin it with `;`", "score": "the score is a text of its own",
    "break": "csplay has no loops", "continue": "csplay has no loops", "repeat": "csplay has no loops",
    "switch": "write `if .. then`, `elseif .. then`", "case": "write `if .. then`, `elseif .. then`",
    "default": "write `else`", "endwhile": "csplay has no loops", "next": "csplay has no loops",
    "output": "write `out`", "dac": "write `out`", "stop": "write `turnoff`", "kill": "write `turnoff`",
}  # fmt: skip
# A word between two values.
OPERATORS = {"mod": "%", "div": "/", "times": "*", "plus": "+", "minus": "-"}
OPERATORS |= {"and": "&&", "or": "||", "AND": "&&", "OR": "||"}
OPERATORS |= {"x": "*", "eq": "==", "ne": "!=", "lt": "<", "gt": ">", "le": "<=", "ge": ">=", "is": "==", "xor": "!="}
# A word at the head of a line of a score.
OF_SCORE = {
    "tempo": "a tempo is written `t 0 {0}`", "bpm": "a tempo is written `t 0 {0}`",
    "note": "a note is written `i1 0 1 9000`", "play": "a note is written `i1 0 1 9000`",
    "instr": "a note is written `i1 0 1 9000`", "table": "a table is written `f1 0 8192 10 1`",
    "ftable": "a table is written `f1 0 8192 10 1`", "wave": "a table is written `f1 0 8192 10 1`",
    "rest": "a rest needs no line: the next note says when it begins",
    "pause": "a rest needs no line: the next note says when it begins",
    "section": "a section ends with `s`", "loop": "write the lines out", "repeat": "write the lines out",
}  # fmt: skip
ENDS = ("end", "exit", "stop", "fin", "ende", "eof", "e0")


def of_line(text):
    """Of a line of an orchestra that is a comment or a sentence; `text` is without its comments."""
    words = re.findall(r"[A-Za-z']+", text)
    is_plain = re.fullmatch(r"[A-Za-z' .!?:-]+", text.strip()) and len(words) > 2
    known = pages.opcodes().keys() | pages.keywords()
    if is_plain and not any(it in known for it in words):
        return ["If this line is a comment, begin it with `;`."]
    return []


def of_pitch(text):
    """Of a pitch's name with a sharp."""
    found = re.search(r"\b([A-G])#(\d)\b", text)
    if not found:
        return []
    step = dict(zip("CDEFGAB", (0, 2, 4, 5, 7, 9, 11)))[found[1]] + 1
    octave = int(found[2]) + 4 + step // 12
    return [f"csplay has no names of pitches: write `cpspch({octave}.{step % 12:02d})` instead of `{found[0]}`."]


def of_operator(found):
    """Of a word or sign between two values that stands for an operator in other languages."""
    if found[1:3] == ["<", "-"]:
        return [f"Write `=` instead of `<-`: `{found[0]} = ..`."]
    pairs = {("*", "*"): "", ("<", ">"): "!=", ("=", "!"): "!=", ("/", "="): "/ ", ("=", "/"): "!="}
    for at, it in enumerate(found[:-1]):
        if at and (it, found[at + 1]) == ("*", "*"):
            return [f"csplay has no `**`: write a product, as `{found[at - 1]} * {found[at - 1]}`."]
        if better := pairs.get((it, found[at + 1]), "").strip():
            if better != "/":
                return [f"Write `{better}` instead of `{it}{found[at + 1]}`."]
        if at and it in OPERATORS and it not in pages.opcodes() and re.match(r"[\w.(]", found[at + 1]):
            if re.match(r"[\w.)]", found[at - 1]) and found[at - 1] not in ("if", "elseif", "out"):
                return [f"Write `{OPERATORS[it]}` instead of `{it}`."]
    return []


def of_percent(text):
    """Of a number with a percent sign, or the end of a comment that hasn't begun."""
    if "*/" in text:
        return ["No comment is open in this line: remove `*/`, or write `/*` where the comment begins."]
    found = re.search(r"(?<![\w.])(\d+\.?\d*)\s*%(?=\s*(?:[,)]|$))", text)
    return [f"`{found[0]}`: csplay has no percentages: write `{float(found[1]) / 100:g}`."] if found else []


def of_name(orchestra, found, text):
    """Of a name that is written in a form which no name has."""
    known = orchestra.known((found + [""] * 3)[2]) or found[2:3] == ["="]
    if found[0] in ("a", "k", "i", "ga", "gk", "gi") and re.match(r"[A-Za-z_]", (found + [""])[1]) and known:
        if not orchestra.known(found[1]):
            return [f"A name is one word: write `{found[0]}{found[1]}` instead of `{found[0]} {found[1]}`."]
    dotted = re.search(r"\b([A-Za-z_]\w*)\.([A-Za-z_]\w*)", without_comments(text))
    names = orchestra.given(orchestra.lines)
    if dotted and dotted[1] in names and dotted[2] in names:
        return [f"A product has the sign `*`: write `{dotted[1]} * {dotted[2]}`."]
    if dotted:
        return [f"A name has no point: write `{dotted[1]}{dotted[2]}` or `{dotted[1]}_{dotted[2]}`."]
    if odd := re.match(r"\s*opcode\s+(\d\w*)", text):
        return [f"`{odd[1]}` can't be the name of a definition: a name begins with a letter. Write `Op{odd[1]}`."]
    first = re.match(r"\s*(\d+)([A-Za-z_]\w*)\s*(=|[a-z])", text)
    if first and first[1] + first[2] != "0dbfs":
        name = f"{first[2]}{first[1]}" if first[2][0] in "ika" else f"a{first[2]}{first[1]}"
        return [f"`{first[1]}{first[2]}` can't be a name: a name begins with its rate, i, k or a. Write `{name}`."]
    return []


def of_product(orchestra, found):
    """Of a product without its sign, before a bracket."""
    names = orchestra.given(orchestra.lines)
    for at, it in enumerate(found[1:-1], 1):
        is_value = re.fullmatch(r"\d+\.?\d*|\.\d+|p\d+", it) or it in names and not orchestra.known(it)
        if found[at + 1] == "(" and is_value:
            return [f"A product has the sign `*`: write `{it} * (`."]
    return []


def of_assignment(found):
    """Of a sign of assignment that is written in another way."""
    for one, two, better in (("=", "+", "+="), ("==", "=", "=="), ("=", "==", "=="), ("!=", "=", "!=")):
        at = next((at for at, it in enumerate(zip(found, found[1:])) if it == (one, two)), None)
        if at is not None and (better != "+=" or at == 1):
            return [f"Write `{better}` instead of `{one}{two}`."]
    if found[1:2] == ["="] and found[3:4] == ["="]:
        return [
            f"`=` gives a value to one name: write `{found[2]} = ..` in a line before, and `{found[0]} = {found[2]}` "
            "here."
        ]
    if re.fullmatch(r"\d+\.?\d*", found[0]) and len(found) > 1 and re.match(r"[A-Za-z_]", found[1]):
        return [
            f"A line begins with a name or an opcode, and not with `{found[0]}`: write a name for the result first."
        ]
    return []


def of_index(orchestra, found):
    """Of an index after the name of a sound or value."""
    at = found.index("[") if "[" in found else 0
    if at and found[at - 1] in orchestra.given(orchestra.lines) and at > 1:
        return [f"`{found[at - 1]}` is one value, and no array: remove the `[ ]` after it."]
    return []


def of_function(found):
    """Of a function without brackets, or with more than one value."""
    for at, it in enumerate(found):
        follows = found[at + 1 : at + 2]
        if it in pages.FUNCTIONS and at and it != "i" and follows != ["("] and follows:
            return [f"`{it}` needs brackets around its value: write `{it}({follows[0]})`."]
        if it in pages.FUNCTIONS and follows == ["("]:
            depth, values = 0, 1
            for end in found[at + 1 :]:
                depth += (end == "(") - (end == ")")
                values += end == "," and depth == 1
                if not depth:
                    break
            if values > 1:
                return [f"`{it}` takes one value, and has {values} here: write `{it}({found[at + 2]})`."]
    return []


def of_brackets(found):
    """Of square brackets that are no array's."""
    at = found.index("[") if "[" in found else 0
    if at and not re.match(r"[A-Za-z_]", found[at - 1]) and found[at - 1] != "]":
        return ["csplay has no `[ ]` around values: write round brackets, `( )`."]
    return []


def of_score(word, field):
    """Of a word at the head of a line of a score; none where it's unknown."""
    if word.lower() in ENDS:
        return ["A score ends with a line `e`: write `e` only."]
    said = OF_SCORE.get(word.lower())
    return [f"`{word}` is no line of a score: {said.format(field or '60')}."] if said else []
