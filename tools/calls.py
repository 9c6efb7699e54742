"""The results and arguments of an orchestra's calls: how many there are, how often each changes, and what an opcode or
a definition takes, for the hints of `play` on kinds 14, 15 and 22."""
import re

import hints
import pages
from orchestra import COMPARISONS, JOINS, arguments

SPOKEN = {"i": "i-rate", "k": "k-rate", "a": "a-rate, a sound", "S": "a text", "c": "a condition"}
# Of two parts of an expression the one that changes more often says how often it changes.
ORDER = "ika"
SELDOM = {"i": "is taken as the note begins", "k": "is taken once a control cycle"}


def counted(number, what):
    return f"{number or 'no'} {what}{'' if number == 1 else 's'}"


def listed(found):
    """Tokens as a person would write them."""
    text = " ".join(found)
    for sign, better in ((" ,", ","), ("( ", "("), (" )", ")")):
        text = text.replace(sign, better)
    return re.sub(r"\b(int|frac|abs|floor|cpspch|i) \(", r"\1(", text)


def rate_of(found):
    """The rate of an expression's tokens: i, k or a; S of a text, c of a condition; empty if it isn't clear."""
    if found == ['"']:
        return "S"
    if any(it in COMPARISONS + JOINS for it in found) and "?" not in found:
        return "c"
    fastest = "i"
    skip = -1
    for at, it in enumerate(found):
        if it == "i" and found[at + 1 : at + 2] == ["("]:
            skip = at + 2
        name = re.match(r"g?([ika])\w*$", it)
        if name and at != skip and it not in pages.FUNCTIONS:
            fastest = max(fastest, name[1], key=ORDER.index)
    return fastest


class Signature:
    """What an opcode or definition takes: the letters and names of its arguments, how many must be given, whether more
    of the same may follow, and the rates of its results."""

    def __init__(self, orchestra, word):
        self.word, self.row, self.more = word, "", 0
        if word in orchestra.defined:
            self.of_definition(orchestra)
        else:
            self.of_row(pages.opcodes()[word])

    def of_definition(self, orchestra):
        line = orchestra.defined[self.word]
        types = [it for it in orchestra.lines[line][2:] if it != ","] + ["0"] * 2
        self.results, self.letters = ("" if it == "0" else it for it in types[:2])
        body = [orchestra.lines[at] for at in orchestra.body_of(line)]
        names = next((it[:-1] for it in body if it[-1:] == ["xin"]), [])
        names = [it for it in names if it != ","]
        self.names = names if len(names) == len(self.letters) else [f"`{it}`" for it in self.letters]
        self.least = self.most = len(self.letters)
        self.row = f"`{listed(orchestra.lines[line])}` in line {line}"

    def of_row(self, call):
        must, _, may = call.partition("[")
        self.names = re.findall(r'"i"|\w+', must)[1:]
        self.least = len(self.names)
        others = re.findall(r"\w+", may)
        self.more = len(others) if ".." in may else 0
        self.names += others
        self.most = 10**6 if self.more else len(self.names)
        self.letters = "".join("S" if it == '"i"' else it[0] for it in self.names)
        self.results = None
        self.row = f"`{call}` ({pages.place(self.word)})"

    def letter(self, at):
        """The letter and the name of an argument's place, counted from 0."""
        if at >= len(self.letters) and self.more:
            at = len(self.letters) - self.more + (at - len(self.letters)) % self.more
        return (self.letters[at], self.names[at]) if at < len(self.letters) else ("x", "")

    def count(self):
        if self.more:
            return f"{self.least} or more arguments"
        if self.least == self.most:
            return counted(self.most, "argument")
        return f"{self.least} or {self.most} arguments"


class Call:
    """A line's call: its results' names, its opcode and its arguments' tokens; `word` is empty if it is none."""

    def __init__(self, orchestra, line):
        self.found, self.word = orchestra.lines.get(line, []), orchestra.word_of(line)
        at = orchestra.opcode_of(self.found)
        self.results = [it for it in self.found[: at or 0] if it != ","]
        self.given = arguments(self.found[at + 1 :]) if self.word else []


def of_count(orchestra, line):
    """Of a call with more or fewer results or arguments than its opcode has."""
    call = Call(orchestra, line)
    if not orchestra.known(call.word):
        return []
    takes = Signature(orchestra, call.word)
    comma = re.findall(r"(?<![\w.])\d+,\d+(?![\w.])", orchestra.plain(line))
    if len(call.given) > takes.most and comma:
        return [f"`{comma[0]}`: a number has a decimal point, and no comma: write `{comma[0].replace(',', '.')}`."]
    if not takes.least <= len(call.given) <= takes.most:
        given = counted(len(call.given), "argument")
        lacks = takes.names[len(call.given)] if len(call.given) < takes.least else ""
        lacks = f" Argument {len(call.given) + 1}, `{lacks.strip('`')}`, is missing." if lacks else ""
        table = " The table's number can't be left off." if lacks.endswith("`ifn`, is missing.") else ""
        return [f"`{call.word}` takes {takes.count()}, and this line has {given}.{lacks}{table} Write {takes.row}."]
    if takes.more == 2 and (len(call.given) - takes.least) % 2:
        return [f"`{call.word}` takes its further arguments in pairs, and the last pair lacks one: {takes.row}."]
    if takes.results is not None and len(takes.results) != len(call.results):
        has, given = counted(len(takes.results), "result"), counted(len(call.results), "name")
        return [f"`{call.word}` has {has}, and this line has {given} before it: {takes.row}."]
    if len(call.results) > 1:
        return [f"`{call.word}` has one result at most, and this line has {len(call.results)} names before it."]
    if call.results:
        return [f"`{call.word}` has no result: remove `{call.results[0]}`. The call is {takes.row}."]
    return [f"`{call.word}` has a result: write a name before it, as `k1 {call.word} ..`. The call is {takes.row}."]


def does_take(letter, rate, result):
    """Whether an argument's place of this letter takes a value of this rate, beside a result of that rate."""
    if "S" in (letter, rate) or "c" in (letter, rate):
        return letter == rate
    if letter == "k" and result == "i":
        return rate == "i"
    allowed = {"i": "i", "k": "ik", "a": "a"}.get(letter) or ORDER[: ORDER.index(result) + 1 if result else 3]
    return rate in allowed


def known_at_start(orchestra, name, line):
    """What to write for a value of rate k where one must be known as the note begins."""
    if re.fullmatch(r"\w+", name) and orchestra.begins_with(name, line):
        return f"write `i({name})`, its value as the note begins, or a number"
    return "write a number, a field, or a name that begins with `i`"


def mend_of(rate, letter, text):
    """What to write for a value of this rate where that letter takes another; none if `known_at_start` says it."""
    if rate == "c":
        return f"write `({text} ? 1 : 0)`"
    if letter == "S":
        return "write a channel's name in quotation marks"
    if rate == "S":
        return "write a number or a name"
    is_name = re.fullmatch(r"\w+", text)
    if letter == "a":
        return f"write a line `a1 = {text}` before it, and `a1` here"
    if rate == "a":
        return f"write a line `k1 downsamp {text if is_name else 'a1'}` before it, and `k1` here"
    return ""


def of_rates(orchestra, line):
    """Of a call with a result or an argument of a rate that its opcode doesn't take."""
    call = Call(orchestra, line)
    if not orchestra.known(call.word):
        return []
    takes = Signature(orchestra, call.word)
    if call.word == "tablew" and len({rate_of(it) == "a" for it in call.given[:2]}) > 1:
        one = next(it for it in call.given[:2] if rate_of(it) != "a")
        return [
            f"`tablew` takes a sound and an index that is a sound, or none of both: write `a2 = {listed(one)}` before, "
            "and `a2`."
        ]
    results = [re.match(r"g?([ika])", it)[1] for it in call.results if pages.is_name(it)]
    if said := of_results(orchestra, call, takes, results):
        return said
    is_defined = call.word in orchestra.defined
    if call.word in ("chnset", "chnmix") and call.given[0] == ['"'] and len(call.given) == 2:
        text = re.search(r'"[^"]*"', orchestra.plain(line))[0]
        return [f"The value comes first, and the name last: write `{call.word} {listed(call.given[1])}, {text}`."]
    for at, tokens in enumerate(call.given):
        (letter, name), rate = takes.letter(at), rate_of(tokens)
        wants = "".join(ORDER[: ORDER.index(letter) + 1]) if is_defined else ""
        if rate in wants if is_defined else does_take(letter, rate, results[0] if results else ""):
            continue
        if letter == "x":
            letter = results[0] if results else "k"
        text = "the text" if rate == "S" else f"`{listed(tokens)}`"
        wanted = "i-rate" if letter == "k" and results[:1] == ["i"] else SPOKEN[letter]
        mend = mend_of(rate, letter, listed(tokens)) if wanted != "i-rate" or rate in "cS" else ""
        mend = mend or known_at_start(orchestra, listed(tokens), line)
        name = f" (`{name.strip('`')}`)" if name and not is_defined else ""
        return [
            f"The rate of argument {at + 1} of `{call.word}`, {text}, is {SPOKEN[rate]}; it must be {wanted}{name}: "
            f"{mend}."
        ]
    return []


def of_results(orchestra, call, takes, results):
    """Of a result of a rate that the opcode doesn't have."""
    if call.word in orchestra.defined:
        for name, had, letter in zip(call.results, results, takes.results):
            if ORDER.index(had) < ORDER.index(letter):
                better = f"write `{letter}{name.lstrip('g')[1:]}` instead of `{name}`"
                return [f"A result of `{call.word}` is {SPOKEN[letter]} ({takes.row}): {better}."]
        return []
    rates = pages.results(call.word)
    if rates and results and results[0] not in rates:
        names = " or ".join(f"`{it}{call.results[0].lstrip('g')[1:]}`" for it in rates)
        spoken = SPOKEN[results[0]].split(",")[0]
        return [f"The result of `{call.word}` can't be {spoken}: write {names} instead of `{call.results[0]}`."]
    return []


def of_values(orchestra, line):
    """Of a definition whose values of `xout` have other rates than its letters."""
    begin, results, _ = definition_around(orchestra, line)
    for at in orchestra.body_of(line):
        if orchestra.lines[at][:1] != ["xout"]:
            continue
        for value, letter in zip(arguments(orchestra.lines[at][1:]), results):
            rate = rate_of(value)
            if rate in "cS" or ORDER.index(rate) > ORDER.index(letter):
                gives = f"`xout` in line {at} gives `{listed(value)}` for the letter `{letter}`"
                said = f"{gives}, and that is {SPOKEN[rate]}"
                better = f"write `{rate}` instead of `{letter}` in line {begin}" if rate in ORDER else "write a value"
                return [f"{said}: {better}, or give another value."]
    return []


def definition_around(orchestra, line):
    """The line of `opcode` above a line, its results' and its inputs' letters."""
    at = line
    while at > orchestra.first and orchestra.lines[at][:1] != ["opcode"]:
        at -= 1
    types = [it for it in orchestra.lines[at][2:] if it != ","] + ["0"] * 2
    return at, *("" if it == "0" else it for it in types[:2])


def of_inputs(begin, word, inputs, names):
    """Of a line of `xin`."""
    if not inputs:
        return [
            f"`{word}` has no inputs (line {begin}): remove the line of `xin`, or name their letters in line {begin}."
        ]
    if len(names) != len(inputs):
        has = f"`{word}` has {counted(len(inputs), 'input')} (`{inputs}`, line {begin})"
        return [f"{has}, and the line of `xin` has {counted(len(names), 'name')}: write a name for each letter."]
    for name, letter in zip(names, inputs):
        if not name.startswith(letter):
            rest = (name[1:] or "1") if pages.is_name(name) else name
            better = f"write `{letter}{rest}`, or another letter in line {begin}"
            return [f"`{name}` must begin with its letter `{letter}` of line {begin}: {better}."]
    return ["The names of a line of `xin` must differ from one another, and from all opcodes and keywords."]


def of_body(orchestra, line):
    """Of a definition whose lines of `xin` or `xout` don't fit its letters (kind 22)."""
    found = orchestra.lines.get(line, [])
    begin, results, inputs = definition_around(orchestra, line)
    word = (orchestra.lines[begin] + ["", ""])[1]
    if line == begin:
        names = ", ".join(f"{it}{at + 1}" for at, it in enumerate(inputs))
        return [
            f"`xin` is missing: `{word}` has {counted(len(inputs), 'input')}, so write `{names} xin` in the next line."
        ]
    if found[-1:] == ["xin"] and all(orchestra.lines[at] == [] for at in range(begin + 1, line)):
        return of_inputs(begin, word, inputs, [it for it in found[:-1] if it != ","])
    if "xin" in found:
        return ["`xin` must be the first line after `opcode`, with a name for each input before it, as `k1, k2 xin`."]
    earlier = next((at for at in range(begin, line) if orchestra.lines[at][:1] == ["xout"]), None)
    if found[:1] and len(found) == 1 and found != ["endop"] and hints.near(found[0], ["endop", "endin"]):
        return [f"A definition ends with `endop`: write `endop` instead of `{found[0]}`."]
    if "endin" in found[:1]:
        return ["A definition ends with `endop`: write `endop` instead of `endin`."]
    if earlier and found[:1] in (["instr"], ["opcode"]):
        return [f"The `opcode` in line {begin} isn't ended: write `endop` before this line."]
    if earlier:
        return [f"`xout` must be the last line before `endop`: move line {earlier} down, or take this line out."]
    if found[:1] == ["endop"]:
        names = ", ".join(f"{it}1" for it in results)
        return [f"`xout` is missing: write `xout {names}` before `endop`, a value for each result."]
    if found[:1] == ["xout"] and '"' in found:
        return ["`xout` gives numbers and sounds: a text can't stand there."]
    if found[:1] == ["xout"] and not results:
        return [f"`{word}` has no results (line {begin}): remove this line, or name their letters in line {begin}."]
    values = arguments(found[1:])
    if found[:1] == ["xout"] and len(values) != len(results):
        has = f"`{word}` has {counted(len(results), 'result')} (`{results}`, line {begin})"
        return [f"{has}, and `xout` has {counted(len(values), 'value')}: write a value for each letter."]
    return ["`xout` must be the last line before `endop`, outside any `if`, and `xin` the first line of the body."]
