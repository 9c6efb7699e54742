"""The rows of crates/cs_words/src/catalogue.rt, and the syntax that the manual's page of each must have."""
import re

from entries import TOP

FILE = f"{TOP}/crates/cs_words/src/catalogue.rt"
ROW = re.compile(r'row!\(\w+: "(\w+)", (\w+), \[([^\]]*)\], More::(\w+)(?:\(([^)]*)\))?, ')
# The rates of each list of results, fastest first, and the first letter of an argument by the rate of the line.
RATES = {"NONE": "", "CONTROL": "k", "AUDIO": "a", "KA": "ak", "IKA": "aki"}
FIRST = {"I": "iii", "F": "fff", "K": "kki", "P": "kki", "A": "aaa", "X": "xki", "V": "xxx", "S": "SSS"}


def rows():
    """The name, the results, the letters of the arguments and of further ones, and what further ones may be."""
    with open(FILE, encoding="utf-8") as it:
        found = ROW.findall(it.read())
    return {name: (results, letters(fixed), letters(more), kind) for name, results, fixed, kind, more in found}


def letters(text):
    return [it.strip() for it in text.split(",") if it.strip()]


def is_of(argument, letter, rate):
    first = FIRST[letter]["aki".find(rate or "a")]
    if first == "f":
        return argument.startswith("ifn")
    if first == "S":
        return argument.startswith("S") or argument == '"i"'
    return re.fullmatch(rf"{first}\w+", argument) is not None


def fault_of_line(line, name, row, rate):
    """What is wrong with a line of syntax for a result of this rate; None if nothing is."""
    _, fixed, more, kind = row
    result = f"{rate}res " if rate else ""
    if not line.startswith(f"{result}{name}"):
        return f"it doesn't begin with `{result}{name}`"
    given, sign, optional = line[len(f"{result}{name}") :].partition("[,")
    arguments = [it.strip() for it in given.split(",") if it.strip()]
    if len(arguments) != len(fixed) or not all(map(is_of, arguments, fixed, [rate] * len(fixed))):
        return f"its arguments aren't those of the catalogue: {' '.join(fixed)}"
    further = [it.strip() for it in optional.replace("..", "").rstrip(" ]").split(",") if it.strip()]
    if bool(sign) != (kind != "Nothing") or not all(map(is_of, further, more, [rate] * len(more))):
        return f"its optional arguments aren't those of the catalogue: {kind} {' '.join(more)}"
    if sign and (len(further) != len(more) or optional.endswith("..]") != (kind != "Perhaps")):
        return f"its optional arguments aren't those of the catalogue: {kind} {' '.join(more)}"
    return None


def faults(name, row, syntax):
    """What is wrong with the syntax of an opcode's page."""
    rates = RATES[row[0]] or [""]
    if len(syntax) != len(rates):
        return [f"Syntax: {len(syntax)} lines, and the catalogue has {len(rates)} rates"]
    found = ((line, fault_of_line(line, name, row, rate)) for line, rate in zip(syntax, rates))
    return [f"Syntax, `{line}`: {what}" for line, what in found if what]
