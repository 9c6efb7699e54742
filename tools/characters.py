"""What to do about a refused character or number of an orchestra (kinds 1 to 4), and about a character of a score that
is no ASCII, for `play`."""
import re

# What people type or paste by accident, its name, and what to write instead.
QUOTES = dict.fromkeys("\u201c\u201d\u201e\u00ab\u00bb\u2018\u2019\u201a", ("a curly quotation mark", '"'))
BLANKS = dict.fromkeys("\u00a0\u202f\u2007\u2009\u3000", ("a no-break space", "a blank"))
DASHES = dict.fromkeys("\u2212\u2013\u2014\u2010\u2011", ("a long dash", "-"))
SEEN = {**QUOTES, **BLANKS, **DASHES, "\u00d7": ("a multiplication sign", "*"), "\u00f7": ("a division sign", "/")}
SEEN |= {"\u2026": ("an ellipsis", ".."), "\u00b5": ("a Greek letter", "u"), "\u200b": ("an invisible character", "")}
SEEN |= {"\ufeff": ("a byte order mark", ""), "\uff0c": ("a wide comma", ","), "\u2264": ("a sign", "<=")}
SEEN |= {"\u2265": ("a sign", ">="), "\u2260": ("a sign", "!="), "\u00b2": ("a raised digit", "a product")}
GREATEST = 2147483647
# What a unit multiplies by, as a power of ten.
UNITS = {"kHz": 3, "khz": 3, "ms": -3, "msec": -3, "k": 3}
SIXTIES = ("min", "minute", "minutes", "mins")


def of_byte(line):
    """Of the first character that is no ASCII; none if all are."""
    found = re.search(r"[^\t\r -~]", line)
    if not found:
        return []
    column, it = found.start() + 1, found[0]
    if 0xDC80 <= ord(it) <= 0xDCFF:
        return [f"Column {column} has the byte {ord(it) - 0xDC00:02X}, which is no ASCII: {ENGLISH}."]
    coded = " ".join(f"{byte:02X}" for byte in it.encode(errors="replace"))
    shown = f"`{it}`, " if it.isprintable() and it.strip() else ""
    if it not in SEEN:
        return [f"Column {column} has {shown or 'the '}byte{'s' * (len(coded) > 2)} {coded}: {ENGLISH}."]
    name, mend = SEEN[it]
    mend = f"write {mend if ' ' in mend else f'`{mend}`'} instead" if mend else "remove it"
    return [f"Column {column} has {shown}{name} (bytes {coded}): {mend}."]


ENGLISH = "outside comments write plain English letters, digits and signs only"


def of_token(line):
    """Of a sign that begins no token, or a text that isn't closed."""
    bare = re.sub(r'"[^"]*"', lambda it: "x" * len(it[0]), line)
    at = bare.find('"')
    if at >= 0:
        return [f'The text that begins in column {at + 1} isn\'t closed: write `"` after the text, in the same line.']
    found = re.search(r"['@`\\]|\.(?!\d)(?<!\d\.)", bare)
    if not found:
        return []
    said = {
        "'": 'a text is enclosed by `"`',
        "\\": "it joins a line with the next one, so only blanks may follow it; a division is `/`",
        ".": "a point needs a digit: write `0` or remove it",
    }
    return [f"Column {found.start() + 1} has `{found[0]}`: {said.get(found[0], 'csplay has no such sign; remove it')}."]


def plain(text, power=0):
    """A decimal, times ten to a power, as digits with a point."""
    from decimal import Decimal

    text = f"{Decimal(text).scaleb(power):f}"
    return (text.rstrip("0").rstrip(".") if "." in text else text) or "0"


def worked_out(word):
    """What a word was meant to be, as a plain number: one with an exponent, a unit or hexadecimal digits; None if it's
    none of these."""
    found = re.fullmatch(r"([-+]?(?:\d[\d_]*\.?\d*|\.\d+))(?:[eE]([-+]?\d+))?([A-Za-z%_]*)", word)
    if re.fullmatch(r"0[xX][0-9a-fA-F]+", word):
        return str(int(word, 16))
    if found and found[3] in SIXTIES:
        return plain(str(float(found[1]) * 60))
    if found and found[3].lower().startswith("db"):
        return None
    if not found or len(word) > 40 or found[2] and abs(int(found[2])) > 30:
        return None
    return plain(found[1].replace("_", ""), int(found[2] or 0) + UNITS.get(found[3], 0))


def of_number(orchestra, line, text):
    """Of a number with letters directly behind it, or one that is too large."""
    for it in re.finditer(r"(?<![\w.])(?:\d+\.?\d*|\.\d+)(?:[eE][-+]\d+)?\w*", text):
        number = re.match(r"[\d.]+", it[0])[0]
        letters = it[0][len(number) :]
        if letters and it[0] != "0dbfs":
            if orchestra.known(letters) or letters in orchestra.given(orchestra.body_of(line)):
                return [f"`{it[0]}`: a product has its sign: write `{number} * {letters}`."]
            if letters.lower().startswith("db"):
                return [
                    f"`{it[0]}`: csplay has no decibels: write the amplitude, as `AmpdbI` of examples/csound.orc works "
                    "it out."
                ]
            better = worked_out(it[0]) or number
            return [f"`{it[0]}`: a number has only digits and one point: write `{better}`."]
        if float(number) >= GREATEST + 1:
            return [f"`{number}` is too large: numbers go up to {GREATEST}."]
    return []


def about(orchestra, line, kind):
    text = orchestra.plain(line)
    if kind == 4:
        return ["A comment that begins with `/*` in this line isn't closed: write `*/` after it."]
    return {1: of_byte, 2: of_token}[kind](text) if kind < 3 else of_number(orchestra, line, text)
