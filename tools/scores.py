"""What to do about a refused line of a score or of a file with both texts, and which further lines of a score have
faults that can't be mistaken, for `play`. It's a rough reading: csplay itself decides what is refused."""
import re

import characters
import foreign
import hints
import pages
from statements import NUMBER

OPTIONS = ("<CsOptions>", "</CsOptions>")
TAGS = ("<CsoundSynthesizer>", "</CsoundSynthesizer>", "<CsInstruments>", "</CsInstruments>", "<CsScore>", "</CsScore>")
LETTERS = "`i`, `f`, `t`, `b`, `s` or `e`"
STEPS = dict(zip("cdefgab", (0, 2, 4, 5, 7, 9, 11)))


def value(text):
    """The value of an expression of numbers, as a plain number; None where it has another sign."""
    if found := re.fullmatch(r"(\d{1,4})\^(\d{1,2})", text):
        return str(int(found[1]) ** int(found[2]))
    tokens = re.findall(r"\d+\.?\d*|\.\d+|[-+*/()]", text)
    if "".join(tokens) != text.replace(" ", "") or len(tokens) > 40:
        return None
    try:
        number = added(tokens)
        return characters.plain(f"{number:.6f}") if not tokens else None
    except (ArithmeticError, IndexError, ValueError):
        return None


def added(tokens):
    """The value of the sum at the head of the tokens, which are taken away."""
    number = multiplied(tokens)
    while tokens[:1] and tokens[0] in "+-":
        number += signed(tokens)
    return number


def signed(tokens):
    """The value of a sign and the product after it."""
    sign = -1 if tokens.pop(0) == "-" else 1
    return sign * multiplied(tokens)


def multiplied(tokens):
    """The value of the product at the head of the tokens, which are taken away."""
    number = factor(tokens)
    while tokens[:1] and tokens[0] in "*/":
        number = number * factor(tokens) if tokens.pop(0) == "*" else number / factor(tokens)
    return number


def factor(tokens):
    """The value of a number, a negation or an expression in brackets."""
    it = tokens.pop(0)
    if it == "-":
        return -factor(tokens)
    if it != "(":
        return float(it)
    number = added(tokens)
    tokens.remove(")")
    return number


def pitch(word):
    """A pitch's name, as A4, as octave and step; None of another word."""
    found = re.fullmatch(r"([A-Ga-g])([#bs]?)(\d)", word)
    if not found:
        return None
    step = STEPS[found[1].lower()] + {"#": 1, "s": 1, "b": -1}.get(found[2], 0)
    octave = int(found[3]) + 4 + step // 12
    return f"write a number, `{octave}.{step % 12:02d}` for `cpspch` or the frequency in Hz"


def mend_of(word, line):
    """What to write for a field that is no number."""
    alike = word.translate(hints.ALIKE)
    if characters.of_byte(word):
        return "c" + characters.of_byte(line)[0][1:].rstrip(".")
    if alike != word and NUMBER.match(alike):
        letter = next(it for it in word if it in hints.SPOKEN)
        return f"it has {hints.SPOKEN[letter]}: write `{alike}`"
    if number := characters.worked_out(word):
        return f"a number has only digits and one point: write `{number}`"
    if number := value(word):
        return f"write the result, `{number}`"
    if named := pitch(word):
        return named
    if re.fullmatch(r"\d+:\d+(\.\d+)?", word):
        minutes, _, seconds = word.partition(":")
        return f"a time is one number: write `{int(minutes) * 60 + float(seconds):g}`"
    if re.fullmatch(r"[-+]?\d*\.?\d+\s*d[bB].*", word):
        amplitude = 32768 * 10 ** (min(0, float(re.match(r"[-+]?[\d.]+", word)[0])) / 20)
        return f"write the amplitude: {word} below full scale is {amplitude:.0f} of 32768"
    if found := re.fullmatch(r"\w+=([-+]?[\d.]+)", word):
        return f"fields have no names: write `{found[1]}`"
    if word.endswith('"') and NUMBER.match(word.strip('"')):
        return f"remove the quotation mark: write `{word.strip(chr(34))}`"
    if word[0] in "#%":
        return f"a comment begins with `;`, and not with `{word[0]}`"
    if re.fullmatch(r"\.{2,}", word):
        return f"each `.` takes one field: write `{' '.join(word)}`"
    if re.fullmatch(r"[-+]?[\d.]+%", word):
        return f"write `{float(word[:-1]) / 100:g}`"
    if re.fullmatch(r"[-+]?[\d.]+", word):
        return "a number has one decimal point at most"
    if re.fullmatch(r"\d+/\d+|\d+:\d+", word):
        return "write a number with a decimal point"
    if re.match(r"[-+]{2}|.+[-+]$|[-+]$", word):
        return "a sign must be directly before the number, and `+` alone may be p2 only"
    return "write a number"


def of_commas(it, line):
    """Of commas in a line."""
    whole = re.sub(r"\s*,\s*", " ", line.strip()).replace(" ,", " ")
    words = line[1:].split()
    thousands = re.search(r"(?<![\d,.])\d{1,3},000(?![,\d])", line)
    if thousands:
        number = thousands[0].replace(",", "")
        return [f"`{thousands[0]}`: a number has no comma between its digits: write `{number}`."]
    if len(words) > 2 and line.count(",") > 1 and all(re.fullmatch(r"[^,]*|\d*,\d+", it) for it in words):
        return [f"A number has a decimal point, and no comma: write `{line.strip().replace(',', '.')}`."]
    decimal = re.search(r"(?<![\d,])(\d*),(\d+)(?![,\d])", line)
    if decimal and line.count(",") == 1 and not re.search(r",\s|\s,", line):
        return [f"`{decimal[0]}`: a number has a decimal point, and no comma: write `{decimal[1]}.{decimal[2]}`."]
    return [f"Fields are separated by blanks, without commas: write `{whole}`."]


def of_number(score, it):
    """Of a field that is no number, or is out of range (kind 2)."""
    line = it.text
    if "," in line:
        return of_commas(it, line)
    for at, word in enumerate(it.fields):
        is_mark = it.letter == "i" and (word == "." or at == 1 and re.match(r"\+$|\^\+", word))
        if is_mark or NUMBER.match(word):
            continue
        follows = it.fields[at + 1 : at + 2]
        if at >= 2 and re.fullmatch(r"[ifte]\d*", word) and (word in "e" or follows and NUMBER.match(follows[0])):
            return [f"{it.named(at)}, begins a second statement: write it in a line of its own."]
        alike = word.translate(hints.ALIKE)
        if at == 0 and it.letter == "i" and alike != word and NUMBER.match(alike):
            letter = next(one for one in word if one in hints.SPOKEN)
            return [f"`i{word}` has {hints.SPOKEN[letter]}: write `i{alike}`."]
        if at == 0 and it.letter == "t" and re.fullmatch(r"[\d.]+[:=,][\d.]+", word):
            return [f"Fields are separated by blanks: write `t {re.sub('[:=,]', ' ', word)}`."]
        if at == 0 and re.match(r"[A-Za-z_]", word):
            return of_word(it)
        if it.letter == "f" and at == 3 and re.match(r"[A-Za-z_]", word):
            return [
                f"`{word}`: a GEN is a number: 10 adds harmonics, 7 has straight lines, 2 has the points themselves."
            ]
        return [f"{it.named(at)}, is no number: {mend_of(word, it.whole)}."]
    return of_range(it)


def of_range(it):
    """Of a number out of range."""
    least = {"i": "An instrument's number is from 1 to 32767", "f": "A table's number is an integer from 1 to 65535"}
    number = it.number(0)
    if it.letter in least and number is not None and (not 1 <= number <= (32767 if it.letter == "i" else 65535)):
        return [f"{least[it.letter]}, and this line has {it.fields[0]}: write another number."]
    for at, word in enumerate(it.fields):
        number = it.number(at)
        if it.letter == "f" and at in (0, 2, 3) and number is not None and number != int(number):
            return [f"{it.named(at)}, must be an integer."]
        if number is not None and abs(number) >= 2147483648:
            return [f"{it.named(at)}, is too large: numbers go up to 2147483647."]
    times = "A start, and the end of a note, must be before beat 10,000,000"
    return [f"{times}: write smaller numbers for p2 and p3." if it.letter == "i" else f"{times}."]


def of_missing(score, it):
    """Of a statement with too few fields (kind 3)."""
    has = f"`{it.text}` has {len(it.fields)} field{'' if len(it.fields) == 1 else 's'}"
    if it.letter == "i":
        needs = "An `i` needs three fields: instrument, start and duration"
        return [f"{needs}. {has}: write it as `i1 0 1`, for example."]
    if it.letter == "f":
        needs = "a table needs four: number, time, size and GEN, as `f1 0 4096 10 1`"
        return [f"{has}, and {needs}." if it.fields[:1] != ["0"] else "`f 0` needs a time: write `f 0 10`."]
    if it.letter == "t" and it.fields:
        return [
            f"A `t` has pairs of beat and tempo, and {has.replace('has', 'has only', 1) if not it.fields else has}."
        ]
    needs = {"t": "A `t` needs a beat and a tempo: write `t 0 60`.", "b": "A `b` needs a time: write `b 0`."}
    return [needs.get(it.letter, "")]


def of_carry(score, it):
    """Of a field that is to be taken from the line before where nothing can be taken (kind 4)."""
    before = score.before(it)
    mark = next((word for word in it.fields if word in (".", "+") or word.startswith("^")), None)
    what = f"`{mark}` takes" if mark else "A field that is left off takes"
    if before is None or before.letter != "i":
        last = f"line {before.line} is no `i`" if before else "there is no earlier `i`"
        return [f"{what} its value from the `i` right before, and {last}: write the number."]
    if before.fields[:1] != it.fields[:1]:
        one = f"line {before.line} is of instrument {before.fields[0] if before.fields else '?'}"
        return [f"{what} its value from an `i` of the same instrument right before, and {one}: write the number."]
    return [f"{what} its value from line {before.line}, which lacks it: write the number."]


def of_tempo(score, it):
    """Of a `t` whose beats or tempi are out of range (kind 5)."""
    numbers = [it.number(at) for at in range(len(it.fields))]
    if len(numbers) == 1:
        return [f"A `t` has pairs of beat and tempo: write `t 0 {it.fields[0]}`."]
    if numbers[0] != 0:
        tempo = it.fields[0] if numbers[0] and numbers[0] > 20 and not numbers[1] else it.fields[1]
        return [f"The first beat of a `t` must be 0: write `t 0 {tempo}`."]
    for at in range(0, len(numbers) - 1, 2):
        if at and None not in (numbers[at], numbers[at - 2]) and numbers[at] < numbers[at - 2]:
            return [f"The beats of a `t` must be ascending, and beat {it.fields[at]} comes after {it.fields[at - 2]}."]
        if numbers[at + 1] is not None and not 1 <= numbers[at + 1] <= 60000:
            return [f"A tempo is from 1 to 60000 beats a minute: `{it.fields[at + 1]}` isn't."]
    return []


def of_gen(score, it):
    """Of a table's rule that isn't there (kind 6)."""
    gen = it.number(3)
    if gen is None:
        return []
    if abs(gen) == 7:
        return [
            "A length of GEN 7 is below 0: the fields after the 7 are a value, a length, a value, a length and so on."
        ]
    text = pages.row_of("score", f"GEN{abs(int(gen)):02d}") or pages.row_of("score", "GEN09")
    return [f"csplay has no GEN {abs(int(gen))}: use GEN 2, 7 or 10.", *([f"docs/CSOUND.md: {text}."] if text else [])]


def of_size(score, it):
    fields = re.findall(r"[-+.\w]+", it.text[1:])
    if len(fields) > 2 and fields[2].lstrip("-") in ("2", "7", "10") and (it.number(1) or 0) >= 4 and len(fields) < 6:
        return [f"The time is missing, the second field: write `f{fields[0]} 0 {' '.join(fields[1:])}`."]
    size = int(float(fields[2])) if len(fields) > 2 and NUMBER.match(fields[2]) else 0
    if size < 2:
        return ["A size is a power of two, 2, 4, 8 to 65536, or one more; it doesn't follow from the arguments."]
    below = 1 << (size.bit_length() - 1)
    near = f"{min(below, 65536)} or {min(2 * below, 65536)}" if below < 65536 else "65536"
    return [f"A table's size is a power of two from 2 to 65536, or one more: write {near} instead of {fields[2]}."]


def of_resized(score, it):
    for other in score.statements:
        if other.letter == "f" and other.number(0) == it.number(0) and other.line < it.line and len(other.fields) > 2:
            one = f"`f{it.fields[0]}` has size {other.fields[2]} in line {other.line}"
            return [f"{one}: give it the same size here, or another number to this table."]
    return []


def of_sign(score, it):
    for at, word in enumerate(it.fields[: 2 if it.letter in "if" else 1]):
        if (it.number(at) or 0) < 0:
            name = {"i": "p2", "f": "the time of a table"}.get(it.letter, "the base of a `b`")
            return [f"{name} is below 0 (`{word}`): times begin at 0."]
    return ["p2 is below 0 after its base (`b`) or its `+`: times begin at 0."]


def of_word(it):
    """Of a line that begins with a word."""
    word = re.match(r"\w+", it.text)[0]
    rest = it.text[len(word) :].split()
    if "=" in it.text or rest and (rest[0] in pages.opcodes() or word in pages.opcodes() and len(rest)):
        if re.match(r"\w+\s*[=+]|g?[aki]\w*\s+[a-z]|out", it.text):
            return ["This is a line of an orchestra, and no line of a score: move it into an instrument."]
    if said := foreign.of_score(word, rest[0] if rest else ""):
        return said
    if re.match(r"i[A-Za-z_]+$", word) and rest and NUMBER.match(rest[0]):
        return [f"An instrument has a number, and no name: write `i1` instead of `{word}`."]
    if it.letter == "e" and word == "e":
        field = it.fields[0] if it.fields and NUMBER.match(it.fields[0]) else ""
        length = f"; for a length write `f0 {field}` before it" if field else ""
        return [f"`e` has no field: write `e` only{length}."]
    return [f"`{word}` is no line of a score: a line begins with {LETTERS}, and then has numbers."]


def of_profile(score, it):
    """Of a sign or a letter that the profile lacks (kind 10)."""
    line, head = it.text, it.letter
    if head in "IFTSEB" and re.match(r"[IFTSEB]\s*[-\d.+\"]|[SE]$", line):
        return [f"`{head}` is in capitals: write a small `{head.lower()}`."]
    is_word = not re.match(r"[ift]", head) and re.match(r"[A-Za-z_]{2}", line)
    if head in "e" or head == "a" and not re.match(r"a\s*[\d.]", line) or is_word:
        return of_word(it)
    if '"' in line and head == "i" and re.match(r'i\s*"', line):
        name = line.partition('"')[2].partition('"')[0]
        return hints.row("Bell", f'instrument with the name "{name}"', place="score")
    if '"' in line and head == "i":
        return hints.row('i1 0 1 "x"', "text as a field", place="score")
    bracket = re.match(r"([ift])\s*\(\s*(\d+)\s*\)", line)
    if bracket:
        return [f"A statement has no brackets: write `{bracket[1]}{bracket[2]}`."]
    if named := re.search(r"(\w+)=([-+]?[\d.]+)", line):
        return [f"`{named[0]}`: fields have no names: write `{named[2]}`."]
    if caret := re.search(r"\^(?!\+[\d.])\S*", line):
        return [f"`{caret[0]}`: `^` is followed by `+` and a number: write `^+1` for a start 1 after the last one's."]
    if head == "f" and re.match(r"f\s*\S+\s+\S+\s+\S+\s+-?1\s", line):
        return ["csplay reads no sound files: fill the table with GEN 2, 7 or 10."]
    if head == "f" and '"' in line and re.match(r'f\s*\S+\s+\S+\s+\S+\s+"', line):
        return ["A GEN is a number: 10 adds harmonics, 7 has straight lines, 2 has the points themselves."]
    if head == "a" and re.match(r"a\w*\s*(=|[a-z])", line):
        return of_word(it)
    found = re.search(r"\[([^\]]*)\]?", line)
    if found:
        number = value(found[1])
        better = f"write the result, `{number}`" if number else "write the result as a number"
        return [f"`{found[0]}`: csplay works out no expressions in a score: {better}."]
    for sign in ("<", ">", ")", "!", "~", "np", "pp", "$", '"', "#", "{", "@"):
        if sign in line:
            key = {"np": "np4", "pp": "pp4"}.get(sign, "x" if sign == '"' else sign)
            return hints.row(key, f"`{sign}`", place="score")
    if head == "i" and re.match(r"i\s*\d+\.\d*[1-9]", line):
        whole = re.match(r"i\s*(\d+)", line)[1]
        return [f"csplay has no fraction of an instrument's number: write `i{whole}`."]
    if head == "f":
        return ["csplay takes no table away: remove the line."]
    key = {"d": "d1"}.get(head, head)
    if head in "iftbs":
        return []
    return hints.row(key, f"`{head}`", True, place="score") or of_word(it)


def of_statement(score, it):
    """Of a statement that begins with no letter, or has too many fields (kind 1)."""
    if it.letter == "i":
        return [f"This `i` has {len(it.fields)} fields, and a note has 100 at most."]
    if said := characters.of_byte(it.letter):
        return characters.of_byte(it.whole) or said
    if it.letter == "#" and not re.match(r"#\s*(define|include|if|undef|end)", it.text) or it.letter in "-*%'/":
        return [f"csplay has no comments with `{it.letter}`: a comment begins with `;`."]
    if it.letter in "#{}":
        return hints.row(it.letter, f"`{it.letter}`", place="score")
    if it.letter.isdigit():
        return [f"A line of a score begins with a letter: write `i{it.text}` if this is a note."]
    return [f"`{it.letter}` begins no line of a score: a line begins with {LETTERS}."]


OF_KIND = {1: of_statement, 2: of_number, 3: of_missing, 4: of_carry, 5: of_tempo, 6: of_gen, 7: of_size}
OF_KIND |= {8: of_resized, 9: of_sign, 10: of_profile}


def about(score, line, kind):
    """What to do about a fault of this kind in this line of a score; none where nothing is known but the kind."""
    it = score.at(line)
    if it is None:
        return []
    if it.text.startswith(("instr", "endin", "<Cs", "sr ", "sr=")):
        return ["This is no line of a score: the orchestra is named first, and then the score."]
    if kind == 3 and ";" in score.raw(line):
        return ["A `;` begins a comment, so the rest of the line isn't read: separate the fields by blanks."]
    return [one for one in OF_KIND.get(kind, lambda *_: [])(score, it) if one]


def unmistakable(it):
    """The sign or word of a statement that is refused whatever stands around it; none if it has none."""
    if it.letter not in "iftbse" or re.match(r"[A-Za-z_]{3}", it.text):
        return (re.match(r"\w+|.", it.text) or [""])[0]
    if it.letter not in "ift":
        return ""
    for at, word in enumerate(it.fields):
        is_mark = it.letter == "i" and (word == "." or at == 1 and re.match(r"\+$|\^\+", word))
        if not is_mark and not NUMBER.match(word):
            found = re.search(r'[\[<>!~$"){]|^[np]p\d', word)
            return found[0] if found else word
    return ""


def others(score, line):
    """All further lines of the score with a fault that can't be mistaken; none if there are none."""
    found = [(it.line, unmistakable(it)) for it in score.statements if it.line > line]
    found = [f"{at} (`{word}`)" for at, word in found if word]
    more = f" and {len(found) - 12} more" if len(found) > 12 else ""
    lines = "Further lines" if len(found) > 1 else "A further line"
    return [f"{lines} of the score with such a fault: {', '.join(found[:12])}{more}."] if found else []


def about_csd(text, line, kind):
    """The same of a file with both texts: `line` is that which is told."""
    lacking = [it for it in TAGS if not re.search(rf"(?m)^[ \t]*{re.escape(it)}[ \t\r]*$", text)]
    tag = re.match(r"\s*<\s*/?\s*\w*\s*>?", line)
    if kind == 1 and lacking:
        return of_tag(text, lacking)
    if kind == 2:
        found = [at for at, it in enumerate(text.split("\n"), 1) if it.strip() == line.strip()]
        again = [f"`{line.strip()}` is in line {found[0]} already: put what belongs together into one section."]
        return again if len(found) > 1 else []
    if kind == 3 and tag:
        bare = re.sub(r"\s", "", tag[0]).rstrip(">") + ">"
        bare = bare.replace("\\", "/")
        like = next((it for it in TAGS + OPTIONS if it.lower() == bare.lower()), None)
        like = like or next(iter(hints.alike(bare, TAGS + OPTIONS, 0.8)), None)
        if bare in TAGS:
            return [f"A tag has nothing else in its line: write `{bare}`, and the rest in another line."]
        if like:
            return [f"csplay has no tag `{line.strip()}`: write `{like}`."]
    if kind == 3:
        if line.strip().startswith(("/", "#", "*", "-")):
            return ["Between sections a comment begins with `;`."]
        if tag:
            return hints.row("<CsLicense>", f"section `{line.strip()[:40]}`", place="csd")
        return overlapping(text) or [
            f"`{line.strip()[:40]}` is outside the sections: move it into one, or begin the line with `;`."
        ]
    return []


def overlapping(text):
    """Of a section that begins in another one."""
    opened = None
    for at, line in enumerate(text.split("\n"), 1):
        tag = line.strip()
        if tag in ("<CsInstruments>", "<CsScore>", "<CsOptions>"):
            if opened:
                return [
                    f"`{tag}` in line {at} is inside the section `{opened}`: write `{opened.replace('<', '</')}` "
                    "before it."
                ]
            opened = tag
        elif opened and tag == opened.replace("<", "</"):
            opened = None
    return []


def of_tag(text, lacking):
    """Of a tag that is missing, or is written in another way."""
    for it in lacking:
        found = re.search(rf"(?mi)^.*{re.escape(it)}.*$", text)
        if found:
            return [f"`{found[0].strip()}`: a tag has nothing else in its line: write `{it}`."]
    for at, line in enumerate(text.split("\n"), 1):
        bare = re.sub(r"\s", "", line).replace("\\", "/")
        if bare != line.strip() and bare in lacking:
            return [f"`{line.strip()}` in line {at} is no tag: write `{bare}`."]
        like = hints.alike(bare, lacking, 0.85) if line.strip().startswith("<") and bare not in TAGS + OPTIONS else []
        if like:
            return [f"`{line.strip()}` in line {at} is no tag: write `{like[0]}`."]
    opened = [it for it in lacking if it.startswith("</") and it.replace("/", "") not in lacking]
    it = next((it for it in (opened or lacking) if it not in ("<CsScore>", "</CsScore>") or it in opened), lacking[0])
    return [f"`{it}` is missing: write it in a line of its own."]
