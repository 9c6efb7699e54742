"""What to do about a refused line of an orchestra, for `play`: the word or sign that doesn't fit, the row of a page
that has it, and the mend."""
import re

import foreign
import pages
from orchestra import COMPARISONS, JOINS

RATE = "a name begins with its rate, i, k or a, or with gi, gk or ga if notes share it"
ALIKE = str.maketrans("lIOo", "1100")
SPOKEN = {"l": "the letter `l` instead of the digit 1", "I": "the letter `I` instead of the digit 1"}
SPOKEN |= {it: f"the letter `{it}` instead of the digit 0" for it in "Oo"}


def alike(word, known, least=0.7, most=1):
    """The known words that are written most like this one."""
    import difflib

    return difflib.get_close_matches(word, list(known), most, least)


def near(word, known):
    """The known words that are written most like this one, as a sentence's part; empty if none is near."""
    found = alike(word.lower(), known, most=2)
    return " or ".join(f"`{it}`" for it in found)


def row(key, what=None, is_first=False, place="orchestra"):
    """The row of docs/CSOUND.md on a word or form, as a sentence."""
    text = pages.row_of(place, key, is_first)
    what = what or f"`{key.rstrip('(')}`"
    return [f"csplay has no {what.removeprefix('no ')}. What to do (docs/CSOUND.md): {text}."] if text else []


def any_row(word):
    """The row on a word, whether a form begins with it, has it, or has it before a bracket; none on a name."""
    if re.fullmatch(r"g?[aki]([0-9]+|Arr|Sine|x|y)?", word):
        return []
    return row(word, is_first=True) or row(word) or row(f"{word}(", is_first=True) or row(f"{word}(")


def called(word):
    return [f"The call is `{pages.opcodes()[word]}` ({pages.place(word)})."] if word in pages.opcodes() else []


def digit_for_letter(word, known):
    """Of a word that differs from a known one by a letter that looks like a digit."""
    for it in known:
        if it != word and it.translate(ALIKE) == word.translate(ALIKE):
            letter = next((one for one, two in zip(word, it) if one != two), "")
            if letter in SPOKEN:
                return [f"`{word}` has {SPOKEN[letter]}: write `{it}`."]
    return []


def unknown_opcode(orchestra, line, word):
    """What to say of a word at an opcode's place that is none."""
    if word in orchestra.defined:
        at = orchestra.defined[word]
        if line in orchestra.body_of(at):
            return [f"`{word}` is called inside its own definition, which begins in line {at}; it can't call itself."]
        return [f"`{word}` is defined in line {at}, and a call must come after its `endop`: move the definition up."]
    for it, at in orchestra.defined.items():
        if it.lower() == word.lower():
            return [f"csplay has no opcode `{word}`. Is it `{it}`, which line {at} defines?"]
    if word.lower() in pages.opcodes():
        return [f"An opcode's name is in small letters: write `{word.lower()}` instead of `{word}`."]
    if word.lower() in pages.keywords():
        return [f"A keyword is in small letters: write `{word.lower()}` instead of `{word}`."]
    if re.match(r"g?S[A-Z_a-z0-9]", word) and word == orchestra.lines[line][0]:
        return row("S1", "strings as variables")
    found = orchestra.lines.get(line, [])
    if found[:1] == [word] and pages.is_name(word) and word in orchestra.given(orchestra.body_of(line)):
        return [f"`{word}` is a variable: after it there must be `=` or an opcode, as `{word} = ..`."]
    if said := any_row(word):
        return said
    if like := near(word, [*pages.opcodes(), *orchestra.defined, *pages.keywords()]):
        return [f"csplay has no opcode `{word}`. Did you mean {like}? (docs/manual has all opcodes)"]
    if said := written_otherwise(orchestra, line):
        return said
    if "=" in found[2:3] and found[:1] == [word]:
        return [f"`{word} {found[1]}` can't be a name: a name is one word of letters, digits and `_`."]
    if found[:1] == [word] and pages.is_name(word):
        return [f"After a name there must be `=` or an opcode: `{word} = ..`; csplay has no opcode `{word}`."]
    return [f"csplay has no opcode `{word}`. docs/manual has all opcodes."]


def hyphen(orchestra, found):
    """Of a name that is written with a hyphen."""
    if len(found) > 2 and found[1] == "-" and re.match(r"[A-Za-z_]", found[0]) and re.match(r"\w+$", found[2]):
        is_like = orchestra.known((found + [""])[3]) or found[3:4] == ["="] or not pages.is_name(found[2])
        if is_like and not orchestra.known(found[0]):
            return [f"A name has no hyphen: write `{found[0]}{found[2]}` or `{found[0]}_{found[2]}`."]
    return []


def of_head(orchestra, found):
    """Of a line whose first words tell what was meant."""
    head, second = found[0], (found + [""])[1]
    if head == "instr":
        if "{" in found:
            return ["There are no braces: an instrument ends with a line `endin`. Remove the `{`."]
        if second in ("", ";"):
            return ["`instr` needs a number: write `instr 1`."]
        if re.fullmatch(r"\d+", second):
            odd = next((it for it in found[2:] if it != "," and not it.isdigit()), "")
            return [f"After the number of an instrument its line ends: remove `{odd}`."] if odd else []
        return row("Bell", f"instrument with the name `{second}`")
    if head == "#" and second.lower() not in ("define", "include", "ifdef", "ifndef", "undef", "end", "endif", "else"):
        return ["csplay has no comments with `#`: a comment begins with `;`."]
    if second == ":" and found[2:3] == ["="]:
        if orchestra.known((found + [""] * 4)[3]):
            return [f"An opcode's result has no sign: write `{head} {found[3]} ..`."]
        return ["write `=` instead of `:=`."]
    if "{" in found and "}" in found:
        return ["csplay has no `{ }` around values: write round brackets, `( )`."]
    if "{" in found or "}" in found:
        return ["There are no braces: an `if .. then` ends with a line `endif`, and an instrument with a line `endin`."]
    if head == "end" and second in ("if", "in", "instr", "op"):
        return [f"Write `end{'in' if second == 'instr' else second}`, in one word."]
    if head.lower() in foreign.HEADS and second not in ("=", "+="):
        return [f"csplay has no `{head}`: {foreign.HEADS[head.lower()]}."]
    if second == ":" and re.match(r"[A-Za-z_]", head) and "(" not in found:
        return row("goto", f"label `{head}:`, and no jumps")
    return hyphen(orchestra, found)


def not_in_profile(orchestra, line):
    found = orchestra.lines.get(line, [])
    if not found:
        return []
    if found[0] == "opcode":
        return types_of(found)
    if said := of_head(orchestra, found) or field(found) or written_otherwise(orchestra, line):
        return said
    if (word := orchestra.word_of(line)) in orchestra.defined and found[0] == word:
        return unknown_opcode(orchestra, line, word)
    if found[1:2] == ["="] and found[2:3] and orchestra.known(found[2]) and found[3:4] != ["("]:
        return [f"An opcode's result has no `=`: write `{found[0]} {found[2]} ..`.", *called(found[2])]
    lacking = orchestra.lacking(line)
    for it in lacking:
        if it.endswith("("):
            return function(it, orchestra, found)
        if it in pages.outside() or not re.match(r"[A-Za-z_]", it):
            said = row(it, is_first=it in pages.outside()) or row(it)
            if said or it == lacking[-1]:
                return said
        elif said := misspelt(orchestra, line, it):
            return said
    return bad_name(orchestra, found)


def written_otherwise(orchestra, line):
    """Of a form of other languages: a name, an operator, brackets, a text without its marks."""
    found, text = orchestra.lines[line], orchestra.plain(line)
    said = foreign.of_line(text) or foreign.of_name(orchestra, found, text) or foreign.of_operator(found)
    said = said or foreign.of_pitch(text) or foreign.of_percent(text) or foreign.of_function(found) or foreign.of_brackets(found)
    said = said or foreign.of_product(orchestra, found) or foreign.of_assignment(found)
    said = said or foreign.of_index(orchestra, found)
    if said:
        return said
    if found[0] in ("if", "elseif"):
        import unexpected

        other = next((it for it in ("&", "|", "!") if it in found), None)
        return unexpected.of_condition(found) if other else []
    return unquoted(orchestra, line)


def unquoted(orchestra, line):
    """Of a call whose text isn't in quotation marks, or is another than the opcode takes."""
    import calls

    call = calls.Call(orchestra, line)
    if call.word == "event_i" and call.given:
        first = re.search(r"event_i\s+([^,]*)", orchestra.plain(line))
        if first and first[1].strip() in ('"f"', "'f'", "f"):
            return ["`event_i` makes no tables: write the table as a line of the score, as `f2 0 8192 10 1`."]
        if first and first[1].strip() != '"i"':
            return [f'The first argument of `event_i` is the text `"i"`: write it instead of `{first[1].strip()}`.']
    if call.word in pages.opcodes():
        takes = calls.Signature(orchestra, call.word)
        for at, tokens in enumerate(call.given):
            if takes.letter(at)[0] == "S" and len(tokens) == 1 and re.match(r"[A-Za-z_]", tokens[0]):
                return [f'A channel\'s name is in quotation marks: write `"{tokens[0]}"`.']
    return []


def misspelt(orchestra, line, word):
    """Of a word that is read as a result, since a word stands behind it."""
    found = orchestra.lines[line]
    at = orchestra.opcode_of(found)
    if at is not None and found[at] == word:
        after = found[at + 1] if at + 1 < len(found) else ""
        if at == 0 and orchestra.known(after):
            return no_name(word)
        return unknown_opcode(orchestra, line, word)
    return []


# The definitions of examples/csound.orc for functions of Csound's, at rates i, k and a.
COPIED = {"sqrt": ("SqrtI", "Sqrt", ""), "exp": ("ExpI", "Exp", ""), "ampdb": ("AmpdbI", "Ampdb", "")}
COPIED |= {"db": COPIED["ampdb"], "ampdbfs": ("AmpdbfsI", "Ampdbfs", ""), "tanh": ("", "Tanh", "TanhA")}
COPIED |= {"pow": ("PowI", "", ""), "log": ("Log", "", "")}


def copied(word, orchestra, found):
    """Of a function that a definition of examples/csound.orc stands for: the line to write."""
    import calls

    begin = end = found.index(word) + 1
    depth = 0
    while end < len(found) and (depth or end == begin):
        depth += (found[end] == "(") - (found[end] == ")")
        end += 1
    if depth or found[begin : begin + 1] != ["("]:
        return []
    slowest = calls.ORDER.find(calls.rate_of(found[begin + 1 : end - 1]))
    rate, name = next(((it, to) for it, to in list(zip(calls.ORDER, COPIED[word]))[slowest:] if to), ("", ""))
    if not name:
        return []
    is_whole = found[1:2] == ["="] and begin == 3 and end == len(found) and found[0].lstrip("g").startswith(rate)
    result = found[0] if is_whole else f"{rate}new"
    line = f"`{result} {name} {calls.listed(found[begin + 1 : end - 1])}`"
    where = "" if is_whole else f" in a line before, and `{result}` here"
    copy = ". Copy its definition, and those that it calls, from `examples/csound.orc`"
    known = "" if name in orchestra.defined else copy
    return [f"csplay has no `{word}`: write {line}{where}{known}."]


def function(key, orchestra, found):
    word = key[:-1]
    if orchestra.known(word):
        own = f"`{word}` is an opcode: it needs a line of its own, as `a1 {word} ..`, before this line."
        return [own, *called(word)]
    if word.lower() in pages.FUNCTIONS:
        return [f"A function's name is in small letters: write `{word.lower()}(..)`."]
    said = copied(word, orchestra, found) if word in COPIED and word in found else []
    said = said or row(key, is_first=True) or row(key) or row(word, is_first=True) or row(word)
    like = near(word, pages.FUNCTIONS)
    has = "csplay's functions are `int`, `frac`, `abs`, `floor`, `cpspch` and `i`."
    return said or [f"csplay has no function `{word}`. {has}" + (f" Did you mean {like}?" if like else "")]


def no_name(word):
    """Of a word that can't be a variable's name."""
    if word.lower() in pages.FUNCTIONS | pages.headers() | pages.opcodes().keys():
        return [f"`{word}` can't be a name: csplay has the word already."]
    if re.match(r"g?S[A-Z_a-z0-9]", word):
        return row("S1", "strings as variables")
    if pages.is_name(word.lower()):
        return [f"`{word}` can't be a name: {RATE}, in small letters. Write `{word[:2].lower()}{word[2:]}`."]
    return [f"`{word}` can't be a name: {RATE}. Write `a{word}` for a sound, `k{word}` or `i{word}` for a value."]


def field(found):
    """Of a field, or a table's number, that is written in another way."""
    for at, it in enumerate(found):
        if re.fullmatch(r"p\d+", it) and (it[1] == "0" or int(it[1:]) > 100):
            return [f"`{it}` is no field: a note's fields are from `p1` to `p100`, without leading zeros."]
        if re.fullmatch(r"P\d+", it):
            return [f"A field has a small letter: write `{it.lower()}` instead of `{it}`."]
        if it in ("p", "P") and re.fullmatch(r"\d+", (found + [""])[at + 1]):
            return [f"A field is one word: write `p{found[at + 1]}` instead of `{it} {found[at + 1]}`."]
        if re.fullmatch(r"[fF]\d+", it) and at and (found[at - 1] in (",", "=") or at > 1):
            return [f"`{it}`: write the table's number, `{it[1:]}`, without a letter."]
    return []


def bad_name(orchestra, found):
    import headers

    known = pages.opcodes().keys() | pages.headers() | pages.keywords() | orchestra.defined.keys() | pages.FUNCTIONS
    if found[1:2] in (["="], ["+="]) and (found[0] in pages.opcodes() or found[0] in pages.FUNCTIONS):
        return [f"`{found[0]}` can't be a name, since csplay has the word: write `k{found[0]}`, for example."]
    for at, it in enumerate(found):
        if re.match(r"p\d+$", it):
            continue
        if re.match(r"[A-Za-z_]", it) and it not in known and not pages.is_name(it):
            if it in ("true", "True", "false", "False", "pi", "PI"):
                number = {"t": "1", "T": "1", "p": "3.14159", "P": "3.14159"}.get(it[0], "0")
                return [f"csplay has no `{it}`: write the number, `{number}`."]
            if found[1:2] == ["="] and at == 0 and (said := headers.misspelt(found)):
                return said
            said = digit_for_letter(it, orchestra.given(orchestra.lines)) or (row(it) if it[0] == "A" else [])
            return said or no_name(it)
        if it in pages.keywords() and at and it != "then":
            return [f"`{it}` is a keyword, and no value: write it in a line of its own."]
        if it in pages.opcodes() and at and it != found[orchestra.opcode_of(found) or 0]:
            return [
                f"`{it}` is an opcode, and no value: write `{it}` in a line before, or give the variable another name."
            ]
    return []


def types_of(found):
    """Of a line of `opcode` with a letter that isn't there."""
    letters = "".join(it for it in found[2:] if re.match(r"[A-Za-z]", it))
    other = next((it for it in letters if it not in "aki"), "")
    is_text = other == "S" or "[" in found
    said = row("S", "strings and arrays") if is_text else row("kO", f"type `{other}`")
    return [*said, "The letters of a definition's results and inputs are `a`, `k` and `i`; `0` stands for none."]


def values_of(orchestra, found):
    """The tokens of a statement that are read, without the name that it gives."""
    if found[1:2] == ["+="]:
        return found
    place = orchestra.opcode_of(found)
    return found[2 if found[1:2] == ["="] else place + 1 if place is not None else 0 :]


def undefined(orchestra, line):
    found, body = orchestra.lines.get(line, []), orchestra.body_of(line)
    before = orchestra.given(at for at in body if at < line)
    later, shared = orchestra.given(body), orchestra.given(orchestra.lines)
    for it in values_of(orchestra, found):
        if not pages.is_name(it) or orchestra.known(it) or it in before or it in pages.headers() | pages.FUNCTIONS:
            continue
        if it[0] == "g" and it in shared:
            continue
        said = f"`{it}` has no value before this line"
        visible = {**before, **{name: 1 for name in shared if name[0] == "g"}}
        if alike := digit_for_letter(it, visible):
            return alike
        if later.get(it, line) > line:
            return [f"{said}; line {later[it]} gives it one later. Move that line up, or write `{it} init 0` before."]
        if it in later:
            return [f"{said}, which is the first to give it one. Write `{it} init 0` before this line."]
        if like := near(it, visible):
            return [f"{said}. Did you mean {like}?"]
        if it.startswith("gi"):
            return [
                f"No line gives `{it}` a value: write `{it} init ..` outside instruments, or the table's number "
                "itself."
            ]
        if it in shared:
            at = shared[it]
            return [f"{said}. Line {at} gives it one in another instrument: to share it write `g{it}` in both places."]
        return [f"{said}. Write `{it} = ..` before it, or `{it} init 0` if it is counted up."]
    return []


def rates(orchestra, line):
    """Of a value that changes too often for its place, or is of another kind."""
    import calls

    found = orchestra.lines.get(line, [])
    if not found:
        return []
    if found[0] in ("if", "elseif"):
        values = ["`if` needs a comparison: write `if k2 != 0 then` instead of `if k2 then`."]
        return values if not condition_signs(found) else same_rate(found) or row("if k2 then", "value as a condition")
    if found[0] == "opcode":
        return calls.of_values(orchestra, line)
    if not orchestra.is_inside(line):
        return of_outside(orchestra, found)
    if said := calls.of_rates(orchestra, line):
        return said
    if orchestra.word_of(line) in pages.opcodes():
        return ["A result or an argument has a rate that this opcode doesn't take.", *called(orchestra.word_of(line))]
    if condition_signs(found) and "?" not in found:
        return [f"A comparison is no value: write `{found[0]} = ({calls.listed(found[2:])} ? 1 : 0)`."]
    slow = next((it for it in found[1:] if re.match(r"g?k", it)), None)
    if slow and re.match(r"g?i", found[0]) and not orchestra.begins_with(slow, line):
        mend = "work it out from numbers, fields and names that begin with `i`, or make the result k-rate"
        return [f"`{slow}` changes while the note plays, and has no value yet when the note begins: {mend}."]
    return same_rate(found)


def of_outside(orchestra, found):
    """Of a statement outside instruments that can't be there."""
    if re.match(r"g?[ak]", found[0]) and found[1:2] == ["="]:
        return [
            f"Outside instruments `=` gives values to names with `i` only: write `{found[0]} init "
            f"{' '.join(found[2:])}`."
        ]
    word = orchestra.opcode_of(found)
    if word is not None and orchestra.known(found[word]) and found[word] != "init":
        return [
            f"`{found[word]}` must be inside an instrument: outside there are only header lines, `init` and `zakinit`."
        ]
    return row("gk1", "`=` for control values outside instruments")


def condition_signs(found):
    return any(it in (*COMPARISONS, *JOINS) for it in found)


def same_rate(found):
    fast = [it for it in found[1:] if re.match(r"g?a", it) and it not in pages.FUNCTIONS]
    slow = [it for it in found[1:] if re.match(r"g?k", it)]
    if fast and re.match(r"g?[ki]|if|elseif", found[0]):
        return [f"`{fast[0]}` is a sound: write `kval downsamp {fast[0]}` in a line before, and `kval` here."]
    if slow and re.match(r"g?i", found[0]):
        return [f"`{slow[0]}` changes while the note plays: write `i({slow[0]})`, its value as the note begins."]
    return []


def unended(orchestra, line):
    """Of a text in which an `endin`, `endop` or `endif` is missing: a line that is written like one, or what is open."""
    begin = line - 1
    while begin > orchestra.first and (orchestra.lines.get(begin) or [""])[0] not in ("instr", "opcode"):
        begin -= 1
    if begin < orchestra.first:
        return []
    word = (orchestra.lines.get(begin) or [""])[0]
    ends = {"instr": "endin", "opcode": "endop"}
    for at in range(begin, line + 1):
        found = orchestra.lines.get(at, [])
        head = found[0] if found else ""
        is_like = head not in pages.keywords() and len(found) < 3 and near(head, ["endin", "endop", "endif"])
        if head and is_like and not orchestra.known(head) or found[:1] == ["end"]:
            what = "an instrument ends with `endin`, a definition with `endop`, an `if` with `endif`"
            return [f"Line {at} has `{' '.join(found)}`: {what}."]
        if head in ends.values() and word in ends and head != ends[word]:
            return [f"Line {at} has `{head}`, and the `{word}` in line {begin} ends with `{ends[word]}`: write that."]
    opened = orchestra.open_ifs(line)
    if opened:
        return [f"The `if` in line {opened[-1]} isn't ended: write `endif` before this line."]
    if word not in ends:
        return []
    is_last = not any(orchestra.lines[at] for at in orchestra.lines if at > line)
    where = "at the end of the text" if is_last else "before this line"
    return [f"The `{word}` in line {begin} isn't ended: write `{ends[word]}` {where}."]


def twice(orchestra, line):
    """Of an instrument's or a definition's name that was given before."""
    found = orchestra.lines.get(line, [])
    if found[:1] == ["opcode"]:
        first = next(at for at, it in orchestra.lines.items() if it[:2] == found[:2])
        return [f"The opcode `{found[1]}` is defined in line {first} already: rename one of the two."]
    seen = set()
    for it in found[1:]:
        if it.isdigit() and (int(it) in seen or orchestra.instruments.get(int(it), line) < line):
            which = orchestra.instruments[int(it)]
            return [f"Instrument {it} is in line {which} already: give one of the two another number."]
        seen.add(int(it) if it.isdigit() else it)
    return []


def of_number(orchestra, line):
    number = next((it for it in orchestra.lines.get(line, [])[1:] if it != ","), "")
    return [f"`{number}` is no instrument's number: write an integer from 1 to 32767."]


def recursion(orchestra, line):
    word = orchestra.word_of(line)
    return [
        f"`{word}` calls itself, which no opcode can: write its steps out, or let a note ask for the next "
        "(`schedule`)."
    ]


def channel(orchestra, line):
    """Of a channel that is used with sounds and with control values."""
    for name in re.findall(r'"[^"]*"', orchestra.plain(line)):
        for at in orchestra.lines:
            if at != line and name in orchestra.plain(at):
                return [
                    f"The channel {name} has sounds in one of lines {at} and {line}, and control values in the other: "
                    "use two names."
                ]
    return []


def sounds(orchestra, line):
    import calls
    import headers

    call = calls.Call(orchestra, line)
    many, has = len(call.given), int(headers.value_of(orchestra, "nchnls") or 1)
    if call.word == "outs" and has == 1:
        return ["`outs` needs two channels: write `nchnls = 2` at the head of the text, or `out` with one sound."]
    return [
        f"`{call.word}` has {many} sounds, and `nchnls` is {has}: write `nchnls = {many}` at the head, or fewer "
        "sounds."
    ]


def count(orchestra, line):
    import calls

    return calls.of_count(orchestra, line)


def inputs(orchestra, line):
    import calls

    return calls.of_body(orchestra, line)


OF_KIND = {6: unended, 7: unended, 8: of_number, 9: twice, 10: unended, 11: not_in_profile, 13: undefined, 14: rates}
OF_KIND |= {15: count, 18: channel, 19: sounds, 20: recursion, 21: twice, 22: inputs, 23: unended}


def about(orchestra, line, kind):
    """What to do about a fault of this kind in this line; none where nothing is known but the kind."""
    import headers

    line = orchestra.begins.get(line, line)
    if kind > 2 and (said := headers.about(orchestra, line, kind)):
        return said
    if kind <= 4:
        import characters

        text, found = orchestra.plain(line), orchestra.lines.get(line, [])
        said = foreign.of_line(text) or found and foreign.of_name(orchestra, found, text) if kind in (2, 3) else []
        return said or characters.about(orchestra, line, kind)
    if kind == 5:
        import unexpected

        return unexpected.about(orchestra, line)
    if kind == 12:
        found = orchestra.lines.get(line, [])
        word = orchestra.word_of(line)
        return hyphen(orchestra, found) or unknown_opcode(orchestra, line, word) if word else []
    return OF_KIND[kind](orchestra, line) if kind in OF_KIND else []


def others(orchestra, line):
    """All other words of the text that csplay lacks; none if there are none."""
    found = orchestra.all_lacking(but=orchestra.lacking(line))
    words = [(at, f"`{it.rstrip('(') if not orchestra.known(it[:-1]) else it + '..)'}`") for it, at in found.items()]
    words = [(at, it) for at, it in words if re.match(r"`[A-Za-z_$]", it)]
    for at, it in orchestra.lines.items():
        if at != line and it[:1] == ["instr"] and it[1:2] and re.match(r"[A-Za-z_+]", it[1]):
            words.append((at, f"`instr {''.join(it[1:3])}`"))
        if at != line and "?" in it and "=" in it[:2] and it[2:3] != ["("]:
            words.append((at, "`? :` without brackets around it"))
        if at != line and re.match(r"g?S\w", (it + [""])[0]) and it[1:2] == ["="]:
            words.append((at, f"`{it[0]} = ..`"))
        if at != line and "$" in it:
            words.append((at, f"`${(it + [''])[it.index('$') + 1]}`"))
    words = [f"{it} (line {at})" for at, it in sorted(dict.fromkeys(words))]
    more = f" and {len(words) - 12} more" if len(words) > 12 else ""
    return [f"Other words of this text that csplay lacks: {', '.join(words[:12])}{more}."] if words else []
