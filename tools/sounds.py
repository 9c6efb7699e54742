"""What a piece of status 0 has that sounds wrong, or isn't heard, for `play`: from its report and its texts. It's a
rough reading: if it isn't sure, it says nothing."""
import math
import re

import pages
from calls import Call, Signature, counted
from orchestra import Orchestra
from statements import Score, notes_of

FULL = 32768
# A note longer than this many seconds that lacks a field has probably lost its duration.
LONG = 600
# Below this peak a piece without `0dbfs` is nearly silent.
SOFT = 100
# The places of the lengths of those opcodes that have some, among their arguments.
LENGTHS = {"line": lambda at: at == 1, "linen": lambda at: at == 2, "linseg": lambda at: at % 2}
DELAYED = 262144


class Piece:
    """An orchestra and a score, with what each instrument reads."""

    def __init__(self, orchestra, score):
        self.read, self.score = Orchestra(*orchestra), Score(*score)
        self.notes = notes_of(self.score)
        self.bodies = {}
        for number, line in self.read.instruments.items():
            self.bodies[number] = [at for at in self.read.body_of(line) if self.read.lines[at]]
        self.reads = {number: self.fields_of(body) for number, body in self.bodies.items()}

    def instrument_of(self, line):
        return next((it for it, body in self.bodies.items() if line in body), None)

    def fields_of(self, lines, seen=()):
        """The fields that these lines and the definitions that they call read, with the first line of each."""
        found = {}
        for at in lines:
            for it in self.read.lines[at]:
                if re.fullmatch(r"p[1-9]\d*", it):
                    found.setdefault(int(it[1:]), at)
            word = self.read.word_of(at)
            if word in self.read.defined and word not in seen:
                inner = self.read.body_of(self.read.defined[word])
                for it in self.fields_of(inner, (*seen, word)):
                    found.setdefault(it, at)
        return found

    def full(self):
        """Full scale."""
        found = next((it for it in self.read.lines.values() if it[:2] == ["0dbfs", "="] and len(it) > 2), None)
        return float(found[2]) if found else FULL

    def value_of(self, tokens, line):
        """The number that an argument's tokens stand for; None where it isn't one number throughout."""
        if len(tokens) == 1 and re.fullmatch(r"\d+\.?\d*|\.\d+", tokens[0]):
            return float(tokens[0])
        if len(tokens) == 2 and tokens[0] == "-" and (number := self.value_of(tokens[1:], line)) is not None:
            return -number
        if len(tokens) == 1 and re.match(r"g?i", tokens[0]):
            body = self.read.lines if tokens[0].startswith("g") else self.read.body_of(line)
            given = [self.read.lines[at] for at in body if self.read.lines[at][:1] == tokens]
            if len(given) == 1 and given[0][1:2] in (["="], ["init"]) and len(given[0]) == 3:
                return self.value_of(given[0][2:], line) if given[0][2] != tokens[0] else None
        return None


def listed(numbers):
    names = [f"p{it}" for it in numbers]
    return " and ".join([", ".join(names[:-1]), names[-1]] if len(names) > 1 else names)


def missing_fields(piece):
    """Notes that lack a field which their instrument reads, and notes whose duration seems to be missing."""
    what = []
    for number, reads in piece.reads.items():
        most = max(reads, default=0)
        lacking = [it for it in piece.notes if it.instrument == number and len(it.fields) < most]
        if not lacking:
            continue
        it = lacking[0]
        where = f"the note in line {it.line} of the score has {counted(len(it.fields), 'field')}"
        if (it.field(3) or 0) > LONG:
            lasts = f"The note in line {it.line} of the score lasts {it.field(3):g} seconds"
            what.append(f"{lasts}: is p3, its duration, missing?")
        more = f" (and {counted(len(lacking) - 1, 'other note')} too few)" if len(lacking) > 1 else ""
        named = listed([p for p in sorted(reads) if p > len(it.fields)])
        verb = "are" if " " in named else "is"
        what.append(f"Instrument {number} reads {named}, and {where}{more}: {named} {verb} 0 there.")
    return what


def lengths(piece):
    """Envelopes whose length is 0 or below."""
    for line in piece.read.lines:
        call = Call(piece.read, line)
        is_length = LENGTHS.get(call.word)
        for at, tokens in enumerate(call.given if is_length else []):
            if not is_length(at):
                continue
            number = piece.value_of(tokens, line)
            if number is not None and number <= 0 and call.word != "linseg":
                better = "write its length in seconds, above 0"
                return [f"`{call.word}` in line {line} of the orchestra has the length {number:g}: {better}."]
            if "p3" in tokens or any(is_duration(piece, it, line) for it in tokens):
                held = next((it for it in piece.notes if it.instrument == piece.instrument_of(line)
                             and (it.field(3) or 0) < 0), None)  # fmt: skip
                if held:
                    p3 = f"p3 is {held.field(3):g} in the held note of line {held.line} of the score"
                    return [f"{p3}, and `{call.word}` in line {line} of the orchestra takes it as a length: write a "
                            "length in seconds there, above 0."]  # fmt: skip
    return []


def is_duration(piece, name, line):
    """Whether a name is p3, by an assignment in its body."""
    return name[0] == "i" and any(piece.read.lines[at] == [name, "=", "p3"] for at in piece.read.body_of(line))


def unknown_yet(piece):
    """`i(k1)` of a value that isn't worked out as the note begins."""
    for line, found in piece.read.lines.items():
        for at, it in enumerate(found[:-2]):
            name = found[at + 2]
            if it != "i" or found[at + 1] != "(" or not re.match(r"k", name):
                continue
            if not piece.read.begins_with(name, line):
                mend = f"write `{name} init ..` before it, or work the value out with names that begin with `i`"
                return [
                    f"`i({name})` in line {line} of the orchestra is 0: `{name}` has no value yet when the note "
                    f"begins; {mend}."
                ]
    return []


def decibels(piece, peak):
    """Amplitudes that are decibels, by a negative p4 or a peak of some ten."""
    full = piece.full()
    for it in piece.notes:
        p4 = it.field(4)
        if p4 is not None and -100 < p4 < 0 and 4 in piece.reads.get(it.instrument, {}):
            if full == FULL and peak < SOFT or full != FULL and peak > full:
                amplitude = full * 10 ** (p4 / 20)
                text = f"{amplitude:.0f}" if full > 100 else f"{amplitude:.3f}"
                return [f"p4 is {p4:g} in line {it.line} of the score: an amplitude is no number of decibels. "
                        f"{p4:g} dB below full scale is {text}."]  # fmt: skip
    return []


def soft(piece, peak):
    """A piece that is heard as silence, since full scale is 32,768."""
    if piece.read.has("0dbfs") or peak >= SOFT:
        return []
    if peak <= 1:
        mend = "write `0dbfs = 1` at the head of the orchestra, or amplitudes of some thousands"
        return [f"`peak {peak:.5f}`: full scale is 32768, so this is silence. If amplitudes are parts of 1, {mend}."]
    return [f"`peak {peak:.5f}`: full scale is 32768, so this is nearly silent. Write amplitudes of some thousands; "
            f"if they are decibels, {peak:.0f} dB are {10 ** (peak / 20):.0f}."]  # fmt: skip


def loud(piece, told):
    peak, full = float(told["peak"]), piece.full()
    if told["out of range"] == "0":
        return []
    many = f"`out of range {told['out of range']}`: samples louder than full scale were clipped"
    if full <= 1 and peak > 100:
        return [
            f"{many}. With `0dbfs = {full:g}` amplitudes are parts of {full:g}: write .3 instead of 9000, for example."
        ]
    factor = math.floor(full / max(peak, 1e-9) * 1000) / 1000
    return [f"{many}. Multiply all amplitudes by {factor:.3f}, and the loudest sample fits exactly."]


def table_uses(piece):
    """Where a table's number is passed: pairs of line and the argument's tokens, through definitions too."""
    rows = {name: re.findall(r"\w+", call)[1:] for name, call in pages.opcodes().items()}
    places = {name: [row.index("ifn")] for name, row in rows.items() if "ifn" in row}
    for _ in range(3):
        for word, begin in piece.read.defined.items():
            names = Signature(piece.read, word).names
            for line in piece.read.body_of(begin):
                call = Call(piece.read, line)
                for at in places.get(call.word, []):
                    if at < len(call.given) and len(call.given[at]) == 1 and call.given[at][0] in names:
                        places.setdefault(word, [])
                        places[word] += {names.index(call.given[at][0])} - set(places[word])
    for line in piece.read.lines:
        call = Call(piece.read, line)
        for at in places.get(call.word, []):
            if at < len(call.given):
                yield line, call.given[at]


def lacking_tables(piece):
    """The numbers of tables that are read, and that no `f` of the score makes, each with where it is read."""
    lacks = {}
    for line, tokens in table_uses(piece):
        number = piece.value_of(tokens, line)
        if number is not None and number >= 1:
            lacks.setdefault(int(number), f"line {line} of the orchestra")
        elif len(tokens) == 1 and re.fullmatch(r"p\d+", tokens[0]):
            for it in piece.notes:
                value = it.field(int(tokens[0][1:])) if it.instrument == piece.instrument_of(line) else None
                if value is not None and value >= 0:
                    named = f"line {line} of the orchestra (by {tokens[0]} in line {it.line} of the score)"
                    lacks.setdefault(int(value), named)
    return {it: where for it, where in lacks.items() if it not in piece.score.tables}


def tables(piece, how_many):
    """What to write for tables that are read, and that no `f` of the score makes."""
    lacks = lacking_tables(piece)
    if not lacks:
        return []
    which = " and ".join(f"`f{it}`, which {where} reads" for it, where in list(lacks.items())[:3])
    line = f"`f{next(iter(lacks)) or 1} 0 8192 10 1`"
    return [f"`not started {how_many}`: the score has no {which}: write it, as {line}."]


def instruments(piece, how_many):
    """Instruments that the score or a line of the orchestra asks for, and that aren't there."""
    has = ", ".join(map(str, sorted(piece.bodies))) or "none"
    lacks = [it for it in piece.score.instruments if it not in piece.bodies and it > 0]
    what = []
    if lacks:
        which = " and ".join(f"instrument {it} (line {piece.score.instruments[it]})" for it in lacks[:4])
        what.append(f"`not started {how_many}`: the score plays {which}, and the orchestra's instruments are {has}.")
    for line, number, call in asked(piece):
        if number is not None and int(number) not in piece.bodies:
            what.append(f"`{call.word}` in line {line} of the orchestra asks for instrument {int(number)}, and the "
                        f"orchestra's instruments are {has}.")  # fmt: skip
    return what[:3]


def asked(piece):
    """The calls that ask for notes: line, number of the instrument or None, and the call without its text."""
    for line in piece.read.lines:
        call = Call(piece.read, line)
        if call.word in ("schedule", "event_i"):
            call.given = call.given[call.word == "event_i" :]
            yield line, piece.value_of(call.given[0], line) if call.given else None, call


def reasons(piece):
    """Why a note isn't started that an instrument asks for, or whose delays are too long."""
    rate = next((it[2] for it in piece.read.lines.values() if it[:2] == ["sr", "="] and len(it) > 2), "44100")
    what = []
    for line in piece.read.lines:
        call = Call(piece.read, line)
        seconds = piece.value_of(call.given[1], line) if call.word == "delay" and len(call.given) > 1 else None
        if seconds and seconds * float(rate) > DELAYED:
            most = f"at {rate} samples a second a note's delays keep {DELAYED / float(rate):.2f} s at most"
            what.append(f"`delay` in line {line} of the orchestra keeps {seconds:g} s, and {most}.")
    for line, number, call in asked(piece):
        length = piece.value_of(call.given[2], line) if len(call.given) > 2 else None
        if length is not None and length < 0:
            asks = f"`{call.word}` in line {line} asks for a note of length {length:g}"
            what.append(f"{asks}: write a length of 0 or more.")
        if number is not None and number == piece.instrument_of(line):
            what.append(f"Instrument {int(number)} asks for itself in line {line}: the note after the last would begin "
                        "when the piece has ended, which is no fault.")  # fmt: skip
    for it in piece.notes:
        made = [one for one in piece.score.statements if one.letter == "f" and len(one.fields) > 2]
        late = [one for one in made if (one.number(1) or 0) > (it.field(2) or 0)]
        if late:
            which = f"`f{late[0].fields[0]}` in line {late[0].line} of the score"
            what.append(f"{which} comes at time {late[0].fields[1]}, "
                        f"and the note in line {it.line} begins before: write time 0.")  # fmt: skip
            break
    return what


def not_started(piece, how_many):
    what = instruments(piece, how_many) + tables(piece, how_many)
    if not what:
        what = [f"`not started {how_many}`: {it}" for it in reasons(piece)[:2]]
    advice = pages.advice("the report says", "`not started` isn't 0") or "see docs/LANGUAGE.md"
    return what or [f"`not started {how_many}`: {advice}"]


def silence(piece):
    """Why nothing is heard."""
    said = "`peak 0.00000`:"
    if not piece.score.instruments:
        return [f"{said} the score has no `i`, so nothing is played."]
    if not any(it[:1] in (["out"], ["outs"], ["outch"]) for it in piece.read.lines.values()):
        return [f"{said} no instrument has an `out`, so nothing is heard."]
    what = []
    for it in piece.notes:
        if it.field(3) == 0:
            return [f"{said} p3, the duration, is 0 in line {it.line} of the score: write a length in seconds."]
        reads = piece.reads.get(it.instrument, {})
        zeros = [p for p in sorted(reads) if p > 3 and p <= len(it.fields) and it.field(p) == 0]
        if zeros:
            return [f"{said} {listed(zeros)} {'is' if len(zeros) == 1 else 'are'} 0 in line {it.line} of the score: "
                    "look whether that is an amplitude or a frequency."]  # fmt: skip
    has = int(next((it[2] for it in piece.read.lines.values() if it[:2] == ["nchnls", "="] and len(it) > 2), "1"))
    for line in piece.read.lines:
        call = Call(piece.read, line)
        number = piece.value_of(call.given[0], line) if call.word == "outch" and call.given else None
        if number is not None and not 1 <= number < has + 1:
            return [f"{said} `outch` in line {line} of the orchestra names channel {number:g}, and there are {has}."]
        has_level = call.word in ("oscil", "oscili", "linen") and call.given
        if has_level and piece.value_of(call.given[0], line) == 0:
            return [f"{said} the amplitude of `{call.word}` in line {line} of the orchestra is 0."]
        cps = piece.value_of(call.given[1], line) if call.word in ("oscil", "oscili") and len(call.given) > 1 else None
        if cps == 0 and len(call.given) == 3:
            return [f"{said} the frequency of `{call.word}` in line {line} of the orchestra is 0."]
    advice = pages.advice("the report says", "`peak` is 0.00000")
    return what or ([f"{said} {advice}"] if advice else [])


def about(piece, told):
    """What to say of a piece with this report, the surest first."""
    peak = float(told["peak"])
    what = not_started(piece, told["not started"]) if told["not started"] != "0" else []
    what += missing_fields(piece) + lengths(piece) + unknown_yet(piece) + decibels(piece, peak)
    what += loud(piece, told)
    if peak == 0:
        return what or silence(piece)
    return what if any(" dB " in it for it in what) else what + soft(piece, peak)
