"""Asks a program for what the manual claims: the report of each example, and the values of each worked row.

A value is read from a sound of 24 bits at `0dbfs = 128`, where a sample is a raw number of 65,536ths. Three channels
have its fraction, and the lower and the upper part of its whole number, so that every number can be read."""
import os
import re
import subprocess
import tempfile
import wave

HEAD = {"sr": "8", "ksmps": "4", "nchnls": "3", "0dbfs": "128"}
WHOLE, LOWER = 65536, 4096
SECONDS = 60
# What instruments 1, 2 and 3 of a score's rows do: the first channel counts starts, the second notes that sound, the
# third has a field of each note at its start.
SCORE_ORC = """sr = 8
ksmps = 1
nchnls = 3
0dbfs = 128
instr 1, 2, 3
  k1 init 1
  a1 = k1 / 65536
  a2 = 1 / 65536
  a3 = k1 * {}
  out a1, a2, a3
  k1 = 0
endin
"""


class Program:
    """Runs csplay over texts, in a folder for temporary files."""

    def __init__(self, path):
        self.path = os.path.abspath(path)
        self.room = tempfile.TemporaryDirectory(prefix="csplay-manual-")
        self.sound = f"{self.room.name}/a.wav"

    def run(self, orc, sco, *words):
        """What the program printed; the sound is in `sound`."""
        for name, text in (("a.orc", orc), ("a.sco", sco)):
            with open(f"{self.room.name}/{name}", "w", encoding="utf-8") as it:
                it.write(text)
        if os.path.exists(self.sound):
            os.remove(self.sound)
        words = [self.path, "-o", self.sound, *words, f"{self.room.name}/a.orc", f"{self.room.name}/a.sco"]
        how = {"stdin": subprocess.DEVNULL, "capture_output": True, "text": True, "timeout": SECONDS}
        return subprocess.run(words, check=False, **how).stdout

    def samples(self):
        """The samples of the last run with `-3`, each a signed number, a list for each frame."""
        with wave.open(self.sound, "rb") as it:
            channels, data = it.getnchannels(), it.readframes(it.getnframes())
        found = [int.from_bytes(data[at : at + 3], "little", signed=True) for at in range(0, len(data), 3)]
        return [found[at : at + channels] for at in range(0, len(found), channels)]


def spans(cell):
    return re.findall(r"`([^`]*)`", cell)


def listed(cell):
    """The parts of a cell between commas, and whether more may follow."""
    parts = [it.strip() for it in cell.replace("`", "").split(",") if it.strip()]
    return (parts[:-1], True) if parts[-1:] == [".."] else (parts, False)


def is_score(line):
    return re.match(r"[fi]\s*-?[.\d]+\s+[-+^.\d]|t\s+\d|e$", line) is not None


def orchestra(lines):
    """The text of an orchestra that sounds the value given by the last line, and the step of its frames."""
    head, top, body = dict(HEAD), [], []
    for line in lines:
        name, sign, value = line.partition(" = ")
        if sign and name in ("sr", "ksmps"):
            head[name] = value
        elif line.startswith("top: ") or re.match(r"gi\w* (=|init) |zakinit ", line):
            top.append(line.removeprefix("top: "))
        else:
            body.append(f"  {line}")
    given = re.findall(r"(?m)^  (g?[ika]\w*)\b", "\n".join(body) if body else "")
    given = given or re.findall(r"(?m)^(gi\w*)\b", "\n".join(top))
    name = given[-1] if given else "p4"
    rate = re.match(r"g?([ikap])", name)[1]
    body += [f"  afrac = {name} % 1", f"  awhole = floor({name})", f"  alow = (awhole % {LOWER}) / {WHOLE}"]
    body += [f"  ahigh = floor(awhole / {LOWER}) / {WHOLE}", "  out afrac, alow, ahigh"]
    text = [*(f"{it} = {value}" for it, value in head.items()), *top, "instr 1", *body, "endin"]
    step = {"a": 1, "k": int(head["ksmps"])}.get(rate, 0)
    return "".join(f"{it}\n" for it in text), step


def values(program, lines):
    """The raw values that the lines give, or the line of a refusal."""
    orc, step = orchestra([it for it in lines if not is_score(it)])
    score = [it for it in lines if is_score(it)]
    notes = [] if any(it.startswith("i") for it in score) else ["i1 0 2 0"]
    said = program.run(orc, "".join(f"{it}\n" for it in [*score, *notes]), "-3")
    if not said.startswith("frames ") or "\nnot started 0\n" not in said:
        return said.strip().replace("\n", ", ")
    found = [(high * LOWER + low) * WHOLE + part for part, low, high in program.samples()]
    return found[:: step or len(found)]


def points(program, score):
    """The raw points of table 1, with its guard point left out."""
    size = next(int(it.split()[2]) for it in (re.sub(r"^f\s*", "f ", it)[1:] for it in score) if it.split()[0] == "1")
    size -= size % 2
    lines = [f"sr = {size}", "ksmps = 1", "a1 phasor 1", f"a2 table a1 * {size}, 1", *score, "i1 0 1 0"]
    return values(program, lines)


def notes(program, score, field):
    """The starts, the ends, and a field of each note in the order of starts; or what was printed."""
    said = program.run(SCORE_ORC.format(field), "".join(f"{it}\n" for it in score), "-3")
    if not said.startswith("frames "):
        return said.strip()
    starts, ends, fields, before = [], [], [], 0
    for at, (begun, active, value) in enumerate([*program.samples(), [0, 0, 0]]):
        starts += [at / 8] * begun
        ends += [at / 8] * (before + begun - active)
        fields += [value / WHOLE] * (begun == 1)
        before = active
    return starts, ends, fields


def decimal(raw, written):
    """A raw value with as many digits after the point as another text has."""
    digits = len(written.partition(".")[2])
    text = f"{raw / WHOLE:.{digits}f}"
    return "0" if float(text) == 0 and not digits else text


def seconds(value):
    return f"{value:.3f}".rstrip("0").rstrip(".")


def compared(found, cell, show):
    """A fault's text if the values aren't those of the cell; None if they are."""
    if isinstance(found, str):
        return f"the program says: {found}"
    wanted, is_open = listed(cell)
    shown = [show(value, text) for value, text in zip(found, wanted)]
    same = [normal(it) for it in wanted] == [normal(it) for it in shown]
    is_long = len(found) >= len(wanted) if is_open else len(found) == len(wanted)
    if same and is_long:
        return None
    rest = ", .." if is_open or len(found) > len(shown) + 8 else ""
    more = [] if is_open else [show(it, wanted[-1] if wanted else "") for it in found[len(shown) : len(shown) + 8]]
    return f"the program gives {', '.join([*shown, *more])}{rest}"


def normal(text):
    text = text.replace(" ", "")
    text = f"0{text}" if text.startswith(".") else text.replace("-.", "-0.")
    return text


def fault(program, heads, row):
    """What the program says against a worked row; None if nothing."""
    kind, what = heads[0], heads[1]
    lines, cell = spans(row[0]), row[1]
    whole, raw = (lambda value, text: decimal(value, text)), (lambda value, _: str(value))
    if (kind, what) in (("lines", "raw"), ("lines", "value")):
        return compared(values(program, lines), cell, raw if what == "raw" else whole)
    if (kind, what) in (("score", "points"), ("score", "raw points")):
        return compared(points(program, lines), cell, whole if what == "points" else raw)
    if what == "refused":
        if kind == "lines":
            said = program.run(orchestra([it for it in lines if not is_score(it)])[0], "i1 0 1\n")
        else:
            said = program.run(SCORE_ORC.format(0), "".join(f"{it}\n" for it in lines))
        said = said.strip()
        return None if said.partition(": ")[2] == cell.replace("`", "") else f"the program says: {said}"
    field = what if re.fullmatch(r"p\d+", what) else "0"
    if kind != "score" or (what not in ("starts", "sounds") and field == "0"):
        return f"no such heads: {kind}, {what}"
    found = notes(program, lines, field)
    if isinstance(found, str):
        return f"the program says: {found}"
    if what == "starts":
        return compared(found[0], cell, lambda value, _: seconds(value))
    if what == "sounds":
        return of_sounds(found, cell)
    return compared([round(it * WHOLE) for it in found[2]], cell, whole)


def of_sounds(found, cell):
    """Compares the times from start to end of notes: all starts and all ends."""
    wanted = [it.partition(" to ")[::2] for it in listed(cell)[0]]
    starts, ends = ([seconds(float(it[at])) for it in wanted] for at in (0, 1))
    if [seconds(it) for it in found[0]] == starts and sorted(map(seconds, found[1])) == sorted(ends):
        return None
    said = ", ".join(map(seconds, found[0])), ", ".join(map(seconds, found[1]))
    return f"notes start at {said[0]} and end at {said[1]}"


def faults(program, entry):
    """The faults of a page's worked rows and of its example's report; the sound of the example is left there."""
    found = []
    for block in entry.section("In numbers"):
        if block.kind == "table":
            for row in block.rows[1:]:
                said = fault(program, block.rows[0], row)
                found += [f"{row[0]}: {said}"] if said else []
    return found
