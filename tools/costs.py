"""What a piece takes, for `./play --check`: its frames exactly, as csplay reckons them from the score, and the greatest
processor time and memory by the formulas of docs/SERVERS.md ("Time", "Memory"). The texts are read roughly, and a value
that isn't a number in them counts with its maximum. So the figures are upper limits, often several times too large."""
import collections
import math
import os
import re
import subprocess
import tempfile

import headers
import options
import pages
import refusals
import statements
from orchestra import Orchestra, arguments

HEADER, SECONDS = 44, 60
# Limits of docs/LANGUAGE.md.
AT_ONCE, ASKED, DELAYED, FIELDS = 512, 100_000, 262_144, 100
# Nanoseconds: a sample of the sound; a control cycle; a note's cycle and its start; an operation for each frame, for
# each cycle and at each start; a zak place that is cleared, and each value in it; a point of a table, and each strength
# of its harmonics; a byte of each text; a note of the score or one that is scheduled, and each of its fields.
SAMPLE, CYCLE, NOTE_CYCLE, START = 5, 300, 500, 5000
BY_FRAME, BY_CYCLE, AT_START = 16, 60, 40
PLACE, CELL, POINT, STRENGTH = 40, 1, 100, 16
ORC_BYTE, SCO_BYTE, NOTE, FIELD = 3000, 400, 5000, 60
# Bytes: of the program; of a byte of each text; of an opcode that keeps a state; of a note.
PROGRAM, OF_ORC, OF_SCO, UNIT, OF_NOTE = 8 << 20, 180, 48, 200, 2000
OPERATORS = set("+ - * / % < > <= >= == != && || ? += -= *= /=".split())
# Operations that take as long as three; opcodes of sounds that may have no name of a sound; those that work at the
# start of a note.
DEAR, OF_SOUNDS, OF_START = {"/", "%", "/=", "biquad"}, {"zacl", "chnclear", "out"}, {"init", "schedule", "event_i"}


def literal(tokens):
    """The number that an argument's tokens are; None if they are no number."""
    text = "".join(tokens)
    return float(text) if re.fullmatch(r"-?(\d+\.?\d*|\.\d+)", text) else None


class Head:
    def __init__(self, orchestra):
        self.sr, self.ksmps, self.nchnls, self.zak = 44100, 10, 1, 0
        for found in orchestra.lines.values():
            if found[:1] and found[0] in ("sr", "ksmps", "nchnls") and found[1:2] == ["="] and len(found) > 2:
                setattr(self, found[0], int(float(found[2])))
            elif found[:1] == ["zakinit"]:
                self.zak = int(max(map(float, re.findall(r"\d+", " ".join(found))), default=0)) + 1
        kr, ksmps = headers.value_of(orchestra, "kr"), headers.value_of(orchestra, "ksmps")
        if kr and not ksmps:
            self.ksmps = max(1, round(self.sr / kr))


class Bodies:
    """What each instrument does, as counts: operations at each rate, and what is kept. A call of a definition counts as
    the lines of the definition."""

    def __init__(self, orchestra, head):
        self.orchestra, self.head, self.defined, self.instruments = orchestra, head, {}, {}
        names, counts = None, None
        for found in orchestra.lines.values():
            if found[:1] in (["instr"], ["opcode"]):
                names, counts = found, collections.Counter()
            elif found[:1] in (["endin"], ["endop"]) and names:
                if names[0] == "opcode":
                    self.defined[names[1] if len(names) > 1 else ""] = counts
                else:
                    self.instruments.update((int(it), counts) for it in names[1:] if it.isdigit())
                names = None
            elif found and names:
                counts.update(self.of_line(found))

    def of_line(self, found):
        word = found[self.orchestra.opcode_of(found) or 0] if self.orchestra.opcode_of(found) is not None else ""
        names = [it for it in found if pages.is_name(it) and re.fullmatch(r"g?[ika]\w*", it) and not self.is_word(it)]
        rates = {it.lstrip("g")[:1] for it in names}
        operations = [it for it in found if it in OPERATORS or it in pages.FUNCTIONS]
        count = 1 + len(operations) + 2 * sum(it in DEAR for it in (*operations, word))
        given = arguments(found[found.index(word) + 1 :]) if word in found else []
        count += len(given) if word.startswith("out") or word == "chnclear" else 0
        told = collections.Counter(units=bool(word), kept=len(found), i=count + len(given))
        if "a" in rates or word in OF_SOUNDS:
            told.update(a=count, k=1, sounds=len(operations) + len(names) + 1)
        elif not (OF_START & set(found[:3]) or rates == {"i"} and found[:1] == names[:1] and word != "zkcl"):
            told["k"] = count
        told.update(self.of_word(word, given))
        told.update(self.defined.get(word, {}))
        return told

    def is_word(self, it):
        return it in pages.FUNCTIONS or it in pages.keywords() or self.orchestra.known(it)

    def of_word(self, word, given):
        """What an opcode does besides its operation."""
        if word == "delay":
            seconds = literal(given[1]) if len(given) > 1 else None
            return {"delayed": DELAYED if seconds is None else min(DELAYED, int(seconds * self.head.sr) + 1)}
        if word == "linseg":
            return {"segments": len(given) // 2 + 1}
        if word in ("zacl", "zkcl"):
            first, last = [*(literal(it) for it in given[:2]), None, None][:2]
            places = self.head.zak if None in (first, last) else max(0, int(last - first) + 1)
            return {"cleared": places, "cleared sounds": places * (word == "zacl")}
        if word in ("schedule", "event_i"):
            given = given[word == "event_i" :]
            number, _, length = [*(literal(it) for it in given[:3]), None, None, None][:3]
            return {("asks", number and int(number), length): 1, "asked fields": min(FIELDS, len(given))}
        return {}

    def dearest(self):
        """The greatest count of each kind in any instrument."""
        most = collections.Counter()
        for it in self.instruments.values():
            most |= it
        return most

    def of(self, number):
        return self.dearest() if number is None else self.instruments.get(number, collections.Counter())


class Note:
    """A note: its instrument, start and length in beats (None if it is held), and how many fields it has."""

    def __init__(self, instrument, start, length, fields):
        self.instrument, self.start, self.length, self.fields = instrument, start, length, fields


def notes_of(score):
    """The notes of the score, in beats; the sections one after another."""
    found, before, p2, p3, base, end = [], [], 0, 0, 0, 0
    for it in score.statements:
        if it.letter == "s":
            base, end = end, end
        if it.letter != "i":
            before = []
            continue
        words = it.fields
        if before and words[:1] in ([], ["."], before[:1]):
            words = [before[at] if word == "." and at < len(before) else word for at, word in enumerate(words)]
            words += before[len(words) :]
        before, number = words, [float(one) if statements.NUMBER.match(one) else None for one in (*words, "0", "0")[:3]]
        if number[1] is None:
            number[1] = p2 + (float(words[1][2:]) if words[1].startswith("^+") else abs(p3))
        p2, p3 = number[1], number[2] or 0
        if (number[0] or 0) > 0:
            found.append(Note(int(number[0]), base + p2, p3 if p3 >= 0 else None, len(words)))
            end = max(end, base + p2 + max(0, p3))
    return found


def slowest(score):
    """Seconds of a beat at the slowest tempo."""
    tempi = [it.number(at) for it in score.statements if it.letter == "t" for at in range(1, len(it.fields), 2)]
    return 60 / min([60, *(it for it in tempi if it)])


class Piece:
    """A piece of two texts, (text, first line) each, that csplay accepts; its frames, and the workers that are asked
    for, a word."""

    def __init__(self, orchestra, score, frames, workers):
        self.workers = workers
        self.sizes = len(orchestra[0].encode(errors="surrogateescape")), len(score[0].encode(errors="surrogateescape"))
        read = Orchestra(*orchestra)
        self.head, self.score = Head(read), statements.Score(*score, most=10**9)
        self.bodies, self.frames = Bodies(read, self.head), frames
        self.cycles = -(-frames // self.head.ksmps)
        self.notes, self.beat = notes_of(self.score), slowest(self.score)
        self.asked = self.asked_notes()

    def cycles_of(self, seconds):
        """The most cycles of a note of this length; all if it isn't known."""
        if seconds is None:
            return self.cycles
        return min(self.cycles, math.ceil(max(0, seconds) * self.head.sr / self.head.ksmps) + 2)

    def asked_notes(self):
        """How many notes of each instrument and length in seconds are scheduled at most."""
        found, left = collections.Counter(), ASKED
        newest = collections.Counter(it.instrument for it in self.notes)
        while newest and left > 0:
            begun = collections.Counter()
            for number, count in newest.items():
                for what, times in self.bodies.of(number).items():
                    if what[:1] == ("asks",):
                        begun[what[1:]] += min(ASKED, count * times)
            for what in begun:
                found[what] += min(left, begun[what])
            left -= sum(begun.values())
            newest = collections.Counter()
            for (number, _), count in begun.items():
                newest[number] += count
        return found

    def run(self, counts):
        """Nanoseconds of a cycle of a note."""
        head = self.head
        frame = BY_FRAME * counts["a"] + 2 * head.nchnls * bool(counts["a"])
        cleared = PLACE * counts["cleared"] + CELL * head.ksmps * counts["cleared sounds"]
        return NOTE_CYCLE + frame * head.ksmps + BY_CYCLE * counts["k"] + cleared

    def start(self, counts):
        """Nanoseconds of a note's start; a byte that it takes is one."""
        return START + AT_START * counts["i"] + FIELD * counts["asked fields"] + self.room(counts, 0)

    def seconds(self):
        """The most processor seconds by one worker."""
        runs, starts, dearest = 0, 0, 0
        played = collections.Counter((it.instrument, it.length and it.length * self.beat) for it in self.notes)
        for (number, length), count in [*played.items(), *self.asked.items()]:
            counts = self.bodies.of(number)
            runs += count * self.cycles_of(length) * self.run(counts)
            starts += count * self.start(counts)
            dearest = max(dearest, self.run(counts))
        runs = min(runs, AT_ONCE * self.cycles * dearest)
        score = sum(NOTE + FIELD * it.fields for it in self.notes) + (NOTE + FIELD * FIELDS) * sum(self.asked.values())
        texts = ORC_BYTE * self.sizes[0] + SCO_BYTE * self.sizes[1] + score + self.tables()
        sound = SAMPLE * self.frames * self.head.nchnls + CYCLE * self.cycles
        return (runs + starts + texts + sound) / 1e9 + 0.05

    def made(self):
        """Each table that the score makes: its number, its points, and how many numbers it is made from."""
        for it in self.score.statements:
            size = it.number(2)
            if it.letter == "f" and it.number(0) and size:
                is_of_harmonics = it.fields[3:4] in (["10"], ["-10"])
                harmonics = sum(one not in ("0", "0.0") for one in it.fields[4:]) if is_of_harmonics else 0
                yield int(it.number(0)), min(1 << 24, int(abs(size)) + 1), harmonics

    def tables(self):
        """Nanoseconds in which the tables are made."""
        return sum(points * (POINT + STRENGTH * harmonics) for _, points, harmonics in self.made())

    def room(self, counts, frames):
        """Bytes of a note that plays for these frames."""
        head = self.head
        channels = head.nchnls * ((counts["sounds"] > 0) + (self.workers != "1"))
        sounds = 8 * head.ksmps * (counts["sounds"] + channels + 1)
        kept = 8 * (counts["kept"] + min(counts["delayed"], frames)) + UNIT * counts["units"] + 16 * counts["segments"]
        return OF_NOTE + sounds + kept

    def notes_at_once(self):
        """The most bytes of the score's notes at any moment."""
        changes, slack = [], 2 * self.head.ksmps / self.head.sr
        rooms = {}
        for it in self.notes:
            length = None if it.length is None else it.length * self.beat
            key = it.instrument, length
            if key not in rooms:
                frames = self.cycles_of(length) * self.head.ksmps
                rooms[key] = self.room(self.bodies.of(it.instrument), frames)
            changes.append((it.start, 0, rooms[key]))
            if it.length is not None:
                changes.append((it.start + it.length + slack, 1, -rooms[key]))
        now = most = 0
        for _, _, change in sorted(changes):
            now += change
            most = max(most, now)
        return min(most, AT_ONCE * max(rooms.values(), default=0))

    def megabytes(self):
        """The most memory, of the texts and of the performance."""
        points = collections.Counter()
        for number, size, _ in self.made():
            points[number] = max(points[number], size)
        asked = sorted((self.room(self.bodies.of(number), self.cycles_of(length) * self.head.ksmps), count)
                       for (number, length), count in self.asked.items())  # fmt: skip
        asking, left = 0, AT_ONCE
        for room, count in reversed(asked):
            asking += room * min(left, count)
            left -= min(left, count)
        fields = 8 * FIELDS * sum(self.asked.values()) + sum(8 * it.fields + 64 for it in self.notes)
        shared = 8 * 65536 + 8 * sum(points.values()) + 8 * max(points.values(), default=0)
        texts = PROGRAM + OF_ORC * self.sizes[0] + OF_SCO * self.sizes[1]
        return (texts + self.notes_at_once() + asking + fields + shared) / 1e6


def header(program, words, parts):
    """The first bytes of the sound file: those that csplay writes for the same score and empty instruments, which need
    no time. The file is a pipe, which is closed after them."""
    read = Orchestra(*parts[0])
    head = [read.plain(at) for at, it in read.lines.items() if it[:1] and it[0] in pages.headers()]
    empty = "\n".join([*head, *(f"instr {it}\nendin" for it in sorted(read.instruments))])
    with tempfile.TemporaryDirectory(prefix="play-") as folder:
        for name, text in (("a.orc", f"{empty}\n"), ("a.sco", parts[1][0])):
            with open(f"{folder}/{name}", "wb") as it:
                it.write(text.encode(errors="surrogateescape"))
        reads, writes = os.pipe()
        asked = ["-3"] * ("3" in options.names_in(words)[1])
        below = {"stdin": subprocess.DEVNULL, "stdout": subprocess.DEVNULL, "stderr": subprocess.DEVNULL}
        names = ["-o", f"/dev/fd/{writes}", *asked, f"{folder}/a.orc", f"{folder}/a.sco"]
        ran = subprocess.Popen([program, *names], pass_fds=[writes], **below)
        os.close(writes)
        try:
            with open(reads, "rb") as it:
                return it.read(HEADER)
        finally:
            ran.kill()
            ran.wait()


def lacking(parts):
    """The instruments and tables that the texts ask for, and that neither has; not of long texts."""
    import sounds

    if sum(len(text) for text, _ in parts) > refusals.LONG:
        return []
    piece = sounds.Piece(*parts)
    asked = [*piece.score.instruments, *(int(number) for _, number, _ in sounds.asked(piece) if number is not None)]
    absent = sorted({it for it in asked if it > 0 and it not in piece.bodies})
    tables = sounds.lacking_tables(piece)
    return [f"missing instrument {it}" for it in absent] + [f"missing table {it}" for it in tables]


def about(program, words):
    """Lines about a piece that csplay accepts, a name and a value each; none if its texts can't be read again."""
    texts = refusals.texts_in(words)
    if not texts:
        return []
    _, parts = refusals.parts_of(texts)
    head = header(program, words, parts)
    if len(head) < HEADER or head[:4] != b"RIFF":
        return []
    rate, frame, size = (int.from_bytes(head[at : at + length], "little") for at, length in ((24, 4), (32, 2), (40, 4)))
    piece = Piece(*parts, size // frame, options.names_in(words)[1].get("j"))
    lines = [f"frames {piece.frames}", f"seconds {piece.frames / rate:.5f}", f"bytes {HEADER + size}"]
    lines += [f"most processor seconds {piece.seconds():.1f}", f"most megabytes {math.ceil(piece.megabytes())}"]
    return lines + lacking(parts)
