"""The pieces that are timed and soaked, each a pair of texts: python3 bench/pieces.py FOLDER writes them all as
files.

LONG is timed beside Csound (bench/run), SHORT is played many times (bench/soak), FAILING is played with a
failing call at each place (bench/failing), and has what no Csound plays: opcodes of one's own, refused texts."""
import os
import sys


def demo(count):
    """The texts of `csplay --demo COUNT`, as docs/LANGUAGE.md has them."""
    orc = "sr = 8000\nksmps = 16\nnchnls = 1\nga1 init 0\ninstr 1\na1 oscili p4, p5, 1\nout a1\nendin\n"
    orc += "instr 2\na1 oscili p4, p5, 1\nga1 += a1\nendin\ninstr 90\na1 delay ga1, .05\nout a1\nga1 = 0\nendin\n"
    notes = (f"i{2 if n % 8 == 0 else 1} {n // 64} 1 {100 + n % 7} {100 + n % 500}\n" for n in range(count))
    return orc, f"f1 0 1024 10 1\n{''.join(notes)}i90 0 {(count + 63) // 64}\ne\n"


def stereo():
    """Five tones one after another and their echo: what each note adds to the echo's bus makes a chain of them."""
    orc = "sr = 44100\nksmps = 32\nnchnls = 2\n0dbfs = 1\ngasend init 0\ninstr 1\niamp = p4\nicps = cpspch(p5)\n"
    orc += "aenv linen iamp, .05, p3, .1\nasig oscili aenv, icps, 1\nouts asig, asig\ngasend += asig * .3\nendin\n"
    orc += "instr 99\nadel delay gasend, .25\nouts adel * .5, adel * .5\ngasend = 0\nendin\n"
    sco = "f1 0 4096 10 1 .5 .25\nt 0 120\ni1 0 1 .3 8.00\ni1 + . . 8.04\ni1 + . . 8.07\ni1 + . . 9.00\ni99 0 4\ns\n"
    return orc, sco + "i1 0 1 .2 8.09\ni99 0 1\ne\n"


def heavy(seconds=10, notes=64):
    """Notes of sixteen oscillators each, which share nothing."""
    orc = "sr = 44100\nksmps = 256\nnchnls = 1\ninstr 1\n"
    orc += "".join(f"a{n} oscili p4, p5 * {n}, 1\n" for n in range(1, 17))
    orc += "out " + " + ".join(f"a{n}" for n in range(1, 17)) + "\nendin\n"
    return orc, "f1 0 4096 10 1\n" + "".join(f"i1 0 {seconds} 20 {55 + 7 * n}\n" for n in range(notes)) + "e\n"


def many(notes=2000, cycles=500):
    """A note begins in each cycle of 2 ms, and each plays for 500: so many sound at once, and one changes a cycle."""
    orc = "sr = 32000\nksmps = 64\nnchnls = 1\ninstr 1\na1 oscili p4, p5, 1\nout a1\nendin\n"
    sco = "".join(f"i1 {n * 0.002:.3f} {cycles * 0.002:.3f} 40 {200 + n % 300}\n" for n in range(notes))
    return orc, f"f1 0 4096 10 1\n{sco}e\n"


def staccato(chords=64):
    """Chords of 48 notes of twelve oscillators, 20 cycles each and 5 light ones after it, over two notes that stay."""
    orc = "sr = 32000\nksmps = 64\nnchnls = 1\ninstr 1\na1 oscili p4, p5, 1\nout a1\nendin\ninstr 2\n"
    orc += "".join(f"a{n} oscili p4, p5 * {n}, 1\n" for n in range(1, 13))
    orc += "out " + " + ".join(f"a{n}" for n in range(1, 13)) + "\nendin\n"
    notes = "".join(f"i2 {beat * 0.05:.2f} .04 9 {100 + 3 * n}\n" for beat in range(chords) for n in range(48))
    stay = "".join(f"i1 0 {chords * 0.05:.2f} 500 {pitch}\n" for pitch in (220, 330))
    return orc, f"f1 0 4096 10 1\n{stay}{notes}e\n"


def held(voices, ksmps, seconds=600):
    """Notes of one oscillator in both channels, `voices` of them from the first frame to the last: what a small piece
    costs. Without a note, what is left: the mix and the sound file."""
    orc = f"sr = 44100\nksmps = {ksmps}\nnchnls = 2\ninstr 1\na1 oscili p4, p5, 1\nouts a1, a1\nendin\n"
    notes = "".join(f"i1 0 {seconds} {32000 // voices} {220 + 55 * n}\n" for n in range(voices))
    notes = notes or f"f0 {seconds}\n"
    return orc, f"f1 0 4096 10 1\n{notes}e\n"


def chain():
    """Twenty notes on one global variable: each waits for the one before it."""
    orc = "sr = 8000\nksmps = 32\nnchnls = 1\ngk1 init 0\ninstr 1\ngk1 = gk1 + p4\na1 oscili gk1, p5, 1\nout a1\n"
    orc += "endin\ninstr 9\ngk1 = 0\nendin\n"
    return orc, "f1 0 256 10 1\n" + "".join(f"i1 0 .1 {20 + n} {200 + n}\n" for n in range(20)) + "i9 0 .1\ne\n"


def readers():
    """One note writes, thirty read it, one takes it away: the thirty are free of one another."""
    orc = "sr = 8000\nksmps = 32\nnchnls = 1\nga1 init 0\ninstr 1\nga1 oscili p4, p5, 1\nendin\n"
    orc += "instr 2\na1 delay ga1, p4\nout a1 * .02\nendin\ninstr 9\nga1 = 0\nendin\n"
    notes = "".join(f"i2 0 .1 {0.001 * (n + 1):.3f}\n" for n in range(30))
    return orc, f"f1 0 256 10 1\ni1 0 .1 9000 440\n{notes}i9 0 .1\ne\n"


def busses():
    """Eight notes each on two busses and the zak places 1 and 2, and a mixer: several chains side by side."""
    orc = "sr = 8000\nksmps = 32\nnchnls = 2\nzakinit 2, 2\ngk1 init 0\ngk2 init 0\n"
    for bus in (1, 2):
        orc += f"instr {bus}\ngk{bus} = gk{bus} + 1\na1 oscili p4 + gk{bus}, p5, 1\nzawm a1, {bus}\nendin\n"
    orc += "instr 9\na1 zar 1\na2 zar 2\nouts a1, a2\nzacl 1, 2\ngk1 = 0\ngk2 = 0\nendin\n"
    notes = "".join(f"i{1 + n % 2} 0 .1 {100 + n} {200 + n}\n" for n in range(16))
    return orc, f"f1 0 256 10 1\n{notes}i9 0 .1\ne\n"


def in_turn():
    """Heavy cycles and light ones in turn: forty notes of eight oscillators come and go over two that stay."""
    orc = "sr = 8000\nksmps = 64\nnchnls = 1\ninstr 1\na1 oscili p4, p5, 1\nout a1\nendin\ninstr 2\n"
    orc += "".join(f"a{n} oscili p4, p5 * {n}, 1\n" for n in range(1, 9))
    orc += "out " + " + ".join(f"a{n}" for n in range(1, 9)) + "\nendin\n"
    chords = "".join(f"i2 {beat * 0.08:.2f} .04 9 {100 + 3 * n}\n" for beat in range(4) for n in range(40))
    return orc, f"f1 0 1024 10 1\ni1 0 .4 500 220\ni1 0 .4 500 330\n{chords}e\n"


def shared():
    """Sixteen notes of four oscillators that share nothing, for a tenth of a second: several workers have work, 1,024
    values a cycle."""
    return heavy_in_small(16, 4)


def heavy_in_small(notes, oscillators):
    orc = "sr = 8000\nksmps = 64\nnchnls = 1\ninstr 1\n"
    orc += "".join(f"a{n} oscili p4, p5 * {n}, 1\n" for n in range(1, oscillators + 1))
    orc += "out " + " + ".join(f"a{n}" for n in range(1, oscillators + 1)) + "\nendin\n"
    return orc, "f1 0 256 10 1\n" + "".join(f"i1 0 .1 90 {100 + 7 * n}\n" for n in range(notes)) + "e\n"


def own_opcodes():
    """Opcodes of one's own, one calling another, each with a state for each call."""
    orc = "sr = 8000\nksmps = 32\nnchnls = 1\nopcode Beating, a, kk\nkamp, kcps xin\na1 oscili kamp, kcps, 1\n"
    orc += "a2 oscili kamp, kcps * 1.01, 1\nxout a1 + a2\nendop\nopcode Chord, a, kk\nkamp, kcps xin\n"
    orc += "a1 Beating kamp, kcps\na2 Beating kamp, kcps * 1.5\nxout a1 + a2\nendop\n"
    orc += "instr 1\na1 Chord p4, p5\nif p4 > 50 then\nk1 = 2\nelse\nk1 = 1\nendif\nout a1 * k1\nendin\n"
    return orc, "f1 0 256 10 1\ni1 0 .05 100 200\ni1 .02 .05 40 300\ne\n"


def small_stereo():
    """The stereo piece at a rate of 4,410: the same notes in a tenth of the cycles."""
    orc, sco = stereo()
    return orc.replace("44100", "4410"), sco


def both_in_one():
    """Both texts of a short piece in one file."""
    orc, sco = own_opcodes()
    parts = f"<CsInstruments>\n{orc}</CsInstruments>\n<CsScore>\n{sco}</CsScore>\n"
    return (f"<CsoundSynthesizer>\n<CsOptions>\n</CsOptions>\n{parts}</CsoundSynthesizer>\n",)


def asking():
    """A note that asks for notes, each of which asks for one more, while another is held until it is stopped."""
    orc = "sr = 8000\nksmps = 32\nnchnls = 1\ninstr 1\na1 oscili p4, p5, 1\nout a1\n"
    orc += 'schedule 2, .01, .02, p4, p5 * 2\nevent_i "i", 2, .03, .02, p4, p5 * 3\nendin\n'
    orc += "instr 2\na1 oscili p4, p5, 1\nout a1\nschedule 3, 0, .01, p4\nendin\ninstr 3\na1 = p4\nout a1\nendin\n"
    return orc, "f1 0 256 10 1\ni1 0 .1 90 200\ni1 .02 .05 90 300\ni3 0 -1 5\ni-3 .05 0\nf0 .1\ne\n"


def changing():
    """Notes that write into a table that others play, and a table that the score gives twice."""
    orc = "sr = 8000\nksmps = 32\nnchnls = 1\ninstr 1\nk1 line 0, p3, 255\ntablew k1 / 256, k1, 2\nendin\n"
    orc += "instr 2\na1 oscili p4, p5, 2\na2 oscili p4, p5, 1\nout a1 + a2\nendin\n"
    return orc, "f1 0 256 10 1\nf2 0 256 10 1\nf1 .05 256 10 1 .5\ni1 0 .1\ni2 0 .1 90 200\ni2 .02 .08 90 300\ne\n"


def several_writes():
    """A sound of 192,000 bytes, some three buffers of it."""
    orc = "sr = 16000\nksmps = 64\nnchnls = 2\ninstr 1\na1 oscili p4, p5, 1\nouts a1, a1\nendin\n"
    return orc, "f1 0 256 10 1\ni1 0 3 9000 200\ni1 0 3 9000 300\ne\n"


def light_then_heavy(sections=8):
    """Sections of 2 s in turn: eight notes of one oscillator, then 64 of sixteen."""
    orc, _ = heavy()
    orc += "instr 2\na1 oscili p4, p5, 1\nout a1\nendin\n"
    light = "".join(f"i2 0 2 900 {110 + 11 * n}\n" for n in range(8))
    dense = "".join(f"i1 0 2 20 {55 + 7 * n}\n" for n in range(64))
    return orc, "f1 0 4096 10 1\n" + "s\n".join((light, dense)[n % 2] for n in range(sections)) + "e\n"


def steady(notes=500, seconds=5):
    """Light notes, of which none changes."""
    orc = "sr = 32000\nksmps = 64\nnchnls = 1\ninstr 1\na1 oscili p4, p5, 1\nout a1\nendin\n"
    return orc, "f1 0 4096 10 1\n" + "".join(f"i1 0 {seconds} 40 {200 + n % 300}\n" for n in range(notes)) + "e\n"


def on_busses(notes=2000):
    """Light notes of eight instruments, each of which adds to a bus of its instrument, 400 at once, and a mixer."""
    orc = "sr = 32000\nksmps = 64\nnchnls = 1\n" + "".join(f"ga{n} init 0\n" for n in range(1, 9))
    for n in range(1, 9):
        orc += f"instr {n}\na1 oscili p4, p5, 1\nga{n} = ga{n} + a1\nendin\n"
    orc += "instr 99\nout " + " + ".join(f"ga{n}" for n in range(1, 9)) + "\n"
    orc += "".join(f"ga{n} = 0\n" for n in range(1, 9)) + "endin\n"
    lines = "".join(f"i{1 + n % 8} {n * 0.002:.3f} .8 40 {200 + n % 300}\n" for n in range(notes))
    return orc, f"f1 0 4096 10 1\n{lines}i99 0 {notes * 0.002 + 0.8:.3f}\ne\n"


def mixed(seconds=10, voices=30):
    """Held voices that add to two busses, and a mixer: a chain, the commonest form of a piece."""
    orc = "sr = 44100\nksmps = 32\nnchnls = 2\nga1 init 0\nga2 init 0\ninstr 1\na1 oscili p4, p5, 1\n"
    orc += "ga1 += a1 * .5\nga2 += a1 * .25\nendin\ninstr 99\nouts ga1, ga2\nga1 = 0\nga2 = 0\nendin\n"
    notes = "".join(f"i1 0 {seconds} 900 {110 + 11 * n}\n" for n in range(voices))
    return orc, f"f1 0 4096 10 1\n{notes}i99 0 {seconds}\ne\n"


def grains(seconds=2, each_second=1000):
    """Notes of a tenth of a second over two busses, and a mixer."""
    orc, _ = mixed()
    notes = "".join(f"i1 {n / each_second:.4f} .1 300 {110 + n % 500}\n" for n in range(int(seconds * each_second)))
    return orc, f"f1 0 4096 10 1\n{notes}i99 0 {seconds + 0.1:.1f}\ne\n"


def zones(cycles=1200, notes=500):
    """Notes that may touch 2,000 zones, `notes` of them at once at last, of which one begins in each cycle."""
    orc = "sr = 32000\nksmps = 64\nnchnls = 1\nzakinit 1000, 1000\ninstr 1\nzkw p4, p4\na1 zar p4\nendin\ninstr 2\n"
    orc += "".join(f"zkw 1, {n}\nzaw a1, {n}\n" for n in range(0, 1000, 2)).join(("a1 = 1\n", "endin\n"))
    lines = (f"i1 {n * 0.002:.3f} {notes * 0.002:.3f} {n % 1000}\n" for n in range(cycles))
    return orc, "".join(lines) + "e\n"


def wide(seconds=1, notes=512, names=1):
    """Notes that only set one of `names` globals, in long cycles of 16 channels: row sums would take most memory."""
    orc = "sr = 44100\nksmps = 4096\nnchnls = 16\n" + "".join(f"gk{n} init 0\n" for n in range(names))
    orc += "".join(f"instr {n + 1}\ngk{n} = 1\nendin\n" for n in range(names))
    return orc, "".join(f"i{1 + n % names} 0 {seconds}\n" for n in range(notes)) + "e\n"


HELD = (("silence", 0), ("one voice", 1), ("4 voices", 4), ("16 voices", 16))
LONG = {
    "demo, 64 notes": demo(64),
    "demo, 1,000 notes": demo(1000),
    "demo, 10,000 notes": demo(10000),
    "the stereo piece, 7 notes": stereo(),
    "64 notes of 16 oscillators, 10 s": heavy(),
    "500 notes at once, one changes in each cycle, 5 s": many(),
    "staccato chords over two notes, 3.2 s": staccato(),
    "light sections and heavy ones in turn, 16 s": light_then_heavy(),
    "500 notes at once, none changes, 5 s": steady(),
    "2,000 notes of 8 instruments on 8 busses, 400 at once, 4.8 s": on_busses(),
    **{f"{name}, stereo, ksmps {ksmps}, 600 s": held(voices, ksmps) for name, voices in HELD for ksmps in (10, 64)},
}
# What several workers can do little for: a piece of a size, and its size.
WORKERS = {
    "30 held voices over two busses, and a mixer": (mixed, 2),
    "grains of .1 s, 1,000 a second, over two busses": (grains, 0.5),
    "500 notes that may touch 2,000 zones, one begins in each cycle": (zones, 700),
    "512 notes that set one global, ksmps 4096, 16 channels": (wide, 1),
    "512 notes that set 128 globals, ksmps 4096, 16 channels": (lambda it: wide(it, names=128), 1),
    "500 notes at once, none changes": (lambda it: steady(500, it), 0.2),
    "4 held voices, ksmps 10": (lambda it: held(4, 10, it), 2),
}
SHORT = {
    "stereo": small_stereo(),
    "chain": chain(),
    "readers": readers(),
    "busses": busses(),
    "in turn": in_turn(),
    "shared": shared(),
}
FAILING = {
    "stereo": small_stereo(),
    "shared": shared(),
    "own opcodes": own_opcodes(),
    "both in one file": both_in_one(),
    "demo": (),
    "asks": asking(),
    "tables that change": changing(),
    "several writes": several_writes(),
    "short reads and writes": own_opcodes(),
    "a refused orchestra": ("instr 1\na1 = p4 +\nendin\n", "e\n"),
    "a refused score": ("instr 1\nendin\n", "f1 0 16 10 1\ni1 0 x\n"),
    "no words": (),
}
# Those that are refused, and their statuses.
REFUSED = {"a refused orchestra": 4, "a refused score": 5, "no words": 2}


def write(folder, name, texts):
    """Writes the texts as files, one alone as a `.csd`, and answers their names, relative to the folder."""
    short = "".join(c if c.isalnum() else "-" for c in name)
    names = [f"{short}.{ending}" for ending in (("csd",) if len(texts) == 1 else ("orc", "sco"))]
    for file, text in zip(names, texts):
        with open(f"{folder}/{file}", "w", encoding="ascii") as it:
            it.write(text)
    return tuple(names[: len(texts)])


if __name__ == "__main__":
    os.makedirs(sys.argv[1], exist_ok=True)
    for pieces in (LONG, SHORT, FAILING):
        for title, both in pieces.items():
            print(*write(sys.argv[1], title, both))
