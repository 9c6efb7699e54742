"""What ./play says and does around a run of csplay, for tests/play: hints through all of it, progress, sound files
that are played and drawn, editors, completions. Each test takes the small repository of tests/play."""
import contextlib
import os
import shutil
import subprocess
import sys
import time
import wave

TOP = os.path.dirname(os.path.dirname(os.path.realpath(__file__)))
sys.path[:0] = [f"{TOP}/tools"]
import build
import current
import perform

REPORT = "frames 44100\ncycles 4410\nnotes 1\nnot started 0\nout of range 0\npeak {}\n"
PLAIN = "instr 1\na1 = p4\nout a1\nendin\n"


def texts(room, says, orc=PLAIN, sco="i1 0 1 1000\n"):
    """The names of two texts; the first begins with a line that says to the stand-in what comes."""
    room.note("t.orc", f"{says}\n{orc}")
    room.note("t.sco", sco)
    return [f"{room.stand_in}/t.orc", f"{room.stand_in}/t.sco"]


def reported(room, report, orc=PLAIN, sco="i1 0 1 1000\n", words=()):
    """What is told beside a run with this report."""
    room.note("report", report)
    status, wrote, told = room.play(*words, *texts(room, f";reports 0 {room.stand_in}/report", orc, sco))
    assert (status, wrote) == (0, report), (status, wrote, told)
    return told


def sound(file, frames=4800, width=2, is_loud=True):
    """A sound file of 8,000 samples a second."""
    with wave.open(file, "wb") as it:
        it.setparams((1, width, 8000, 0, "NONE", ""))
        it.writeframes(bytes(([0] * (width - 1) + [64 if is_loud else 0]) * frames))


def program(room, name, text):
    """A program of this name in PATH."""
    room.note(name, f"#!/bin/bash\n{text}\n")
    os.chmod(f"{room.stand_in}/{name}", 0o755)


def hints_through_play(room):
    told = reported(room, REPORT.format("1000.00000"))
    assert told == "play: 1.00 seconds of sound in test.wav\n", told
    told = reported(room, REPORT.format("0.00000"), sco="i1 0 1 0\n")
    assert "p4 is 0 in line 1 of the score" in told, "a silent piece"
    told = reported(room, REPORT.format("0.50000"), orc=f"0dbfs = 1\n{PLAIN}", sco="i1 0 1 .5\n")
    assert "." * 72 not in told, ("full scale is 1", told)
    turns = "".join(f"cycle {it} turns 0 1 2 3 4 5 6 7 8 9\n" for it in range(3000))
    told = reported(room, REPORT.format("0.00000") + turns, sco="i1 0 1 0\n", words=["--turns"])
    assert "p4 is 0 in line 1 of the score" in told, "a long report"
    for words in (["-j", "4"], ["-j4"], ["-j=4"], ["-o", "x.wav"]):
        told = room.play(*words, *texts(room, "ends 4 orchestra line 2: 5 Unexpected"))[2]
        assert "\n2: instr 1\n" in told, (words, told)
    told = room.play(*texts(room, "ends 6 limit L6 passed at line 2", sco="f1 0 8 10 1\nf2 0 8 10 1\n"))[2]
    assert "\n2: f2 0 8 10 1\n" in told and "300 different table numbers" in told, told
    told = room.play(*texts(room, "ends 4 orchestra line 2: 11 NotInProfile", orc=f"{'x' * 3000} {'y' * 3000}\n"))[2]
    assert max(map(len, told.split("\n"))) <= 120 and "`" + "x" * 58 + "..`" in told, told
    name = "no\x1b[31m\nsuch"
    told = room.play("-o", f"{room.stand_in}/t\x1b]0;.wav", name, name)[2]
    assert "\x1b" not in told, told


def progress_of_a_sound_file(room):
    file = f"{room.stand_in}/part.wav"
    sound(file)
    with open(file, "r+b") as it:
        it.seek(40)
        it.write((9600 * 5).to_bytes(4, "little"))
    told = perform.Progress(file, True)
    assert told.text(10) == f"20 % of {file}, about 41 s left", told.text(10)
    os.utime(file, (1, 1))
    assert told.text(10) == "", "progress of an old sound file"
    assert perform.Progress(None, True).text(12.7) == "performing for 12 s"
    lines = {}
    for words in (["-n"], ["--demo", "5"]):
        sound(f"{room.stand_in}/test.wav")
        above, below = os.openpty()
        asked = [f"{room.top}/play", *words, *texts(room, ";late 2.9 frames 4800")]
        ran = subprocess.Popen(asked, cwd=room.stand_in, env=room.env, stdout=below, stderr=below)
        os.close(below)
        lines[words[0]] = b""
        with contextlib.suppress(OSError):
            while came := os.read(above, 4096):
                lines[words[0]] += came
        os.close(above)
        assert ran.wait(10) == 0
    assert b"\rplay: performing for 2 s\x1b[K\r\x1b[Kframes 4800\r\n" in lines["-n"], lines
    assert b"\rplay: 100 % of test.wav, about 1 s left\x1b[K\r\x1b[Kframes 4800\r\n" in lines["--demo"], lines


def plays_and_draws_what_was_written(room):
    program(room, "pw-play", "exit 1")
    program(room, "paplay", "exit 1")
    program(room, "aplay", 'echo "$@" >>"$STAND_IN/heard"')
    sound(f"{room.stand_in}/test.wav")
    sound(f"{room.stand_in}/x.wav", is_loud=False)
    with contextlib.suppress(FileNotFoundError):
        os.remove(f"{room.stand_in}/test.png")

    def heard(*words, of=";late 0 frames 1"):
        room.note("heard", "")
        status, _, told = room.play(*words, *texts(room, of), cwd=room.stand_in)
        with open(f"{room.stand_in}/heard") as it:
            return status, it.read(), told

    assert heard("--listen", of="ends 5 score line 1: 2 BadNumber")[:2] == (5, ""), "an old sound after a refusal"
    status, said, told = heard("--listen", "--picture", "-o", "x.wav")
    assert (status, said) == (0, "-q -- ./x.wav\n") and "drawn in x.png" in told, told
    assert not os.path.exists(f"{room.stand_in}/test.png"), "the picture of another file"
    import picture

    with open(f"{room.stand_in}/x.png", "rb") as it:
        assert it.read() == picture.of_sound(f"{room.stand_in}/x.wav"), "the picture of another file"
    for words in (["--demo", "3"], ["--demo=3"]):
        assert "drawn in test.png" in heard("--picture", *words)[2], words
        os.remove(f"{room.stand_in}/test.png")
    told = heard("--picture", "-n")[2]
    assert "`--picture` does nothing here: `-n` asks for no sound file" in told, told
    for it in ("aplay", "afplay", "ffplay"):
        program(room, it, "echo noise >&2; exit 1")
    program(room, "sox", 'echo "$@" >>"$STAND_IN/heard"')
    status, said, told = heard("--listen")
    assert said == "-q ./test.wav -d\n" and "noise" not in told, (said, told)
    program(room, "sox", "exit 1")
    assert "no sound device works here" in heard("--listen")[2]


def helps_where_words_are_wrong(room):
    help_of = {it: room.play(it) for it in ("--help", "-h", "help")}
    status, wrote, told = help_of["-h"]
    assert (status, told) == (0, "") and len(set(help_of.values())) == 1, told
    assert wrote.startswith("./play [--listen] [--picture] [-o FILE] ORC SCO\n") and "docs/FIRST.md" in wrote
    assert max(map(len, wrote.split("\n"))) <= 120, max(wrote.split("\n"), key=len)
    says = texts(room, "ends 2 usage: csplay ..")
    for words, better in ((["--pictures"], "`--picture`"), (["-o"], "needs a name"), (["--checks"], "`--check`")):
        ended = room.play(*(words + says if words != ["-o"] else says + words))
        assert ended[0] in (2, 3) and (ended[0] == 3 or better in ended[2]), (words, ended)
    for words in ("--help", "--version", "--check"):
        call = f"'{room.top}/play' {words} '{says[0]}' '{says[1]}' | true"
        ran = subprocess.run(call, shell=True, env=room.env, capture_output=True, text=True)
        assert "Traceback" not in ran.stderr and "Broken pipe" not in ran.stderr, (words, ran.stderr)


def prints_what_editors_read(room):
    says = texts(room, "ends 4 orchestra line 3: 12 UnknownOpcode", orc="instr 1\na1 osicl p4, 440, 1\n")
    status, wrote, told = room.play("--check", "--format=gcc", *says)
    assert (status, wrote) == (4, "orchestra line 3: 12 UnknownOpcode\n"), (status, wrote)
    assert told.startswith(f"{says[0]}:3: error: 12 UnknownOpcode. csplay has no opcode `osicl`."), told
    assert told.count("\n") == 1, told
    told = room.play("--check", "--format=gcc", *texts(room, "ends 5 score line 1: 2 BadNumber", sco="i1 0 l\n"))[2]
    assert told.startswith(f"{says[1]}:1: error: 2 BadNumber. p3, `l`, is no number"), told
    assert room.play("--format=gcc", *says)[0] == 2


def completes_in_shells(room):
    shells = {
        "bash": "source '{}.bash'; COMP_WORDS=(./play --li); COMP_CWORD=1; _csplay_play; echo ${{COMPREPLY[@]}}; "
        "COMP_WORDS=(csplay ''); _csplay; echo ${{COMPREPLY[@]}}",
        "zsh": "autoload -U compinit && compinit -u -D; source '{}.zsh' 2>/dev/null; whence -w _csplay",
        "fish": "source '{}.fish'; complete -C './play --li'",
    }
    of = f"{TOP}/tools/completion"
    folder = f"{room.stand_in}/texts"
    os.makedirs(f"{folder}/more")
    for it in ("a.orc", "a.sco", "a.txt"):
        room.note(f"texts/{it}", "")
    for shell, words in shells.items():
        if not shutil.which(shell):
            continue
        bare = {"bash": ["--norc"], "zsh": ["-f"], "fish": ["--no-config"]}[shell]
        how = {"cwd": folder, "env": room.env, "capture_output": True, "text": True}
        ran = subprocess.run([shell, *bare, "-c", words.format(of)], **how)
        expected = {"bash": "--listen\nmore a.orc a.sco\n", "zsh": "_csplay: function\n"}.get(shell)
        assert ran.stdout == expected if expected else "--listen" in ran.stdout, (shell, ran)


def counts_processors_and_memory(room):
    with open("/proc/meminfo") as it:
        total = int(it.readline().split()[1]) >> 20
    kept = build.GIGABYTES
    build.GIGABYTES = total + 1
    try:
        assert build.lanes() == 1, "more crates are proved at once than memory allows"
    finally:
        build.GIGABYTES = kept
    kept, current.SEEN = current.SEEN, f"{room.stand_in}/seen"
    try:
        current.note("proved", "seen\n", time.time_ns())
        assert not os.path.exists(current.SEEN), "a source that may change again within its clock's grain is noted"
        current.note("proved", "seen\n", time.time_ns() - 2 * current.YOUNG)
        assert os.path.exists(current.SEEN)
    finally:
        current.SEEN = kept


def copies_a_module_once_it_is_whole(room):
    import unproved

    file, looks = f"{room.stand_in}/module", {}
    room.note("module", "half")
    copy = f"{room.stand_in}/module.copy"
    assert not unproved.is_copied(file, copy, looks) and not os.path.exists(copy), "half a module is copied"
    room.note("module", "the whole")
    assert not unproved.is_copied(file, copy, looks) and not os.path.exists(copy), "half a module is copied"
    assert unproved.is_copied(file, copy, looks)
    wants = {"far": "#[inline(never)]", "near": "#[inline(always)]", "mid": "#[inline]"}
    room.write("crates/a/src/hinted.rt", "".join(f"{it}\nfn {name}() {{}}\n" for name, it in wants.items()))
    found = unproved.hints(f"{room.top}/crates")
    os.remove(f"{room.top}/crates/a/src/hinted.rt")
    said = {name[-1]: it for name, it in found.items()}
    assert said == {"far": "noinline", "near": "alwaysinline", "mid": "inlinehint"}, said
    filling = "  call void @llvm.memset.p0.i64(ptr %x, i8 -86, i64 8, i1 false)"
    assert unproved.CHECK.match(filling), "what rt try fills its variables with"


TESTS = [hints_through_play, progress_of_a_sound_file, plays_and_draws_what_was_written, helps_where_words_are_wrong]
TESTS += [prints_what_editors_read, completes_in_shells, counts_processors_and_memory, copies_a_module_once_it_is_whole]
