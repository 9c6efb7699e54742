"""Builds csplay for `play` where it isn't built from what lies here, and notes of what it was built.

Sources that passed the gate (proved.txt has their sums and this kit's logic) are built without proving them again, and
the program must pass tests/program. Other sources are proved: the crates below csplay side by side, as many at
once as there are processors and 4 GB of memory each, then csplay itself.

crates/csplay/out/play.stamp says what was built: a sum over the sources of csplay and all below it, taken before the
build, a sum over the program, the line of `rt version`, how it was built, and a mark of this machine and of the stamp's
inode. A stamp with another mark was made elsewhere, or is a copy: then csplay is built again, and so it is if git tracks
anything that a build leaves, which is deleted first. Two that find it stale build once: the second waits."""
import contextlib
import fcntl
import os
import re
import shutil
import signal
import subprocess
import sys
import threading
import time

import current
import sums
from current import OUT, PROGRAM, STAMP, TOP
from perform import say, tell

QUICK, QUICK_LOG = f"{OUT}/play.quick", f"{OUT}/play.quick.log"
RT = f"{TOP}/tools/rt-quick"
GIGABYTES = 4
# Seconds that a line of code or proof takes, before any crate of this build has told.
SECONDS_A_LINE = 0.04
# How a program was built: the last line of its stamp.
PROVED, BY_RECORD = "proved", f"by {sums.RECORD}"
running, ended = {}, threading.Event()


def asked_for_version():
    """Begins to ask rt for its line, which takes a while; None where there is no rt."""
    how = {"stdin": subprocess.DEVNULL, "stdout": subprocess.PIPE, "stderr": subprocess.DEVNULL, "text": True}
    try:
        return subprocess.Popen(["rt", "version"], **how)
    except OSError:
        return None


def is_built():
    return os.access(PROGRAM, os.X_OK)


def how_built():
    """The last line of the stamp."""
    with open(STAMP, encoding="utf-8") as it:
        return it.read().split("\n")[3]


def is_made_here():
    """Whether the stamp that lies here was made here; also if there is none."""
    try:
        with open(STAMP, encoding="utf-8", errors="replace") as it:
            return it.read().split("\n")[4:5] == [current.mark(os.fstat(it.fileno()).st_ino)]
    except FileNotFoundError:
        return True


def tracked():
    """The folders of builds in which git tracks a file: a clone brought them."""
    words = ["git", "-C", TOP, "ls-files", "-z", "--", "crates/*/out/*"]
    try:
        ran = subprocess.run(words, stdin=subprocess.DEVNULL, capture_output=True, text=True, errors="surrogateescape")
    except OSError:
        return []
    return sorted({"/".join(it.split("/")[:3]) for it in ran.stdout.split("\0") if it})


def forget_what_was_brought():
    """Deletes the builds that a clone brought, and says so; says it too if the stamp was made elsewhere."""
    brought = tracked()
    for it in brought:
        tell(f"git tracks files in {it}, which a build leaves: the folder is deleted")
        shutil.rmtree(f"{TOP}/{it}", ignore_errors=True)
    if not brought and not is_made_here():
        tell("the program in crates/csplay/out was built elsewhere, or copied, so it is built again")


def is_current(found, version, is_to_be_proved):
    """Whether the program is that of these sums and this kit, and was built here. One that was built by the record is
    so only while the record stands for these sources. Without a toolchain one that was built elsewhere counts too,
    unless it is to be proved."""
    try:
        with open(STAMP, encoding="utf-8") as it:
            of_sources, of_program, by, how = it.read().split("\n")[:4]
        if not is_made_here() and (version or is_to_be_proved):
            return False
        is_same = of_sources == sums.sum_of_all(found) and version in ("", by)
        if not is_same or not is_built() or sums.sum_of(PROGRAM) != of_program:
            return False
        return how == PROVED or how == BY_RECORD and not is_to_be_proved and not sums.objection(TOP, found, by)
    except (OSError, ValueError):
        return False


def stamp(found, version, how):
    """Tells of what the program was built, if the sources are still those that were summed before."""
    if found == sums.sums_of(TOP, sums.crates_listed(TOP)):
        with open(f"{STAMP}.new", "w", encoding="utf-8") as it:
            mark = current.mark(os.fstat(it.fileno()).st_ino)
            it.write(f"{sums.sum_of_all(found)}\n{sums.sum_of(PROGRAM)}\n{version}\n{how}\n{mark}\n")
        os.replace(f"{STAMP}.new", STAMP)


def lanes():
    """How many crates are proved at once."""
    with open("/proc/meminfo", encoding="ascii") as it:
        free = int(re.search(r"MemAvailable:\s+(\d+)", it.read())[1]) * 1024
    return max(1, min(len(os.sched_getaffinity(0)), free // (GIGABYTES << 30)))


class Build:
    """The crates that are still to be built, how long each is, and how long the longest chain of others on it is."""

    def __init__(self, crates, lines):
        self.crates, self.lanes = crates, lanes()
        self.below = {it: sums.listed_by(it, lines) for it in crates}
        self.lines = {it: max(1, sum(map(lines_in, sums.sources(TOP, it)))) for it in crates}
        self.behind = dict(self.lines)
        for it in reversed(crates):
            for below in self.below[it]:
                self.behind[below] = max(self.behind[below], self.lines[below] + self.behind[it])
        self.done, self.started, self.spent = set(), {}, (0, 0)
        self.turn, self.log = threading.Condition(), None

    def minutes_left(self):
        """By lines: the longest chain that is left, or all that is left in even lanes, whichever is longer."""
        seconds, lines = self.spent
        rate = seconds / lines if lines else SECONDS_A_LINE
        left = [it for it in self.crates if it not in self.done]
        longest = max(map(self.behind.get, left), default=0)
        return max(1, round(rate * max(longest, sum(map(self.lines.get, left)) / self.lanes) / 60))

    def tell(self):
        if len(self.done) < len(self.crates):
            minutes = self.minutes_left()
            left = f"some {minutes} minute{'s' * (minutes > 1)} left"
        else:
            left = "built"
        tell(f"{len(self.done)} of {len(self.crates)} crates, {left}")

    def start(self, crate, idle):
        verb = "run" if crate == self.crates[-1] else "lib"
        folder, jobs = f"{TOP}/crates/{crate}", max(1, idle)
        os.makedirs(f"{folder}/out", exist_ok=True)
        log = f"{OUT}/play.{crate}.log"
        with open(log, "wb") as to:
            words = [sys.executable, RT, verb, "--jobs", str(jobs)]
            how = {"stdin": subprocess.DEVNULL, "stdout": to, "stderr": subprocess.STDOUT, "start_new_session": True}
            running[crate] = subprocess.Popen(words, cwd=folder, **how)
        self.started[crate] = time.monotonic()
        threading.Thread(target=self.wait_for, args=(crate, verb, log), daemon=True).start()

    def wait_for(self, crate, verb, log):
        status = running[crate].wait()
        with open(log, encoding="utf-8", errors="replace") as it:
            said = it.read()
        # Without words csplay only prints how it is used, so the status of `rt run` is no failure of the build.
        has_run = re.search(r"(?m)^rt: running ", said) and is_built()
        seconds = time.monotonic() - self.started[crate]
        with self.turn:
            running.pop(crate)
            if has_run if verb == "run" else status == 0:
                self.done.add(crate)
                # What was built before tells nothing of the time that the others take.
                if seconds > 5:
                    self.spent = self.spent[0] + seconds, self.spent[1] + self.lines[crate]
                os.remove(log)
            else:
                self.log = self.log or (crate, said)
            self.turn.notify_all()

    def run(self):
        """Builds all, and returns whether that went well."""
        tell(f"proving and building csplay from {len(self.crates)} crates, {self.lanes} at once")
        self.tell()
        told = 0
        with self.turn:
            while len(self.done) < len(self.crates) and not self.log and not ended.is_set():
                ready = [it for it in self.crates if it not in self.started and self.done.issuperset(self.below[it])]
                ready = sorted(ready, key=lambda it: -self.behind[it])[: self.lanes - len(running)]
                for at, crate in enumerate(ready):
                    self.start(crate, (self.lanes - len(running)) // (len(ready) - at))
                self.turn.wait(1)
                if len(self.done) > told:
                    told = len(self.done)
                    self.tell()
        return not self.log and not ended.is_set()


def lines_in(file):
    with open(file, "rb") as it:
        return it.read().count(b"\n")


def stop_all(*_):
    """Ends what was started: each command and all of its group."""
    ended.set()
    for it in list(running.values()):
        with contextlib.suppress(ProcessLookupError):
            os.killpg(it.pid, signal.SIGTERM)


def stop_by(number, _):
    stop_all()
    for it in list(running.values()):
        try:
            it.wait(5)
        except subprocess.TimeoutExpired:
            with contextlib.suppress(ProcessLookupError):
                os.killpg(it.pid, signal.SIGKILL)
    tell("stopped")
    os._exit(128 + number)


def proves(found, lines, version):
    """Proves and builds; returns whether all went well."""
    made = Build(list(found), lines)
    if not made.run():
        stop_all()
        if made.log:
            crate, said = made.log
            say(*said.splitlines()[-40:])
            tell(f"{crate} was not built: above is the end of crates/csplay/out/play.{crate}.log")
        return False
    stamp(found, version, PROVED)
    return True


def ends_well(tool, to):
    """Runs a script on the program of the quick build, and returns whether its status is 0."""
    how = {"stdin": subprocess.DEVNULL, "stdout": to, "stderr": subprocess.STDOUT, "start_new_session": True}
    running[tool] = subprocess.Popen([sys.executable, f"{TOP}/{tool}", QUICK], **how)
    # In a thread, so that what stops this can wait for it too.
    waits = threading.Thread(target=running[tool].wait, daemon=True)
    waits.start()
    waits.join()
    return running.pop(tool).returncode == 0


def builds_by_record(found, version):
    """Builds what the record stands for without a proof, and tries it; returns whether that went well."""
    how_long = "in some 2 minutes; ./play --prove proves them here"
    tell(f"these sources passed the gate, by {sums.RECORD}, so csplay is built without proving them again, {how_long}")
    with open(QUICK_LOG, "wb") as to:
        failed = next((it for it in ("tools/unproved.py", "tests/program") if not ends_well(it, to)), None)
    if failed:
        tell(f"{failed} failed, as {os.path.relpath(QUICK_LOG, TOP)} says, so they are proved")
        return False
    os.remove(QUICK_LOG)
    os.replace(QUICK, PROGRAM)
    stamp(found, version, BY_RECORD)
    return True


def build(version, is_to_be_proved):
    """Builds until the program is that of the sources, three times at most; returns whether it is."""
    for _ in range(3):
        lines = sums.crates_listed(TOP)
        found = sums.sums_of(TOP, lines)
        if is_current(found, version, is_to_be_proved):
            return True
        why_not = sums.objection(TOP, found, version)
        if not is_to_be_proved and sums.recorded(TOP)[1] and sums.other_logic(TOP, version):
            tell(f"{why_not}: install the kit that README names, or prove csplay with this one by ./play --prove")
            return False
        if why_not and not is_to_be_proved:
            tell(f"{why_not}; so the sources are proved")
        is_quick = not why_not and not is_to_be_proved and builds_by_record(found, version)
        if not is_quick and not proves(found, lines, version):
            return False
        if is_current(found, version, is_to_be_proved):
            return True
        tell("the sources changed while csplay was built: once more")
    return False


def make_current(is_to_be_proved):
    asked, (seen, latest) = asked_for_version(), current.look()
    found = sums.sums_of(TOP, sums.crates_listed(TOP))
    # Without a toolchain what was built from these sources counts as it stands.
    version = asked.communicate()[0].strip() if asked else ""
    if is_current(found, version, is_to_be_proved):
        with contextlib.suppress(OSError):
            current.note(how_built(), seen, latest)
        return True
    if not version:
        done = "proved" if is_to_be_proved else "built"
        what = f"csplay isn't {done} from these sources, and there is no rt to do it"
        tell(f"{what}: install the Rattle kit that README names, and put its folder bin into PATH")
        return False
    forget_what_was_brought()
    os.makedirs(OUT, exist_ok=True)
    with open(f"{OUT}/play.lock", "w", encoding="ascii") as lock:
        try:
            fcntl.flock(lock, fcntl.LOCK_EX | fcntl.LOCK_NB)
        except BlockingIOError:
            tell("another play is building csplay: waiting for it")
            fcntl.flock(lock, fcntl.LOCK_EX)
        return build(version, is_to_be_proved)
