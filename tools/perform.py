"""Runs csplay for `play`: as a child that has this process's files, whose standard output is passed on as it comes and
looked at behind that, with a line of progress on a terminal."""
import contextlib
import os
import select
import signal
import sys
import time

# The words of `play` that stand before csplay's.
OWN = ("--prove", "--check", "--listen", "--picture", "--format=gcc")
# The signals that end a program which does nothing about them: those that are sent to this one end what it started.
ENDING = [getattr(signal, f"SIG{it}") for it in "TERM INT HUP QUIT ALRM USR1 USR2".split()]
DIES_WITH_PARENT = 1
# A write of a pipe up to this many bytes isn't torn.
WHOLE, KEPT = 4096, 1 << 16
# Seconds until progress is told, and between two looks at it.
PATIENCE, STEP = 2, 0.5
HEADER = 44
TALK_FAULT = 9
FAILED = 70


def printable(text):
    """A text without characters that a terminal acts upon; `\ufffd` stands for each."""
    return "".join(it if it.isprintable() else "\ufffd" for it in str(text).replace("\t", " "))


def say(*lines):
    """Says something on standard error, where that is open."""
    if lines and sys.stderr is not None:
        with contextlib.suppress(OSError, ValueError):
            print(*map(printable, lines), sep="\n", file=sys.stderr, flush=True)


def show(text):
    """Writes a text to standard output, and returns the status of a process for that: of a success, or of a failure."""
    data = text.encode(errors="surrogateescape")
    try:
        while data:
            data = data[os.write(1, data) :]
        return 0
    except OSError:
        return TALK_FAULT << 8


def tell(text):
    say(f"play: {text}")


def meet_signals_with(handler):
    """Sets what signals do that end a program; one that was ignored as this began stays so."""
    for number in ENDING:
        if signal.getsignal(number) != signal.SIG_IGN:
            signal.signal(number, handler)


def become(program, words):
    try:
        os.execv(program, [program, *words])
    except OSError as error:
        tell(error)
        os._exit(FAILED)


def die_with_parent():
    """The system ends this process with the one that started it, where Python has the means to ask for that."""
    with contextlib.suppress(ImportError, OSError, AttributeError):
        import ctypes

        ctypes.CDLL(None).prctl(DIES_WITH_PARENT, signal.SIGKILL)


class Progress:
    """A line on a terminal with the part of the sound file that is written, or with the seconds spent if no file is
    written. It begins after PATIENCE seconds, and is erased before anything else is printed."""

    def __init__(self, file, is_silent):
        self.file, self.began, self.is_told = file, time.time(), False
        self.is_wanted = not is_silent and sys.stderr is not None and sys.stderr.isatty()

    def part(self):
        """The part that is written, by the length in the file's header; None if there is no such file."""
        try:
            with open(self.file, "rb") as it:
                found, head = os.fstat(it.fileno()), it.read(HEADER)
            whole = int.from_bytes(head[40:44], "little")
            is_ours = head[:4] == b"RIFF" and found.st_mtime >= self.began - 2
            return min(1, (found.st_size - HEADER) / whole) if is_ours and whole else None
        except OSError:
            return None

    def text(self, spent):
        """What is told after these seconds; empty if nothing is known."""
        if self.file is None:
            return f"performing for {int(spent)} s"
        part = self.part()
        left = spent * (1 - part) / part if part else 0
        return f"{int(100 * part)} % of {self.file}, about {int(left) + 1} s left" if part else ""

    def step(self):
        spent = time.time() - self.began
        text = self.text(spent) if self.is_wanted and spent >= PATIENCE else ""
        if text:
            self.write(f"\rplay: {printable(text)}\x1b[K")
            self.is_told = True

    def end(self):
        """Erases the line; none is told after that."""
        if self.is_told:
            self.write("\r\x1b[K")
        self.is_wanted = self.is_told = False

    @staticmethod
    def write(text):
        with contextlib.suppress(OSError, ValueError):
            sys.stderr.write(text)
            sys.stderr.flush()


class Talk:
    """What comes from a pipe is written to standard output at once, and its first bytes are kept."""

    def __init__(self, pipe, is_silent):
        self.pipe, self.is_silent, self.kept, self.has_failed = pipe, is_silent, b"", False

    def take(self):
        """Passes on what there is; False at the end, and where it can't be written."""
        came = os.read(self.pipe, WHOLE)
        self.kept = (self.kept + came)[:KEPT]
        if not came or self.is_silent:
            return bool(came)
        try:
            while came:
                came = came[os.write(1, came) :]
            return True
        except OSError:
            self.has_failed = True
            return False


def is_open(number):
    try:
        os.fstat(number)
        return True
    except OSError:
        return False


def start(program, words, pipe):
    """The child, with the end of the pipe as its standard output where there is one."""
    before = signal.pthread_sigmask(signal.SIG_BLOCK, ENDING)
    child = os.fork()
    if not child:
        die_with_parent()
        if pipe is not None:
            os.dup2(pipe, 1)
        signal.pthread_sigmask(signal.SIG_SETMASK, before)
        become(program, words)
    signal.signal(signal.SIGPIPE, signal.SIG_IGN)
    meet_signals_with(lambda number, _: os.kill(child, number))
    signal.pthread_sigmask(signal.SIG_SETMASK, before)
    return child


def beside(program, words, file=None, is_silent=False):
    """Runs the program and returns how it ended, as wait says it, and what it said; signals are passed on. `file` is
    the sound file, of which progress is told. What can't be written is status 9, as the program has it."""
    reads, writes = os.pipe() if is_open(1) else (None, None)
    child = start(program, words, writes)
    talk, progress = Talk(reads, is_silent), Progress(file, is_silent)
    if reads is not None:
        os.close(writes)
        waits = select.poll()
        waits.register(reads)
        while True:
            if not waits.poll(STEP * 1000):
                progress.step()
                continue
            progress.end()
            if not talk.take():
                break
        os.close(reads)
    # The child's number is its own until it is waited for, so no signal reaches another process.
    os.waitid(os.P_PID, child, os.WEXITED | os.WNOWAIT)
    meet_signals_with(signal.SIG_DFL)
    status = os.waitpid(child, 0)[1]
    return TALK_FAULT << 8 if talk.has_failed and status == 0 else status, talk.kept.decode(errors="replace")


def end_as(status):
    """Ends as the child did: with its status, or by the same signal."""
    if not os.WIFSIGNALED(status):
        os._exit(os.WEXITSTATUS(status))
    import resource

    number = os.WTERMSIG(status)
    resource.setrlimit(resource.RLIMIT_CORE, (0, resource.getrlimit(resource.RLIMIT_CORE)[1]))
    with contextlib.suppress(OSError):
        signal.signal(number, signal.SIG_DFL)
    os.kill(os.getpid(), number)
    os._exit(128 + number)
