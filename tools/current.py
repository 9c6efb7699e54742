"""Whether csplay is that of the files which lie here, by their sizes and times, for `play`: in some milliseconds, where
sums over them take half a second.

play.seen, beside the program, has the size and time of each source, of the lists, of the program, its stamp and the
kit's rt as they were when the sums of all were right. If one differs, the sums decide again (build.py). Both it and the
stamp carry what no clone can bring: the machine's id, and numbers of files on its disk."""
import hashlib
import os
import time

TOP = os.path.dirname(os.path.dirname(os.path.realpath(__file__)))
# A copy that `--install` made has no sources and no list of crates; its program is in bin.
IS_INSTALLED = not os.path.exists(f"{TOP}/crates.txt")
OUT = os.path.realpath(f"{TOP}/../../bin") if IS_INSTALLED else f"{TOP}/crates/csplay/out"
PROGRAM, STAMP, SEEN = f"{OUT}/csplay", f"{OUT}/play.stamp", f"{OUT}/play.seen"
PARTS = ("src", "specs", "proofs")
# A file that was changed within this many nanoseconds may change again at the same time by its clock.
YOUNG = 10**9


def machine():
    """The id of this machine, or its name if it has no id."""
    try:
        with open("/etc/machine-id", encoding="ascii") as it:
            return it.read().strip() or os.uname().nodename
    except (OSError, ValueError):
        return os.uname().nodename


def mark(inode):
    """What a file of this inode, made here, is marked with."""
    return hashlib.sha256(f"{machine()} {inode}".encode(errors="surrogateescape")).hexdigest()


def kit():
    """The files of the kit that another kit has otherwise; none where there is no rt."""
    for folder in os.environ.get("PATH", "").split(os.pathsep):
        if os.access(f"{folder}/rt", os.X_OK):
            rt = os.path.realpath(f"{folder}/rt")
            top = os.path.dirname(os.path.dirname(rt))
            return [rt, f"{top}/KIT-ID", f"{top}/logic_built"]
    return []


def sources():
    folders = [f"{TOP}/crates/{crate}/{part}" for crate in sorted(os.listdir(f"{TOP}/crates")) for part in PARTS]
    while folders:
        try:
            with os.scandir(folders.pop()) as found:
                for it in found:
                    if it.is_dir(follow_symlinks=False):
                        folders.append(it.path)
                    else:
                        yield it.path
        except (FileNotFoundError, NotADirectoryError):
            pass


def look():
    """A line for each file with its size, time and inode, in the order of their names, and the time of the latest source."""
    lines, latest = [f"machine {machine()}\n"], 0
    for it in [*sources(), f"{TOP}/crates.txt", f"{TOP}/proved.txt", PROGRAM, STAMP, *kit()]:
        try:
            found = os.stat(it)
            lines.append(f"{it} {found.st_size} {found.st_mtime_ns} {found.st_mode} {found.st_ino}\n")
            latest = max(latest, found.st_mtime_ns)
        except FileNotFoundError:
            lines.append(f"{it} none\n")
    return "".join(sorted(lines)), latest


def is_seen(is_to_be_proved):
    """Whether all files are those whose sums were right, of a program that was proved if that is asked."""
    try:
        with open(SEEN, encoding="utf-8", errors="surrogateescape") as it:
            how, _, seen = it.read().partition("\n")
        return (how == "proved" or not is_to_be_proved) and seen == look()[0]
    except OSError:
        return False


def note(how, seen, latest):
    """Notes that the sums of what was seen before them were right. What was changed just now isn't noted."""
    if latest < time.time_ns() - YOUNG:
        with open(f"{SEEN}.{os.getpid()}", "w", encoding="utf-8", errors="surrogateescape") as it:
            it.write(f"{how}\n{seen}")
        os.replace(it.name, SEEN)
