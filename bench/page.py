"""Stores the tables of bench/. A table goes into its file of bench/results, between its two marks. Above it are its
day, version, commit and machine, the load average at both ends, the number of processors that other work kept busy
meanwhile, and the share of processor time that the host took (steal).

A table isn't stored if other work or the host took more than MOST_OTHER or MOST_STEAL, since its times couldn't be
compared with others. With --anyway it is stored, and says so."""
import datetime
import os
import re
import subprocess

TOP = os.path.dirname(os.path.dirname(os.path.realpath(__file__)))
# Processors that other work may keep busy, on average, and the percentage of processor time that the host may take.
MOST_OTHER, MOST_STEAL = 0.3, 2.0


def git(*words):
    ran = subprocess.run(["git", "-C", TOP, *words], stdin=subprocess.DEVNULL, capture_output=True, text=True)
    return ran.stdout.strip()


def state():
    """The day, the version and commit of this clone, whether its sources differ from it, and the machine."""
    commit = git("rev-parse", "--short=8", "HEAD") or "unknown"
    changed = " with changes" if git("status", "--porcelain", "crates", "crates.txt") else ""
    with open(f"{TOP}/VERSION", encoding="utf-8") as it:
        version = it.read().strip()
    with open("/proc/cpuinfo", encoding="utf-8") as it:
        model = (re.search(r"model name\s*: (.*)", it.read()) or [None, "a processor"])[1]
    count = len(os.sched_getaffinity(0))
    return f"{datetime.date.today()}, version {version}, commit {commit}{changed}, {count} processors ({model})"


def times():
    """Seconds: of a clock, of the processors' work, of this script and its children, taken by the host, and in all."""
    tick = os.sysconf("SC_CLK_TCK")
    with open("/proc/stat", encoding="ascii") as it:
        user, nice, system, idle, wait, interrupts, soft, steal = (int(it) / tick for it in it.readline().split()[1:9])
    work = user + nice + system + interrupts + soft
    own = os.times()
    return own.elapsed, work, sum(own[:4]), steal, work + idle + wait + steal


class Watch:
    """The machine while a table is made. Other work disturbs a table unless `is_timed` is False."""

    def __init__(self, is_timed=True):
        self.is_timed, self.of, self.times = is_timed, state(), times()
        self.loads, self.other, self.steal = [os.getloadavg()[0]], 0, 0

    def start(self):
        """The line that a script prints first."""
        return f"{self.of}. Load {self.loads[0]:.1f} at the start."

    def end(self):
        """Takes the figures at the end."""
        clock, work, own, steal, total = (now - then for now, then in zip(times(), self.times))
        self.other = max(0, work - own) / max(clock, 0.01)
        self.steal = 100 * steal / max(total, 0.01)
        self.loads.append(os.getloadavg()[0])

    def faults(self):
        """What disturbed the table."""
        found = []
        if self.is_timed and self.other > MOST_OTHER:
            found.append(f"other work kept {self.other:.1f} processors busy (at most {MOST_OTHER})")
        if self.is_timed and self.steal > MOST_STEAL:
            found.append(f"the host took {self.steal:.1f} % of processor time (at most {MOST_STEAL} %)")
        return found

    def head(self):
        """The lines above a table."""
        first, last = self.loads
        load = f"Load {first:.1f} at the start and {last:.1f} at the end"
        said = f"{load}; other work kept {self.other:.1f} processors busy; steal {self.steal:.1f} %"
        faults = self.faults()
        marked = f"\n**Disturbed**: {', '.join(faults)}.\n" if faults else ""
        return f"{self.of}. {said}.\n{marked}"


def add_options(parser):
    """The options of a script that stores its table."""
    parser.add_argument("--page", action="store_true", help="store the table in bench/results")
    parser.add_argument("--anyway", action="store_true", help="store it even if the machine was disturbed")


def store(name, watch, text, given):
    """Prints how the machine was, and stores a table in bench/results/NAME.md if `given` has --page."""
    watch.end()
    print(f"\n{watch.head()}", flush=True)
    if given.page and getattr(given, "only", ""):
        raise SystemExit(f"bench/results/{name}.md isn't written: --only leaves out rows")
    if given.page and watch.faults() and not given.anyway:
        raise SystemExit(f"bench/results/{name}.md isn't written: {', '.join(watch.faults())}; --anyway writes it")
    if given.page:
        put(name, f"{watch.head()}\n{text}", f"{TOP}/bench/results/{name}.md")


def put(name, text, file):
    """`text` after the line `<!-- NAME -->`, up to the line `<!-- end of NAME -->`."""
    first, last = f"<!-- {name} -->\n", f"<!-- end of {name} -->\n"
    with open(file, encoding="utf-8") as it:
        page = it.read()
    if page.count(first) != 1 or page.count(last) != 1:
        raise SystemExit(f"{file} has no place for {name}")
    before, after = page[: page.index(first) + len(first)], page[page.index(last) :]
    with open(f"{file}.new", "w", encoding="utf-8") as it:
        it.write(f"{before}{text.strip()}\n{after}")
    os.replace(f"{file}.new", file)
