"""The table of mistakes (tests/mistakes.txt), for tests/play and tests/program."""
import os

FILE = f"{os.path.dirname(os.path.realpath(__file__))}/mistakes.txt"
ORC = "instr 1 // a1 = p4 // out a1 // endin"
SCO = "f1 0 8192 10 1 // i1 0 1 9000 440"


class Mistake:
    """A case: its name, its files by their names, the words of the call, what csplay says, what its hint must have and
    what it mustn't. `is_silent` is a case of which no hint may come."""

    def __init__(self, block):
        found = [line.partition(" ")[::2] for line in block.split("\n")]
        given = dict(found)
        self.name, self.says = given["case"], given["says"].split(" // ") if "says" in given else None
        self.hints = [text for key, text in found if key == "hint"]
        self.nots = [text for key, text in found if key == "not"]
        self.is_silent = ("no", "hint") in found
        self.files = {f"t.{it}": content(given[it]) for it in ("orc", "sco", "csd") if it in given}
        self.files = {"t.orc": content(ORC), "t.sco": content(SCO), **self.files}
        names = ["t.csd"] if "csd" in given else ["t.orc", "t.sco"]
        self.words = given["words"].split() if "words" in given else names

    def report(self):
        """What csplay prints; of a report the lines that aren't in the table are those of a whole piece."""
        if self.status():
            return self.says
        told = {"frames": "44100", "notes": "1", "not started": "0", "out of range": "0", "peak": "1000.00000"}
        told.update((it.rpartition(" ")[0], it.rpartition(" ")[2]) for it in self.says)
        return [f"{name} {value}" for name, value in told.items()]

    def status(self):
        """The status that goes with what csplay says; 0 for a report."""
        heads = {"orchestra ": 4, "score ": 5, "limit ": 6, "csd ": 11, "usage": 2, "cannot read": 3, "cannot write": 7}
        return next((status for head, status in heads.items() if self.says[0].startswith(head)), 0)


def content(text):
    """A text's bytes: `@N` stands for N copies of the line before it."""
    lines = []
    for line in text.split(" // "):
        lines += lines[-1:] * int(line[1:]) if line.startswith("@") else [line]
    text = "".join(f"{it}\n" for it in lines) if "\\r" not in text else lines[0]
    return text.encode().decode("unicode_escape").encode("latin-1")


def mistakes():
    with open(FILE, encoding="utf-8") as it:
        text = "".join(line for line in it if not line.startswith("#"))
    return [Mistake(it) for it in text.strip("\n").split("\n\n")]
