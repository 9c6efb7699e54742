"""The texts of docs/FIRST.md at each of its pictures, for bench/pictures and tests/program.

The lesson has blocks of code marked `orc`, `sco` and `report`. At a picture `first-N.png` the texts are the last that
stand before it, and the report that must come is the one that stands behind the same texts, if there is one."""
import os
import re

FILE = f"{os.path.dirname(os.path.dirname(os.path.realpath(__file__)))}/docs/FIRST.md"
PART = re.compile(r"^```(orc|sco|report)\n(.*?)^```$|\(pictures/(first-\d+)\.png\)", re.M | re.S)


def states():
    """The name of each picture, its orchestra and score, and the report or None."""
    with open(FILE, encoding="utf-8") as it:
        page = it.read()
    seen = {}
    for kind, text, name in PART.findall(page):
        if name:
            yield name, seen["orc"], seen["sco"], seen.pop("report", None)
        else:
            seen[kind] = text
