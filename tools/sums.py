"""Sums over the sources that csplay is built from, and the record of what the gate has proved (proved.txt): for `play`
and .ci/proved."""
import hashlib
import os
import re

PROGRAM = "csplay"
RECORD = "proved.txt"
PARTS = ("src", "specs", "proofs")


def crates_listed(top):
    """Each crate's line of crates.txt by its name, without comment and with one blank between words."""
    lines = {}
    with open(f"{top}/crates.txt", encoding="utf-8") as file:
        for line in file:
            words, _, listed = line.partition("#")[0].partition(":")
            if words.split():
                lines[words.split()[0]] = " ".join([*words.split(), ":", *listed.split()])
    return lines


def listed_by(name, lines):
    """The crates of the repository that this one lists."""
    return [it for it in lines[name].partition(":")[2].split() if it in lines]


def crates_below(name, lines, found=None):
    """The crates of the repository that this one stands on, and itself, each after those that it lists."""
    found = {} if found is None else found
    for it in listed_by(name, lines):
        if it not in found:
            crates_below(it, lines, found)
    found[name] = True
    return list(found)


def sources(top, crate):
    """The files of a crate that its proof and its program are made from."""
    for part in PARTS:
        for folder, folders, files in os.walk(f"{top}/crates/{crate}/{part}"):
            folders.sort()
            yield from (f"{folder}/{it}" for it in sorted(files))


def sum_of(file):
    with open(file, "rb") as it:
        return hashlib.sha256(it.read()).hexdigest()


def sum_of_crate(top, crate, line):
    made = hashlib.sha256(f"{line}\n".encode())
    for file in sources(top, crate):
        made.update(f"{os.path.relpath(file, top)} {sum_of(file)}\n".encode(errors="surrogateescape"))
    return made.hexdigest()


def sums_of(top, lines):
    """The sum of csplay and of each crate that it stands on, lowest first."""
    return {it: sum_of_crate(top, it, lines[it]) for it in crates_below(PROGRAM, lines)}


def sum_of_all(sums):
    return hashlib.sha256(repr(list(sums.items())).encode()).hexdigest()


def logic_of(version):
    """The words of a kit's line that say by which logic it proves; empty where it doesn't say."""
    found = re.search(r"\blogic \w+", version)
    return found[0] if found else ""


def recorded(top):
    """The logic and the sums of the record; empty where there is none."""
    logic, sums = "", {}
    try:
        with open(f"{top}/{RECORD}", encoding="utf-8") as lines:
            for name, is_of in (line.split() for line in lines if line.strip() and not line.startswith("#")):
                if name == "logic":
                    logic = f"logic {is_of}"
                else:
                    sums[name] = is_of
    except (FileNotFoundError, ValueError):
        return "", {}
    return logic, sums


def other_logic(top, version):
    """Why the record is of another logic than this kit's; None if it isn't, or if the kit says nothing."""
    logic, _ = recorded(top)
    return f"{RECORD} is of {logic}, and this kit says {version}" if version and logic_of(version) != logic else None


def objection(top, sums, version):
    """Why the record doesn't stand for these sources and this kit's logic; None if it does. A kit that says nothing is
    not asked for its logic."""
    _, of_record = recorded(top)
    if not of_record:
        return f"{RECORD} isn't there, or can't be read"
    if other_logic(top, version):
        return other_logic(top, version)
    others = [it for it in {**sums, **of_record} if sums.get(it) != of_record.get(it)]
    return f"{RECORD} was made of other sources: {' '.join(others)}" if others else None
