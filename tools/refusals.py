"""What `play` shows beside what csplay said: the refused line of a text and what to do about it, and at status 0 what a
report tells of notes that are missing and sounds that are too loud or too soft."""
import os
import re

import options
import pages
from options import names_in
from perform import OWN, printable

# What the line of each status looks like, and the first head of its tables in docs/LANGUAGE.md.
FAULT = r" line (?P<line>\d+): (?P<kind>\d+ \w+)"
TOLD = {
    4: ("kind", f"orchestra{FAULT}"),
    5: ("kind", f"score{FAULT}"),
    6: ("limit", r"limit L(?P<kind>\d+) passed at line (?P<line>\d+)"),
    11: ("kind", f"csd{FAULT}"),
}
# Those limits that are passed at a line of the score. Of the others that have a line it is one of the orchestra.
OF_SCORE = ("5", "6", "7")
COLUMNS, BYTES = 120, 5 << 20
# Texts of more bytes aren't read for what sounds wrong, and words of more characters are cut.
LONG, LONGEST = 1 << 18, 60
MARK = "file {} begins with a byte order mark (EF BB BF): save it as UTF-8 without one"


def texts_in(words):
    """The names of the texts, orchestra and score or both in one, where each is a file that can be read again."""
    names, _ = names_in(words)
    return names if 1 <= len(names) <= 2 and all(map(os.path.isfile, names)) else []


def bytes_of(name):
    with open(name, "rb") as it:
        return it.read(BYTES)


def decoded(data):
    """A text as it is; bytes that are no UTF-8 are kept as they are too."""
    return data.decode(errors="surrogateescape")


def line_of(data, number):
    """This line of a text; None where the text has no such line."""
    lines = data.split(b"\n", number)
    return decoded(lines[number - 1]).rstrip().replace("\t", " ") if 1 <= number <= len(lines) else None


def parts_of(texts):
    """The bytes of the texts, and orchestra and score each as (text, its first line)."""
    data = [bytes_of(it) for it in texts]
    if len(texts) == 2:
        return data, [(decoded(it), 1) for it in data]
    found = []
    for tag in (b"CsInstruments", b"CsScore"):
        before, _, rest = data[0].partition(b"<%s>" % tag)
        text = rest.partition(b"</%s>" % tag)[0].partition(b"\n")[2]
        found.append((decoded(text), before.count(b"\n") + 2))
    return data, found


def of_bytes(texts, data):
    """What is wrong with files as a whole: how they were saved, or in which order they are named."""
    for name, it in zip(texts, data):
        if it.startswith(b"\xef\xbb\xbf"):
            return [f"The {MARK.format(name)}."]
        if it[:2] in (b"\xff\xfe", b"\xfe\xff"):
            return [f"The file {name} is UTF-16: save it as UTF-8 without a byte order mark."]
        if b"\r" in it and b"\n" not in it:
            return [f"The lines of {name} end with CR only: save it with LF, or with CR and LF."]
    if len(texts) == 2 and b"<CsoundSynthesizer>" in data[0]:
        return [f"{texts[0]} is a file with both texts: give only its name, which must end in `.csd`."]
    if len(texts) == 2 and not re.search(rb"(?m)^\s*instr\b", data[0]) and re.search(rb"(?m)^\s*instr\b", data[1]):
        return [f"{texts[1]} has the instruments: the orchestra is named first, and then the score."]
    return []


def of_refusal(texts, status, said):
    """What to show beside a refusal of a text; none where its line isn't that of the status."""
    import hints
    import scores
    from orchestra import Orchestra
    from statements import Score

    table, form = TOLD[status]
    told = re.fullmatch(form, said.strip())
    if not told:
        return []
    kind, number = told["kind"], int(told["line"])
    is_of_score = status == 5 or status == 6 and kind in OF_SCORE
    data, parts = parts_of(texts)
    text = line_of(data[-1 if is_of_score else 0], number)
    what, more = of_bytes(texts, data), []
    if not what and status == 4:
        read = Orchestra(*parts[0])
        what = hints.about(read, number, int(kind.split()[0]))
        more = hints.others(read, number)
    elif not what and status == 5:
        score = Score(*parts[1])
        what = scores.about(score, number, int(kind.split()[0]))
        more = scores.others(score, number)
    elif not what and status == 11:
        what = scores.about_csd(decoded(data[0]), text or "", int(kind.split()[0]))
    shown = [f"{number}: {text}"[:COLUMNS]] if text is not None else []
    return shown + list(map(cut, (what or general(table, kind)) + more))


def general(table, kind):
    """What docs/LANGUAGE.md says to do about a kind, or a limit with its number."""
    what = pages.advice(table, kind)
    if table == "limit" and what:
        return [f"Limit {kind} is {limits().get(kind, '')}. What to do: {what}."]
    return [f"{kind}: {what}."] if what else []


def limits():
    """The second cell of each row of the table of limits in docs/LANGUAGE.md."""
    text = pages.page("LANGUAGE").partition("\n## Limits\n")[2].partition("\n## ")[0]
    rows = [pages.cells(it) for it in text.split("\n") if it.startswith("| ")]
    return {it[0]: it[1] for it in rows if it[0].isdigit()}


def of_name(said):
    """Of a file that can't be read: what is written like it beside it."""
    if not said.startswith("cannot read "):
        return []
    name = said.strip().removeprefix("cannot read ")
    folder, base = os.path.split(name)
    what = pages.advice("status", "3")
    try:
        import hints

        like = hints.alike(base, os.listdir(folder or "."), 0.6, 2)
    except OSError:
        return [f"There is no folder {folder}."]
    if os.path.isdir(name):
        return [f"{name} is a folder, and no text."]
    return [f"Beside it there is {' and '.join(like)}."] if like and base not in like else [what] if what else []


def of_usage(words):
    """Of words that have no reading."""
    names, _ = names_in(words)
    what, late = [], [it for it in words if it in OWN]
    if late:
        what = [f"`{late[0]}` must come before csplay's words: ./play {late[0]} examples/tune.orc examples/tune.sco"]
    elif what := options.misspelt(words):
        pass
    elif len(names) == 1 and names[0].lower().endswith(".csd") and not names[0].endswith(".csd"):
        what = [f"The name of a file with both texts ends in `.csd`, in small letters: rename {names[0]}."]
    elif len(names) == 1 and not names[0].endswith(".csd"):
        what = ["Give two names, an orchestra and a score, or one that ends in `.csd`, a file with both texts."]
    elif len(names) > 2:
        what = [f"{len(names)} names are given: an orchestra and a score, or one `.csd`; quote a name with a blank."]
    elif not names and not words:
        what = ["Give an orchestra and a score: ./play examples/tune.orc examples/tune.sco"]
    return [*what, "./play --help lists all options."]


def of_report(texts, said):
    """What a report of status 0 has that the ear would not find, and what the texts have that sounds wrong."""
    import sounds

    told = {name: value for name, _, value in (it.rpartition(" ") for it in said.split("\n"))}
    if "peak" not in told or not texts or sum(map(os.path.getsize, texts)) > LONG:
        return []
    _, parts = parts_of(texts)
    return sounds.about(sounds.Piece(*parts), told)


def cut(text):
    """A text whose long words are cut."""
    return re.sub(rf"[^\s`]{{{LONGEST},}}", lambda it: it[0][: LONGEST - 2] + "..", text)


def wrapped(text):
    import textwrap

    return textwrap.wrap(text, 100, break_on_hyphens=False) if len(text) > COLUMNS else [text]


def about(words, status, said):
    """What to show beside an end of this status, whose standard output was `said`, as lines."""
    texts = texts_in(words)
    if status in TOLD:
        what = of_refusal(texts, status, said) if texts else []
    elif status == 0:
        what = of_report(texts, said)
    elif status == 2:
        what = list(map(cut, of_usage(words)))
    elif status == 3:
        what = list(map(cut, of_name(said)))
    else:
        row = pages.advice("status", str(status))
        what = [row] if row else []
    lines = [printable(it) for one in dict.fromkeys(what) for it in wrapped(one)]
    return ["." * 72, *lines] if lines else []


def as_of_gcc(words, status, said):
    """What to show beside a refusal as one line that editors read: the file, the line, the kind and the hint."""
    texts = texts_in(words)
    told = re.search(r"(orchestra|score|csd) line (\d+): (.*)|limit L(\d+) passed at line (\d+)", said)
    if not texts or not told or status not in TOLD:
        what = " ".join([said.strip(), *about(words, status, said)[1:]])
        return [printable(f"{(texts or ['play'])[0]}: error: {what}")]
    file, line = texts[-1 if told[1] == "score" or told[4] in OF_SCORE else 0], told[2] or told[5]
    what = [it for it in of_refusal(texts, status, said) if not it.startswith(f"{line}: ")]
    return [printable(f"{file}:{line}: error: {' '.join([(told[3] or said.strip()) + '.', *what])}")]
