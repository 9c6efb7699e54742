"""What to do about a refused header line of an orchestra (`sr = 44100` and the like), for `play`."""
import re

import pages

RANGES = {"sr": (1, 192000), "ksmps": (1, 4096), "nchnls": (1, 16)}
USUAL = {"sr": 44100, "ksmps": 32, "nchnls": 2, "0dbfs": 1, "kr": 4410}
CHANNELS = {"mono": 1, "one": 1, "stereo": 2, "two": 2, "quad": 4, "four": 4}


def is_of(found):
    """Whether a line's tokens are those of a header line, right or wrong."""
    return bool(found) and (found[0] in pages.headers() or found[0].lower() in RANGES and found[1:2] != ["init"])


def better(name, text):
    """A value that the name may have, near the one that is written."""
    word = text.strip().strip('"').lower()
    if name == "nchnls" and word in CHANNELS:
        return CHANNELS[word]
    if re.search(r"\d\s*[-+*/]\s*\d", word):
        import scores

        word = scores.value(word) or word
    found = re.match(r"[-+]?\d{1,3}(?:[,']\d{3})+(?!\d)|[-+]?(?:\d+ \d{3}\b|\d*\.?\d+)", word)
    if not found:
        return USUAL[name]
    number = float(re.sub(r"[,' ]", "", found[0]))
    if name == "sr" and number < 1000 and (number * 1000 % 50 == 0 or "k" in word) and number >= 8:
        number *= 1000
    if name in RANGES:
        least, most = RANGES[name]
        return USUAL[name] if number < least else min(most, int(number))
    return USUAL[name] if number <= 0 else f"{number:g}"


def misspelt(found):
    """Of a line `name = number` whose name is written like a header's."""
    import hints

    word = found[0].lower()
    same = {"samplerate": "sr", "sample_rate": "sr", "rate": "sr", "srate": "sr"}
    same |= {"channels": "nchnls", "nchannels": "nchnls"}
    like = same.get(word) or next(iter(hints.alike(word.translate(hints.ALIKE), pages.headers(), 0.7)), None)
    like = like or next(iter(hints.alike(word, pages.headers(), 0.75)), None)
    return [
        f"csplay has no header `{found[0]}`. Did you mean `{like} = {better(like, ' '.join(found[2:]))}`?"
    ] if like else []


def about(orchestra, line, kind):
    """What to do about a fault of this kind in a header line; none where the line has none, or nothing is known."""
    found = orchestra.lines.get(line, [])
    if re.match(r"\s*[0oO]d[bB][fF][sS]\b", orchestra.plain(line)) and found[:1] != ["0dbfs"]:
        return ["Full scale is written `0dbfs`, with the digit 0 and small letters: write `0dbfs = 1`."]
    if found[:1] == ["zakinit"] and kind == 16:
        return ["`zakinit` takes two numbers from 1 to 1000, as `zakinit 4, 4`: write numbers, and no names."]
    if not is_of(found):
        return []
    name, text = found[0], orchestra.plain(line).partition("=")[2].lstrip("=")
    if name not in pages.headers():
        return [f"A header's name is in small letters: write `{name.lower()} = {better(name.lower(), text)}`."]
    if found[1:2] in (["="], ["=="]) and orchestra.is_inside(line):
        return [f"`{name} = ..` must be outside instruments, at the head of the text: move the line there."]
    if orchestra.known((found + ["", ""])[1]) and found[1] != "init":
        return [f"`{name}` is the name of a header: give the variable another name, as `k{name}`."]
    if found[1:2] != ["="]:
        text = text or orchestra.plain(line).replace(name, "", 1)
        return [f"A header line has one `=`: write `{name} = {better(name, text)}`."]
    if kind == 17:
        first = next(at for at, it in orchestra.lines.items() if it[:1] == [name])
        return [f"`{name}` has its value in line {first} already: remove one of the two lines."]
    if kind == 16:
        return of_value(orchestra, name, text)
    return [f"The value of a header is one number without a sign: write `{name} = {better(name, text)}`."]


def value_of(orchestra, name):
    found = next((it for it in orchestra.lines.values() if it[:2] == [name, "="] and len(it) > 2), None)
    try:
        return float(found[2]) if found else None
    except ValueError:
        return None


def of_value(orchestra, name, text):
    """Of a value out of its range, or a `kr` that doesn't fit."""
    if name in RANGES and (said := of_range(name, text)):
        return said
    if name == "0dbfs":
        return [
            "`0dbfs`, full scale, must be above 0: write `0dbfs = 1` if amplitudes are parts of 1, else remove the "
            "line."
        ]
    sr, ksmps = value_of(orchestra, "sr") or 44100, value_of(orchestra, "ksmps")
    fits = "choose a `ksmps` that divides `sr`"
    if ksmps and sr % ksmps == 0:
        fits = f"make it sr / ksmps, `kr = {sr / ksmps:g}`"
    if ksmps is None:
        fits = "write `ksmps` instead, the number of samples in a control cycle"
    return [f"`kr` must be exactly sr / ksmps: remove the line of `kr`, or {fits}."]


def of_range(name, text):
    least, most = RANGES[name]
    try:
        number = float(text)
    except ValueError:
        return []
    if number == int(number) and least <= number <= most:
        return []
    return [f"`{name}` must be an integer from {least} to {most}: write `{name} = {better(name, text)}`."]
