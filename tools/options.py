"""Names and options among csplay's words, for `play`: docs/LANGUAGE.md, "Options, names and the demo"."""
import re


def names_in(words):
    """The names among csplay's words, where these have a reading, and the values of its options of one letter."""
    names, options, rest = [], {}, iter(words)
    for word in rest:
        if word == "--":
            names += rest
        elif word == "-" or not word.startswith("-"):
            names.append(word)
        elif word == "--demo":
            options["demo"] = next(rest, "")
        elif word.startswith("--demo="):
            options["demo"] = word.partition("=")[2]
        elif not word.startswith("--"):
            flags = re.match(r"[^jo]*", word)[0]
            options.update(dict.fromkeys(flags[1:], ""))
            if flags != word:
                value = word[len(flags) + 1 :].removeprefix("=")
                options[word[len(flags)]] = value or next(rest, "")
    return names, options


def without(words, letters):
    """The words without the options of these letters and their values; what stands behind `--` are names."""
    kept, rest = [], iter(words)
    for word in rest:
        if word == "--":
            return [*kept, word, *rest]
        if word == "-" or not word.startswith("-") or word.startswith("--"):
            kept.append(word)
            continue
        flags = re.match(r"[^jo]*", word)[0]
        left = "".join(it for it in flags if it not in letters)
        behind = word[len(flags) :]
        is_bare = len(behind) == 1
        value = next(rest, None) if is_bare else None
        if behind and behind[0] not in letters:
            kept.append(left + behind)
            kept += [value] if value is not None else []
        elif left != "-":
            kept.append(left)
    return kept


LONG = ("--prove", "--check", "--listen", "--picture", "--help", "--version", "--manual", "--install")
LONG += ("--turns", "--pool", "--demo")
SHORT = "joWsdn3"
ALIAS = {"--output": "-o", "--out": "-o", "--threads": "-j", "--jobs": "-j", "--workers": "-j", "--quiet": "-n"}


def misspelt(words):
    """Of an option that isn't there, or lacks its value, as a sentence; none where all are right."""
    import difflib

    for at, word in enumerate(words):
        if word == "--":
            return []
        if word in ("-o", "-j", "--demo") and at + 1 == len(words):
            needs = {"-o": "a name, as `-o my.wav`", "-j": "a number from 1 to 32, as `-j 4`"}
            return [f"`{word}` needs {needs.get(word, 'a number of notes, as `--demo 10`')}."]
        name = word.partition("=")[0]
        if name == "--format":
            return [
                "`--format=gcc` must come before csplay's words, with `--check`: ./play --check --format=gcc ORC SCO"
            ]
        if name.startswith("--") and name not in LONG:
            like = ALIAS.get(name) or next(iter(difflib.get_close_matches(name, LONG, 1, 0.6)), None)
            return [f"There is no option `{name}`." + (f" Did you mean `{like}`?" if like else "")]
        if word.startswith("-") and word != "-" and not name.startswith("--"):
            flags = re.match(r"[^jo]*", word)[0][1:]
            other = next((it for it in flags if it not in SHORT), None)
            if other:
                like = f"-{word}"
                like = like if like in LONG else next(iter(difflib.get_close_matches(like, LONG, 1, 0.8)), None)
                return [f"There is no option `-{other}`." + (f" Did you mean `{like}`?" if like else "")]
    return []
