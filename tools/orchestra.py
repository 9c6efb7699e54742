"""What an orchestra has, as far as hints of `play` need it: its statements as words and signs, what its bodies give,
and which of its words csplay lacks. It's a rough reading: csplay itself decides what is refused."""
import re

import pages

COMMENT = re.compile(r'/\*.*?(?:\*/|\Z)|(?:;|//)[^\n]*|("[^"\n]*")', re.S)
COMPARISONS = ("<", ">", "<=", ">=", "==", "!=")
JOINS = ("&&", "||")


def without_comments(text):
    """The text with blanks for comments, and its lines where they were."""
    return COMMENT.sub(lambda it: it[1] or re.sub(r"[^\n]", " ", it[0]), text)


class Orchestra:
    """An orchestra's lines from `first` on, numbered as its file is. A statement whose lines are joined by `\\` has its
    tokens in its first line, and none in the others."""

    def __init__(self, text, first=1):
        self.first, self.plains = first, without_comments(text).split("\n")
        self.lines, self.begins = {}, {}
        begin, before = first, ""
        for at, line in enumerate(self.plains, first):
            begin = begin if before else at
            self.lines[at], self.begins[at] = [], begin
            is_joined = line.rstrip().endswith("\\")
            before += line.rstrip()[:-1] + " " if is_joined else line
            if not is_joined:
                self.lines[begin], before = pages.tokens(re.sub(r'"[^"]*"', '"', before)), ""
        self.defined = {it[1]: at for at, it in self.lines.items() if it[:1] == ["opcode"] and len(it) > 1}
        self.instruments = {
            int(word): at
            for at, it in reversed(self.lines.items())
            if it[:1] == ["instr"]
            for word in it[1:]
            if word.isdigit()
        }

    def plain(self, line):
        """The line without its comments."""
        return self.plains[line - self.first] if 0 <= line - self.first < len(self.plains) else ""

    def known(self, word):
        return word in pages.opcodes() or word in self.defined

    def opcode_of(self, found):
        """The place of the opcode among a statement's tokens; None for an assignment, a keyword's or head's line."""
        words = [bool(re.match(r"[A-Za-z_]", it)) for it in found] + [False] * 2
        if not found or not words[0] or found[0] in pages.keywords() or found[-1] == "xin":
            return None
        if found[1:2] and found[1] in ("=", "+=", "-=", "*=", "/=", ":", "["):
            return None
        at = 0
        while found[at + 1 : at + 2] == [","] and words[at + 2]:
            at += 2
        if at or words[1] and not self.known(found[0]):
            is_result = pages.is_name(found[at]) or self.known(found[at + 1]) if words[at + 1] else False
            if at and found[at + 1 : at + 2] == ["="]:
                return None
            return at + 1 if is_result or at and words[at + 1] else 0
        return 0

    def word_of(self, line):
        """The opcode of a line; empty where it has none."""
        found = self.lines.get(line, [])
        at = self.opcode_of(found)
        return found[at] if at is not None and at < len(found) else ""

    def lacking(self, at):
        """The words and signs of a line that csplay lacks, functions with their bracket."""
        found = self.lines.get(at, [])
        if found[:1] in (["opcode"], ["instr"]) or found[1:2] == ["="] and found[:1] and found[0] in pages.headers():
            return []
        place, lacks = self.opcode_of(found), []
        for at, it in enumerate(found):
            follows = found[at + 1] if at + 1 < len(found) else ""
            is_word = re.match(r"[A-Za-z_]", it)
            if at == place and self.known(it):
                continue
            if is_word and follows == "(" and it not in pages.FUNCTIONS | pages.keywords():
                lacks.append(it if at == place else f"{it}(")
            elif is_word and follows == ":" and found[at + 3 : at + 4] == ["("]:
                lacks.append(f"{it}(")
            elif it in pages.outside() or at == place and not self.known(it):
                lacks.append(it)
            elif it in ("^", "#", "~", "&", "<<", ">>", "[", "{", "}") or it == "$" and not follows:
                lacks.append(it)
        return lacks

    def all_lacking(self, but=()):
        """Each word that csplay lacks with its first line."""
        found = {}
        for at in self.lines:
            for it in self.lacking(at):
                if it not in but:
                    found.setdefault(it, at)
        return found

    def body_of(self, line):
        """The lines of the instrument or definition around a line; outside of these the lines between two of them."""
        heads = {at: (self.lines[at] + [""])[0] for at in self.lines}
        first = last = line
        while first > self.first and heads[first] not in ("instr", "opcode"):
            if heads[first - 1] in ("endin", "endop"):
                break
            first -= 1
        is_inside = heads.get(first) in ("instr", "opcode")
        while last < max(self.lines) and heads[last] not in ("endin", "endop"):
            if not is_inside and heads[last + 1] in ("instr", "opcode"):
                break
            last += 1
        return range(first, last + 1)

    def open_ifs(self, line):
        """The lines of each `if` of this body that isn't ended before a line."""
        opened = []
        for at in self.body_of(line):
            head = (self.lines[at] + [""])[0]
            if at >= line:
                break
            opened = opened + [at] if head == "if" else opened[:-1] if head == "endif" else opened
        return opened

    def is_inside(self, line):
        return any(self.lines[at][:1] in (["instr"], ["opcode"]) for at in self.body_of(line) if at <= line)

    def given(self, lines):
        """The names that these lines give, with the first line of each."""
        names = {}
        for at in lines:
            found = self.lines.get(at, [])
            place = self.opcode_of(found)
            results = found[: place if place is not None else 0]
            if found[1:2] and found[1] in ("=", "+=") or "xin" in found:
                results = found[: found.index("xin")] if "xin" in found else found[:1]
            for it in results:
                if it != "," and pages.is_name(it):
                    names.setdefault(it, at)
        return names

    def begins_with(self, name, line):
        """Whether a control variable has a value as the note begins: of `init`, an input or shared."""
        if name.startswith("g"):
            return True
        body = [self.lines[at] for at in self.body_of(line) if at < line]
        return any(name in it[: self.opcode_of(it) or 1] and ("init" in it[:2] or it[-1:] == ["xin"]) for it in body)

    def has(self, word):
        return any(word in it for it in self.lines.values())


def arguments(found):
    """The tokens of each argument, split at the commas outside brackets."""
    parts, depth = [[]], 0
    for it in found:
        depth += (it == "(") - (it == ")")
        if it == "," and depth == 0:
            parts.append([])
        else:
            parts[-1].append(it)
    return parts if parts != [[]] else []
