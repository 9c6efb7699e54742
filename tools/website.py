"""Makes a website without scripts of the manual, of the documents that it links to, and of the pieces of examples/:
each example with its sound, which csplay makes on the spot. No page needs anything outside the folder."""
import html
import os
import posixpath
import re
import shutil

import entries
import worked
from markdown import blocks, plain

TOP = entries.TOP
# The pages of the site by the files of the repository that they are made of.
DOCUMENTS = ("FIRST", "CSOUND", "LANGUAGE", "MEANING", "SERVERS", "SPEED")
PLACES = {f"docs/{it}.md": f"pages/{it}.html" for it in DOCUMENTS}
PLACES.update({"docs/manual/README.md": "index.html", "examples/README.md": "examples/index.html"})
BAR = (("index.html", "Manual"), ("examples/index.html", "Pieces"), ("pages/FIRST.html", "A first piece"),
       ("pages/CSOUND.html", "If you know Csound"), ("pages/LANGUAGE.html", "The language"))
STYLE = """
body { margin: 0 auto; padding: 0 1.2em 3em; max-width: 54em; color: #1c222b; background: #fff;
  font: 16px/1.5 system-ui, "Segoe UI", "Noto Sans", "DejaVu Sans", sans-serif; }
nav { margin: 0 0 1.6em; padding: .7em 0; border-bottom: 1px solid #d6dce4; }
nav a { margin-right: 1.4em; }
a { color: #1f4788; text-decoration: none; }
a:hover { text-decoration: underline; }
h1 { margin: .2em 0 .3em; font-size: 1.9em; line-height: 1.2; }
h2 { margin: 1.7em 0 .4em; font-size: 1.2em; border-bottom: 1px solid #e6eaf0; padding-bottom: .15em; }
h3 { margin: 1.4em 0 .3em; font-size: 1.05em; }
p.sentence { margin-top: 0; font-size: 1.1em; color: #3a4452; }
code, pre { font: .88em/1.45 ui-monospace, "DejaVu Sans Mono", Menlo, Consolas, monospace; background: #f4f6f9; }
code { padding: .08em .28em; border-radius: 3px; }
pre { padding: .7em .9em; overflow-x: auto; border-radius: 5px; margin: .6em 0; }
pre code { padding: 0; font-size: 1em; }
table { border-collapse: collapse; margin: .7em 0; display: block; overflow-x: auto; }
th, td { padding: .3em .8em .3em 0; text-align: left; vertical-align: top; border-bottom: 1px solid #e6eaf0; }
th { font-weight: 600; color: #46505f; white-space: nowrap; }
td:first-child { white-space: nowrap; }
td.wraps:first-child { white-space: normal; }
td img { min-width: 15em; }
img { max-width: 100%; height: auto; display: block; margin: .5em 0; }
figure { margin: .9em 0; }
figcaption, .quiet, .report { color: #5d6876; font-size: .88em; }
audio { width: 100%; max-width: 37.5em; display: block; margin: .8em 0; }
.texts { display: grid; grid-template-columns: repeat(auto-fit, minmax(19em, 1fr)); gap: 0 1em; }
.names { column-width: 12em; }
.names a { display: block; text-indent: -1em; padding-left: 1em; break-inside: avoid; }
table.entries { display: table; width: 100%; }
.entries td:first-child { width: 11em; }
"""


class Place:
    """A page of the site: where it is, and the file of the repository whose links it has."""

    def __init__(self, path, source):
        self.path, self.source = path, source

    def to(self, path):
        """The link to another file of the site."""
        return posixpath.relpath(path, posixpath.dirname(self.path) or ".")

    def target(self, link):
        """A link of the source as one of the site; None if it leads to no file there."""
        if ":" in link.partition("#")[0]:
            return link
        path, sign, part = link.partition("#")
        if not path:
            return link
        path = posixpath.normpath(posixpath.join(posixpath.dirname(self.source), path))
        found = place_of(path)
        return self.to(found) + sign + part if found else None


def place_of(path):
    """Where the site has a file of the repository; None if it doesn't have it."""
    if path in PLACES:
        return PLACES[path]
    if match := re.fullmatch(r"docs/manual/([\w-]+)\.md", path):
        return f"{match[1]}.html" if entries.entry(match[1]) else None
    if match := re.fullmatch(r"examples/(\w+)\.(orc|sco|csd)", path):
        return f"examples/{match[1]}.html" if match[1] in pieces() else None
    if match := re.fullmatch(r"docs/(manual/)?pictures/([\w-]+\.png)", path):
        return f"pictures/{match[2]}" if os.path.exists(f"{TOP}/{path}") else None
    return None


def pieces():
    """The names of the pieces of examples/ that have an orchestra and a score."""
    names = (it[:-4] for it in os.listdir(f"{TOP}/examples") if it.endswith(".sco"))
    return sorted(it for it in names if os.path.exists(f"{TOP}/examples/{it}.orc"))


def read(path):
    with open(f"{TOP}/{path}", encoding="utf-8") as it:
        return it.read()


def inline(text, place):
    """A line with its code, bold parts, pictures and links."""
    found = []

    def kept(markup):
        found.append(markup)
        return f"\0{len(found) - 1}\0"

    def link(match):
        target = place.target(match[2])
        return kept(f'<a href="{html.escape(target)}">') + match[1] + kept("</a>") if target else match[1]

    def picture(match):
        target = place.target(match[2])
        return kept(f'<img src="{html.escape(target)}" alt="{html.escape(match[1])}">') if target else match[1]

    text = re.sub(r"`([^`]+)`", lambda it: kept(f"<code>{html.escape(it[1])}</code>"), text)
    text = re.sub(r"!\[([^\]]*)\]\(([^)]*)\)", picture, text)
    text = re.sub(r"\[([^\]]*)\]\(([^)\s]*)[^)]*\)", link, text)
    text = html.escape(text, quote=False)
    text = re.sub(r"\*\*([^*]+)\*\*", r"<strong>\1</strong>", text)
    text = re.sub(r"(?<![\w*])\*([^*\s][^*]*)\*(?![\w*])", r"<em>\1</em>", text)
    for _ in range(3):
        text = re.sub("\0(\\d+)\0", lambda it: found[int(it[1])], text)
    return text


def slug(text):
    return re.sub(r"[^\w -]", "", plain(text).lower()).strip().replace(" ", "-")


def table(block, place):
    rows = []
    for at, row in enumerate(block.rows):
        sign = "td" if at else "th"
        wraps = [len(plain(it)) > 28 for it in row]
        name = re.fullmatch(r"`(\w+)`", row[0])
        if place.path == PLACES["examples/README.md"] and name and name[1] in pieces():
            row = [f"[{name[1]}]({name[1]}.orc)", *row[1:]]
        made = [f"<{sign}{' class=wraps' if wide else ''}>{inline(it, place)}</{sign}>" for it, wide in zip(row, wraps)]
        rows.append(f"<tr>{''.join(made)}</tr>" if at or any(row) else "")
    return f"<table>{''.join(rows)}</table>"


def markup(block, place):
    """A block as HTML."""
    if block.kind == "heading":
        level = min(block.level, 4)
        return f'<h{level} id="{slug(block.lines[0])}">{inline(block.lines[0], place)}</h{level}>'
    if block.kind in ("list", "steps"):
        sign = "ul" if block.kind == "list" else "ol"
        return f"<{sign}>{''.join(f'<li>{inline(it, place)}</li>' for it in block.lines)}</{sign}>"
    if block.kind == "code":
        lines = "\n".join(map(html.escape, block.lines))
        return f'<pre{" class=report" if block.word == "report" else ""}><code>{lines}</code></pre>'
    if block.kind == "table":
        return table(block, place)
    if block.kind == "pictures":
        return "".join(figure(words, place.target(path)) for words, path in block.pictures if place.target(path))
    return "" if block.kind == "comment" else f"<p>{inline(block.lines[0], place)}</p>"


def figure(words, path):
    words = html.escape(words)
    return f'<figure><img src="{path}" alt="{words}"><figcaption>{words}</figcaption></figure>'


def page(place, title, body):
    links = "".join(f'<a href="{place.to(path)}">{name}</a>' for path, name in BAR)
    return (
        f'<!DOCTYPE html>\n<html lang="en"><head><meta charset="utf-8"><title>{html.escape(title)} · csplay</title>\n'
        f'<meta name="viewport" content="width=device-width">\n<link rel="stylesheet" href="{place.to("manual.css")}">'
        f"</head><body>\n<nav>{links}</nav>\n{body}\n</body></html>\n"
    )


def audio(place, path):
    return f'<audio controls preload="metadata" src="{place.to(path)}"></audio>'


def of_entry(entry):
    """The page of an entry, its example's sound under its texts."""
    place = Place(f"{entry.name}.html", f"docs/manual/{entry.name}.md")
    parts = [f"<h1>{html.escape(entry.title)}</h1>", f'<p class="sentence">{inline(entry.sentence, place)}</p>']
    for heading in entry.headings:
        parts.append(f'<h2 id="{slug(heading)}">{html.escape(heading)}</h2>')
        texts = [it for it in entry.section(heading) if it.word in ("orc", "sco")]
        for block in entry.section(heading):
            if block in texts:
                parts += ['<div class="texts">'] * (block is texts[0])
                parts += [markup(block, place)] + ["</div>"] * (block is texts[-1])
                parts += [audio(place, f"sounds/{entry.name}.wav")] * (block is texts[-1])
            else:
                parts.append(markup(block, place))
    return place, page(place, entry.title, "\n".join(parts))


def of_index():
    place = Place("index.html", "docs/manual/README.md")
    parts = ["<h1>Manual of csplay</h1>"]
    parts += ["<p>To search, press Ctrl+F: each entry has the words by which it may be looked for.</p>"]
    found = sorted(entries.all_entries(), key=lambda it: it.title.lower())
    links = "".join(f'<a href="{it.name}.html">{html.escape(it.title)}</a>' for it in found)
    parts += ['<h2 id="by-name">By name</h2>', f'<p class="names">{links}</p>', '<h2 id="by-purpose">By purpose</h2>']
    for group in entries.GROUPS:
        chosen = [it for it in entries.all_entries() if it.group == group]
        rows = "".join(
            f'<tr><td><a href="{it.name}.html">{html.escape(it.title)}</a></td><td>{inline(it.sentence, place)}'
            f'<br><span class="quiet">{html.escape(", ".join(it.found_by))}</span></td></tr>'
            for it in chosen
        )
        parts += [f'<h3 id="{slug(group)}">{group}</h3>', f'<table class="entries">{rows}</table>'] if chosen else []
    return place, page(place, "Manual", "\n".join(parts))


def of_document(source):
    place, text = Place(PLACES[source], source), read(source)
    body = "\n".join(markup(it, place) for it in blocks(text))
    title = next((it.lines[0] for it in blocks(text) if it.kind == "heading"), source)
    return place, page(place, plain(title), body)


def of_piece(name):
    """The page of a piece: picture, sound and both texts."""
    place = Place(f"examples/{name}.html", f"examples/{name}.orc")
    rows = (row for it in blocks(read("examples/README.md")) if it.kind == "table" for row in it.rows)
    heard, shows = next((it[1:3] for it in rows if it[0] == f"`{name}`" and len(it) > 2), ("", ""))
    parts = [f"<h1>{name}</h1>", f'<p class="sentence">{inline(f"{heard[:1].upper()}{heard[1:]}", place)}</p>']
    parts += [f"<p>It shows: {inline(shows, place)}.</p>" if shows else "", audio(place, f"sounds/piece-{name}.wav")]
    picture = place.target(f"../docs/pictures/{name}.png")
    parts += [figure("level and spectrogram", picture)] if picture else []
    for kind in ("orc", "sco"):
        parts += [f"<h2>{name}.{kind}</h2>", f"<pre><code>{html.escape(read(f'examples/{name}.{kind}'))}</code></pre>"]
    return place, page(place, name, "\n".join(parts))


def put(folder, path, data):
    to = f"{folder}/{path}"
    os.makedirs(os.path.dirname(to), exist_ok=True)
    with open(to, "wb") as it:
        it.write(data if isinstance(data, bytes) else data.encode())


def sounds(folder, program):
    """Makes the sound of each example and of each piece."""
    os.makedirs(f"{folder}/sounds", exist_ok=True)
    texts = {it.name: (it.code("orc"), it.code("sco")) for it in entries.all_entries()}
    texts.update({f"piece-{it}": tuple(read(f"examples/{it}.{kind}") for kind in ("orc", "sco")) for it in pieces()})
    for name, (orc, sco) in texts.items():
        if orc is not None and sco is not None:
            program.run(orc, sco)
            if os.path.exists(program.sound):
                shutil.move(program.sound, f"{folder}/sounds/{name}.wav")


def make(folder, program):
    """Makes the site in a folder, by the program at a path; returns the number of its pages."""
    made = [of_index(), *map(of_entry, entries.all_entries()), *map(of_piece, pieces())]
    made += [of_document(it) for it in PLACES if it != "docs/manual/README.md" and os.path.exists(f"{TOP}/{it}")]
    for place, text in made:
        put(folder, place.path, text)
    put(folder, "manual.css", STYLE)
    for source in ("docs/pictures", "docs/manual/pictures"):
        if os.path.isdir(f"{TOP}/{source}"):
            shutil.copytree(f"{TOP}/{source}", f"{folder}/pictures", dirs_exist_ok=True)
    sounds(folder, worked.Program(program))
    return len(made)
