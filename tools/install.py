"""Copies the program below a folder, as `play --install` does, with all that is read about it: `play` with its hints
as csplay-play, man pages, the manual as a website, documents, examples and completions."""
import os
import re

import entries
import roff
import website

NAME, TOP = "csplay", entries.TOP
# Where play, its tools and what these read are, below the folder; and the website.
OWN, SITE, MAN = f"share/{NAME}", f"share/doc/{NAME}", "share/man"
# Where each shell looks for completions.
COMPLETIONS = {
    "bash": f"bash-completion/completions/{NAME}",
    "zsh": f"zsh/site-functions/_{NAME}",
    "fish": f"fish/vendor_completions.d/{NAME}.fish",
}


def put(to, data, mode=0o644):
    """Writes a file whose earlier content stays until the new one is complete."""
    os.makedirs(os.path.dirname(to), exist_ok=True)
    with open(f"{to}.new", "wb") as it:
        it.write(data if isinstance(data, bytes) else data.encode())
    os.chmod(f"{to}.new", mode)
    os.replace(f"{to}.new", to)


def read(path):
    with open(path, "rb") as it:
        return it.read()


def below(folder):
    """The files below a folder of the repository, by their paths in it; none if it isn't there."""
    for path, _, files in os.walk(f"{TOP}/{folder}"):
        yield from (os.path.relpath(f"{path}/{it}", TOP) for it in sorted(files))


def copied():
    """The files that are copied, by their paths in the repository."""
    found = ["play", "VERSION", "LICENSE", *(f"docs/{it}.md" for it in website.DOCUMENTS)]
    found += [it for it in below("tools") if it.endswith((".py", ".bash", ".zsh", ".fish"))]
    found += [*below("docs/manual"), *below("docs/pictures"), *below("examples")]
    return [it for it in found if os.path.exists(f"{TOP}/{it}")]


def without_dead_links(text, path, all_paths):
    """A document whose links to what isn't copied are plain words."""

    def kept(match):
        target = match[2].partition("#")[0]
        at = os.path.normpath(f"{os.path.dirname(path)}/{target}")
        return match[0] if not target or ":" in target or at in all_paths else match[1]

    return re.sub(r"(?<!!)\[([^\]]*)\]\(([^)\s]*)\)", kept, text)


def own_files(folder):
    paths = copied()
    for path in paths:
        data = read(f"{TOP}/{path}")
        data = without_dead_links(data.decode(), path, set(paths)) if path.endswith(".md") else data
        put(f"{folder}/{OWN}/{path}", data, 0o755 if path == "play" else 0o644)
    link = f"{folder}/bin/{NAME}-play"
    if os.path.lexists(link):
        os.remove(link)
    os.symlink(f"../{OWN}/play", link)


def make(folder, program, version, state):
    """Installs the program at a path; `state` are the lines that say of what it was built."""
    put(f"{folder}/bin/{NAME}", read(program), 0o755)
    put(f"{folder}/bin/{NAME}.version", "".join(f"{it}\n" for it in state))
    own_files(folder)
    put(f"{folder}/{MAN}/man1/{NAME}.1", roff.made(version))
    for entry in entries.all_entries():
        put(f"{folder}/{MAN}/man7/{NAME}-{entry.name}.7", roff.of_entry(entry, version))
    website.make(f"{folder}/{SITE}", program)
    put(f"{folder}/{SITE}/LICENSE", read(f"{TOP}/LICENSE") if os.path.exists(f"{TOP}/LICENSE") else b"")
    for shell, to in COMPLETIONS.items():
        if os.path.exists(f"{TOP}/tools/completion.{shell}"):
            put(f"{folder}/share/{to}", read(f"{TOP}/tools/completion.{shell}"))
