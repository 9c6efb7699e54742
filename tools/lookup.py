"""Looks things up in the manual, as `play --manual` does: a page, or the pages that a word finds, or all; or it makes
the manual as a website."""
import os
import shutil
import signal
import subprocess
import sys

import current
import entries
import perform
import terminal

USAGE = "usage: ./play --manual [NAME | WORD | DIR/]"


def show(lines):
    """Prints lines, through a pager on a terminal."""
    text = "".join(f"{it}\n" for it in lines)
    if sys.stdout.isatty() and shutil.which("less"):
        subprocess.run(["less", "-FRX"], input=text, text=True, check=False)
    else:
        signal.signal(signal.SIGPIPE, signal.SIG_DFL)
        sys.stdout.write(text)


def all_pages():
    lines = ["./play --manual NAME shows one of these pages."]
    for group in entries.GROUPS:
        found = [it for it in entries.all_entries() if it.group == group]
        lines += ["", group, *terminal.of_index(found)] if found else []
    return lines


def site(folder, is_ready):
    import website

    if not is_ready():
        return perform.FAILED
    count = website.make(folder, current.PROGRAM)
    print(f"{os.path.join(folder, 'index.html')}: {count} pages, with pictures and sounds")
    return 0


def do(words, is_ready):
    """Returns the status."""
    if len(words) > 1 or words == [""]:
        print(USAGE, file=sys.stderr)
        return 2
    if not words:
        show(all_pages())
        return 0
    word = words[0]
    if os.sep in word or os.path.isdir(word):
        return site(word, is_ready)
    entry, found = entries.named(word), entries.found_by(word)
    if entry is None and not found:
        import hints

        like = hints.near(word, [it.title for it in entries.all_entries()])
        said = f"; {like} is written like it" if like else ""
        perform.tell(f"the manual has no page and no word {word}{said}. For a website in a folder, write {word}/")
        return 1
    show(terminal.of_entry(entry, sys.stdout.isatty()) if entry else terminal.of_index(found))
    return 0
