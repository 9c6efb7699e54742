"""What `play` does with one of its own options and no piece: help, version, manual, and a copy of the program
elsewhere."""
import os
import signal
import sys

import current
import pages
import perform

NAME = "csplay"


def version():
    with open(f"{current.TOP}/VERSION", encoding="utf-8") as it:
        return it.read().strip()


def state():
    """The lines that say of what the program was built: those of `--version`, and of the file beside a copy."""
    import sums

    if current.IS_INSTALLED:
        with open(f"{current.PROGRAM}.version", encoding="utf-8") as it:
            return it.read().splitlines()
    lines = [f"{NAME} {version()}"]
    try:
        with open(current.STAMP, encoding="utf-8") as it:
            of_sources, of_program, kit, how = it.read().split("\n")[:4]
        is_same = os.path.exists(current.PROGRAM) and sums.sum_of(current.PROGRAM) == of_program
        lines += [f"kit {kit}", f"built {how}", f"sources {of_sources}"] if is_same else ["built by other means"]
        lines += [f"program {sums.sum_of(current.PROGRAM)}"]
    except (OSError, ValueError):
        lines.append("built by other means" if os.path.exists(current.PROGRAM) else "not built yet")
    record = f"{current.TOP}/{sums.RECORD}"
    return [*lines, f"{sums.RECORD} {sums.sum_of(record) if os.path.exists(record) else 'is missing'}"]


def usage():
    """csplay's options and statuses, as docs/LANGUAGE.md has them."""
    text = pages.page("LANGUAGE").replace("`", "")
    options = text.partition("\n| words | what they ask for |\n")[2].partition("\n\n")[0]
    ends = text.partition("\n| number | status | cause | what is left |\n")[2].partition("\n\n")[0]
    lines = ["csplay's options:", ""]
    for it in map(pages.cells, options.split("\n")[1:]):
        lines += wrapped(f"  {it[0]:<14} ", it[1])
    lines += ["", "exit statuses:", ""]
    for it in map(pages.cells, ends.split("\n")[1:]):
        lines += wrapped(f"  {it[0]:<3} {it[1]:<13} ", f"{it[2]}; {it[3]}")
    lines += ["", "pages: docs/FIRST.md (a first lesson), docs/manual (each opcode), docs/LANGUAGE.md (the language),"]
    return [*lines, "docs/CSOUND.md (if you know Csound), docs/SERVERS.md (many runs)"]


def wrapped(head, text):
    """Lines of at most 118 columns that begin with this head."""
    import textwrap

    return textwrap.wrap(text, 118, initial_indent=head, subsequent_indent=" " * len(head), break_on_hyphens=False)


def install(folder):
    """Copies the program and all that is read about it below a folder, which is made if it isn't there."""
    import install as installation

    installation.make(folder, current.PROGRAM, version(), state())
    own, site = f"{folder}/{installation.OWN}", f"{folder}/{installation.SITE}"
    print(f"{folder}/bin/{NAME}, and {NAME}-play, which shows hints; {site}/index.html, the manual; {own}/examples")


def do(words, is_ready, help_text):
    """Does what one of play's options asks for; returns the status."""
    if words[0] in ("--help", "--version"):
        # `head`, which reads only the first lines, ends this without a word.
        signal.signal(signal.SIGPIPE, signal.SIG_DFL)
        print("\n".join([help_text.strip(), "", *usage()] if words[0] == "--help" else state()))
        return 0
    try:
        if words[0] == "--manual":
            import lookup

            return lookup.do(words[1:], is_ready)
    except OSError as error:
        perform.tell(error)
        return 1
    if len(words) != 2 or not words[1]:
        print("usage: ./play --install DIR", file=sys.stderr)
        return 2
    try:
        if not is_ready():
            return perform.FAILED
        install(os.path.abspath(words[1]))
        return 0
    except OSError as error:
        perform.tell(error)
        return 1
