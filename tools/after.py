"""What `play` does after a successful run: it tells the length of the sound, and on request plays the sound file and
draws it."""
import os
import shutil
import subprocess

import options
from perform import tell

# Programs that play a sound file, the first that works counts: the words before the file's name, and those after it.
PLAYERS = {
    "pw-play": ([], []), "paplay": ([], []), "aplay": (["-q", "--"], []), "afplay": ([], []),
    "ffplay": (["-v", "quiet", "-nodisp", "-autoexit"], []), "sox": (["-q"], ["-d"]),
}  # fmt: skip
SECONDS = 24 * 3600
OF_DEMO = 8000


def listen(file):
    """Plays a sound file with the first program that can; says so if none can."""
    found = [it for it in PLAYERS if shutil.which(it)]
    name = file if os.path.isabs(file) else f"./{file}"
    for it in found:
        before, after = PLAYERS[it]
        quiet = {"stdin": subprocess.DEVNULL, "stdout": subprocess.DEVNULL, "stderr": subprocess.DEVNULL}
        if subprocess.run([it, *before, name, *after], **quiet).returncode == 0:
            return
    if found:
        tell(f"no sound device works here ({', '.join(found)} failed); the sound is in {file}")
    else:
        tell(f"to listen, install one of {', '.join(PLAYERS)}; the sound is in {file}")


def draw(file):
    """Draws the sound file as a picture beside it, never over the sound itself."""
    import picture

    to = f"{os.path.splitext(file)[0]}.png"
    if os.path.exists(to) and os.path.samefile(to, file):
        tell(f"no picture of {file}: it would be written over the sound; name the sound .wav")
        return
    try:
        data = picture.of_sound(file)
        with open(to, "wb") as it:
            it.write(data)
        tell(f"level and spectrogram are drawn in {to}")
    except (OSError, EOFError, ValueError, picture.wave.Error) as error:
        tell(f"no picture of {file}: {error}")


def rate_of(words):
    """Samples a second of the piece that these words name."""
    names, asked = options.names_in(words)
    if "demo" in asked:
        return OF_DEMO
    import headers
    import refusals
    from orchestra import Orchestra

    texts = refusals.texts_in(words)
    if not texts or sum(map(os.path.getsize, texts)) > refusals.LONG:
        return None
    return headers.value_of(Orchestra(*refusals.parts_of(texts)[1][0]), "sr") or 44100


def tell_length(words, file, said):
    """Tells how long the sound of this report is."""
    frames = said.partition("frames ")[2].partition("\n")[0]
    rate = rate_of(words) if frames.isdigit() else None
    if rate:
        where = f" in {file}" if file else ", and no sound file was written (-n)"
        tell(f"{int(frames) / rate:.2f} seconds of sound{where}")


def do(words, own, file, said):
    tell_length(words, file, said)
    wants = [it for it in ("--picture", "--listen") if it in own]
    # What is written to a pipe or the like can't be read again.
    if wants and (file is None or not os.path.isfile(file)):
        why = "`-n` asks for no sound file" if file is None else f"{file} is no file that can be read again"
        tell(f"`{wants[0]}` does nothing here: {why}")
        return
    if "--picture" in own:
        draw(file)
    if "--listen" in own:
        listen(file)
