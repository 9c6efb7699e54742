"""Draws a sound file of 16 or 24 bits as a picture (PNG), for `play`, bench/pictures and the manual. Needs Python only.

The picture of a piece has the level of each channel (the least and the greatest sample of each column's time) above the
spectrogram of their sum, over one time axis in seconds. Soft levels are enlarged: the label at the edge is in decibels
of full scale. Dark places of the spectrogram are strong: each shade is 7.5 dB, and the palest 60 dB below the
strongest. The picture of a wave has the samples of some milliseconds. The sound is read block by block."""
import math
import struct
import wave
import zlib

from soundfile import WINDOW, Sound, windows

WIDE, LEFT, RIGHT, FOOT = 600, 48, 12, 16
LEVEL, SPECTRUM, GAP, COLUMN = 96, 150, 8, 3
FULL, SHADES, RANGE, MOST = 32768, 8, 60.0, 4
PAPER, INK, GRID, TEXT, SHADE = 0, 1, 2, 3, 4
COLOURS = [(255, 255, 255), (31, 71, 136), (214, 220, 228), (70, 78, 90)]
# From nearly white to nearly black, by equal steps of lightness.
COLOURS += [
    (238, 243, 250), (209, 224, 242), (172, 201, 232), (129, 172, 219),
    (84, 140, 201), (47, 106, 173), (26, 72, 131), (12, 36, 76),
]
# The highest frequency that is shown: the least of these below which nearly all strength lies.
TOPS = (2000, 4000, 8000, 16000)
GLYPHS = {
    "0": "0e11131519110e", "1": "040c040404040e", "2": "0e11010204081f", "3": "1f02040201110e",
    "4": "02060a121f0202", "5": "1f101e0101110e", "6": "0608101e11110e", "7": "1f010204080808",
    "8": "0e11110e11110e", "9": "0e11110f01020c", ".": "00000000000c0c", "-": "0000001f000000",
    "k": "10101214181412", "H": "1111111f111111", "z": "00001f0204081f", "s": "00000f100e011e",
    "m": "00001a15151515", "d": "01010d1311130d", "B": "1e11111e11111e", " ": "00000000000000",
}


class Canvas:
    """Points of the colours of COLOURS, in rows from the top."""

    def __init__(self, high):
        self.rows = [bytearray(WIDE) for _ in range(high)]

    def down(self, column, first, last, colour=INK):
        for row in range(max(0, first), min(len(self.rows) - 1, last) + 1):
            self.rows[row][column] = colour

    def across(self, row, first, last, colour=GRID):
        self.rows[row][first:last] = bytes([colour]) * (last - first)

    def write(self, text, left, top):
        for sign in text:
            for row in range(7):
                bits = int(GLYPHS[sign][2 * row : 2 * row + 2], 16)
                for at in range(5):
                    if bits >> (4 - at) & 1 and 0 <= left + at < WIDE and 0 <= top + row < len(self.rows):
                        self.rows[top + row][left + at] = TEXT
            left += 6

    def png(self):
        packed = b"".join(b"\0" + bytes(a << 4 | b for a, b in zip(row[0::2], row[1::2])) for row in self.rows)
        head = struct.pack(">IIBBBBB", WIDE, len(self.rows), 4, 3, 0, 0, 0)
        palette = bytes(value for colour in COLOURS for value in colour)
        parts = ((b"IHDR", head), (b"PLTE", palette), (b"IDAT", zlib.compress(packed, 9)), (b"IEND", b""))
        return b"\x89PNG\r\n\x1a\n" + b"".join(chunk(name, data) for name, data in parts)


def chunk(name, data):
    return struct.pack(">I", len(data)) + name + data + struct.pack(">I", zlib.crc32(name + data))


def plain(value):
    return f"{value:.6f}".rstrip("0").rstrip(".")


def ticks(length, most=8):
    """Round numbers from 0 to `length`, at most `most` of them after 0, and their texts."""
    step = 10.0 ** math.floor(math.log10(length / most)) if length > 0 else 1
    step = next(step * it for it in (1, 2, 5, 10) if length / (step * it) <= most)
    return [(at * step, plain(at * step)) for at in range(int(length / step + 1e-9) + 1)]


def time_axis(canvas, top, bottom, length, unit):
    """The labels of a time axis below the row `bottom`, and a line upwards to `top` at each."""
    inner, found = WIDE - LEFT - RIGHT, ticks(length)
    for at, (time, text) in enumerate(found):
        column = LEFT + (round(time * (inner - 1) / length) if length > 0 else 0)
        canvas.down(column, top, bottom + 3, GRID)
        text = f"{text} {unit}" if at == len(found) - 1 else text
        canvas.write(text, min(column - 3 * len(text) + 1, WIDE - 6 * len(text)), bottom + 6)


def side(canvas, text, row):
    canvas.write(text, LEFT - 5 - 6 * len(text), row)


def scale_of(greatest):
    """The sample value at the edge of a panel, full scale halved while all fits, and its label."""
    edge, label = FULL, 0
    while edge > 64 and greatest * 2 <= edge:
        edge, label = edge // 2, label - 6
    return edge, f"{label} dB"


def extremes(sound):
    """The least and the greatest sample of each column, a list for each channel."""
    inner, found = WIDE - LEFT - RIGHT, [[] for _ in range(sound.channels)]
    for column in range(inner):
        first, after = (it * sound.frames // inner for it in (column, column + 1))
        block = sound.block(first, max(1, after - first))
        for channel, columns in enumerate(found):
            part = block[channel :: sound.channels]
            columns.append((min(part, default=0), max(part, default=0)))
    return found


def draw_level(canvas, sound, top, high):
    """Draws the channels one above the other, each around a grid line."""
    channels = extremes(sound)
    edge, label = scale_of(max(max(-low, up) for columns in channels for low, up in columns))
    each = high // len(channels)
    for at, columns in enumerate(channels):
        middle = top + at * each + each // 2
        canvas.across(middle, LEFT, WIDE - RIGHT)
        place = lambda value: middle - round(value * (each // 2 - 1) / edge)
        for column, (low, up) in enumerate(columns):
            if (low, up) != (0, 0):
                canvas.down(LEFT + column, place(up), place(low))
    side(canvas, label, top)


def highest(sound):
    """The frequency at the top of the spectrogram: nearly all strength lies below it."""
    sums = [0.0] * (WINDOW // 2)
    for found in windows(sound, [sound.frames * (2 * at + 1) // 40 for at in range(20)], 1):
        sums = [total + it * it for total, it in zip(sums, found)]
    whole = sum(sums)
    for top in TOPS:
        if 2 * top < sound.rate and sum(sums[int(top * WINDOW / sound.rate) + 1 :]) <= whole / 2000:
            return top
    return sound.rate / 2


def draw_spectrum(canvas, sound, top, high):
    """Columns of COLUMN points, each with the greatest strengths of up to MOST windows."""
    limit, inner = highest(sound), WIDE - LEFT - RIGHT
    step = max(1, int(sound.rate / (2.3 * limit)))
    wide = COLUMN * sound.frames / inner
    several = max(1, min(MOST, math.ceil(2 * wide / (WINDOW * step))))
    middles = [int((at + 0.5) * wide / several) for at in range(inner // COLUMN * several)]
    by = limit * WINDOW * step / sound.rate / high
    edges = [min(int(row * by), WINDOW // 2 - 1) for row in range(high + 1)]
    pairs, shown = [(low, max(low + 1, up)) for low, up in zip(edges, edges[1:])], []
    found = windows(sound, middles, step)
    for at in range(0, len(found), several):
        strongest = found[at] if several == 1 else list(map(max, *found[at : at + several]))
        shown.append([max(strongest[low:up]) for low, up in pairs])
    draw_shades(canvas, shown, top + high - 1)
    frequency_axis(canvas, top, high, limit)


def draw_shades(canvas, shown, bottom):
    whole = max(map(max, shown)) or 1.0
    for at, strengths in enumerate(shown):
        left = LEFT + at * COLUMN
        for row, it in enumerate(strengths):
            shade = int(SHADES * (1 + 20 * math.log10(it / whole + 1e-9) / RANGE))
            if shade >= 0:
                canvas.rows[bottom - row][left : left + COLUMN] = bytes([SHADE + min(shade, SHADES - 1)]) * COLUMN


def frequency_axis(canvas, top, high, limit):
    unit, by = ("kHz", 1000) if limit >= 1000 else ("Hz", 1)
    found = ticks(limit / by, 5)
    for frequency, label in found:
        row = top + high - 1 - round(frequency * by * (high - 1) / limit)
        canvas.across(row, LEFT - 4, LEFT, TEXT)
        is_last = frequency == found[-1][0]
        side(canvas, f"{label} {unit}" if is_last else label, min(max(row - 3, top), top + high - 7))


def of_piece(sound):
    """Level and spectrogram, over one time axis."""
    below = LEVEL + GAP
    canvas = Canvas(below + SPECTRUM + FOOT)
    draw_spectrum(canvas, sound, below, SPECTRUM)
    time_axis(canvas, 0, below + SPECTRUM - 1, sound.frames / sound.rate, "s")
    draw_level(canvas, sound, 0, LEVEL)
    return canvas.png()


def of_level(sound):
    canvas = Canvas(LEVEL + FOOT)
    time_axis(canvas, 0, LEVEL - 1, sound.frames / sound.rate, "s")
    draw_level(canvas, sound, 0, LEVEL)
    return canvas.png()


def of_spectrum(sound):
    canvas = Canvas(SPECTRUM + FOOT)
    draw_spectrum(canvas, sound, 0, SPECTRUM)
    time_axis(canvas, SPECTRUM, SPECTRUM - 1, sound.frames / sound.rate, "s")
    return canvas.png()


def of_wave(sound, start, milliseconds):
    """The samples of the first channel from a time on, in seconds, with lines between them."""
    canvas, inner = Canvas(LEVEL + FOOT), WIDE - LEFT - RIGHT
    count = sound.rate * milliseconds / 1000
    values = sound.block(int(start * sound.rate), int(count) + 2)[:: sound.channels] or [0]
    edge, label = scale_of(max(map(abs, values)))
    time_axis(canvas, 0, LEVEL - 1, milliseconds, "ms")
    canvas.across(LEVEL // 2, LEFT, WIDE - RIGHT)
    before = None
    for column in range(inner):
        at = column * count / (inner - 1)
        one, two = (values[min(int(at) + it, len(values) - 1)] for it in (0, 1))
        row = LEVEL // 2 - round((one + (two - one) * (at % 1)) * (LEVEL // 2 - 1) / edge)
        before = row if before is None else before
        canvas.down(LEFT + column, min(row, before), max(row, before))
        before = row
    side(canvas, label, 0)
    return canvas.png()


def of_sound(file):
    with Sound(file) as sound:
        return of_piece(sound)


def points(data):
    """The size and the points of a picture that was made here."""
    wide, high = struct.unpack(">II", data[16:24])
    packed, at = b"", 8
    while at < len(data):
        size = struct.unpack(">I", data[at : at + 4])[0]
        packed += data[at + 8 : at + 8 + size] if data[at + 4 : at + 8] == b"IDAT" else b""
        at += size + 12
    return wide, high, zlib.decompress(packed)


def is_alike(data, file):
    """Whether the picture in a file is this one: of its bytes in a thousand at most five are others, since the last
    digit of a cosine or logarithm isn't the same on all machines."""
    with open(file, "rb") as it:
        found = it.read()
    if found == data:
        return True
    one, two = points(found), points(data)
    return one[:2] == two[:2] and sum(map(int.__ne__, one[2], two[2])) * 200 <= len(one[2])
