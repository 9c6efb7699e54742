"""Reads a sound file of 16 or 24 bits block by block, and the strengths of its frequencies. Needs Python only."""
import array
import cmath
import functools
import math
import sys
import wave
from operator import add, mul, sub

# The number of samples of a window, from which the strengths of WINDOW / 2 frequencies are computed.
WINDOW = 512


class Sound:
    """An open sound file. Of samples of 24 bits the upper 16 are read."""

    def __init__(self, file):
        self.wave = wave.open(file, "rb")
        self.channels, self.width = self.wave.getnchannels(), self.wave.getsampwidth()
        self.rate, self.frames = self.wave.getframerate(), self.wave.getnframes()
        if self.width not in (2, 3):
            raise wave.Error("its samples have neither 16 nor 24 bits")

    def __enter__(self):
        return self

    def __exit__(self, *_):
        self.wave.close()

    def block(self, at, count):
        """The samples of up to `count` frames from frame `at` on, all channels of a frame one after another."""
        self.wave.setpos(min(max(at, 0), self.frames))
        data = self.wave.readframes(count)
        if self.width == 3:
            upper = bytearray(len(data) // 3 * 2)
            upper[0::2], upper[1::2] = data[1::3], data[2::3]
            data = bytes(upper)
        found = array.array("h", data)
        if sys.byteorder == "big":
            found.byteswap()
        return found

    def mixed(self, at, count):
        """The sums of all channels of `count` frames around the middle frame `at`; frames outside the file are 0."""
        first = at - count // 2
        before = max(0, -first)
        found = self.block(first + before, max(0, count - before))
        sums = found.tolist() if self.channels == 1 else list(map(sum, zip(*[iter(found)] * self.channels)))
        sums = [0] * before + sums
        return sums + [0] * (count - len(sums))


@functools.cache
def turns(size):
    return [cmath.exp(-2j * cmath.pi * at / size) for at in range(size // 2)]


@functools.cache
def bell(size):
    return [0.5 - 0.5 * math.cos(2 * math.pi * (at + 0.5) / size) for at in range(size)]


def transformed(values):
    """The discrete Fourier transform of complex values, whose number is a power of two from 4 on."""
    if len(values) == 4:
        one, two, three, four = values
        even, odd, left, right = one + three, two + four, one - three, (two - four) * -1j
        return [even + odd, left + right, even - odd, left - right]
    even, odd = transformed(values[0::2]), transformed(values[1::2])
    turned = list(map(mul, turns(len(values)), odd))
    return [*map(add, even, turned), *map(sub, even, turned)]


def strengths(one, two):
    """The strengths of the frequencies 0 to WINDOW / 2 - 1 in two windows, by one transform."""
    shape = bell(WINDOW)
    found = transformed(list(map(complex, map(mul, one, shape), map(mul, two, shape))))
    mirrored = list(map(complex.conjugate, [found[0], *found[:0:-1]]))[: WINDOW // 2]
    return list(map(abs, map(add, found, mirrored))), list(map(abs, map(sub, found, mirrored)))


def windows(sound, middles, step):
    """The strengths of the frequencies around each of these frames, of every `step` samples their sum."""
    parts = []
    for at in middles:
        values = sound.mixed(at, WINDOW * step)
        parts.append(values if step == 1 else list(map(sum, zip(*[iter(values)] * step))))
    if len(parts) % 2:
        parts.append([0] * WINDOW)
    found = [it for at in range(0, len(parts), 2) for it in strengths(parts[at], parts[at + 1])]
    return found[: len(middles)]
