"""A channel, and the forms of recordings: by their definitions, without the program and its tools."""
import cmath
import math
import random
import struct

# The amplitude of a sent symbol in a symbol file.
SENT = 990


def passed(symbols, seed, decibels, gain, phase, carrier):
    """The points that arrive of the symbols in a file. Gaussian noise of this Es/N0 is added, and the sum is multiplied by a gain. Then it is rotated by
    a phase, which grows by the carrier error, in cycles per symbol."""
    drawn, deviation = random.Random(seed), math.sqrt(10 ** (-decibels / 10) / 2)
    for place, (real, imaginary) in enumerate(struct.iter_unpack(">hh", symbols)):
        noise = complex(drawn.gauss(0, deviation), drawn.gauss(0, deviation))
        yield (complex(real, imaginary) / SENT + noise) * cmath.rect(gain, phase + 2 * math.pi * carrier * place)


def byte(value, least):
    return max(least, min(least + 255, round(value)))


def recorded(points, form):
    """The bytes of a recording. Those of 8 bits have 127 for 1."""
    if form == "cf32":
        return b"".join(struct.pack("<ff", it.real, it.imag) for it in points)
    if form == "cs8":
        return b"".join(struct.pack("bb", byte(127 * it.real, -128), byte(127 * it.imag, -128)) for it in points)
    return b"".join(struct.pack("BB", byte(127.5 + 127 * it.real, 0), byte(127.5 + 127 * it.imag, 0)) for it in points)
