"""The bit interleaver and the constellations of EN 302 307-1, 5.3.3 and 5.4: the labels and the symbols of codewords. `tests/exits` and
`tests/all_modes` compare `mod --labels` and `mod --symbols-plain` with them."""
import cmath
import math
import struct

# The radius of the points of this profile, and their angles in degrees, by label (figures 9 and 10).
RADIUS = 990
QPSK = (45, 315, 135, 225)
PSK = (45, 0, 180, 225, 90, 315, 135, 270)
# The last MODCOD of QPSK, and that of 8PSK 3/5, whose rows are read from the last column.
LAST_QPSK, PSK_3_5 = 11, 12


def interleaved(modcod, word):
    """The payload bits of a codeword. At 8PSK it is written into three columns, one after another, and read row by row."""
    if modcod <= LAST_QPSK:
        return word
    rows = len(word) // 3
    columns = [word[at : at + rows] for at in range(0, 3 * rows, rows)]
    return [bit for row in zip(*(columns[::-1] if modcod == PSK_3_5 else columns)) for bit in row]


def labels(modcod, word):
    """A byte for each symbol: its bits, the first the highest."""
    width = 2 if modcod <= LAST_QPSK else 3
    bits = interleaved(modcod, word)
    return bytes(int("".join(map(str, bits[at : at + width])), 2) for at in range(0, len(bits), width))


def points(modcod):
    """The four bytes of each label's symbol."""
    angles = QPSK if modcod <= LAST_QPSK else PSK
    turned = [cmath.rect(RADIUS, math.radians(angle)) for angle in angles]
    return [struct.pack(">hh", round(it.real), round(it.imag)) for it in turned]


def symbols(modcod, word):
    by_label = points(modcod)
    return b"".join(by_label[label] for label in labels(modcod, word))
