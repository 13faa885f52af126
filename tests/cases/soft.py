"""The soft values that `demod --values` writes by each divisor, against their definition in docs/formats.md and the points of EN 302 307-1, 5.4.
The symbols are at the ends of their range, and at both sides of the first and the last step of QPSK. Some values are worked by hand."""
import functools
import struct

from cases.common import ANY, DIVISORS, NO, Case
from cases.drawn import made_rows
from cases.plain_figures import DIAGONAL, PSK, QPSK, Frames, Mode
from cases.plain_receiver import MAX_SOFT, turned_back

# MODCODs of short frames, with groups and q of their rows. 3/5 of 8PSK has its columns in another order.
MODES = [(4, 20, 25), (12, 27, 18), (13, 30, 15)]

# Worked by hand: the width of a label, a divisor and a symbol, and the values of the label's bits.
WORKED = {
    (2, 4096, (700, 700)): (478, 478),
    (2, 4096, (16, -16)): (10, -10),
    (2, 4096, (32767, 0)): (511, 0),
    (2, 8192, (700, -700)): (239, -239),
    (2, 16384, (16, -24)): (2, -4),
    (2, 32768, (700, 700)): (59, 59),
    (2, 65536, (-24, 16)): (-1, 0),
    (3, 4096, (700, 700)): (140, 478, 140),
    (3, 4096, (990, 0)): (140, 478, -140),
    (3, 4096, (0, 0)): (0, 0, 0),
    (3, 8192, (700, 700)): (70, 239, 70),
    (3, 65536, (300, -1500)): (-19, -6, -54),
}


def edges(divisor):
    """The symbols of a payload, over and over. A value of QPSK is a component times four times 700, divided."""
    step, cap = (-(-size * divisor // (4 * DIAGONAL)) for size in (1, MAX_SOFT))
    ends = [(-32768, 32767), (32767, -32768), (-32768, -32768), (-32768, 0), (0, 0), (-1, 1), (990, 0), (0, -990)]
    return ends + [(size, -size) for size in (step - 1, step, cap - 1, cap, cap + 1)] + sorted({symbol for _, _, symbol in WORKED})


@functools.cache
def soft_value(symbol, place, width, divisor):
    if by_hand := WORKED.get((width, divisor, symbol)):
        return by_hand[place]
    points = QPSK if width == 2 else PSK
    far, near = (min((symbol[0] - i) ** 2 + (symbol[1] - q) ** 2 for label, (i, q) in enumerate(points) if label >> (width - 1 - place) & 1 == bit) for bit in (1, 0))
    value = abs(far - near) // divisor * (1 if far >= near else -1)
    return max(-MAX_SOFT, min(MAX_SOFT, value))


def soft_values(mode, payload, divisor):
    """In the order of the codeword: the bits of one symbol after another, or those of each place in a column."""
    width = mode.width()
    columns = [[soft_value(symbol, place, width, divisor) for symbol in payload] for place in range(width)]
    if width == 2:
        return [value for pair in zip(*columns) for value in pair]
    return sum(columns[::-1] if mode.modcod == 12 else columns, [])


def at_edges(modcod, groups, q, divisor):
    mode, symbols = Mode(modcod, short=True), edges(divisor)
    frames = Frames(mode)
    sent = [symbols[at % len(symbols)] for at in range(mode.payload())]
    values = soft_values(mode, [turned_back(*each) for each in zip(sent, frames.turns)], divisor)
    reads = {"rows": made_rows(360, groups, q, 3, 1), "in": b"".join(struct.pack(">hh", *each) for each in frames.header + sent)}
    writes = {"values": (" ".join(map(str, values)) + "\n").encode(), "out": b""}
    return Case(f"demod --modcod {modcod} --short --divisor {divisor} --values values rows in out", NO, ANY, ANY, reads, writes)


CASES = [at_edges(*mode, divisor) for mode in MODES for divisor in DIVISORS]
