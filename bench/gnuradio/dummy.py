"""A dummy frame computed from the tables of EN 302 307-1 alone: dummy.py NUMBER [SYMBOLS]

NUMBER is the scrambling number. It prints the first symbols of the header and of the first slot, the last symbol, and a sum of all bytes
weighted by their positions. SYMBOLS becomes a symbol file of the frame, amplitude 700."""
import functools
import os
import struct
import sys

sys.path.append(os.path.join(os.path.dirname(os.path.abspath(__file__)), "../../examples/gnuradio"))
from headers import bpsk, header


def recurrence(start, taps):
    """The sequence of period 2^18 - 1 in which a bit is the sum of those at the taps, 18 places before."""
    bits = list(start)
    while len(bits) < 2**18 - 1:
        bits.append(sum(bits[len(bits) - 18 + tap] for tap in taps) % 2)
    return bits


@functools.cache
def sequences():
    """x and y of 5.5.4."""
    return recurrence([1] + 17 * [0], [7, 0]), recurrence(18 * [1], [10, 7, 5, 0])


@functools.cache
def quarter_turns(number, count):
    """R(0) .. of 5.5.4."""
    (x, y), period = sequences(), 2**18 - 1
    z = [[x[(place + number) % period] ^ y[place % period] for place in range(start, start + count)] for start in (0, 131072)]
    return [2 * later + now for now, later in zip(*z)]


def dummy_frame(number, frame_type=0):
    """5.5.1: the header with MODCOD 0, and 36 slots of the carrier."""
    carrier = 36 * 90 * [complex(1, 1)]
    turns = quarter_turns(number, len(carrier))
    return bpsk(header(0, frame_type)) + [symbol * 1j**turn for symbol, turn in zip(carrier, turns)]


def in_file(frame):
    """The bytes of symbols in a symbol file, amplitude 700."""
    return b"".join(struct.pack(">hh", 700 * round(symbol.real), 700 * round(symbol.imag)) for symbol in frame)


def main(number, path=None):
    data = in_file(dummy_frame(int(number)))
    symbols = list(struct.iter_unpack(">hh", data))
    total = 0
    for byte in data:
        total = (31 * total + byte) % 2**64
    print("header", *symbols[:4])
    print("slots", *symbols[90:98])
    print("last", symbols[-1])
    print("symbols", len(symbols), "sum", total)
    if path:
        with open(path, "wb") as file:
            file.write(data)


if __name__ == "__main__":
    main(*sys.argv[1:])
