"""The header of a frame, computed from the tables of EN 302 307-1 alone."""

START_OF_FRAME = "01100011010010111010000010"  # 5.5.2.1: 18D2E82
# 5.5.2.4: the (32, 6) code of MODCOD and TYPE's upper bit, and the sequence that its 64 bits are scrambled by
CODE = [
    "01010101010101010101010101010101",
    "00110011001100110011001100110011",
    "00001111000011110000111100001111",
    "00000000111111110000000011111111",
    "00000000000000001111111111111111",
    "11111111111111111111111111111111",
]
SCRAMBLING = "0111000110011101100000111100100101010011010000100010110111111010"


def header(modcod, frame_type):
    """The 90 bits of a header (PLHEADER)."""
    chosen = [modcod >> bit & 1 for bit in (4, 3, 2, 1, 0)] + [frame_type >> 1]
    bits = []
    for place in range(32):
        bit = sum(on * int(row[place]) for on, row in zip(chosen, CODE)) % 2
        bits += [bit, bit ^ (frame_type & 1)]
    return [int(bit) for bit in START_OF_FRAME] + [bit ^ int(by) for bit, by in zip(bits, SCRAMBLING)]


def bpsk(bits):
    """5.5.2: pi/2 BPSK, bits and symbols counted from 1."""
    symbols = []
    for place, bit in enumerate(bits, 1):
        level = 1 - 2 * bit
        symbols.append(complex(level, level) if place % 2 else complex(-level, level))
    return symbols
