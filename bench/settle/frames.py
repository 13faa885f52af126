"""Frames of made codes, and the result of settling for each: the table of `tests/cases/made_frames.py`.

Each frame is a group, groups, q, the weight of a row, a seed, the deviation of the noise and a number of passes. Its rows, its codeword and
its soft values come from the seed. It prints a line for each: the FNV-1a of the certificate file, or 0 if none is found, and the verdict on the
values. `real` takes some minutes."""

import os
import sys

BENCH = os.path.join(os.path.dirname(os.path.abspath(__file__)), "..")
sys.path += [os.path.join(BENCH, part) for part in ("channel", "minsum", "split", "settle")]
import shares  # noqa: E402
import values  # noqa: E402
import verdicts  # noqa: E402
from pcg import Pcg32  # noqa: E402

SHAPES = [
    (1, 40, 80, 4), (4, 30, 35, 4), (7, 20, 19, 3), (8, 30, 15, 4), (9, 12, 14, 5),
    (17, 9, 11, 4), (20, 20, 20, 4), (45, 9, 6, 3), (360, 2, 2, 3), (3, 100, 40, 4),
]
FORTY = [(*shape, 4 * n + k + 1, deviation, 40) for n, shape in enumerate(SHAPES) for k, deviation in enumerate((40, 50, 60, 70))]
# The smallest code, found and given up; and check 0 has one member.
CORNERS = [(1, 1, 1, 1, 2, 90, 40), (1, 1, 1, 1, 10, 120, 40), (1, 4, 14, 2, 5, 100, 40), (4, 3, 5, 2, 13, 100, 40)]
REAL = [
    (360, 20, 25, 6, 101, 50, 40), (360, 33, 12, 4, 102, 40, 40), (360, 40, 5, 3, 103, 30, 40),
    (360, 90, 90, 6, 104, 60, 40), (360, 135, 45, 4, 105, 45, 40), (360, 162, 18, 3, 106, 30, 40),
    (360, 20, 25, 6, 37, 76, 40),
]


def made_rows(group, groups, q, weight, seed):
    generator, checks, rows = Pcg32(seed), group * q, []
    for _ in range(groups):
        row = []
        for _ in range(weight):
            x = generator.next() % checks
            while x in row:
                x = (x + 1) % checks
            row.append(x)
        rows.append(row)
    return rows


class Numbers:
    def __init__(self, seed):
        self.number = seed

    def next(self):
        self.number = (self.number * 1664525 + 1013904223) % 2**32
        return self.number >> 16


def frame(group, groups, q, weight, seed, deviation, passes):
    """The rows, the checks, a codeword, and its values with noise."""
    rows = made_rows(group, groups, q, weight, seed)
    checks, numbers, k = values.members(group, groups, q, rows), Numbers(seed), group * groups
    word = [numbers.next() % 2 == 1 for _ in range(k)] + [False] * len(checks)
    for j, check in enumerate(checks):
        word[k + j] = sum(word[i] for i in check if i != k + j) % 2 == 1
    soft = []
    for one in word:
        drawn = (sum(numbers.next() for _ in range(4)) - 131070) * deviation
        noise = abs(drawn) // 37837 * (1 if drawn >= 0 else -1)
        value = max(-511, min(511, 100 + noise))
        soft.append(-value if one else value)
    return rows, checks, word, soft


def file_of(group, groups, q, checks, soft, word, moves):
    """The certificate of moves, in its file format."""
    out = b"S2ML\2" + b"".join(v.to_bytes(2, "big") for v in (group, groups, q, shares.SCALE))
    out += b"".join(v.to_bytes(2, "big", signed=True) for v in soft)
    bits = "".join("01"[bit] for bit in word)
    bits += "0" * (-len(bits) % 8)
    out += int(bits, 2).to_bytes(len(bits) // 8, "big")
    for check, move in zip(checks, moves):
        place, amount = (check.index(move[0]), move[1]) if move[1] else (0, 0)
        out += place.to_bytes(2, "big") + amount.to_bytes(4, "big")
    return out


def fnv(data):
    number = 2166136261
    for byte in data:
        number = (number ^ byte) * 16777619 % 2**32
    return number


def tell(group, groups, q, weight, seed, deviation, passes, judged=True):
    rows, checks, word, soft = frame(group, groups, q, weight, seed, deviation, passes)
    in_favour = [-v if one else v for v, one in zip(soft, word)]
    trace = shares.Trace()
    moves = shares.find_moves(checks, q, in_favour, passes, trace)
    number = 0 if moves is None else fnv(file_of(group, groups, q, checks, soft, word, moves))
    verdict = verdicts.verdict((group, groups, q, rows), soft, passes, rounds=20)[0] if judged else "-"
    print(f"    ({group}, {groups}, {q}, {weight}, {seed}, {deviation}, {number}),", verdict, trace.counts, flush=True)


if __name__ == "__main__":
    for one in REAL if "real" in sys.argv[1:] else FORTY + CORNERS:
        tell(*one, judged="real" not in sys.argv[1:])
