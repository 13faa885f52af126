"""Certificates by settling, implemented from the description of the rule over checks and members, for the tests of s2_settle.

A code is the size of a group, the number of groups, q, and the address rows. `settle` returns the shares of each edge, check by check,
members in increasing order, or None if no certificate is found. `Trace` counts its operations."""

import os
import sys

sys.path.insert(0, os.path.join(os.path.dirname(__file__), "..", "minsum"))
from values import members  # noqa: E402

SCALE, NO_INPUT = 16, 2**15 - 1


class Trace:
    """What an attempt took: passes, and how many bits lacked before each and after the last."""

    def __init__(self):
        self.passes, self.counts = 0, []


def wrapped(number):
    """A whole number modulo 2^16, from -2^15 on."""
    return (number + 2**15) % 2**16 - 2**15


def raise_members(rests, check, move, sign):
    """Adds a check's move to the rests of its members, or takes it back."""
    target, amount = move
    for i in check:
        rests[i] += sign * (amount if i == target else -amount)


def new_move(inputs, old, margin, further):
    """The target and the amount of a check by what its members give."""
    (a, target), *others = sorted((wrapped(v), i) for i, v in inputs.items())
    b, c = ([v for v, _ in others] + [NO_INPUT] * 2)[:2]
    amount = max(0, b - a - max(0, margin - (c - b)) // 2) // 2
    if further and old[1] > 0 and target == old[0]:
        amount = max(0, amount + (amount - old[1]) // 2)
    return target, amount


def run_layer(checks, rests, moves, layer, margin, further):
    new = {}
    for j in layer:
        inputs = {i: rests[i] for i in checks[j]}
        raise_members(inputs, checks[j], moves[j], -1)
        new[j] = new_move(inputs, moves[j], margin, further)
    for j in layer:
        raise_members(rests, checks[j], moves[j], -1)
        raise_members(rests, checks[j], new[j], 1)
        moves[j] = new[j]


def shares(checks, word, moves):
    """In favour of the word the target's share is minus the amount, and every other member's the amount."""
    listed = []
    for check, (target, moved) in zip(checks, moves):
        for i in check:
            amount = -moved if i == target else moved
            listed.append(-amount if word[i] else amount)
    return listed


def find_moves(checks, q, values, passes, trace):
    """The moves of the checks that leave each bit a rest of at least 1, or None. The values are in favour of the word."""
    n = len(values)
    rests, moves = [SCALE * v for v in values], [(None, 0)] * len(checks)
    margin, before = SCALE * (sum(map(abs, values)) // n) * 2 // 5, None
    for done in range(passes + 1):
        now = sum(wrapped(v) < 1 for v in rests)
        trace.counts.append(now)
        if now == 0:
            # A certificate only if no rest wrapped.
            return moves if min(rests) >= 1 else None
        if done == passes or (done >= 2 and now > n // 200 and now > before + 24):
            return None
        if done > 0:
            margin = margin * 5 * min(now, before) // (6 * before)
        further = done < 2 or now < before
        before = now
        for r in range(q):
            run_layer(checks, rests, moves, range(r, len(checks), q), margin, further)
        trace.passes = done + 1


def settle(group, groups, q, rows, soft, word, passes, trace=None):
    checks = members(group, groups, q, rows)
    assert all(sum(word[i] for i in check) % 2 == 0 for check in checks)
    values = [-v if one else v for v, one in zip(soft, word)]
    moves = find_moves(checks, q, values, passes, trace or Trace())
    return None if moves is None else shares(checks, word, moves)


# A code, soft values, the ones of a word, and passes.
TOY = (4, 2, 3, [[0, 4, 8], [0, 1, 2]])
CASES = {
    "ONE_PASS": (TOY, [
        315, -231, 200, -121, 148, 26, 105, 187, 511, -174, -100, -207, 119, 83, 87, -151, -180, 177, 86, -511,
    ], [1, 3, 5, 9, 10, 11, 15, 16, 19], 1),
    "THREE_PASSES": (TOY, [
        -154, -172, -241, -511, 215, -254, -177, 121, -213, 308, -148, 52, -511, -417, 79, -384, 288, -29, 14, -105,
    ], [0, 1, 2, 3, 5, 8, 10, 11, 12, 13, 15, 17, 19], 3),
    "GROUP_1": ((1, 3, 5, [[0, 1, 3], [0, 2], [1, 4]]), [
        -129, 158, 14, -207, 272, 372, -511, 114,
    ], [0, 3, 6, 7], 2),
    "GROUP_7": ((7, 1, 3, [[0, 4, 11]]), [
        511, 17, -144, -266, -11, 144, 227, 297, 211, 168, 78, -197, -263, 113, -13, -162, 144, -340, -175, -215, 339,
        60, -511, -339, 132, 270, -29, -127,
    ], [1, 2, 3, 10, 11, 12, 14, 15, 17, 18, 19, 21, 22, 23, 27], 1),
    "GROUP_9": ((9, 2, 2, [[0, 5, 7], [1, 4, 10]]), [
        17, 235, 17, -120, -149, 91, -97, 491, 351, 302, -299, -113, 465, 207, 8, -511, -322, 154, -195, 511, -506, -87,
        -197, 233, 294, 340, 355, 340, 116, -131, -251, 49, -82, -225, 216, -325,
    ], [4, 6, 10, 11, 14, 15, 16, 18, 20, 22, 29, 30, 31, 32, 33, 35], 2),
    # The least rest in favour of the word is 1; and one pass before it is 0.
    "REST_OF_ONE": ((1, 3, 5, [[0, 1, 3], [0, 2], [1, 4]]), [
        118, -266, 38, 200, 262, 216, 103, -72,
    ], [], 4),
    "REST_OF_ZERO": ((1, 3, 5, [[0, 1, 3], [0, 2], [1, 4]]), [
        -148, 18, -68, 286, 258, 65, 150, -333,
    ], [0, 1, 2, 5, 7], 2),
    # Not found by any number of passes.
    "NOT_SETTLED": (TOY, [
        -75, 115, 67, 443, 191, 205, -189, -188, -221, -3, 146, 381, 226, -171, -5, 485, 40, 129, -292, -295,
    ], [0, 2, 6, 8, 9, 12, 13, 14, 18, 19], 40),
}

if __name__ == "__main__":
    for name, (code, soft, ones, passes) in CASES.items():
        word = [i in ones for i in range(len(soft))]
        print(name, settle(*code, soft, word, passes))
