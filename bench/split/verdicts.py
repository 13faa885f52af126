"""Verdicts on small codes, implemented from the description of the four steps over checks and members, for the tests of s2_split, s2_settle and
s2_judge.

A code is the size of a group, the number of groups, q, and the address rows. `verdict` returns the word of a report, the bits, and the least
rest in their favour that the certificate leaves, or None if there is none."""

import os
import sys

BENCH = os.path.join(os.path.dirname(os.path.abspath(__file__)), "..")
sys.path += [os.path.join(BENCH, part) for part in ("minsum", "settle")]
import shares  # noqa: E402
import values  # noqa: E402

SCALE, PASSES = 16, 64


def odd(checks, bits):
    return [sum(bits[i] for i in check) % 2 for check in checks]


def repaired(checks, bits):
    """The bits, with each one inverted that is in at least two checks, all of them odd."""
    odds = odd(checks, bits)
    around = [[odds[j] for j, check in enumerate(checks) if i in check] for i in range(len(bits))]
    return [bit ^ (len(own) >= 2 and all(own)) for bit, own in zip(bits, around)]


def in_favour(soft, bits, scale):
    return [scale * (-v if one else v) for v, one in zip(soft, bits)]


def give(rests, check, target, amount):
    for i in check:
        rests[i] += amount if i == target else -amount


def greedy(checks, soft, bits):
    """The rests that the greedy amounts leave, if none is negative."""
    rests, holds = in_favour(soft, bits, 1), set()
    for e, (v, one) in enumerate(zip(soft, bits)):
        if (v < 0) == one:
            continue
        for j, check in enumerate(checks):
            if e not in check or j in holds:
                continue
            others = [rests[i] for i in check if i != e]
            amount = min(max(0, -rests[e]), max(0, min(others, default=0)))
            if amount:
                give(rests, check, e, amount)
                holds.add(j)
    return rests if min(rests) >= 0 else None


def spread(checks, soft, bits):
    """The rests that spreading leaves, if after one of its passes none is negative."""
    rests, moves = in_favour(soft, bits, SCALE), [None] * len(checks)
    for _ in range(PASSES):
        if min(rests) >= 0:
            return rests
        for j, check in enumerate(checks):
            if moves[j]:
                give(rests, check, moves[j][0], -moves[j][1])
            moves[j] = None
            inputs = sorted((rests[i], i) for i in check)
            if len(inputs) < 2 or inputs[0][0] >= 0:
                continue
            (a, target), (b, _) = inputs[:2]
            amount = min(-a, (b - a) // 2, 2**20)
            if amount:
                moves[j] = target, amount
                give(rests, check, target, amount)
    return rests if min(rests) >= 0 else None


def settled(code, checks, soft, bits, passes):
    """The rests that passes of settling leave, if none is negative."""
    found = shares.settle(*code, soft, bits, passes)
    if found is None:
        return None
    rests = [SCALE * v for v in soft]
    for i, share in zip([i for check in checks for i in check], found):
        rests[i] -= share
    return [-rest if one else rest for rest, one in zip(rests, bits)]


def certified(code, checks, soft, bits, passes):
    rests = greedy(checks, soft, bits)
    if rests is None:
        rests = settled(code, checks, soft, bits, passes) if passes else spread(checks, soft, bits)
    return rests


def decoded(code, checks, soft, bits, passes):
    """For what min-sum found: with passes by settling alone."""
    return settled(code, checks, soft, bits, passes) if passes else certified(code, checks, soft, bits, 0)


def shown(bits, rests):
    least = min(rests)
    return "sole" if least >= 1 else "most-likely", bits, least


def verdict(code, soft, passes, rounds=50, factor=12, uncertified=False):
    checks = values.members(*code)
    hard = [v < 0 for v in soft]
    if not any(odd(checks, hard)):
        return shown(hard, in_favour(soft, hard, 1))
    repair = repaired(checks, hard)
    is_codeword = not any(odd(checks, repair))
    rests = certified(code, checks, soft, repair, passes) if is_codeword else None
    if rests is not None:
        return shown(repair, rests)
    bits = hard
    for done in range(rounds):
        bits = [v < 0 for v in values.run(*code, soft, done + 1, factor=factor)[0]]
        if not any(odd(checks, bits)):
            rests = None if uncertified else decoded(code, checks, soft, bits, passes)
            return ("parity", bits, None) if rests is None else shown(bits, rests)
    return ("parity", repair, None) if is_codeword else ("broken", bits, None)


TOY, PAIR, CHAIN = (4, 2, 3, [[0, 4, 8], [0, 1, 2]]), (1, 1, 1, [[0]]), (1, 1, 3, [[0, 1, 2]])
FIVE, GIVEN_BACK = (1, 3, 5, [[0, 1, 3], [0, 2], [1, 4]]), (2, 3, 3, [[0, 4], [2, 3, 4, 5], [2, 3, 5]])
# A code, soft values, and passes.
CASES = {
    "a wrong bit": (TOY, [-4] + 19 * [10], 0),
    "a wrong bit whose neighbours are weak": (TOY, [-4, 10, 10, 10, 1, 1, 1] + 13 * [10], 0),
    "a pair": (PAIR, [-5, 3], 0),
    "a pair that disagrees": (PAIR, [-5, 5], 0),
    "a chain": (CHAIN, [0, -1, -1, 0], 0),
    "REST_OF_ONE": (FIVE, [118, -266, 38, 200, 262, 216, 103, -72], 4),
    "REST_OF_ZERO": (FIVE, [-148, 18, -68, 286, 258, 65, 150, -333], 2),
    "GIVEN_BACK_VALUES": (GIVEN_BACK, [23, 11, -8, -9, 4, 20, 20, -2, 6, 17, 9, 6], 0),
}

if __name__ == "__main__":
    for name, (code, soft, passes) in CASES.items():
        word, bits, least = verdict(code, soft, passes)
        print(name, word, [i for i, bit in enumerate(bits) if bit], least, "uncertified", verdict(code, soft, 0, uncertified=True)[0])
