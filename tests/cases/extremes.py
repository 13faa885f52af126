"""Certificates whose rests or local minima are 0, or miss that by one, in both versions. Some have wide checks, bits in 24 checks, amounts up to
2^31 - 1, shares of -2^31, and sums beyond 32 bits. All are of the word of zeros. The expected line of each is computed from its definition."""
import random

from cases import plain_checker
from cases.drawn import made_rows
from cases.plain_checker import MAX_AMOUNT, MAX_SCALE, MAX_SOFT

# Shapes and the weight of their rows: groups below, at and over the lanes of a vector; then checks of about 30 members, bits of 24 checks, both.
GROUPS = [((1, 3, 40), 4), ((4, 2, 10), 3), ((7, 2, 5), 3), ((8, 3, 4), 4), ((9, 2, 4), 5), ((17, 2, 3), 6), ((360, 1, 1), 2)]
WIDE = [((4, 14, 1), 2), ((9, 14, 2), 4), ((7, 2, 4), 24), ((13, 3, 2), 10)]
# Bits that are low enough for all others to have as much to give. By the second one moves are too large to be summed in 16 bits.
LOW = (250, MAX_SOFT - 6)
SCALED, LEAST_SHARE = MAX_SCALE * MAX_SOFT, -(2**31)
# Amounts of two checks that make good what a bit of the least value lacks.
MADE_GOOD = [(1 << 20, SCALED - (1 << 20)), ((1 << 20) + 1, SCALED - (1 << 20) - 1)]
# The largest numbers of bits of a shape for each kind of certificate.
MOST_BITS = 90


class Code:
    """A shape, its rows and its checks."""

    def __init__(self, shape, rows):
        self.shape, self.rows = shape, rows
        numbers = [list(map(int, line.split())) for line in rows.splitlines()]
        self.checks = plain_checker.members_of(shape, numbers)
        self.bits = shape[0] * (shape[1] + shape[2])
        self.firsts = [sum(map(len, self.checks[:at])) for at in range(len(self.checks))]

    def some_bits(self):
        return range(0, self.bits, -(-self.bits // MOST_BITS))

    def edges_of(self, bit):
        return [first + members.index(bit) for first, members in zip(self.firsts, self.checks) if bit in members]

    def by_moves(self, soft, moves):
        """The certificate of version 2, and the line for it."""
        zeros = [0] * self.bits
        return plain_checker.file_of(self.shape, MAX_SCALE, soft, zeros, moves), plain_checker.answer(self.checks, MAX_SCALE, soft, zeros, moves)

    def by_shares(self, soft, shares):
        """The same of version 1."""
        zeros = [0] * self.bits
        return plain_checker.file_listed(self.shape, MAX_SCALE, soft, zeros, shares), plain_checker.answer_listed(self.checks, MAX_SCALE, soft, zeros, shares)

    def shares_of(self, moves):
        return [-amount if at == place else amount for members, (place, amount) in zip(self.checks, moves) for at in range(len(members))]

    def small_moves(self):
        source = random.Random(1)
        return [(source.randrange(len(members)), source.randint(1, 499)) for members in self.checks]


def replaced(values, at, value):
    return [*values[:at], value, *values[at + 1 :]]


def listed_by_one(code):
    """A share takes all of a bit's rest, or one more; the first or the last share of a check is one less."""
    soft, moves = [MAX_SOFT] * code.bits, code.small_moves()
    shares, rests = code.shares_of(moves), plain_checker.rests_of(code.checks, MAX_SCALE, soft, [0] * code.bits, moves)
    for bit in code.some_bits():
        for edge in code.edges_of(bit)[:1]:
            for more in (rests[bit], rests[bit] + 1):
                yield code.by_shares(soft, replaced(shares, edge, shares[edge] + more))
    for first, members in list(zip(code.firsts, code.checks))[: MOST_BITS]:
        for edge in (first, first + len(members) - 1):
            yield code.by_shares(soft, replaced(shares, edge, shares[edge] - 1))


def moved_by_one(code, value):
    """A move takes all of the rest of a bit of this value, or one more."""
    moves = code.small_moves()
    for bit in code.some_bits():
        soft = replaced([MAX_SOFT] * code.bits, bit, value)
        rest = plain_checker.rests_of(code.checks, MAX_SCALE, soft, [0] * code.bits, moves)[bit]
        taking = [at for at, members in enumerate(code.checks) if bit in members and members[moves[at][0]] != bit]
        for at in taking[:1]:
            for more in (rest, rest + 1):
                yield code.by_moves(soft, replaced(moves, at, (moves[at][0], moves[at][1] + more)))


def made_good(code):
    """Two checks move to a bit of the least value as much as it lacks, or one less."""
    for bit in code.some_bits():
        own = [at for at, members in enumerate(code.checks) if bit in members][:2]
        soft = replaced([MAX_SOFT] * code.bits, bit, -MAX_SOFT)
        for amounts in MADE_GOOD if len(own) == 2 else []:
            for less in (0, 1):
                moves = [(0, 0)] * len(code.checks)
                for at, amount in zip(own, (amounts[0], amounts[1] - less)):
                    moves[at] = code.checks[at].index(bit), amount
                yield code.by_moves(soft, moves)


def beyond(code):
    """Sums beyond 32 bits that would be small if they were kept in 32."""
    soft, none = [0] * code.bits, [0] * sum(map(len, code.checks))
    for edge in range(1, min(len(none), MOST_BITS)):
        yield code.by_shares(soft, replaced(replaced(none, edge - 1, LEAST_SHARE), edge, LEAST_SHARE))
    for bit in code.some_bits():
        shares = list(none)
        for edge, share in zip(code.edges_of(bit), (MAX_AMOUNT, MAX_AMOUNT, 2)):
            shares[edge] = share
        yield code.by_shares(soft, shares)
    yield code.by_moves(soft, [(place, MAX_AMOUNT) for place, _ in code.small_moves()])


def chained():
    """Along a chain of checks of two members each passes on all that the bits before it have, up to the largest amount."""
    code = Code((1, 1, 1200), b"0\n")
    soft = [MAX_SOFT] * 1200
    moves = [(1, min(SCALED * (at + 1), MAX_AMOUNT)) for at in range(1200)]
    shares = code.shares_of(moves)
    yield code.by_moves([*soft, -MAX_SOFT], moves)
    yield code.by_moves([*soft, -MAX_SOFT], replaced(moves, 1000, (1, moves[1000][1] + 1)))
    yield code.by_shares([*soft, MAX_SOFT], shares)
    yield code.by_shares([*soft, MAX_SOFT], replaced(shares, 2399, LEAST_SHARE))


def files():
    """Of each code its rows, the certificates, and the line for each."""
    found = [(b"0\n", [*chained()])]
    for shape, weight in [*GROUPS, *WIDE]:
        code = Code(shape, made_rows(*shape, weight, 1))
        parts = [listed_by_one(code), *(moved_by_one(code, value) for value in LOW), made_good(code)]
        parts += [beyond(code)] if (shape, weight) in WIDE else []
        found.append((code.rows, [it for part in parts for it in part]))
    return [(rows, *zip(*each)) for rows, each in found]
