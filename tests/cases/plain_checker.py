"""A second checker of certificates, written from docs/formats.md: it computes every share, and for small codes compares all codewords.
`drawn` makes random certificates of version 2, most of them close to the border between accepted and refused, and `drawn_listed`
certificates of version 1."""
import itertools
import math
import struct

MAX_SOFT, MAX_AMOUNT, MAX_SCALE = 511, 2**31 - 1, 4096
# Amounts that would be small and negative if they were signed.
BELOW_ZERO = range(2**32 - 2000, 2**32)


def members_of(shape, rows):
    """The members of each check, rising."""
    group, groups, q = shape
    k, count = group * groups, group * q
    checks = [{k + j} | ({k + j - 1} if j else set()) for j in range(count)]
    for g, row in enumerate(rows):
        for address, bit in itertools.product(row, range(group)):
            checks[(address + bit * q) % count].add(group * g + bit)
    return [sorted(members) for members in checks]


def encoded(shape, checks, bits):
    """The codeword of these information bits."""
    word = list(bits)
    for j, members in enumerate(checks):
        word.append(sum(word[i] for i in members if i < len(bits) + j) % 2)
    return word


def file_of(shape, scale, soft, word, moves):
    padded = word + [0] * (-len(word) % 8)
    packed = bytes(int("".join(map(str, padded[at : at + 8])), 2) for at in range(0, len(padded), 8))
    front = b"S2ML\x02" + struct.pack(">4H", *shape, scale) + struct.pack(f">{len(soft)}h", *soft)
    return front + packed + b"".join(struct.pack(">HI", *move) for move in moves)


def file_listed(shape, scale, soft, word, shares):
    """A certificate of version 1."""
    front = file_of(shape, scale, soft, word, [])
    return front[:4] + b"\x01" + front[5:13] + struct.pack(">I", len(shares)) + front[13:] + struct.pack(f">{len(shares)}i", *shares)


def taken_apart(shape, file):
    """Returns the scale, the soft values, the word, the moves, and whether all padding bits are 0."""
    group, groups, q = shape
    n, checks = group * (groups + q), group * q
    bits = [int(bit) for byte in file[13 + 2 * n : len(file) - 6 * checks] for bit in f"{byte:08b}"]
    soft = list(struct.unpack(f">{n}h", file[13 : 13 + 2 * n]))
    moves = list(struct.iter_unpack(">HI", file[len(file) - 6 * checks :]))
    return int.from_bytes(file[11:13], "big"), soft, bits[:n], moves, not any(bits[n:])


def is_out_of_range(shape, file):
    """Whether a file of the right length is refused as out of range."""
    scale, soft, _, moves, is_padded = taken_apart(shape, file)
    fine = 1 <= scale <= MAX_SCALE and is_padded and max(map(abs, soft)) <= MAX_SOFT
    return not fine or any(amount > MAX_AMOUNT or (place and not amount) for place, amount in moves)


def rests_of(checks, scale, soft, word, moves):
    """The rest of each bit: its scaled soft value less its shares in all checks."""
    rests = [scale * (-value if bit else value) for value, bit in zip(soft, word)]
    for members, (place, amount) in zip(checks, moves):
        for at, i in enumerate(members):
            rests[i] -= -amount if at == place else amount
    return rests


def answer(checks, scale, soft, word, moves):
    if any(place >= len(members) for members, (place, _) in zip(checks, moves)):
        return "no shape"
    for j, members in enumerate(checks):
        if sum(word[i] for i in members) % 2:
            return f"no check {j}"
    least = min(rests_of(checks, scale, soft, word, moves))
    return f"{'sole' if least >= 1 else 'yes'} cost {cost_of(soft, word)}" if least >= 0 else "no bound"


def least_even(shares):
    """The least sum over the subsets of even size."""
    even, odd = 0, math.inf
    for share in shares:
        even, odd = min(even, odd + share), min(odd, even + share)
    return even


def answer_listed(checks, scale, soft, word, shares):
    """The same for version 1: the bound is the sum of the least even sums, and of all rests below 0."""
    if len(shares) != sum(map(len, checks)):
        return "no shape"
    for j, members in enumerate(checks):
        if sum(word[i] for i in members) % 2:
            return f"no check {j}"
    rests, left, bound = [scale * value for value in soft], list(shares), 0
    for members in checks:
        own, left = left[: len(members)], left[len(members) :]
        bound += least_even(own)
        for i, share in zip(members, own):
            rests[i] -= share
    if bound + sum(min(0, rest) for rest in rests) < scale * cost_of(soft, word):
        return "no bound"
    least = min(-rest if bit else rest for rest, bit in zip(rests, word))
    return f"{'sole' if least >= 1 else 'yes'} cost {cost_of(soft, word)}"


def cost_of(soft, word):
    return sum(value for value, bit in zip(soft, word) if bit)


def is_true(shape, checks, soft, word, said):
    """Whether an accepted answer is true, by comparison with all codewords."""
    others = (encoded(shape, checks, bits) for bits in itertools.product((0, 1), repeat=shape[0] * shape[1]))
    least = min(cost_of(soft, it) for it in others if it != word)
    return cost_of(soft, word) + said.startswith("sole") <= least


def drawn_move(random, members, rests, kept, wild):
    """A move that leaves the other members at least `kept`, if possible; with probability `wild` an arbitrary move."""
    place = min(range(len(members)), key=lambda at: rests[members[at]]) if random.random() < 0.8 else random.randrange(len(members))
    room = max(0, min([rests[i] - kept for at, i in enumerate(members) if at != place], default=0))
    amount = random.choice([room, room, room // 2, random.randint(0, room), max(0, room - 1), 0, 0, 0])
    if random.random() < wild:
        amount = random.choice([room + 1, MAX_AMOUNT, random.randint(0, MAX_AMOUNT), random.choice(BELOW_ZERO)])
    return (place, min(amount, 2**32 - 1)) if amount else (0, 0)


def drawn_moves(random, checks, rests, share, kept, wild):
    """Moves for a random share of the checks."""
    moves = [(0, 0)] * len(checks)
    for j in random.sample(range(len(checks)), round(share * len(checks))):
        members = checks[j]
        place, amount = moves[j] = drawn_move(random, members, rests, kept, wild)
        for at, i in enumerate(members):
            rests[i] += amount if at == place else -amount
    return moves


def drawn(random, shape, rows, wrong, wild):
    """A certificate for these rows. `wrong` is the probability that a soft value contradicts its bit, `wild` that of an arbitrary move."""
    checks = members_of(shape, rows)
    word = encoded(shape, checks, [random.randrange(2) for _ in range(shape[0] * shape[1])])
    if random.random() < 0.05:
        word[random.randrange(len(word))] ^= 1
    scale, kept = random.choice([1, 1, 2, 16, MAX_SCALE]), random.choice([0, 1])
    least, most = random.choice([(kept, 3), (1, 40), (300, MAX_SOFT)])
    favours = [random.randint(least, most) if random.random() >= wrong else -random.randint(0, max(1, most // 4)) for _ in word]
    soft = [-value if bit else value for value, bit in zip(favours, word)]
    moves = drawn_moves(random, checks, [scale * value for value in favours], random.choice([0.3, 1]), kept, wild)
    return file_of(shape, scale, soft, word, moves)


def drawn_listed(random, shape, rows):
    """A certificate of version 1 for these rows, its answer, and its soft values and word. Some shares differ from those of moves."""
    checks = members_of(shape, rows)
    scale, soft, word, moves, _ = taken_apart(shape, drawn(random, shape, rows, random.choice([0, 0.03, 0.1]), 0.01))
    shares = []
    for members, (place, amount) in zip(checks, moves):
        shares += [(amount if at != place else -amount) * (-1 if word[i] else 1) for at, i in enumerate(members)]
    for _ in range(random.choice([0, 0, 1, 4])):
        shares[random.randrange(len(shares))] += random.randint(-2, 2)
    if random.random() < 0.05:
        shares.append(0)
    shares = [max(-(2**31), min(2**31 - 1, share)) for share in shares]
    return file_listed(shape, scale, soft, word, shares), answer_listed(checks, scale, soft, word, shares), soft, word


def altered(random, file):
    """The file with one byte changed after the shape."""
    at = random.randrange(11, len(file))
    return file[:at] + bytes([random.choice([file[at] ^ 1 << random.randrange(8), random.randrange(256)])]) + file[at + 1 :]


def drawn_code(random):
    """A small shape and its rows."""
    shape = random.randint(1, 5), random.randint(1, 3), random.randint(1, 5)
    count = shape[0] * shape[2]
    return shape, [random.sample(range(count), random.randint(1, min(count, 4))) for _ in range(shape[1])]
