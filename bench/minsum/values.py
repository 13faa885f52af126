"""Values of layered min-sum on small codes, implemented from the description of the rule, for the tests of s2_minsum.

A code is the size of a group, the number of groups, q, and the address rows. `run` returns the posteriors, and the messages check by check,
after a number of rounds, or after one layer of the first round."""


def members(group, groups, q, rows):
    """The members of each check, rising."""
    k, m = group * groups, group * q
    checks = [set() for _ in range(m)]
    for g, row in enumerate(rows):
        for i in range(group):
            for x in row:
                checks[(x + i * q) % m].add(g * group + i)
    for j in range(m):
        checks[j].add(k + j)
        if j:
            checks[j].add(k + j - 1)
    return [sorted(check) for check in checks]


def message(inputs, factor):
    """The message from the inputs of the other members: `factor` sixteenths of the least size, rounded up."""
    least = min([1023] + [abs(v) for v in inputs])
    sign = -1 if sum(v < 0 for v in inputs) % 2 else 1
    return sign * -(-least * factor // 16)


def run(group, groups, q, rows, soft, rounds, layers=None, factor=12):
    checks = members(group, groups, q, rows)
    sent = {(j, i): 0 for j, check in enumerate(checks) for i in check}

    def posteriors():
        sums = list(soft)
        for (_, i), v in sent.items():
            sums[i] += v
        return sums

    for _ in range(rounds):
        for r in range(q if layers is None else layers):
            before = posteriors()
            new = {}
            for j in range(r, len(checks), q):
                inputs = {i: before[i] - sent[j, i] for i in checks[j]}
                for i in checks[j]:
                    new[j, i] = message([inputs[x] for x in checks[j] if x != i], factor)
            sent.update(new)
    return posteriors(), [sent[j, i] for j, check in enumerate(checks) for i in check]


if __name__ == "__main__":
    toy = [[0, 4, 8], [0, 1, 2]]
    print("ONE_WRONG_AFTER, _SENT", *run(4, 2, 3, toy, [-4] + [10] * 19, 1, layers=1))
    print("TWICE_AFTER", run(4, 1, 3, [[0, 3]], [8] * 16, 1, layers=1)[0])
    print("GROWN", run(4, 2, 3, toy, [511] * 20, 5)[0])
    print("a check of one member", run(1, 1, 2, [[1]], [511] * 3, 1, layers=1)[1])
    many = (1, 1, 27, [list(range(24))])
    print("a bit of 24 checks", run(*many, [511] * 28, 3)[0])
    print("the same of a one", run(*many, [-511 if i == 0 or i % 2 and i < 24 else 511 for i in range(28)], 3)[0])
    print("pairs", run(1, 1, 1, [[0]], [-5, 3], 1)[0], run(1, 1, 1, [[0]], [-5, 5], 3)[0])
    mixed = [-4, 37, -12, 511, 93, 8, -250, 61, 17, -5, 129, 33, 44, 7, -90, 300, 21, 15, -63, 2]
    for factor in (8, 12, 15, 16):
        for rounds in (1, 2):
            print(f"MIXED by {factor} after {rounds}", run(4, 2, 3, toy, mixed, rounds, factor=factor)[0])
        print(f"a check of one member by {factor}", run(1, 1, 2, [[1]], [511] * 3, 1, layers=1, factor=factor)[1])
    print("a bit of 24 checks by 16", run(*many, [511] * 28, 3, factor=16)[0])
