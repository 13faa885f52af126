"""Compares docs/certificates.md with the output of both programs and with the definitions."""
import inspect
import itertools
import os
import re
import subprocess
from collections import Counter

import check
from cases import plain_checker
from cases.drawn import made_rows

SHAPE, ROWS = (4, 2, 3), [[0, 4, 8], [0, 1, 2]]
# Of each code rate how many addresses all rows of the standard have, and groups and q: for normal frames, and for short ones.
CODES = {
    "1/4": ((270, 45, 135), (63, 9, 36)),
    "1/2": ((450, 90, 90), (85, 20, 25)),
    "3/4": ((540, 135, 45), (108, 33, 12)),
    "8/9": ((500, 160, 20), (125, 40, 5)),
}
# Speeds as the page has them, and as the page on figures has them.
SPEEDS = [
    ("takes 0.26 ms in version 2", "the check of a certificate of moves 0.26 ms"),
    ("and 0.84 ms in version 1", "of listed shares 0.84 ms"),
    ("noisy frames of QPSK 1/2 took 2.6 ms each at 3.1 dB", "Noisy frames of QPSK 1/2 took 2.6 ms each at 3.1 dB"),
]


def text_of(path):
    with open(path, encoding="utf-8") as file:
        return file.read()


def contents(name):
    with open(name, "rb") as file:
        return file.read()


def printed(*words, **how):
    return subprocess.run(words, capture_output=True, text=True, timeout=60, **how).stdout


def named(i):
    return f"b{i}" if i < 8 else f"p{i - 8}"


def commands(text):
    """The commands of the page, each with the lines that it is to print."""
    found = []
    for line in re.findall(r"^    (.*)$", text, re.M):
        if line.startswith("# "):
            found[-1][1].append(line[2:])
        else:
            found.append((line, []))
    return found


def by_commands(text, program, checker):
    """Runs the commands of the page, in a folder in which both programs have the names of the page."""
    os.mkdir("examples")
    os.symlink(program, "s2")
    os.symlink(checker, "examples/check.py")
    found = commands(text)
    yield "its commands", 11, len(found)
    for command, lines in found:
        yield command, lines, printed("bash", "-c", command).splitlines()


def by_hand(words, scale, soft, word, moves):
    """What the page says of its first certificate."""
    members = check.members_of(ROWS, *SHAPE)
    yield "the members", members, plain_checker.members_of(SHAPE, ROWS)
    cells = []
    for j, bits in enumerate(members):
        ones = [word[i] for i in bits]
        cells.append(f"{j} | {' '.join(map(named, bits))} | {' '.join(map(str, ones))} | {sum(ones)}")
    for left, right in zip(cells[:6], cells[6:]):
        yield "its checks", True, f"| {left} | {right} |" in words
    rests, cost = Counter(plain_checker.rests_of(members, scale, soft, word, moves)), plain_checker.cost_of(soft, word)
    others = (plain_checker.encoded(SHAPE, members, bits) for bits in itertools.product((0, 1), repeat=8))
    second, other = sorted((plain_checker.cost_of(soft, it), it) for it in others)[1]
    *first, last = [named(i) for i in range(20) if other[i] != word[i]]
    added = " + ".join(str(abs(soft[i])) for i in range(20) if other[i] != word[i])
    yield "the word is of signs", [value < 0 for value in soft], [bit == 1 for bit in word]
    yield "no moves", [(0, 0)] * 12, moves
    for sentence in (
        f"It has {sum(word)} ones, each at a value of -5. Its cost is {sum(word)} * -5 = {cost}.",
        f"Here {rests[5]} rests are 5 and {rests[7]} are 7;",
        f"costs at least {cost} + {min(rests)} = {cost + min(rests)},",
        f"Of the 256 codewords, the second cheapest costs {second}. It differs in {', '.join(first)} and {last}, which adds {added} = {second - cost}.",
    ):
        yield sentence, True, sentence in words


def by_moved(words, file):
    """What the page says of its second certificate, and of changes to it."""
    members, (scale, soft, word, moves, _) = check.members_of(ROWS, *SHAPE), plain_checker.taken_apart(SHAPE, file)
    yield "its move", [(0, 2)] + [(0, 0)] * 11, moves
    signs = [int(value < 0) for value in soft]
    yield "odd checks", [0, 4, 8], [j for j, bits in enumerate(members) if sum(signs[i] for i in bits) % 2]
    yield "the words differ in b0", [0], [i for i in range(20) if signs[i] != word[i]]
    yield "rests before it", -2, plain_checker.rests_of(members, scale, soft, word, [(0, 0)] * 12)[0]
    for amount, rests in ((2, (0, 5, 3)), (3, (1, 4, 2))):
        left = plain_checker.rests_of(members, scale, soft, word, [(0, amount)] + moves[1:])
        yield f"rests by {amount}", rests, (left[0], left[4], left[8])
    yield "rests", True, "become 0 for b0, 7 - 2 = 5 for b4 and 5 - 2 = 3 for p0." in words and "would leave 1, 4 and 2" in words


def by_bytes(text, first, moved):
    """The table of bytes, and the place at which the second certificate differs from the first."""
    rows = re.findall(r"^\| (\d+) \| ([0-9a-f ]+)(?:, repeated)? \|", text, re.M)
    parts = [(int(count), bytes.fromhex(part)) for count, part in rows]
    yield "its bytes", first, b"".join(part * (count // len(part)) for count, part in parts)
    yield "their count", True, f"`certificate` has {len(first)} bytes." in text
    yield "the bytes of the other", first[:13] + b"\x00\x02" + first[15:56] + bytes.fromhex("00 00 00 00 00 02") + first[62:], moved


def by_change(program, checker, moved):
    """What both programs print of the second certificate after a change."""
    changes = {"no bound": (61, 1), "no check 0": (53, 0), "sole cost -38": (61, 3), "yes cost -38": (61, 2)}
    for said, (at, byte) in changes.items():
        with open("changed", "wb") as file:
            file.write(moved[:at] + bytes([byte]) + moved[at + 1 :])
        for words in ([program, "check"], [checker]):
            yield f"byte {at} is {byte}", f"{said}\n", printed(*words, "small", "changed")


def sizes(addresses, groups, q):
    """The bytes of a certificate of either version."""
    n, checks = 360 * (groups + q), 360 * q
    return 13 + 2 * n + n // 8 + 6 * checks, 17 + 2 * n + n // 8 + 4 * (360 * addresses + 2 * checks - 1)


def by_sizes(text, program, checker):
    """The table of sizes, and what the program writes for two codes of rate 3/4."""
    for rate, (normal, short) in CODES.items():
        row = " | ".join(f"{size:,}" for code in (normal, short) for size in sizes(*code))
        yield f"sizes of {rate}", True, f"| {rate} | {row} |" in text
    for _, groups, q in CODES["3/4"]:
        with open("made", "wb") as rows, open("nines", "w", encoding="ascii") as values:
            rows.write(made_rows(360, groups, q, 3, 1))
            values.write(360 * (groups + q) * "9 ")
        shape = ["--group", "360", "--groups", str(groups), "--q", str(q)]
        yield "judge", "sole cost 0\n", printed(program, "judge", *shape, "--cert", "long", "made", "nines")
        yield "what judge writes", sizes(0, groups, q)[0], os.path.getsize("long")
        yield "check.py on it", "sole cost 0\n", printed(checker, "made", "long")


def by_text(words, top):
    """Speeds, which are also in bench/README.md, and the length of the check."""
    figures = " ".join(text_of(f"{top}/bench/README.md").split())
    for here, there in SPEEDS:
        yield here, (True, True), (here in words, there in figures)
    lines = sum(len(inspect.getsource(it).splitlines()) for it in (check.members_of, check.shares_of, check.checked))
    yield "thirty lines", 30, lines


def comparisons(top, program, checker):
    """All comparisons, in an empty folder: their name, the expected value, and the actual one."""
    text = text_of(f"{top}/docs/certificates.md")
    words = " ".join(text.split())
    yield from by_commands(text, program, checker)
    first, moved = contents("certificate"), contents("moved")
    yield from by_hand(words, *plain_checker.taken_apart(SHAPE, first)[:4])
    yield from by_moved(words, moved)
    yield from by_bytes(text, first, moved)
    yield from by_change(program, checker, moved)
    yield from by_sizes(text, program, checker)
    yield from by_text(words, top)
