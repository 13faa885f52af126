"""`judge`, and the program without a command."""
import itertools

from cases import plain_checker
from cases.common import ANY, CHAIN, FAULT, NO, PAIR, STORED, STORED_MOVED, TOY, WRONG, WRONG_MOVED, Case, Rule, fault, noted, size
from cases.drawn import made_rows
from cases.made_frames import frame

LIKELY, SOLE = "most-likely", "sole"
# The stored values with sizes of 511.
LARGEST = STORED.replace(b"5", b"511").replace(b"7", b"511")
# Value files under the toy code, what they cost, and what `judge` says; the program without a command says most likely of all.
WELL = [
    (STORED, -45, SOLE),
    (20 * b"10 ", 0, SOLE),
    (20 * b"0 ", 0, LIKELY),
    (WRONG, 0, LIKELY),
    (b"-4 10 10 10 1 1 1 " + 13 * b"10 ", 0, LIKELY),
    (b"# all\n" + 10 * b"0 " + b"\r\n" + 10 * b"0 ", 0, LIKELY),
    (b"\t-05 007" + STORED[4:], -45, SOLE),
    (20 * b"64 ", 0, SOLE),
    (20 * b"511 ", 0, SOLE),
    (LARGEST, -9 * 511, SOLE),
    (20 * b"1 ", 0, SOLE),
    (19 * b"1 " + b"0 ", 0, LIKELY),
    (b"0 " + 19 * b"511 ", 0, LIKELY),
    (b"-1" + STORED[2:], -41, SOLE),
    (STORED.replace(b"7", b"1"), -45, SOLE),
    (STORED.replace(b"7", b"0", 1), -45, LIKELY),
]
BAD_VALUES = [
    (19 * b"0 ", "too few"),
    (21 * b"0 ", "too many"),
    (b"0 0\n512 " + 17 * b"0 ", "out of range in line 2"),
    (b"-512 " + 19 * b"0 ", "out of range in line 1"),
    (b"x " + 18 * b"0 ", "not a number in line 1"),
]
# Hard decisions under the toy code: the stored codeword, that of the zeros, and the fault of other files.
BITS = b"1 0 0 0 0 0 0 0 1 1 1 1 0 0 0 0 1 1 1 1"
BITS_CERTIFICATE = STORED_MOVED[:13] + b"".join((b"\0\x01", b"\xff\xff")[bit == b"1"] for bit in BITS.split()) + STORED_MOVED[53:]
HARD = [(BITS, -9), (20 * b"0 ", 0), (b"# all\n" + BITS.replace(b" ", b"\r\n\t"), -9)]
BAD_BITS = [
    (19 * b"0 ", "too few"),
    (21 * b"1 ", "too many"),
    *((b"0 1\n" + token + b"\n" + 17 * b"0 ", "out of range in line 2") for token in (b"2", b"-1", b"00", b"01", b"10", b"x", b"-", b"0x", b"511")),
    # the first fault in reading order
    (b"0 2\n" + 30 * b"0 ", "out of range in line 1"),
    (b"x\n2", "out of range in line 1"),
]
BAD_ROWS = [
    (b"", "too few rows"),
    (b"# 0 4 8\n\n# 0 1 2\n", "too few rows"),
    (b"0\n1\n2\n", "too many rows"),
    (b"0 4 12\n0 1 2\n", "address too large in line 1"),
    (b"0 0\n0 1 2\n", "repeated address in line 1"),
    (b"0 4\n0 0\n", "repeated address in line 2"),
    (b"0 x\n", "not a number in line 1"),
    (b"0 1 2 3 4 5 6 7 8 9 10 11 0", "repeated address in line 1"),
]
LONG_ROW = " ".join(map(str, range(25))).encode()
# Of codes of one information bit: shape, rows, values, exit and line.
VERDICTS = [
    (PAIR, "pair", b"-5 3", 0, "most-likely cost -2\n"),
    (PAIR, "pair", b"-5 5", NO, "broken cost -5 check 0\n"),
    (CHAIN, "chain", b"0 -1 -1 0", NO, "parity cost 0\n"),
    (CHAIN, "chain", b"1 0 -3 0", NO, "parity cost 0\n"),
    (f"{PAIR} --factor 9", "pair", b"-5 3", NO, "broken cost -5 check 0\n"),
    (f"{PAIR} --factor 10", "pair", b"-5 3", 0, "most-likely cost -2\n"),
    (f"{PAIR} --factor 12", "pair", b"-5 5", NO, "broken cost -5 check 0\n"),
    (f"{PAIR} --factor 13", "pair", b"-5 5", 0, "most-likely cost 0\n"),
    (f"{PAIR} --uncertified", "pair", b"-5 3", NO, "parity cost -2\n"),
    (f"{PAIR} --factor 13 --uncertified", "pair", b"-5 5", NO, "parity cost 0\n"),
]
# Codes of three groups, and their rows.
FIVE, SIX = ("--group 1 --groups 3 --q 5", b"0 1 3\n0 2\n1 4\n"), ("--group 2 --groups 3 --q 3", b"0 4\n2 3 4 5\n2 3 5\n")


def moves(front, soft, word, *pairs):
    """A certificate file of version 2, of scale 16: of each check a place and an amount."""
    numbers = b"".join(value.to_bytes(2, "big", signed=True) for value in map(int, soft.split()))
    return bytes.fromhex(front) + numbers + word + b"".join(place.to_bytes(2, "big") + amount.to_bytes(4, "big") for place, amount in pairs)


# Values for which passes of settling leave a least rest of 1, or one pass leaves 0 and the second more, and spreading one of 3; the moves
# are those of another program.
ONE_LEFT, MORE_LEFT = b"118 -266 38 200 262 216 103 -72", b"-148 18 -68 286 258 65 150 -333"
THREE_LEFT = b"23 11 -8 -9 4 20 20 -2 6 17 9 6"
FRONT_FIVE, FRONT_SIX = "53324D4C 02 0001 0003 0005 0010", "53324D4C 02 0002 0003 0003 0010"
ONE_MOVED = moves(FRONT_FIVE, ONE_LEFT, b"\x00", (1, 1485), (1, 579), (0, 3059), (0, 239), (2, 1186))
MORE_MOVED = moves(FRONT_FIVE, MORE_LEFT, b"\xe5", (1, 1727), (0, 1023), (2, 939), (1, 1018), (0, 786))
THREE_MOVED = moves(FRONT_SIX, THREE_LEFT, bytes(2), (1, 225), (3, 54), (0, 13), (1, 40), (1, 78), (0, 0))
# Values for which settling takes several passes, in groups of any size.
TOY_CODE, SEVEN, NINE = (TOY, b"0 4 8\n0 1 2\n"), ("--group 7 --groups 1 --q 3", b"0 4 11\n"), ("--group 9 --groups 2 --q 2", b"0 5 7\n1 4 10\n")
OF_TOY = b"-154 -172 -241 -511 215 -254 -177 121 -213 308 -148 52 -511 -417 79 -384 288 -29 14 -105"
OF_FIVE = b"-129 158 14 -207 272 372 -511 114"
OF_SEVEN = b"511 17 -144 -266 -11 144 227 297 211 168 78 -197 -263 113 -13 -162 144 -340 -175 -215 339 60 -511 -339 132 270 -29 -127"
OF_NINE = (
    b"17 235 17 -120 -149 91 -97 491 351 302 -299 -113 465 207 8 -511 -322 154 -195 511 -506 -87 -197 233 "
    b"294 340 355 340 116 -131 -251 49 -82 -225 216 -325"
)
FRONT_TOY, FRONT_SEVEN, FRONT_NINE = "53324D4C 02 0004 0002 0003 0010", "53324D4C 02 0007 0001 0003 0010", "53324D4C 02 0009 0002 0002 0010"
TOY_PAIRS = [(0, 2323), (1, 115), (1, 204), (3, 728), (2, 1217), (1, 2032), (1, 488), (1, 332), (1, 2759), (3, 681), (3, 284), (2, 231)]
FIVE_PAIRS = [(2, 66), (1, 2753), (1, 431), (0, 3661), (2, 2869)]
SEVEN_PAIRS = [
    (1, 1712), (0, 181), (2, 199), (2, 488), (1, 1956), (0, 546), (2, 248), (0, 484), (1, 1235), (2, 144), (0, 196), (2, 1391), (0, 1334),
    (1, 1003), (0, 474), (1, 1632), (0, 2099), (0, 74), (1, 618), (2, 568), (1, 920),
]  # fmt: skip
NINE_PAIRS = [
    (0, 745), (0, 665), (1, 1736), (4, 968), (3, 919), (4, 259), (0, 3304), (1, 15), (2, 128), (1, 1203), (0, 0), (0, 111), (1, 154), (4, 656),
    (3, 576), (3, 183), (4, 72), (2, 241),
]  # fmt: skip
TOY_MOVED = moves(FRONT_TOY, OF_TOY, b"\xf4\xbd\x50", *TOY_PAIRS)
FIVE_MOVED = moves(FRONT_FIVE, OF_FIVE, b"\x93", *FIVE_PAIRS)
SEVEN_MOVED = moves(FRONT_SEVEN, OF_SEVEN, b"\x70\x3b\x77\x10", *SEVEN_PAIRS)
NINE_MOVED = moves(FRONT_NINE, OF_NINE, b"\x0a\x33\xaa\x07\xd0", *NINE_PAIRS)
# Values for which spreading finds a certificate after 63 passes, after all 64, and for which it would take another pass.
TWELVE, FRONT_TWELVE = ("--group 1 --groups 1 --q 11", b"2 7\n"), "53324D4C 02 0001 0001 000B 0010"
AFTER_63, AFTER_64, NOT_FOUND = (b"21 15 -12 24 -23 -3 -1 0 " + rest for rest in (b"-47 61 -7 34", b"-49 60 -7 34", b"-50 63 -7 34"))


def spread_after(values, amount):
    pairs = (0, 0), (1, 240), (2, 48), (1, 432), (1, 64), (1, 16), (0, 0), (0, 0), (0, amount), (1, 112), (0, 0)
    return moves(FRONT_TWELVE, values, bytes(2), *pairs)


# A wrong bit whose neighbours are weak, which spreading corrects; the same with the largest values, and greedy amounts of these.
WEAK = b"-4 10 10 10 1 1 1 " + 13 * b"10 "
WEAK_MOVED = moves(FRONT_TOY, WEAK, bytes(3), (0, 40), (1, 24), (0, 0), (0, 0), (0, 20), (1, 4), (0, 0), (0, 0), (0, 4), *3 * [(0, 0)])
LOUD = b"-511 511 511 511 127 127 127 " + 13 * b"511 "
LOUD_MOVED = moves(FRONT_TOY, LOUD, bytes(3), (0, 5104), (1, 3072), (0, 0), (0, 0), (0, 2552), (1, 520), (0, 0), (0, 0), (0, 520), *3 * [(0, 0)])
LOUDEST = b"-511 " + 19 * b"511 "
LOUDEST_MOVED = moves("53324D4C 02 0004 0002 0003 0001", LOUDEST, bytes(3), (0, 511), *11 * [(0, 0)])
# Codes, passes, values, the line of `judge`, that of `check`, and the certificate.
LEFT = [
    (FIVE, 4, ONE_LEFT, "sole cost 0\n", "sole cost 0\n", ONE_MOVED),
    (FIVE, 2, MORE_LEFT, "sole cost -466\n", "sole cost -466\n", MORE_MOVED),
    (SIX, 0, THREE_LEFT, "sole cost 0\n", "sole cost 0\n", THREE_MOVED),
    (TOY_CODE, 3, OF_TOY, "sole cost -3087\n", "sole cost -3087\n", TOY_MOVED),
    (FIVE, 2, OF_FIVE, "sole cost -733\n", "sole cost -733\n", FIVE_MOVED),
    (SEVEN, 1, OF_SEVEN, "sole cost -2597\n", "sole cost -2597\n", SEVEN_MOVED),
    (NINE, 2, OF_NINE, "sole cost -3346\n", "sole cost -3346\n", NINE_MOVED),
    (TWELVE, 0, AFTER_63, "most-likely cost 0\n", "yes cost 0\n", spread_after(AFTER_63, 752)),
    (TWELVE, 0, AFTER_64, "most-likely cost 0\n", "yes cost 0\n", spread_after(AFTER_64, 784)),
]
# Frames one after another: of one pass, one for which 40 passes find nothing, and the one of three passes.
ONE_PASS = b"315 -231 200 -121 148 26 105 187 511 -174 -100 -207 119 83 87 -151 -180 177 86 -511"
ONE_PASS_PAIRS = [(1, 1336), (0, 276), (3, 737), (1, 1008), (1, 460), (0, 0), (0, 0), (2, 32), (1, 155), (0, 164), (3, 390), (2, 94)]
ONE_PASS_MOVED = moves(FRONT_TOY, ONE_PASS, b"\x54\x71\x90", *ONE_PASS_PAIRS)
NOT_SETTLED = b"-75 115 67 443 191 205 -189 -188 -221 -3 146 381 226 -171 -5 485 40 129 -292 -295"
# Frames of made codes, as `bench/settle/frames.py` makes them: a group, groups, q, the weight of a row, a seed, the deviation of the noise, and
# passes. Settling finds a certificate in exactly this number of passes, or gives up in at most 60 (None), as `bench/settle/shares.py` computes it.
# Each would end otherwise with another number in the rule, or a step less: the third least input, further amounts, the first margin, its fall,
# and the growth at which settling is given up.
SETTLED = [
    ((14, 24, 14, 3, 3194, 56), 4),
    ((14, 24, 14, 3, 793, 55), 3),
    ((14, 24, 14, 3, 3723, 63), 5),
    ((8, 30, 15, 4, 1181, 72), 7),
    ((8, 30, 15, 3, 753, 67), 12),
    ((8, 30, 15, 4, 3354, 69), 19),
    ((60, 30, 20, 4, 3414, 69), None),
]


def settled(numbers, passes):
    """Cases with this number of passes, and with one fewer."""
    group, groups, q, weight, seed, _ = numbers
    words = f"judge --group {group} --groups {groups} --q {q}"
    values = " ".join(map(str, frame(*numbers, 60)[3])).encode()
    reads = {"rows": made_rows(group, groups, q, weight, seed), "values": values}
    ends = {60: False} if passes is None else {passes: True, passes - 1: False}
    results = {True: (0, said("sole")), False: (NO, said("parity"))}
    return [Case(f"{words} --passes {it} rows values", *results[is_found], reads=reads) for it, is_found in ends.items()]


def said(verdict):
    return Rule(f"{verdict} cost ..", lambda got: got.startswith(f"{verdict} cost ".encode()))


# A normal frame of zeros, of whose decisions each thousandth is wrong. Its certificate has a header, 64800 values, the word, and
# a move for each of 32400 checks.
NORMAL = "--group 360 --groups 90 --q 90"
ZEROS = b"".join(b"-4 " if at % 1000 == 0 else b"10 " for at in range(64_800))
NORMAL_SIZE = 13 + 2 * 64_800 + 8100 + 6 * 32_400


def flipped(*places):
    """The stored word with these bits changed."""
    return b" ".join(b"%d" % ((bit == b"1") ^ (at in places)) for at, bit in enumerate(BITS.split()))


# Words with one and with two changed bits.
FLIPPED = [*(flipped(at) for at in range(20)), *(flipped(at, (7 * at + 3) % 20) for at in range(20))]


def nearest(values):
    """The line of a word by comparison with all codewords: a word that is most likely has the least number of changed bits."""
    word, checks = [int(bit) for bit in values.split()], plain_checker.members_of((4, 2, 3), [[0, 4, 8], [0, 1, 2]])
    codewords = [plain_checker.encoded((4, 2, 3), checks, bits) for bits in itertools.product((0, 1), repeat=8)]
    least = min(sum(a != b for a, b in zip(word, it)) for it in codewords)

    def told(got):
        verdict, _, cost, *check, changed, count = got.decode().split()
        most = verdict in (SOLE, LIKELY)
        return changed == "changed" and (int(count) == least if most else int(count) >= 0) and int(cost) == int(count) - word.count(1) and bool(check) == (verdict == "broken")

    return Rule(f"a verdict, changed {least}", told)


HARD_NOTE = "these look like hard decisions: use --hard"


def note_on(values):
    """The note on a value file of nothing but 0 and 1."""
    words = b" ".join(line for line in values.split(b"\n") if not line.startswith(b"#")).split()
    return noted(HARD_NOTE) if words and {int(word) for word in words} <= {0, 1} else ""


def uncertified(line):
    """The line without a certificate."""
    return line.replace(LIKELY, "parity").replace(SOLE, "parity")


def cut(values):
    """A value file of the same codeword, cut: the rest of its last value counts, unless it is only a minus sign."""
    words = [word for word in values.split() if word != b"-"]
    if len(words) == 20:
        return Case("", out=f"most-likely cost {sum(min(0, int(word)) for word in words)}\n", given=values)
    return fault("", "values: not a number in line 1" if values.endswith(b"-") else "values: too few", given=values)


# Value files of several frames under the toy code: of each frame the values, what it costs, its verdict, and its certificate.
FRAMES = [(STORED, -45, SOLE, STORED_MOVED), (WRONG, 0, LIKELY, WRONG_MOVED)]
# The same frames with other line ends, comments among them, and several frames in a line.
SPLIT = [b"\n", b" ", b"\n\n# a frame\n \t", b"\r\n", b" \n#\n"]


def each(values, count, code=0, text="", **more):
    """`judge --each` on this number of frames, in the order stored, wrong, stored and so on."""
    order = [FRAMES[at % 2] for at in range(count)]
    writes = {"certificates": b"".join(it[3] for it in order)} | more.pop("writes", {})
    errors = f"s2: {text}\n" if text else ""
    out = "".join(f"{word} cost {cost}\n" for _, cost, word, _ in order)
    words = f"judge {TOY} --each --cert certificates toy values"
    return Case(words, code, out, errors, reads={"values": values}, writes=writes, **more)


def frames(count, between=b"\n"):
    return b"".join(FRAMES[at % 2][0] + between for at in range(count))


# After two complete frames: the following input, and the fault. The lines before it are printed, and so are their certificates.
BAD_EACH = [
    (b"7", "too few"),
    (19 * b"7 ", "too few"),
    (b"7 x", "not a number in line 3"),
    (b"\n\n7\n512", "out of range in line 6"),
    (b"-", "not a number in line 3"),
    (19 * b"7 " + b"-512 7 7", "out of range in line 3"),
]
# Of the pair: values of one frame after another, the exit, and the lines.
PAIRS_EACH = [
    (b"-5 3 -5 5\n-5 3", NO, "most-likely cost -2\nbroken cost -5 check 0\nmost-likely cost -2\n"),
    (b"-5 5", NO, "broken cost -5 check 0\n"),
    (b"-5 3", 0, "most-likely cost -2\n"),
    (b"0 0 1 1", 0, "most-likely cost 0\nsole cost 0\n"),
    (b"0 0 2 1", 0, "most-likely cost 0\nsole cost 0\n"),
    (b"", 0, ""),
    (b"# nothing\n\n", 0, ""),
]


EACH = [
    *(each(frames(count, between), count) for count in (1, 2, 3, 5) for between in SPLIT),
    # each value on its own line
    each(frames(3).replace(b" ", b"\n"), 3),
    # a frame's moves do not stay for the next one
    Case(
        f"judge {TOY} --passes 40 --each --cert out toy values",
        NO,
        2 * "sole cost -1649\nparity cost -958\nsole cost -3087\n",
        reads={"values": 2 * (ONE_PASS + b"\n" + NOT_SETTLED + b"\n" + OF_TOY + b"\n")},
        writes={"out": 2 * (ONE_PASS_MOVED + TOY_MOVED)},
    ),
    Case(
        f"judge {TOY} --each --cert out toy values",
        out=3 * "most-likely cost 0\n",
        reads={"values": WRONG + b"\n" + WEAK + b"\n" + WRONG},
        writes={"out": WRONG_MOVED + WEAK_MOVED + WRONG_MOVED},
    ),
    # many frames: the memory is that of one
    each(frames(3000), 3000),
    *(Case(f"judge {PAIR} --each pair values", code, lines, note_on(values), reads={"values": values}) for values, code, lines in PAIRS_EACH),
    *(Case(f"judge {PAIR} --each --quiet pair values", code, lines, reads={"values": values}) for values, code, lines in PAIRS_EACH),
    # without a frame the file of certificates is empty
    *(Case(f"judge {PAIR} --each --cert old pair values", reads={"values": values}, writes={"old": b""}) for values, code, lines in PAIRS_EACH if not lines),
    Case(f"judge {PAIR} --each --cert old pair odd", NO, "broken cost -5 check 0\n", writes={"old": b""}),
    *(each(frames(2) + rest, 2, FAULT, f"values: {text}") for rest, text in BAD_EACH),
    # a fault in the first frame: the file of certificates is unchanged
    *(fault(f"judge {TOY} --each --cert old toy values", f"values: {text}", reads={"values": values}) for values, text in BAD_VALUES if text != "too many"),
    # decided bits
    Case(f"judge {TOY} --each --hard --cert out toy values", out=2 * "sole cost -9 changed 0\n", reads={"values": 2 * (BITS + b"\n")}, writes={"out": 2 * BITS_CERTIFICATE}),
    *(
        fault(f"judge {TOY} --each --hard --cert old toy values", f"values: {text}", reads={"values": values})
        for values, text in BAD_BITS
        if text != "too many"
    ),
    fault(f"judge {TOY} --each --cert old none values", "cannot open none", reads={"values": STORED}),
    *(fault(f"judge {TOY} --each --cert old rows values", f"rows: {text}", reads={"rows": rows, "values": STORED}) for rows, text in BAD_ROWS),
    fault(f"judge {TOY} --each --cert old toy .", "cannot read"),
    fault(f"judge {TOY} --each --cert /dev/full toy stored", "cannot write"),
    fault(f"judge {TOY} --each --cert out toy stored", "cannot write", to="/dev/full", writes={"out": STORED_MOVED}),
    Case(f"judge {TOY} --each --cert - toy values", out=STORED_MOVED + WRONG_MOVED, errors="sole cost -45\nmost-likely cost 0\n", reads={"values": frames(2)}),
    *(Case(f"judge {TOY} --each toy {name}", out="sole cost -45\n") for name in ("-", "/dev/stdin")),
    *(fault(f"judge {TOY} --each --cert {name} toy stored", f"{name} is used twice") for name in ("toy", "stored")),
]


CASES = [
    *EACH,
    *(cut(whole[:size]) for whole in (STORED, LARGEST) for size in range(len(whole))),
    *(Case("", out=f"most-likely cost {cost}\n", given=values) for values, cost, _ in WELL),
    *(Case(f"judge {TOY} toy values", out=f"{word} cost {cost}\n", errors=note_on(values), reads={"values": values}) for values, cost, word in WELL),
    *(Case(f"judge {TOY} --quiet toy values", out=f"{word} cost {cost}\n", reads={"values": values}) for values, cost, word in WELL),
    # a hard decision and a repaired word keep their certificates, what min-sum finds has none
    *(
        Case(f"judge {TOY} --uncertified toy values", out=f"{word} cost {cost}\n", errors=note_on(values), reads={"values": values})
        for values, cost, word in WELL
    ),
    Case(f"judge {TOY} --uncertified --cert out toy wrong", out="most-likely cost 0\n", writes={"out": WRONG_MOVED}),
    *(
        Case(f"judge {shape} --uncertified --cert old rows values", NO, uncertified(line), reads={"rows": rows, "values": values}, writes={"old": b""})
        for (shape, rows), _, values, line, _, _ in LEFT
    ),
    *(fault("", f"values: {text}", given=values) for values, text in BAD_VALUES),
    *(fault(f"judge {TOY} toy values", f"values: {text}", reads={"values": values}) for values, text in BAD_VALUES),
    *(Case(f"judge {TOY} --hard toy values", out=f"sole cost {cost} changed 0\n", reads={"values": values}) for values, cost in HARD),
    *(Case(f"judge {TOY} {option} --hard toy values", ANY, nearest(values), reads={"values": values}) for values in FLIPPED for option in ("", "--each")),
    *(fault(f"judge {TOY} --hard toy values", f"values: {text}", reads={"values": values}) for values, text in BAD_BITS),
    Case(f"judge {TOY} --hard --cert out toy values", out="sole cost -9 changed 0\n", reads={"values": BITS}, writes={"out": BITS_CERTIFICATE}),
    *(fault(f"judge {TOY} rows odd", f"rows: {text}", reads={"rows": rows}) for rows, text in BAD_ROWS),
    fault("judge --group 1 --groups 1 --q 30 rows odd", "rows: row too long in line 1", reads={"rows": LONG_ROW}),
    *(Case(f"judge {shape} {rows} values", code, line, reads={"values": values}) for shape, rows, values, code, line in VERDICTS),
    Case(f"judge {TOY} rows stored", out="sole cost -45\n", reads={"rows": 70_000 * b"#" + b"\n0 4 8\n0 1 2\n"}),
    # the rows are taken apart before the values are read
    fault(f"judge {TOY} rows .", "rows: not a number in line 1", reads={"rows": b"0 x\n"}),
    fault(f"judge {TOY} toy .", "cannot read"),
    fault(f"judge {TOY} . values", "cannot read", reads={"values": STORED}),
    # certificates
    Case(f"judge {TOY} --cert out toy stored", out="sole cost -45\n", writes={"out": STORED_MOVED}),
    Case(f"judge {TOY} --passes 96 toy stored", out="sole cost -45\n"),
    Case(f"judge {TOY} --passes 96 --cert old toy stored", out="sole cost -45\n", writes={"old": STORED_MOVED}),
    Case(f"judge {TOY} --cert out toy wrong", out="most-likely cost 0\n", writes={"out": WRONG_MOVED}),
    Case(
        f"judge {NORMAL} --cert out normal values",
        out="most-likely cost 0\n",
        reads={"values": ZEROS},
        writes={"out": size(NORMAL_SIZE)},
    ),
    *(
        Case(f"judge {shape} --passes {passes} --cert out rows values", 0, line, reads={"rows": rows, "values": values}, writes={"out": file})
        for (shape, rows), passes, values, line, _, file in LEFT
    ),
    *(Case("check rows out", 0, line, reads={"rows": rows, "out": file}) for (_, rows), _, _, _, line, file in LEFT),
    *(
        Case(f"judge {shape} --passes {passes - 1} rows values", NO, uncertified(line), reads={"rows": rows, "values": values})
        for (shape, rows), passes, values, line, _, _ in LEFT
        if passes > 1
    ),
    *(case for each in SETTLED for case in settled(*each)),
    Case(f"judge {TWELVE[0]} --cert old rows values", NO, "parity cost 0\n", reads={"rows": TWELVE[1], "values": NOT_FOUND}, writes={"old": b""}),
    *(
        Case(f"judge {TOY} --cert out toy values", 0, "most-likely cost 0\n", reads={"values": values}, writes={"out": file})
        for values, file in ((WEAK, WEAK_MOVED), (LOUD, LOUD_MOVED), (LOUDEST, LOUDEST_MOVED))
    ),
    *(
        Case(f"judge {shape} --cert old {rows} values", NO, line, reads={"values": values}, writes={"old": b""})
        for shape, rows, values, code, line in VERDICTS[1:3]
    ),
    fault(f"judge {TOY} --cert out toy odd", "values: too few", writes={"out": b""}),
    # no verdict without its certificate
    fault(f"judge {TOY} --cert /dev/full toy stored", "cannot write"),
    # input and output that fail
    fault("", "cannot read", given="."),
    *(fault(words, "cannot write", to="/dev/full") for words in ("", f"judge {TOY} toy stored")),
    fault(f"judge {TOY} --cert out toy stored", "cannot write", to="/dev/full", writes={"out": STORED_MOVED}),
]
