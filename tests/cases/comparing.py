"""`compare`. The expected lines are those of a second comparison, written from docs/formats.md. What a certificate shows is taken from the
second checker."""
import random

from cases import plain_checker
from cases.common import FAULT, LINK, NO, PAIR, STORED_CERTIFICATE, STORED_MOVED, TOY, WRONG_CERTIFICATE, Case, Rule, fault

KINDS = "same", "equal", "worse", "no-codeword", "refused", "missing"
SEED, DRAWN = 5, 60


def packed(word):
    padded = word + [0] * (-len(word) % 8)
    return bytes(int("".join(map(str, padded[at : at + 8])), 2) for at in range(0, len(padded), 8))


def digits(word):
    return "".join(map(str, word)).encode() + b"\n"


def answer(checks, said, soft, certified, word):
    """How a word compares with the certified one, for this answer of a checker."""
    if said.startswith("no"):
        return "refused"
    cost, best = (plain_checker.cost_of(soft, it) for it in (word, certified))
    changed = sum(a != b for a, b in zip(word, certified))
    odd = sum(sum(word[i] for i in members) % 2 for members in checks)
    if not changed:
        return f"same {'sole' if said.startswith('sole') else 'most-likely'} cost {best}"
    if odd:
        return f"no-codeword checks {odd} changed {changed}"
    return f"equal cost {cost} changed {changed}" if cost == best else f"worse cost {cost} best {best} changed {changed}"


def lines_of(answers):
    return "".join(f"frame {number} {it}\n" for number, it in enumerate(answers, 1))


def printed(answers):
    """All lines of a comparison with these verdicts, and the counts at the end."""
    kinds = [it.split()[0] for it in answers]
    counts = " ".join(f"{kind} {kinds.count(kind)}" for kind in KINDS)
    return f"{lines_of(answers)}end frames {len(answers)} {counts}\n"


def code_of(answers):
    return 0 if all(it.startswith("same") for it in answers) else NO


def drawn_word(source, shape, checks, certified):
    """The certified word, one with a changed bit, another codeword, or any word."""
    kind, word = source.randrange(5), list(certified)
    if kind == 1:
        word[source.randrange(len(word))] ^= 1
    if kind == 2:
        word = plain_checker.encoded(shape, checks, [source.randrange(2) for _ in range(shape[0] * shape[1])])
    if kind == 3:
        word = [source.randrange(2) for _ in word]
    return word


def drawn_case(number):
    """Several certificates of a small code, with words, in one of the two forms."""
    source = random.Random(SEED + number)
    shape, rows = plain_checker.drawn_code(source)
    checks, files, words, answers = plain_checker.members_of(shape, rows), [], [], []
    for _ in range(source.randrange(8)):
        file = plain_checker.drawn(source, shape, rows, source.choice([0, 0.05]), 0)
        scale, soft, certified, moves, _ = plain_checker.taken_apart(shape, file)
        word = drawn_word(source, shape, checks, certified)
        files.append(file)
        words.append(word)
        answers.append(answer(checks, plain_checker.answer(checks, scale, soft, certified, moves), soft, certified, word))
    code = "--group {} --groups {} --q {}".format(*shape)
    form, option = source.choice([(packed, ""), (digits, "--bits ")])
    reads = {"rows": "".join(" ".join(map(str, row)) + "\n" for row in rows).encode(), "c": b"".join(files), "w": b"".join(map(form, words))}
    return Case(f"compare {code} {option}rows c w", code_of(answers), printed(answers), reads=reads)


# Two bits that are to be the same, with values that speak for neither: both codewords cost as much.
EVEN = plain_checker.file_of((1, 1, 1), 1, [-3, 3], [1, 1], [(1, 3)])
# Values that speak for two ones, and for two zeros.
ONES, ZEROS = (plain_checker.file_of((1, 1, 1), 1, soft, bits, [(0, 0)]) for soft, bits in (([-5, -3], [1, 1]), ([4, 2], [0, 0])))
# The certified words of the toy code.
TOY_WORDS = bytes.fromhex("80F0F0"), bytes(3)
ANSWERS = [
    (ONES, [1, 1], "same sole cost -8"),
    (ONES, [0, 0], "worse cost 0 best -8 changed 2"),
    (ONES, [1, 0], "no-codeword checks 1 changed 1"),
    (ZEROS, [0, 0], "same sole cost 0"),
    (ZEROS, [1, 1], "worse cost 6 best 0 changed 2"),
    (EVEN, [1, 1], "same most-likely cost 0"),
    (EVEN, [0, 0], "equal cost 0 changed 2"),
    (EVEN, [0, 1], "no-codeword checks 1 changed 1"),
    # a bound that is too low, another shape, and a word that is no codeword
    (plain_checker.file_of((1, 1, 1), 1, [-3, 3], [1, 1], [(0, 0)]), [1, 1], "refused"),
    (STORED_MOVED, [1, 1], "refused"),
    (plain_checker.file_of((1, 1, 1), 1, [-3, 3], [1, 0], [(0, 0)]), [1, 0], "refused"),
]


def compared(files, words, option="", code=None, text="", form=packed):
    """A case with these certificates of pairs, and words for them."""
    answers = [said for (file, word, said) in files]
    reads = {"c": b"".join(file for file, _, _ in files), "w": words if isinstance(words, bytes) else b"".join(map(form, words))}
    line = f"compare {PAIR} {option}pair c w"
    if text:
        return Case(line, FAULT, lines_of(answers[:code]), f"s2: {text}\n", reads=reads)
    return Case(line, code_of(answers), printed(answers), reads=reads)


ALL = [word for _, word, _ in ANSWERS]
WHOLE, TEXT = b"".join(map(packed, ALL)), b"".join(map(digits, ALL))
FEWER, MORE, CUT, NO_LINE = (f"words: {text}" for text in ("fewer than certificates", "more than certificates", "cut", "not a line of n digits 0 and 1"))
PAIR_WORDS = {"c": ONES + ONES, "w": b"\xc0\xc0"}

CASES = [
    compared(ANSWERS, ALL),
    compared(ANSWERS, ALL, "--bits ", form=digits),
    *(compared([it], [it[1]]) for it in ANSWERS),
    # bits after the last one are not read
    compared(ANSWERS[:2], b"\xff\x3f"),
    compared([], b""),
    compared([], b"", "--bits "),
    # fewer words than certificates, and more; a word that is cut; certificates that are cut
    *(compared(ANSWERS, WHOLE[:count], code=count, text=FEWER) for count in range(len(ANSWERS))),
    *(compared(ANSWERS, TEXT[:size], "--bits ", size // 3, CUT if size % 3 else FEWER) for size in range(len(TEXT))),
    *(compared(ANSWERS[:count], WHOLE, code=count, text=MORE) for count in range(len(ANSWERS))),
    compared(ANSWERS, TEXT + b"\n", "--bits ", len(ANSWERS), MORE),
    Case(f"compare {PAIR} pair c w", FAULT, "frame 1 same sole cost -8\n", "s2: certificate: cut\n", reads=PAIR_WORDS | {"c": ONES + ONES[:-1]}),
    Case(f"compare {PAIR} pair c w", FAULT, "frame 1 same sole cost -8\n", "s2: certificate: magic\n", reads=PAIR_WORDS | {"c": ONES + b"\n"}),
    # other digits, and other ends of a line
    *(compared(ANSWERS[:2], b"11\n" + line, "--bits ", 1, NO_LINE) for line in (b"12\n", b"/1\n", b"1 \n", b"111", b"11\r", b"\x01\x00\n")),
    compared(ANSWERS[:1], b"11", "--bits ", 0, CUT),
    # the toy code: its words have 20 bits
    *(
        Case(f"compare {TOY} toy c w", code_of(answers), printed(answers), reads={"c": STORED_CERTIFICATE + WRONG_CERTIFICATE, "w": b"".join(words)})
        for words, answers in (
            (TOY_WORDS, ["same sole cost -45", "same most-likely cost 0"]),
            (TOY_WORDS[::-1], ["worse cost 0 best -45 changed 9", "worse cost 76 best 0 changed 9"]),
        )
    ),
    # a certificate of other rows is refused; the rows are refused before a line
    Case(f"compare {TOY} toy c w", NO, printed(["refused", "same sole cost -45"]), reads={"c": ONES + STORED_MOVED, "w": 2 * TOY_WORDS[0]}),
    fault(f"compare {TOY} pair c w", "rows: too few rows", reads={"c": ONES, "w": b"\xc0"}),
    fault(f"compare {LINK} --bbframes toy c w", "rows: too few rows", reads={"c": b"", "w": b""}),
    # files that cannot be read or written, and standard input
    fault(f"compare {PAIR} . c w", "cannot read", reads=PAIR_WORDS),
    fault(f"compare {PAIR} pair . w", "cannot read", reads=PAIR_WORDS),
    fault(f"compare {PAIR} pair c .", "cannot read", reads=PAIR_WORDS),
    fault(f"compare {PAIR} /dev/zero c w", "file too long", reads=PAIR_WORDS),
    fault(f"compare {PAIR} pair c w", "cannot write", reads=PAIR_WORDS, to="/dev/full"),
    fault(f"compare {PAIR} pair c w", "cannot write", reads={"c": b"", "w": b""}, to="/dev/full"),
    Case(f"compare {PAIR} pair c -", 0, printed(2 * ["same sole cost -8"]), reads=PAIR_WORDS, given=b"\xc0\xc0"),
    *(drawn_case(number) for number in range(DRAWN)),
]


def of_frames(frames, certificates, bbframes):
    """Cases of a link's frames, whose certificates and BBFRAMEs are given: all are the same, one is missing, one differs in a byte."""
    size, words = len(bbframes) // frames, f"compare {LINK} --bbframes made c w"
    lost, said = bytes(size) + bbframes[size:], ["same sole cost"] * frames
    held = {"c": certificates, "w": bbframes}
    yield Case(words, 0, starting(said), reads=held)
    yield Case(words, NO, starting(["missing", *said[1:]]), reads=held | {"w": lost})
    other = bytes([bbframes[0], bbframes[1], bbframes[2] ^ 1]) + bbframes[3:]
    yield Case(words, NO, starting(["worse cost", *said[1:]]), reads=held | {"w": other})
    yield Case(words, FAULT, starting(said[:-1], False), "s2: words: cut\n", reads=held | {"w": bbframes[:-1]})


def starting(answers, ends=True):
    """Holds for lines that begin with these words, with the line of counts after them."""
    def told(got):
        lines = got.decode().splitlines()
        last = printed(answers).splitlines()[-1:] * ends
        return len(lines) == len(answers) + len(last) and lines[len(answers) :] == last and all(map(str.startswith, lines, lines_of(answers).splitlines()))

    return Rule(f"lines that begin with {answers}", told)
