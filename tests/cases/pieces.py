"""`demod --piece` and `stitch`: the expected records are computed from the sent symbols, as docs/formats.md describes them."""
import hashlib
import json
import struct
from dataclasses import replace

from cases import about, records
from cases.common import FAULT, LINK, PACKET, STORED_CERTIFICATE, TWO, WANTED, Case, fault, noted, unfound

FACTOR, BITS, FRAME, HEADER = 6364136223846793005, 16200, records.FRAME, 90
SOLE, END = 0, 4
OTHER = "records: of another recording, of other rows or of other options"
NO_RECORD = "records: not the record of a decision"
ROWS_ONCE, SYMBOLS_ONCE = "rows: no regular file, which can be read twice", "symbols: no regular file, which can be read twice: use --again"


def seed(made, options=None, certificates=False):
    """The number that identifies the rows and the options."""
    lines = about.MODE | about.FOUND | about.DECODING | (options or {})
    text = "".join(f",\n  {json.dumps(key)}: {json.dumps(value)}" for key, value in lines.items())
    return int.from_bytes(hashlib.sha256(made + text.encode() + bytes([certificates])).digest()[:8], "big")


def summed(begun, numbers):
    """The sum of numbers from this one on."""
    for number in numbers:
        begun = (begun * FACTOR + number) % 2**64
    return begun


def record(begun, soft, at, verdict, word, certificate=b"", rounds=0):
    """The record of a decision, or an end record."""
    filled = [value % 65536 for value in soft] + [0] * (-len(soft) % 8)
    fours = [sum(value << 16 * k for k, value in enumerate(filled[first : first + 4])) for first in range(0, len(filled), 4)]
    eights = [int.from_bytes(those[first : first + 8], "little") for those in (word, certificate) for first in range(0, len(those), 8)]
    seal = summed(begun, [summed(0, fours[::2]), summed(0, fours[1::2]), at, rounds, verdict, *eights])
    return struct.pack(">QQIIB", at, seal, rounds, len(certificate), verdict) + word + certificate


def piece(symbols, begun, first=0, stop=None, certificates=False):
    """The records of frames of LINK without noise. The first begins at this position. `stop` is that after the last symbol of the piece, if it is not
    the last one: then it has an end record instead if it has no frame."""
    files = certificates_of(symbols) if certificates else [b""] * (len(symbols) // (4 * FRAME))
    found = [record(begun, soft, first + at * FRAME, SOLE, records.packed(word), files[at]) for at, (soft, word) in enumerate(records.decided(symbols))]
    return b"".join(found or ([end_record(begun, stop)] if stop else []))


def end_record(begun, stop):
    """The end record of a piece up to this position."""
    return record(begun, [], stop - 1, END, bytes(BITS // 8))


def certificates_of(symbols):
    """The certificate of each frame."""
    size = 4 * FRAME
    return [records.records(symbols[at : at + size])["--certificates"] for at in range(0, len(symbols), size)]


def line(start, stop, last, frames):
    return f"piece {start} {stop} last {last} frames {frames}\n"


def moved(by, report=TWO):
    """A report whose positions are larger."""
    return report.replace(" at 0 ", f" at {by} ").replace(" at 8190 ", f" at {by + 8190} ")


def piece_cases(two, made):
    """The records of a piece, in the file of the packets; the report with the positions of the recording, and its last line."""
    one, begun = two[: 4 * FRAME], seed(made)

    def case(words, report, text, symbols=two, **more):
        return Case(f"demod {LINK} {words} made in out", out=report, reads={"in": symbols}, writes={"out": text}, **more)

    yield case("--piece 0..16380 --last", TWO + line(0, 16380, 1, 2), piece(two, begun))
    yield case("--piece 0..16380", TWO + line(0, 16380, 0, 2), piece(two, begun, 0, 16380))
    yield case("--piece=1000..17380", moved(1000) + line(1000, 17380, 0, 2), piece(two, begun, 1000, 17380))
    # a frame and a header after it are received too, so a frame that begins in it is whole
    end = "end frames 1 delivered 1 packets 1 bad 0\n"
    yield case("--piece 0..8190", TWO + line(0, 8190, 0, 2), piece(two, begun, 0, 8190))
    cut = "cut at 8190 symbols 8189\n"
    yield case("--piece 0..8099", TWO.splitlines(True)[0] + cut + end + line(0, 8099, 0, 1), piece(one, begun, 0, 8099), errors=noted("1 packet incomplete"))
    yield case("--piece 50..8149", moved(50, TWO.splitlines(True)[0] + cut) + end + line(50, 8149, 0, 1), piece(one, begun, 50, 8149), errors=noted("1 packet incomplete"))
    # the last piece has all symbols
    yield case("--piece 0..1 --last", TWO + line(0, 1, 1, 2), piece(two, begun))
    nothing = "end frames 0 delivered 0 packets 0 bad 0\n"
    # the end record of a piece without frames; an empty piece and the last one have none
    for first, stop, symbols in ((7, 9, b""), (7, 7, b""), (7, 16380, bytes(4 * 89))):
        yield case(f"--piece {first}..{stop}", nothing + line(first, stop, 0, 0), end_record(begun, stop) if stop > first else b"", symbols)
        yield case(f"--piece {first}..{stop} --last", nothing + line(first, stop, 1, 0), b"", symbols)
    # notes count from the beginning of the piece
    skipped = noted("8281 symbols skipped in 1 place, the first at 0", unfound(8281))
    yield case("--piece 7..9000", nothing + line(7, 9000, 0, 0), end_record(begun, 9000), bytes(4 * 8281), errors=skipped)
    # certificates are in the records, and no other file is written, not even opened
    named = " ".join(f"{option} old" for option in (*records.OPTIONS, "--about"))
    yield case(f"--piece 0..16380 --last {named}", TWO + line(0, 16380, 1, 2), piece(two, seed(made, certificates=True), certificates=True))
    # the options that make another receiver
    for words, options in (("--rounds 7", {"rounds": 7}), ("--turns --lock 40", {"turns": True, "lock": 40}), ("--divisor 4096 --equalize", {"equalize": True})):
        yield case(f"--piece 0..16380 {words}", TWO + line(0, 16380, 0, 2), piece(two, seed(made, options), 0, 16380))
    # those of the report and of the exit make none
    yield case("--piece 0..16380 --exit-by delivery --quiet --ro 1", TWO + line(0, 16380, 0, 2), piece(two, begun, 0, 16380))
    # symbols without a frame; the exit is 0
    longer = two + bytes(400)
    yield case("--piece 0..16480 --strict", TWO + line(0, 16480, 0, 2), piece(two, begun, 0, 16480), longer, errors=noted("100 symbols skipped in 1 place, the first at 16380"))
    # the records on standard output, and the report on standard error
    yield Case(f"demod {LINK} --piece 0..16380 made in -", out=piece(two, begun, 0, 16380), errors=TWO + line(0, 16380, 0, 2), reads={"in": two})
    # rows are read twice
    for name in ("-", "/dev/stdin"):
        yield fault(f"demod {LINK} --piece 0..9 {name} in out", ROWS_ONCE, given=made, reads={"in": two})
    yield fault(f"demod {LINK} --piece 0..9 /dev/null in out", ROWS_ONCE, reads={"in": two})
    yield fault(f"demod {LINK} --piece 0..9 toy in out", "rows: too few rows", WANTED, reads={"in": two}, writes={"out": b""})
    yield fault(f"demod {LINK} --piece 0..9 none in out", "cannot open none", reads={"in": two})
    yield Case(f"demod {LINK} --piece 0..16380 made in /dev/full", FAULT, "", noted("/dev/full: No space left on device") + "s2: cannot write\n", {"in": two})


def stitch_cases(two, made):
    """By true records, by none, and by some of them, the result is that of `demod`. Others are refused."""
    begun, whole = seed(made), {"out": 2 * PACKET}
    first, second, end = piece(two[: 4 * FRAME], begun, 0), piece(two[4 * FRAME :], begun, FRAME), end_record(begun, 16380)

    def case(text, words="", **more):
        return Case(f"stitch {LINK} {words} made in pieces out", out=TWO, reads={"in": two, "pieces": text}, writes=whole, **more)

    def refused(text, why=OTHER, report="", packets=b"", words=""):
        return Case(f"stitch {LINK} {words} made in pieces out", FAULT, report, f"s2: {why}\n", {"in": two, "pieces": text}, {"out": packets})

    for text in (b"", first, second, first + second, first + first + second, second + first, first + end + second, end, first + second + end):
        yield case(text)
    # of a frame that is not there
    yield case(first + piece(two[: 4 * FRAME], begun, 100))
    yield case(first + piece(two[4 * FRAME :], begun, 10 * FRAME))
    named = " ".join(f"{option} record{option}" for option in records.OPTIONS)
    writes = whole | {f"record{option}": data for option, data in records.records(two).items()} | {"record": about.demod({}, made, two)}
    with_certificates = piece(two, seed(made, certificates=True), certificates=True)
    for text in (b"", with_certificates):
        yield replace(case(text, f"{named} --about record"), writes=writes)
    # the files are read at the same time, and one of them may be standard input
    yield Case(f"stitch {LINK} made in - out", out=TWO, given=first + second, reads={"in": two}, writes=whole)
    yield Case(f"stitch {LINK} --again in made - pieces out", out=TWO, given=two, reads={"in": two, "pieces": first}, writes=whole)
    yield Case(f"stitch {LINK} --again - made in pieces -", out=2 * PACKET, errors=TWO, given=two, reads={"in": two, "pieces": first})
    # other rows, options, recordings and positions
    for other in (seed(made + b"\n"), seed(made, {"rounds": 49}), seed(made, {"number": 1}), seed(made, certificates=True), begun ^ 1):
        yield refused(piece(two, other))
        yield refused(record(other, [], 16379, END, bytes(BITS // 8)))
    yield refused(piece(two[4 * FRAME :], begun))
    yield refused(piece(two, begun), words="--rounds 49")
    yield replace(refused(piece(two, begun), words="--certificates record"), writes={"out": b"", "record": b""})
    # each part of a record
    for place in (8, 15, 19, 24, 25, 25 + BITS // 8 - 1):
        yield refused(first[:place] + bytes([first[place] ^ 1]) + first[place + 1 :])
    for cut in (1, 24, 25, len(first) - 1):
        yield refused(first[:cut], NO_RECORD)
    yield refused(first[:24] + b"\5" + first[25:], NO_RECORD)
    # the frames before it are written
    yield refused(first + second[:-1], NO_RECORD, TWO.splitlines(True)[0], PACKET)
    # a record whose certificate is of other rows is passed, and its frame is decided here; a text is no certificate
    soft, word = next(records.decided(two))
    yield case(record(begun, soft, 0, SOLE, records.packed(word), STORED_CERTIFICATE) + second)
    yield refused(record(begun, soft, 0, SOLE, records.packed(word), b"text"), NO_RECORD)
    # another recording
    yield Case(f"stitch {LINK} --again other made in pieces out", FAULT, "", f"s2: {OTHER}\n", {"in": two, "other": two[4 * FRAME :] + two, "pieces": first}, {"out": b""})
    yield fault(f"stitch {LINK} made - pieces out", SYMBOLS_ONCE, given=two, reads={"pieces": b""})
    yield fault(f"stitch {LINK} - in pieces out", ROWS_ONCE, given=made, reads={"in": two, "pieces": b""})
    yield fault(f"stitch {LINK} made in none out", "cannot open none", reads={"in": two})
    yield fault(f"stitch {LINK} made in pieces in", "in is used twice", reads={"in": two, "pieces": b""})
    yield fault(f"stitch {LINK} made in pieces pieces", "pieces is used twice", reads={"in": two, "pieces": b""})
    yield fault(f"stitch {LINK} --again again made in pieces again", "again is used twice", reads={"in": two, "pieces": b"", "again": two})
    yield fault(f"stitch {LINK} toy in pieces out", "rows: too few rows", WANTED, reads={"in": two, "pieces": b""}, writes={"out": b""})


def cases(two, made):
    return [*piece_cases(two, made), *stitch_cases(two, made)]


def by_stitch(effect):
    """An option of `demod`, as one of `stitch` without records: the results are the same."""
    words, reads = effect.words.replace("demod ", "stitch ").replace(" made in out", " made in none out"), effect.more["reads"] | {"none": b""}
    return replace(effect, words=words, more=effect.more | {"reads": reads})
