"""The type of a case, comparisons, and inputs of many commands."""
from dataclasses import dataclass, field

FINE, FAULT, NO = 0, 1, 2

LINK = "--modcod 1 --short"
TOY = "--group 4 --groups 2 --q 3"
PAIR = "--group 1 --groups 1 --q 1"
CHAIN = "--group 1 --groups 1 --q 3"
LONG_ROWS = "rows --group 1 --groups 600 --q 64000 --weight 24 --seed 4294967297"

# What soft values may be divided by; the first is the usual one.
DIVISORS = (4096, 8192, 16384, 32768, 65536)

STORED = b"-5 7 7 7 7 7 7 7 -5 -5 -5 -5 7 7 7 7 -5 -5 -5 -5"
# Of one wrong bit, which check 0 corrects.
WRONG = b"-4 " + 19 * b"10 "
# The certificates of both, under the toy code.
HEAD = bytes.fromhex("53324D4C 01 0004 0002 0003 0001 0000002F")
STORED_CERTIFICATE = HEAD + b"".join(bytes.fromhex("FFFB" if word == b"-5" else "0007") for word in STORED.split())
STORED_CERTIFICATE += bytes.fromhex("80F0F0") + bytes(188)
WRONG_CERTIFICATE = HEAD + bytes.fromhex("FFFC") + 19 * bytes.fromhex("000A") + bytes(3)
WRONG_CERTIFICATE += bytes.fromhex("FFFFFFFC 00000004 00000004") + bytes(176)

# The same as moves: of each check a place and an amount.
HEAD_MOVED = bytes.fromhex("53324D4C 02 0004 0002 0003 0001")
STORED_MOVED = HEAD_MOVED + STORED_CERTIFICATE[17:57] + bytes.fromhex("80F0F0") + bytes(72)
WRONG_MOVED = HEAD_MOVED + bytes.fromhex("FFFC") + 19 * bytes.fromhex("000A") + bytes(3)
WRONG_MOVED += bytes.fromhex("0000 00000004") + bytes(66)

PACKET = b"\x47" + bytes(187)
# Of a row file that does not fit the mode of LINK.
WANTED = "QPSK 1/4, short needs 9 rows of addresses below 12960"
ONE = "frame 1 at 0 sole fixed 0\n"
TWO = ONE + "frame 2 at 8190 sole fixed 0\nend frames 2 delivered 2 packets 2 bad 0\n"


@dataclass(frozen=True)
class Case:
    """The arguments of a command, its exit status, its standard output and its standard error.

    It runs in its own folder, with those of the common files, and of the files of `reads`, that its arguments name. `writes` has the
    contents of the files that it makes or changes; each other file must be unchanged. `given` is its standard input, or the path of
    it. If `to` is given, its standard output is that path, or a pipe that is `closed`. `links` has further names of files there, each
    with its kind, `hard` or `symbolic`, and its target. The note that its rows are not the standard's is ignored unless `noted`
    is true."""

    words: str
    code: int = FINE
    out: object = ""
    errors: object = ""
    reads: dict = field(default_factory=dict)
    writes: dict = field(default_factory=dict)
    given: object = STORED
    to: str = ""
    links: dict = field(default_factory=dict)
    noted: bool = False


def without_notes(errors):
    """Standard error without the note that rows are not the standard's, as no rows here are."""
    return b"".join(line for line in errors.splitlines(True) if not line.startswith(b"s2: note: these rows are "))


class Rule:
    """Equal to every value for which it holds, for expectations that are not byte by byte."""

    def __init__(self, what, holds):
        self.what, self.holds = what, holds

    def __eq__(self, got):
        return got is not None and self.holds(got)

    def __repr__(self):
        return self.what


ANY = Rule("any", lambda got: True)


def option(word, text):
    """Holds for help that has this word in a line with this end."""

    def told(got):
        return any(line.strip().startswith(word) and line.endswith(text) for line in got.decode().split("\n"))

    return Rule(f"..{word!r}..{text!r}..", told)


def size(count):
    return Rule(f"{count} bytes", lambda got: len(got) == count)


def ending(text):
    return Rule(f"..{text!r}", lambda got: got.endswith(text.encode()))


def first_line(text):
    return Rule(f"{text!r}..", lambda got: got.decode().split("\n")[0] == text)


def digest(number):
    """Holds of the bytes that have this FNV-1a digest, of 64 bits."""

    def digested(got):
        state = 0xCBF29CE484222325
        for byte in got:
            state = (state ^ byte) * 0x100000001B3 % 2**64
        return state == number

    return Rule(f"bytes of the digest {number:#x}", digested)


def noted(*notes):
    return "".join(f"s2: note: {note}\n" for note in notes)


def refused_headers(lost, refused):
    """The note on lost frames with a BCH word."""
    return f"of {lost} lost frame{'s' * (lost != 1)} {refused} had a BCH word whose header is refused"


# The note on headers of the usual amplitude without a decoded frame, and that with --equalize.
UNDECODED = "headers are right but no frame is decoded: another scrambling number, other rows, or a phase or carrier error: try --equalize, or s2 scan"
EQUALIZED = "headers are right but no frame is decoded: another scrambling number or other rows? try s2 scan"


def unfound(count):
    """The note on symbols without a frame."""
    return f"no frame of QPSK 1/4, short in {count} symbols: try s2 scan, or tools/receive for floats and 8-bit samples"


# The note on a gap after which frames may continue in another rotation.
SLIPPED = "a frame's length was skipped after a frame: try --turns, the carrier may have slipped"


def missing(*gaps):
    """The notes at once on gaps, each by the symbol after which no frame came, and the first symbol of the frame after it, if one came."""
    again = "frames again from symbol {}"
    return [note for end, *at in gaps for note in (f"no frame since symbol {end}", *map(again.format, at))]


def tuned(lost, frames):
    """The note on lost frames of a reception without --tuned."""
    return f"{lost} of {frames} frames lost: try --tuned"


def causes(words, text, given=b"", to=None):
    """The notes on the cause of a failed read or write: a folder is read, or a full device is written."""
    full, folder = "No space left on device", "Is a directory"
    if text == "cannot write":
        return [f"/dev/full: {full}"] * ("/dev/full" in words.split()) or [f"standard output: {full}"] * (to == "/dev/full")
    if text == "cannot read":
        return [f".: {folder}"] * ("." in words.split()) or [f"standard input: {folder}"] * (given == ".")
    return []


def fault(words, text, *notes, cause="No such file or directory", **more):
    """A case that ends with the line of a fault, after these notes, and prints nothing else. The cause is noted: of a file that cannot be
    opened, and of a read or a write that failed."""
    name = text.removeprefix("cannot open ")
    opened = [f"{name}: {'Is a directory' if name == '.' else cause}"] * (name != text)
    failed = causes(words, text, more.get("given"), more.get("to"))
    return Case(words, FAULT, errors=noted(*notes, *failed, *opened) + f"s2: {text}\n", **more)


# The commands, each with its own help.
COMMANDS = "modes rows table judge check mod noise demod run scan join audit compare stitch".split()


def misuse(words, text, way=None):
    """A case of words that are refused with one line, whose end names the help of their command, or the list of modes."""
    name = (words.split() or [""])[0]
    help_of = f"s2 {name} --help" if name in COMMANDS else "s2 --help"
    return Case(words, FAULT, errors=f"s2: {text}; see {way or ('s2 modes' if text.startswith('--modcod: ') and ' is not ' in text else help_of)}\n")
