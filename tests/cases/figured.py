"""Reports with figures: what `demod --figures` and `run --figures` print of the two packets in frames of LINK."""
import struct

from cases import plain_figures
from cases.common import LINK, NO, PACKET, TWO, Case, fault
from cases.drawn import spoilt
from cases.links import NOISY, NONE
from cases.plain_figures import Frames, Mode
from cases.plain_receiver import FRAME, broken, checks_of, decided

MODE, ROUNDS, FACTOR, DIVISOR = Mode(1, short=True), 2, 12, 4096


def with_figures(report, figures):
    """A report with the figures of its frames, and their sums."""
    *lines, end = report.splitlines()
    lines = [line + plain_figures.words(it) for line, it in zip(lines, figures, strict=True)]
    return "".join(f"{line}\n" for line in [*lines, end + plain_figures.sums(MODE, figures)])


def clean(report):
    """The report of frames without noise."""
    return with_figures(report, [plain_figures.clean(MODE)] * report.count("frame "))


def noisy(two, rows):
    """The report of the frames with noise after two rounds, and the same with figures."""
    checks, heard, frames, found = checks_of(rows), spoilt(two, *NOISY), Frames(MODE), []
    symbols = list(struct.iter_unpack(">hh", heard))
    for number, (soft, words) in enumerate(decided(checks, heard, DIVISOR, ROUNDS, FACTOR)):
        of_frame = symbols[number * FRAME : (number + 1) * FRAME]
        found.append(frames.figures(of_frame, soft, words[-1]) | {"rounds": ROUNDS})
    report = broken(checks, two, heard, DIVISOR, ROUNDS, FACTOR)
    return report, with_figures(report, found)


def cases(two):
    """Cut frames, no frames, gaps, and reports that cannot be written."""
    one, other, figured = two[: 4 * FRAME], two[4 * FRAME :], clean(TWO)
    first = clean("frame 1 at 0 sole fixed 0\nend frames 1 delivered 1 packets 1 bad 0\n")
    cut = first.replace("end ", "cut at 8190 symbols 100\nend ")
    incomplete, words = "s2: note: 1 packet incomplete\n", f"demod {LINK} --figures made in"
    return [
        Case(f"{words} out", out=NONE, reads={"in": b""}, writes={"out": b""}),
        Case(f"{words} out", NO, cut, incomplete, reads={"in": one + other[:400]}, writes={"out": PACKET}),
        Case(f"{words} -", out=2 * PACKET, errors=figured, reads={"in": two}),
        Case(f"{words} --strict --uncertified out", out=figured, reads={"in": two}, writes={"out": 2 * PACKET}),
        fault(f"{words} out", "cannot write", reads={"in": two}, to="/dev/full", writes={"out": PACKET}),
        fault(f"run {LINK} --figures --seed 1 --level 0 made packets out", "cannot write", to="/dev/full", writes={"out": PACKET}),
        Case(f"run {LINK} --figures --dummy 1 --seed 1 --level 0 made packets out", out=figured.replace("8190", "11520"), writes={"out": 2 * PACKET}),
    ]
