"""Frames with wrong symbols: headers with many wrong bits directly after a frame and elsewhere, under `--lock`; a frame without its payload between
others; and wrong payload symbols that are repaired."""
from cases import plain_checker
from cases.common import ANY, LINK, NO, ONE, PACKET, TWO, Case
from cases.drawn import made_rows

FRAME, DUMMY, HEADER, SYMBOL = 8190, 3330, 90, 4
# QPSK 1/2 in short frames, and rows of weight 6 for it.
HALF, SHAPE = "--modcod 4 --short", (360, 20, 25)
HALF_ROWS = made_rows(*SHAPE, 6, 1)


def numbered(count):
    """Packets that differ in each byte but the sync byte."""
    return b"".join(b"\x47" + bytes((7 * at + number + 1) % 256 for at in range(187)) for number in range(count))


FOUR, FIVE = numbered(4), numbered(5)
END = "end frames {0} delivered {0} packets {1} bad 0\n"
ALL_THREE = "".join(f"frame {at + 1} at {FRAME * at} sole fixed 0\n" for at in range(3)) + END.format(3, 4)
# The first frame alone, and with the last one, which is found by the search: the packets between them are lost.
FIRST = ONE + END.format(1, 1)
OUTER = ONE + f"frame 2 at {2 * FRAME} sole fixed 0\n" + END.format(2, 1)


def negated(symbols, first, count):
    """The symbols with a number of them negated, from a place on: in a header, each is a wrong bit."""
    at, end = SYMBOL * first, SYMBOL * (first + count)
    samples = [int.from_bytes(symbols[it : it + 2], "big", signed=True) for it in range(at, end, 2)]
    return symbols[:at] + b"".join((-it).to_bytes(2, "big", signed=True) for it in samples) + symbols[end:]


def with_headers(symbols, wrong, places):
    """The symbols with a number of wrong bits in the headers at these places."""
    for count, place in zip(wrong, places):
        symbols = negated(symbols, place, count)
    return symbols


def locked(symbols, lock, report, packets):
    return Case(f"demod {LINK} --lock {lock} made in out", 0, report, ANY, reads={"in": symbols}, writes={"out": packets})


def locks(three, among):
    """Three frames of four packets, and two frames with a dummy frame after each. Directly after a frame a header may have the number of wrong
    bits that `--lock` gives. Elsewhere, also after a frame that was missed, it may have 12."""
    places, first = [FRAME * at for at in range(3)], FOUR[:188]
    cases = [
        ((12, 12, 12), 12, ALL_THREE, FOUR),
        ((12, 13, 30), 30, ALL_THREE, FOUR),
        ((12, 13, 30), 12, FIRST, first),
        ((0, 31, 12), 30, OUTER, first),
        ((0, 31, 12), 31, ALL_THREE, FOUR),
        ((0, 31, 13), 30, FIRST, first),
        # no frame ends before the first symbol, and the last two frames have the end of a packet and one whole packet
        ((13, 0, 0), 40, f"frame 1 at {FRAME} sole fixed 0\nframe 2 at {2 * FRAME} sole fixed 0\n" + END.format(2, 2), FOUR[376:]),
    ]
    behind = [FRAME, FRAME + DUMMY]
    return [
        *(locked(with_headers(three, wrong, places), *rest) for wrong, *rest in cases),
        locked(with_headers(among, (30, 30), behind), 30, TWO.replace("8190", str(FRAME + DUMMY)), 2 * PACKET),
        locked(with_headers(among, (30, 30), behind), 29, FIRST, PACKET),
    ]


def without_payload(three):
    """Three frames of five packets. The second one's payload is zeros: its word is that of zeros, whose message has no header."""
    at = SYMBOL * FRAME
    symbols = three[: at + SYMBOL * HEADER] + bytes(at - SYMBOL * HEADER) + three[2 * at :]
    report = ONE + f"frame 2 at {FRAME} most-likely lost\nframe 3 at {2 * FRAME} sole fixed 0\nend frames 3 delivered 2 packets 2 bad 0\n"
    return Case(f"demod {LINK} made in out", NO, report, ANY, reads={"in": symbols}, writes={"out": FIVE[:188] + FIVE[-188:]})


def are_scattered(checks_at, wrong):
    """Whether no check has two of these wrong bits, each is in two checks at least, and no other bit is in two checks that have one. If all
    values have the same magnitude, a wrong bit's checks can then give it enough."""
    touched = [check for bit in wrong for check in checks_at[bit]]
    if len({*touched}) < len(touched) or any(len(checks_at[bit]) < 2 for bit in wrong):
        return False
    return all(bit in wrong or len({*checks} & {*touched}) <= 1 for bit, checks in enumerate(checks_at))


def scattered_symbols(count):
    """The first payload symbols of QPSK, this number of them, whose bits may all be wrong."""
    rows = [list(map(int, line.split())) for line in HALF_ROWS.splitlines()]
    checks_at = [set() for _ in range(16_200)]
    for check, members in enumerate(plain_checker.members_of(SHAPE, rows)):
        for bit in members:
            checks_at[bit].add(check)
    found = []
    for symbol in range(100):
        bits = [bit for it in [*found, symbol] for bit in (2 * it, 2 * it + 1)]
        if len(found) < count and are_scattered(checks_at, bits):
            found.append(symbol)
    return found


def repaired(frame):
    """A frame of a packet of zeros, with one or three payload symbols negated."""
    found, cases = scattered_symbols(3), []
    for count in (1, 3):
        symbols = frame
        for it in found[:count]:
            symbols = negated(symbols, HEADER + it, 1)
        report = "frame 1 at 0 most-likely fixed 0\n" + END.format(1, 1)
        cases.append(Case(f"demod {HALF} half in out", 0, report, reads={"half": HALF_ROWS, "in": symbols}, writes={"out": PACKET}))
    return cases


def cases(made_by):
    """The cases, on symbols that a function makes of the words of `mod` and of packets."""
    three, of_five = (made_by(f"mod {LINK} made in out", {"in": packets}) for packets in (FOUR, FIVE))
    among = made_by(f"mod {LINK} --dummy 1 made in out", {"in": 2 * PACKET})
    frame = made_by(f"mod {HALF} half in out", {"half": HALF_ROWS, "in": PACKET})
    return [*locks(three, among), without_payload(of_five), *repaired(frame)]
