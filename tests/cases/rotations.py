"""Streams whose symbols are rotated by quarter turns, as after slips of a carrier loop, received with and without `--turns`. The rotation of each
frame is computed here, from headers made of the standard's tables."""
import random
import struct

from cases.common import ANY, LINK, ONE, PACKET, Case, Rule
from cases.plain_receiver import FRAME, HEADER
from cases.wrong_symbols import DUMMY, END, FOUR, numbered
from dummy import header

# MODCOD 1 in short frames without pilots.
OWN = header(1, 2)
SIX = numbered(6)


def turned(symbol, turn):
    """A symbol times i to this power. The negative of -32768 is 32767."""
    i, q = symbol
    return tuple(min(it, 32767) for it in [(i, q), (-q, i), (-i, -q), (q, -i)][turn % 4])


def samples(symbols):
    return list(struct.iter_unpack(">hh", symbols))


def in_bytes(symbols):
    return b"".join(struct.pack(">hh", *each) for each in symbols)


def ahead(symbols, turn, first=0, count=None):
    """The symbols, some of them ahead by quarters."""
    made = samples(symbols)
    end = len(made) if count is None else first + count
    made[first:end] = [turned(each, turn) for each in made[first:end]]
    return in_bytes(made)


def frames_ahead(symbols, turns, size=FRAME):
    """The frames of a size, one after another, each ahead by its number of quarters."""
    made = b"".join(ahead(symbols[4 * size * at : 4 * size * (at + 1)], turn) for at, turn in enumerate(turns))
    assert len(made) == len(symbols)
    return made


def bit_of(place, symbol):
    """The bit of a header's symbol, counted from 0."""
    i, q = symbol
    return int((i + q if place % 2 == 0 else q - i) < 0)


def wrong_bits(symbols, bits, turn):
    """The number of a header's bits that are wrong after rotating back."""
    return sum(bit_of(at, turned(each, 4 - turn)) != bit for at, (each, bit) in enumerate(zip(symbols, bits)))


def rotation_of(symbols, bits=OWN):
    """The rotation of a frame: after rotating back by it, the fewest bits of its header are wrong."""
    wrong = [wrong_bits(symbols, bits, turn) for turn in range(4)]
    return wrong.index(min(wrong))


def scattered(symbols, count, frame=FRAME):
    """The symbols with a number of bits of the second header inverted, at drawn places. No other header in any rotation has as few wrong bits."""
    made, drawn = samples(symbols), random.Random(count)
    own = [bit_of(at, symbol) for at, symbol in enumerate(made[:HEADER])]
    others = [(bits, turn) for bits in (own, *(header(0, it) for it in range(4))) for turn in range(4) if bits != own or turn]
    while True:
        heard = made[frame : frame + HEADER]
        for at in drawn.sample(range(HEADER), count):
            heard[at] = turned(heard[at], 2)
        if all(wrong_bits(heard, *other) > count for other in others):
            return in_bytes([*made[:frame], *heard, *made[frame + HEADER :]])


def line(number, at, turn, outcome="sole fixed 0"):
    return f"frame {number} at {at} {outcome}" + (f" turn {turn}" if turn else "") + "\n"


def report(symbols, places, packets):
    """The report of frames without noise at these places, each rotated as its header says."""
    heard = samples(symbols)
    lines = [line(number, at, rotation_of(heard[at : at + HEADER])) for number, at in enumerate(places, 1)]
    return "".join(lines) + END.format(len(places), packets)


def received(symbols, places, sent, more=""):
    """All packets of frames at these places."""
    count = len(sent) // 188
    return Case(f"demod {LINK} --turns{more} made in out", 0, report(symbols, places, count), reads={"in": symbols}, writes={"out": sent})


def slipped(symbols, rng):
    """Frames with slips at random places: the stream, and which frames have none inside. A slip is after a frame's header, and not in its first or
    last tenth, so that the frame is lost or repaired."""
    frames, turn, made, whole = len(symbols) // (4 * FRAME), 0, b"", []
    for at in range(frames):
        frame = symbols[4 * FRAME * at : 4 * FRAME * (at + 1)]
        slip, place = rng.randrange(4), rng.randrange(FRAME // 10, 9 * FRAME // 10)
        first = ahead(frame[: 4 * place], turn)
        turn = (turn + slip) % 4
        made += first + ahead(frame[4 * place :], turn)
        whole.append(slip == 0)
    return made, whole


def frames_of(got):
    return [text.split() for text in got.decode().splitlines() if text.startswith("frame ")]


def delivers(symbols, whole):
    """Holds for a report with a line for each frame at its place, in which each frame without a slip inside is sole, with the rotation of its header."""
    heard = samples(symbols)

    def told(got):
        lines = {int(words[3]): " ".join(words[4:]) for words in frames_of(got)}
        for at, unspoilt in enumerate(whole):
            place = FRAME * at
            turn = rotation_of(heard[place : place + HEADER])
            if unspoilt and lines.get(place) != "sole fixed 0" + (f" turn {turn}" if turn else ""):
                return False
        return len(lines) == len(whole)

    return Rule(f"..{whole}..", told)


def cases(made_by):
    """The cases, on symbols that a function makes of the words of `mod` and of packets."""
    three = made_by(f"mod {LINK} made in out", {"in": FOUR})
    five = made_by(f"mod {LINK} made in out", {"in": SIX})
    among = made_by(f"mod {LINK} --dummy 1 made in out", {"in": 2 * PACKET})
    count = len(five) // (4 * FRAME)
    places = [FRAME * at for at in range(count)]
    alternating = frames_ahead(five, [at % 4 for at in range(count)])
    back = frames_ahead(five, [(3 * at + 1) % 4 for at in range(count)])
    all_ahead = [ahead(three, turn) for turn in range(4)]
    # the first symbols of a header have another rotation than the rest of its frame: at most 12 wrong bits
    in_header = ahead(ahead(three, 1, FRAME), 2, FRAME, 6)
    # dummy frames, each with another rotation than the frames beside it, the last one at the stream's end
    dummies = ahead(ahead(among, 3, FRAME, DUMMY), 2, 2 * FRAME + DUMMY, DUMMY)
    rng = random.Random(7)
    streams = [slipped(five, rng) for _ in range(3)]
    # one slip, in the first frame and in the last one
    for at in (0, count - 1):
        streams.append((ahead(five, 3, FRAME * at + FRAME // 2), [it != at for it in range(count)]))
    # a slip in the first dummy frame
    in_dummy = ahead(among, 1, FRAME + DUMMY // 2)
    # the largest numbers, and no signal at all
    loud = in_bytes([(32767 if i > 0 else -32768, 32767 if q > 0 else -32768) for i, q in samples(five)])
    silent = bytes(2 * 4 * FRAME)
    tuned = report(alternating, places, len(SIX) // 188)
    return [
        received(alternating, places, SIX),
        received(back, places, SIX),
        *(received(symbols, places[:3], FOUR) for symbols in all_ahead),
        received(in_header, places[:3], FOUR),
        received(dummies, [0, FRAME + DUMMY], 2 * PACKET),
        received(in_dummy, [0, FRAME + DUMMY], 2 * PACKET),
        received(frames_ahead(loud, [(3 * at + 1) % 4 for at in range(count)]), places, SIX),
        Case(f"demod {LINK} --turns --equalize --tuned made in out", 0, END.format(0, 0), ANY, reads={"in": silent}, writes={"out": b""}),
        # as --tuned has it
        Case(f"demod {LINK} --tuned made in out", 0, tuned, reads={"in": alternating}, writes={"out": SIX}),
        # without the option a rotated frame is no frame
        Case(f"demod {LINK} made in out", 0, ONE + END.format(1, 1), ANY, reads={"in": ahead(three, 1, FRAME)}, writes={"out": FOUR[:188]}),
        Case(f"demod {LINK} made in out", 0, report(three, places[:3], 4), reads={"in": three}, writes={"out": FOUR}),
        *(Case(f"demod {LINK} --turns made in out", ANY, delivers(*stream), ANY, reads={"in": stream[0]}, writes={"out": ANY}) for stream in streams),
    ]
