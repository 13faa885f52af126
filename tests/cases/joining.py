"""`join`, on the BBFRAMEs of two frames of LINK with a packet each. The first one has the first packet and most of the second. Headers are
made by hand."""
from cases import records
from cases.common import LINK, NO, PACKET, Case, fault

FRAME = records.KBCH // 8
WORDS = f"join {LINK} in out"


def ended(frames, delivered, packets, bad=0):
    return f"end frames {frames} delivered {delivered} packets {packets} bad {bad}\n"


FINE = ended(2, 2, 2)


def crc8(data):
    """The standard's CRC-8, bit by bit: 1 + x^2 + x^4 + x^6 + x^7 + x^8."""
    crc = 0
    for byte in data:
        crc ^= byte
        for _ in range(8):
            crc = (crc << 1) & 255 ^ (213 if crc & 128 else 0)
    return crc


assert crc8(b"123456789") == 0xBC

# The BBFRAMEs of two packets of zeros. The stream of these is 377 zeros, as their CRC-8 is 0: a full field, and a last one of three bytes.
BOTH = b"".join(bytes.fromhex(header).ljust(FRAME, b"\0") for header in ("F00005E00BB0470000AB", "F00005E00018470010E8"))
# The first nine bytes of headers, and the number of packets of a field of zeros. No packet begins in the first field, and the second one is empty.
# The third has another roll-off and another MATYPE-2.
ACCEPTED = [("F00005E00BB047FFFF", 0), ("F00005E00000470004", 0), ("F35A05E00BB0470000", 1)]
# Of another stream: with ISSYI, with another sync byte. With wrong lengths: a DFL of no whole byte, one above the mode's, a SYNCD that is not below
# the DFL, one of a packet's length.
REFUSED = ["F80005E00BB0470000", "F00005E00BB0480000", "F00005E005E9470000", "F00005E00BB8470000", "F00005E00018470018", "F00005E00BB04705E0"]


def forged(header):
    nine = bytes.fromhex(header)
    return (nine + bytes([crc8(nine)])).ljust(FRAME, b"\0")


def flipped(data, at):
    return data[:at] + bytes([data[at] ^ 1]) + data[at + 1 :]


def joined(data, out, packets, code=NO):
    return Case(WORDS, code, out, reads={"in": data}, writes={"out": packets})


def cases(two):
    both = records.records(two)["--bbframes"]
    one, other, zeros = both[:FRAME], both[FRAME:], bytes(FRAME)
    reads, long = {"in": both}, {"in": both, "long": 1000 * b"long"}
    return [
        joined(both, FINE, 2 * PACKET, 0),
        joined(b"", ended(0, 0, 0), b"", 0),
        joined(one, ended(1, 1, 1), PACKET, 0),
        # a frame of zeros is a gap, and so is one whose header is refused
        joined(zeros + both, ended(3, 2, 2), 2 * PACKET),
        joined(both + zeros, ended(3, 2, 2), 2 * PACKET),
        joined(one + zeros + other, ended(3, 2, 1), PACKET),
        *(joined(flipped(both, at), ended(2, 1, 0), b"") for at in range(10)),
        *(joined(flipped(both, FRAME + at), ended(2, 1, 1), PACKET) for at in range(10)),
        *(joined(forged(header), ended(1, 1, count), count * PACKET, 0) for header, count in ACCEPTED),
        *(joined(forged(header), ended(1, 0, 0), b"") for header in REFUSED),
        Case(f"mod {LINK} --bbframes record made packets out", 0, "packets 2 frames 2\n", writes={"out": two, "record": BOTH}),
        # the first packet has another bit: it is dropped
        joined(flipped(both, 10 + 1), ended(2, 2, 1, 1), PACKET),
        joined(flipped(both, 10 + 187), ended(2, 2, 1, 1), PACKET),
        # a bit of the padding
        joined(flipped(both, 2 * FRAME - 1), FINE, 2 * PACKET, 0),
        # the file ends within a frame
        joined(both[:-1], f"cut at {FRAME} bytes {FRAME - 1}\n{ended(1, 1, 1)}", PACKET),
        joined(both + b"\0", f"cut at {2 * FRAME} bytes 1\n{FINE}", 2 * PACKET),
        joined(one[:1], f"cut at 0 bytes 1\n{ended(0, 0, 0)}", b""),
        # standard streams; nothing is left of an output that was longer
        *(Case(f"join {LINK} {name} out", out=FINE, given=both, writes={"out": 2 * PACKET}) for name in ("-", "/dev/stdin")),
        *(Case(f"join {LINK} in {name}", out=2 * PACKET, errors=FINE, reads=reads) for name in ("-", "/dev/stdout")),
        Case(f"join {LINK} - -", out=2 * PACKET, errors=FINE, given=both),
        Case(f"join {LINK} in long", out=FINE, reads=long, writes={"long": 2 * PACKET}),
        fault(f"join {LINK} . long", "cannot read", reads=long, writes={"long": b""}),
        *(fault(f"join {LINK} in -", "cannot write", reads=reads, to=to) for to in ("/dev/full", "closed")),
        fault(WORDS, "cannot write", reads=reads, to="/dev/full", writes={"out": 2 * PACKET}),
        # files that are used twice
        fault(f"join {LINK} in in", "in is used twice", reads=reads),
        *(fault(f"join {LINK} in seen", "seen is used twice", reads=reads, links={"seen": (how, "in")}) for how in ("hard", "symbolic")),
        fault(f"join {LINK} in -", "- is used twice", reads=reads, to="in"),
        fault(f"join {LINK} - in", "in is used twice", reads=reads, given="in"),
    ]
