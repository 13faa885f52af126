"""`--resync`: streams of packets that are damaged. After a wrong sync byte a command goes on at the next place with five sync bytes at
distance 188. It has to send what it sends of the packets that are left, and to note the bytes that it left out."""
from cases.common import ANY, FINE, LINK, NO, Case, noted

COUNT = 20
# No byte but the first is a sync byte, so that no place but the beginning of a packet looks like one.
PACKETS = [b"\x47" + bytes((place + at) % 71 for at in range(187)) for place in range(COUNT)]
WRONG = [b"\x48" + packet[1:] for packet in PACKETS]
FIELD = 374


def stream(*parts):
    return b"".join(part if isinstance(part, bytes) else b"".join(part) for part in parts)


# Each damaged stream, the packets that are left of it, the bytes that are left out, and the places.
DAMAGED = [
    (stream(PACKETS), PACKETS, 0, 0),
    (b"", [], 0, 0),
    # a wrong sync byte
    (stream(PACKETS[:6], WRONG[6], PACKETS[7:]), PACKETS[:6] + PACKETS[7:], 188, 1),
    (stream(WRONG[0], PACKETS[1:]), PACKETS[1:], 188, 1),
    # bytes that are lost: the packet that lacks them is filled by the next one
    (stream(PACKETS[:5], PACKETS[5][:100], PACKETS[6:]), [*PACKETS[:5], PACKETS[5][:100] + PACKETS[6][:88], *PACKETS[7:]], 100, 1),
    (stream(PACKETS[:5], PACKETS[5][1:], PACKETS[6:]), PACKETS[:5] + PACKETS[6:], 187, 1),
    # bytes that are inserted
    (stream(PACKETS[:6], bytes(50), PACKETS[6:]), PACKETS, 50, 1),
    (stream(PACKETS[:6], b"\0", PACKETS[6:]), PACKETS, 1, 1),
    (stream(PACKETS[:6], bytes(1000), PACKETS[6:]), PACKETS, 1000, 1),
    (
        stream(PACKETS[:5], PACKETS[5][:100], bytes(50), PACKETS[5][100:], PACKETS[6:]),
        [*PACKETS[:5], PACKETS[5][:100] + bytes(50) + PACKETS[5][100:138], *PACKETS[6:]],
        50,
        1,
    ),
    # a sync byte among them is not enough, nor are four
    (stream(PACKETS[:6], b"\0\x47\0", PACKETS[6:]), PACKETS, 3, 1),
    (stream(PACKETS[:6], b"\0", PACKETS[6:10], b"\0", PACKETS[10:]), PACKETS[:6] + PACKETS[10:], 2 + 4 * 188, 1),
    (stream(PACKETS[:6], b"\0", PACKETS[6:11], b"\0", PACKETS[11:]), PACKETS, 2, 2),
    # the beginning, and the end
    (stream(bytes(111), PACKETS), PACKETS, 111, 1),
    (stream(PACKETS, b"\x47"), PACKETS, 1, 1),
    (stream(PACKETS, PACKETS[0][:187]), PACKETS, 187, 1),
    (stream(PACKETS, bytes(400)), PACKETS, 400, 1),
    # the five last packets, the sync byte of the last one alone, and fewer than five
    (stream(PACKETS[:14], WRONG[14], PACKETS[15:]), PACKETS[:14] + PACKETS[15:], 188, 1),
    (stream(PACKETS[:14], WRONG[14], PACKETS[15:19], PACKETS[19][:1]), PACKETS[:14] + PACKETS[15:19], 189, 2),
    (stream(PACKETS[:15], WRONG[15], PACKETS[16:]), PACKETS[:15], 5 * 188, 1),
    (stream(PACKETS[:19], WRONG[19]), PACKETS[:19], 188, 1),
    # two places, and two that are too near
    (stream(PACKETS[:4], WRONG[4], PACKETS[5:12], WRONG[12], PACKETS[13:]), PACKETS[:4] + PACKETS[5:12] + PACKETS[13:], 376, 2),
    (stream(PACKETS[:4], WRONG[4], PACKETS[5:7], WRONG[7], PACKETS[8:]), PACKETS[:4] + PACKETS[8:], 4 * 188, 1),
    # no packets, and those of another size
    (bytes(100), [], 100, 1),
    (5 * (PACKETS[0] + bytes(16)), PACKETS[:1], 5 * 204 - 188, 1),
]


def left_out(count, places):
    """The note on bytes that were left out."""
    return [f"{count} byte{'s' * (count != 1)} left out in {places} place{'s' * (places != 1)}"] * (count > 0)


def frames(packets):
    """How many frames hold these packets: their data stream begins with a sync place."""
    return -(-(188 * len(packets) + (len(packets) > 0)) // FIELD)


def sent(damaged, packets, count, places, made_of):
    """The cases of a damaged stream: of `mod`, which sends what it sends of the packets that are left, and of `run`, which receives these."""
    symbols = made_of(f"mod {LINK} made in out", {"in": b"".join(packets)})
    line, code, notes = f"packets {len(packets)} frames {frames(packets)}\n", NO if count else FINE, noted(*left_out(count, places))
    yield Case(f"mod {LINK} --resync made in out", code, line, notes, {"in": damaged}, {"out": symbols})
    yield Case(f"mod {LINK} --resync --quiet made in out", code, line, "", {"in": damaged}, {"out": symbols})
    yield Case(f"mod {LINK} --resync made - out", code, line, notes, given=damaged, writes={"out": symbols})
    received = made_of(f"run {LINK} --seed 1 --level 0 made in out", {"in": b"".join(packets)})
    yield Case(f"run {LINK} --resync --seed 1 --level 0 made in out", code, ANY, notes, {"in": damaged}, {"out": received})


def cases(made_of):
    return [case for it in DAMAGED for case in sent(*it, made_of)]

