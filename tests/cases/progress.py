"""The progress line, as docs/formats.md describes it. The numbers of each line must agree with each other and with the files. When the
command has ended, and between the lines of a report, nothing of it may remain."""
import re

from cases.common import LINK, PACKET
from cases.drawn import made_rows

# Symbols of a frame of LINK and packets sent; seconds between two readings of the clock of `meter.c`, and the least bytes between them.
FRAME, PACKETS = 8190, 100
STEPS = {"mod": 0.15, "noise": 0.15, "demod": 0.15, "run": 0.4, "scan": 0.15}
PIECES = {"mod": 1 << 16, "noise": 1 << 16, "demod": 1 << 16, "run": 1 << 11, "scan": 1 << 16}
# The second has the rows of the first, and lines without words: more bytes than any of these commands reads or writes besides.
FILES = {"many": PACKETS * PACKET, "padded": made_rows(360, 9, 36, 3, 1) + 2_000_000 * b"\n"}
# A sender whose line gets too long for its frames, with this step of the clock in milliseconds; the bytes of a frame.
LONG, LONG_STEP, LONG_FRAME, COLUMNS = "mod --modcod 16 --short eighths lasting /dev/null", 10**16, 4 * 5490, 79
FILES |= {"eighths": made_rows(360, 40, 5, 3, 1), "lasting": 20_000 * PACKET}
WORDS = {
    "mod": f"mod {LINK} made many out",
    "noise": "noise --seed 1 --level 0 frames out",
    "demod": f"demod {LINK} made frames out",
    "run": f"run {LINK} --seed 1 --level 0 made many out",
    "scan": "scan frames",
}
READS = {"mod": "many", "noise": "frames", "demod": "frames", "run": "many", "scan": "frames"}
# A command with many seeds, and their number.
SEEDED, RUNS = (f"run {LINK} --seeds 1..3 --level 0 made many out", 3)
# Numbers that no line exceeds, besides those of bytes: of frames, and of packets in each run.
FRAMES = PACKETS // 2 + 1
# Additional words, whether standard error is a terminal, and whether progress is shown.
ASKED = [
    ("", False, False),
    ("--progress", False, True),
    ("--quiet --progress", False, True),
    ("", True, True),
    ("--progress", True, True),
    ("--quiet", True, False),
    ("--quiet --progress", True, True),
]
# Commands that print their report while progress is shown, and whether on standard output; and the reports.
REPORTED = [(WORDS["mod"], True), (WORDS["demod"], True), (WORDS["run"], True), (WORDS["mod"][:-3] + "-", False), (WORDS["demod"][:-3] + "-", False)]
SENT = [f"packets {PACKETS} frames {FRAMES}"]
RECEIVED = [f"frame {at + 1} at {FRAME * at} sole fixed 0" for at in range(FRAMES)] + [f"end frames {FRAMES} delivered {FRAMES} packets {PACKETS} bad 0"]
LINE = re.compile(
    r"s2: (?:(?P<frames>\d+) frames, )?(?:(?P<packets>\d+) packets, )?(?P<mega>\d+\.\d) MB"
    r"(?:, (?P<rate>\d+) symbols/s)?(?:, (?P<share>\d+)%)?(?:, (?P<left>\d+) s left)? *"
)
SHOWN = {
    "mod": {"frames", "packets", "rate", "share", "left"},
    "noise": {"rate", "share", "left"},
    "demod": {"frames", "packets", "rate", "share", "left"},
    "run": {"packets", "share", "left"},
    "scan": {"rate", "share", "left"},
}
# Shown only if the length of the input is known.
OF_LENGTH = {"share", "left"}


def rendered(seen):
    """The lines that a terminal shows at the end."""
    lines, at = [""], 0
    for char in seen.decode():
        if char == "\n":
            lines.append("")
        if char in "\r\n":
            at = 0
        else:
            lines[-1] = lines[-1][:at].ljust(at) + char + lines[-1][at + 1 :]
            at += 1
    return [line.rstrip() for line in lines]


def lines_of(seen):
    """All progress lines, in order."""
    return [LINE.fullmatch(part) for part in re.split(r"[\r\n]", seen.decode()) if part.startswith("s2: ") and not part.startswith("s2: note: ")]


def uncovered(seen):
    """What a terminal shows of each line that does not cover the one before."""
    shown, found = "", []
    for part in seen.decode().split("\r"):
        shown = rendered(f"{shown}\r{part}".encode())[-1]
        found += [shown] * bool(LINE.fullmatch(part) and shown != part.rstrip())
    return found


class Range:
    """A number of bytes that is known only as a range."""

    def __init__(self, least, most):
        self.least, self.most = least, most

    def plus(self, other):
        return Range(self.least + other.least, self.most + other.most)

    def gives(self, number, per, part=1):
        """Whether part / per of the bytes, rounded down, can be this number."""
        return part * self.least // per <= number <= part * self.most // per


def units(number, size):
    return Range(number * size, number * size + size - 1)


def passed(name, shown, length, runs):
    """Returns the bytes done, the bytes read and written, and the bytes of symbols."""
    both = units(round(10 * float(shown["mega"])), 100_000)
    if name == "noise":
        half = Range(both.least // 2 - 8192, both.most // 2 + 8192)
        return half, both, half
    if name == "scan":
        return both, both, both
    packets = units(int(shown["packets"]), 188)
    if name == "run":
        # the line counts received packets as soon as there are some; all packets are read by then
        done = packets.plus(Range(length, length)) if int(shown["share"]) * (runs + 1) >= 100 else packets
        return done, done, None
    frames = units(int(shown["frames"]), 4 * FRAME)
    return packets if name == "mod" else frames, packets.plus(frames), frames


def has_numbers(shown, wanted):
    """Whether a line has the numbers of these names, and no others."""
    return shown and {key for key in ("frames", "packets", "rate", "share", "left") if shown[key]} == wanted


def is_line(name, shown, number, length, runs=1):
    """Whether the numbers of a line agree with each other and with the length of the input. Line N is written N seconds after the start,
    or later by at most one reading of the clock for each line."""
    if not has_numbers(shown, SHOWN[name]):
        return False
    done, both, symbols = passed(name, shown, length, runs)
    whole, least, most = (1 + runs) * length if name == "run" else length, number, (number + 1) * (1 + STEPS[name])
    fine = [done.gives(int(shown["share"]), whole, 100), both.gives(round(10 * float(shown["mega"])), 100_000)]
    left = (whole - done.most) * least / done.most - 1, (whole - done.least) * most / max(1, done.least)
    fine.append(left[0] <= int(shown["left"]) <= left[1])
    if symbols:
        fine.append(symbols.least / 4 / most - 1 <= int(shown["rate"]) <= symbols.most / 4 / least)
    return all(fine)


def is_possible(shown, length, size, runs=1):
    """Whether the line counts no more bytes, frames and packets than both files have."""
    counts = int(shown["frames"] or 0) <= FRAMES and int(shown["packets"] or 0) <= runs * PACKETS
    return counts and round(10 * float(shown["mega"])) <= (length + size) // 100_000


def is_fitted(shown):
    """Whether a line of LONG has 79 characters at most, and its frames if they fit."""
    both, packets = units(round(10 * float(shown["mega"])), 100_000), units(int(shown["packets"]), 188)
    frames, room = (both.most - packets.least) // LONG_FRAME, COLUMNS - len(shown[0].rstrip())
    return room >= 0 and (shown["frames"] is not None or len(f"{frames} frames, ") > room)


def most_readings(name, passing):
    """The largest number of readings of the clock for a number of bytes."""
    return passing // PIECES[name] + 3
