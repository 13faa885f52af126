"""The lines of `s2 scan` for a recording without any header, computed from its numbers independently of the program, as docs/formats.md
describes them."""
import math
import struct

# How many symbols are examined. A symbol is clipped if it has one of these components.
EXAMINED, LIMITS = 1 << 22, (32767, -32767, -32768)


def line(recording, order, name):
    count = min(len(recording) // 4, EXAMINED)
    numbers = struct.unpack(f"{order}{2 * count}h", recording[: 4 * count])
    # 2 * root, rounded down, is odd if the root's fraction is a half or more
    rms = (math.isqrt(4 * (sum(it * it for it in numbers) // max(1, count))) + 1) // 2
    clipped = sum(i in LIMITS or q in LIMITS for i, q in zip(numbers[0::2], numbers[1::2]))
    return f"symbols {count} rms {rms} clipped {clipped} bytes {name}\n"


def nothing_found(recording):
    return "nothing found\n" + line(recording, ">", "big") + line(recording, "<", "little") + "try tools/receive for floats and 8-bit samples\n"
