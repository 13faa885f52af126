"""The figures of a frame, computed independently from its symbols, its soft values and its decided word: docs/formats.md describes them, and
EN 302 307-1 the frame (5.3.3, 5.4, 5.5). The equalizer is that of cases/equalized.py."""
from dataclasses import dataclass

from cases.equalized import equalized, gains_of, smoothed, turn_of
from dummy import bpsk, header, quarter_turns

HEADER, SLOT, PILOTS, BETWEEN, DIAGONAL, AXIS = 90, 90, 36, 16, 700, 990
QPSK = [(i, q) for i in (DIAGONAL, -DIAGONAL) for q in (DIAGONAL, -DIAGONAL)]
# by the three bits of a point, the first one the highest
PSK = [(DIAGONAL, DIAGONAL), (AXIS, 0), (-AXIS, 0), (-DIAGONAL, -DIAGONAL), (0, AXIS), (DIAGONAL, -DIAGONAL), (-DIAGONAL, DIAGONAL), (0, -AXIS)]
TURNED = [lambda i, q: (i, q), lambda i, q: (-q, i), lambda i, q: (-i, -q), lambda i, q: (q, -i)]
NAMES = ("header", "changed", "rounds", *(f"{part}{name}" for part in ("known", "payload") for name in ("", "_power", "_along", "_across")))

# After the equalizer: the gain of the channel at the header, and the rotation from a pilot block to the next.
LEVELS = ("gain_along", "gain_across", "rotation_along", "rotation_across")


@dataclass(frozen=True)
class Mode:
    """A mode by its MODCOD, and the number of the scrambling sequence."""

    modcod: int
    short: bool = False
    pilots: bool = False
    number: int = 0

    def bits(self):
        return 16200 if self.short else 64800

    def width(self):
        return 2 if self.modcod < 12 else 3

    def payload(self):
        return self.bits() // self.width()

    def blocks(self):
        return (self.payload() // SLOT - 1) // BETWEEN * self.pilots

    def known(self):
        return HEADER + PILOTS * self.blocks()

    def size(self):
        return self.known() + self.payload()


def correlated(part, pairs):
    """The squared error of received symbols, their power, and the sum of their products with the conjugates of those that were sent."""
    products = sum(r * s.conjugate() for r, s in pairs)
    values = sum(norm(r - s) for r, s in pairs), sum(norm(r) for r, _ in pairs), round(products.real), round(products.imag)
    return dict(zip((part, f"{part}_power", f"{part}_along", f"{part}_across"), values))


def norm(number):
    """The square of a complex number's size, for whole parts."""
    return round(number.real) ** 2 + round(number.imag) ** 2


class Frames:
    """Frames of a mode: what each of their symbols is."""

    def __init__(self, mode):
        self.mode = mode
        bits = header(mode.modcod, 2 * mode.short + mode.pilots)
        self.bits = bits
        self.header = [(DIAGONAL * round(it.real), DIAGONAL * round(it.imag)) for it in bpsk(bits)]
        self.turns = quarter_turns(mode.number, mode.size() - HEADER)

    def points(self, word):
        """The points of a codeword. 8PSK writes it into three columns, and reads row by row; 3/5 reads the last column first."""
        if self.mode.width() == 2:
            return [QPSK[2 * one + other] for one, other in zip(word[::2], word[1::2])]
        rows = len(word) // 3
        columns = [word[at : at + rows] for at in range(0, len(word), rows)]
        return [PSK[4 * one + 2 * two + three] for one, two, three in zip(*(columns[::-1] if self.mode.modcod == 12 else columns))]

    def sent(self, word):
        """The sent point at each place of the frame, and whether it is known."""
        points, places = iter(self.points(word)), [(point, True) for point in self.header]
        for at, turn in enumerate(self.turns):
            known = self.mode.pilots and at % (BETWEEN * SLOT + PILOTS) >= BETWEEN * SLOT
            point = (DIAGONAL, DIAGONAL) if known else next(points)
            places.append((TURNED[turn](*point), known))
        return places

    def wrong(self, symbols):
        """The header's symbols that were decided wrongly. The first, third and so on are (A, A) or (-A, -A), the others (-A, A) or (A, -A)."""
        decided = [(i + q < 0) if at % 2 == 0 else (q - i < 0) for at, (i, q) in enumerate(symbols[:HEADER])]
        return sum(one != bool(other) for one, other in zip(decided, self.bits))

    def equalized(self, symbols, sent):
        """The symbols after the equalizer, the gain at the header and the rotation from a pilot block to the next."""
        gains = list(gains_of(symbols, sent, self.mode.blocks()))
        gain, turn = smoothed(gains)[0], turn_of(gains)
        return equalized(symbols, sent, self.mode.blocks()), dict(zip(LEVELS, (gain.re, gain.im, turn.re, turn.im)))

    def figures(self, symbols, soft, word, equalizes=False):
        """All figures but the rounds. If an equalizer is used, they are those of the symbols after it."""
        sent, levels = self.sent(word), {}
        if equalizes:
            symbols, levels = self.equalized(symbols, [point for point, _ in sent])
        found = {"header": self.wrong(symbols), "changed": sum((value < 0) != bool(bit) for value, bit in zip(soft, word, strict=True))}
        pairs = [*zip((complex(*it) for it in symbols), sent, strict=True)]
        for part in ("known", "payload"):
            found |= correlated(part, [(r, complex(*s)) for r, (s, known) in pairs if known == (part == "known")])
        return found | levels


def clean(mode):
    """The figures of a QPSK frame without noise: nothing is wrong, and the received symbols are those that were sent."""
    found = dict.fromkeys(NAMES, 0)
    for part, count in (("known", mode.known()), ("payload", mode.payload())):
        found |= dict.fromkeys((f"{part}_power", f"{part}_along"), 2 * DIAGONAL**2 * count)
    return found


def unpacked(codeword):
    """The bits of bytes, the first bit the highest."""
    return [byte >> place & 1 for byte in codeword for place in range(7, -1, -1)]


def words(figures):
    """What a frame's line has of its figures."""
    levels = " gain along {gain_along} across {gain_across} rotation along {rotation_along} across {rotation_across}"
    return "".join(f" {name.rpartition('_')[2]} {figures[name]}" for name in NAMES) + (levels.format(**figures) if LEVELS[0] in figures else "")


def sums(mode, lines):
    """What the last line has of the figures of its frames."""
    if not lines:
        return ""
    sizes = {"changed": mode.bits(), "known": mode.known(), "payload": mode.payload()}
    totals = {name: sum(it[name] for it in lines) for name in NAMES}
    parts = {name: f" {name} {totals[name]} of {len(lines) * size}" for name, size in sizes.items()}
    return f"{parts['changed']}{parts['known']} power {totals['known_power']}{parts['payload']} power {totals['payload_power']}"
