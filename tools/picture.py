"""Draws plots as SVG or PNG, with Python's standard library alone. A PNG has the letters of matplotlib if that is installed. Else rsvg-convert makes it of
the SVG, and without that its letters are dots.

    panel = picture.Panel("QPSK 3/4", picture.Axis("position in millions of symbols"), picture.Axis("Es/N0 in dB"))
    panel.line("mean", [(x, y), ..], colour=0)                       a line; also dashes=picture.DOTTED, marker="circle"
    panel.points("sole", [(x, y), ..], colour=1, marker="circle")    markers alone; hollow=True draws their outlines
    panel.band("least, mean, greatest", [(x, least, mean, greatest), ..], colour=2)
    panel.rule("ideal", x, colour=0)                                 a vertical dashed line; name="1/4" is written above it
    panel.text(x, y, "text", colour=0)
    picture.write("link.svg", [panel, ..], "the picture's title", columns=2, note="below the title")

The name's suffix decides: .svg or .png. An SVG follows the reader's light or dark colours; a PNG is light, or dark with dark=True.
Each label has one entry in the legend of its panel, also without values. Without a label there is no entry. A value of None leaves a hole
in a line. Colours are 0 to 6; they differ in brightness too. Markers (MARKERS) differ in shape, so that no difference is one of colour alone.
An axis finds its own range; low and high fix its ends, log makes it logarithmic, and `form` makes the text of a tick's value. A value
beyond an end is drawn at that end. Svg and Png draw single shapes, for pictures that are no plots.

A script that runs with `python3 -I` adds the folder of this file to sys.path first."""
import collections
import functools
import html
import itertools
import logging
import math
import shutil
import struct
import subprocess
import zlib

# What something is -> its colour on light and on dark paper.
COLOURS = {
    "paper": ("#ffffff", "#0d1117"),
    "ink": ("#1f2328", "#e6edf3"),
    "faint": ("#59636e", "#9198a1"),
    "grid": ("#d8dee4", "#30363d"),
    "blue": ("#d6e6f5", "#16324f"),
    "grey": ("#eceff2", "#262c36"),
    0: ("#0969b0", "#58a6ff"),
    1: ("#c44e00", "#ff9248"),
    2: ("#007a5c", "#33c99f"),
    3: ("#a1307f", "#ec9ecb"),
    4: ("#7d5c00", "#e3c04b"),
    5: ("#24292f", "#f0f3f6"),
    6: ("#7a45d6", "#bc9cff"),
}
DOTTED, DASHED = (1.5, 3.5), (7, 4)
# The corners of each marker, around 0 with a radius of about 1.
CIRCLE = [(math.cos(math.tau * at / 16), math.sin(math.tau * at / 16)) for at in range(16)]
CROSS = [(0, -0.4), (0.7, -1.1), (1.1, -0.7), (0.4, 0), (1.1, 0.7), (0.7, 1.1), (0, 0.4)]
CROSS += [(-0.7, 1.1), (-1.1, 0.7), (-0.4, 0), (-1.1, -0.7), (-0.7, -1.1)]
MARKERS = {
    "circle": CIRCLE,
    "square": [(-0.9, -0.9), (0.9, -0.9), (0.9, 0.9), (-0.9, 0.9)],
    "triangle": [(0, -1.2), (1.1, 0.8), (-1.1, 0.8)],
    "cross": CROSS,
    "diamond": [(0, -1.3), (1.3, 0), (0, 1.3), (-1.3, 0)],
    "down": [(0, 1.2), (1.1, -0.8), (-1.1, -0.8)],
    "bar": [(-0.35, -1.3), (0.35, -1.3), (0.35, 1.3), (-0.35, 1.3)],
}
# Letters of 5 by 7 dots for a PNG, from the space to ~: five columns each, whose lowest bit is the upper dot.
LETTERS = bytes.fromhex(
    "000000000000005f00000007000700147f147f14242a7f2a12231308646236495620500008070300001c2241000041221c002a1c7f1c2a08083e0808"
    "008070300008080808080000606000201008040 23e5149453e00427f400072494949462141494d331814127f1027454545393c4a49493141211109"
    "073649494936464949291e000014000000403400000008142241141414141400412214080201590906 3e415d594e7c1211127c7f494949363e414141"
    "227f4141413e7f494949417f090909013e414151737f0808087f00417f41002040413f017f081422417f404040407f021c027f7f0408107f3e414141"
    "3e7f090909063e4151215e7f0919294626494949322 6017f01033f4040403f1f2040201f3f4038403f63140814630304780403615949 4d43007f414141"
    "020408102000414141 7f04020102044040404040000307080020545478407f2844443838444444283844442 87f385454541800087e090218a4a49c78"
    "7f0804047800447d40002040403d007f1028440000417f40007c047804787c080404783844444438fc1824241818242418fc7c080404084854545424"
    "04043f44243c4040207c1c2040201c3c4030403c44281028444c9090907c4464544c4400083641000000770000004136080002010204 02".replace(" ", "")
)
MARGIN, SIZE, LETTER = 14, 12, 0.58
# The size of a picture's title, and the most that its letters have on average.
TITLE, WIDE = 15, 0.7


def letters_of(text):
    """The dots of a text, as columns: each character has five and one empty column."""
    for character in text:
        at = 5 * (ord(character) - 32)
        yield from LETTERS[at : at + 5] if 0 <= at < len(LETTERS) else LETTERS[155:160]
        yield 0


@functools.cache
def fonts():
    """What makes the outlines of a text, and of a font; None without a matplotlib that works."""
    logging.getLogger("matplotlib").setLevel(logging.CRITICAL)
    try:
        from matplotlib.font_manager import FontProperties
        from matplotlib.textpath import TextPath
    except Exception:
        return None
    return TextPath, FontProperties


def outlines_of(text, size, bold):
    """The outlines of a text whose base line begins at (0, 0). A dollar sign would begin a formula."""
    outlined, font = fonts()
    path = outlined((0, 0), text.replace("$", r"\$"), size=size, prop=font(family="DejaVu Sans", weight="bold" if bold else "normal"))
    return [[(x, -y) for x, y in it] for it in path.to_polygons()]


def near(value):
    """A coordinate with one digit after the point."""
    return f"{round(value, 1) + 0:g}"


class Svg:
    """A drawing that is written as SVG. A place is (x, y) from the upper left corner."""

    def __init__(self, width, height, label):
        self.size, self.label, self.parts, self.used = (width, height), label, [], {"paper"}

    def colour(self, name):
        self.used.add(name)
        return name

    def rectangle(self, place, size, colour, border=None, corner=0):
        names = f"f{self.colour(colour)}" + (f" s{self.colour(border)}" if border is not None else "")
        x, y, width, height = map(near, (*place, *size))
        self.parts.append(f'<rect x="{x}" y="{y}" width="{width}" height="{height}" rx="{corner}" class="{names}"/>')

    def path(self, places, colour, width=1.5, dashes=None, closed=False):
        style = f' stroke-dasharray="{" ".join(map(near, dashes))}"' if dashes else ""
        points = " ".join(f"{near(x)},{near(y)}" for x, y in places) + "Z" * closed
        self.parts.append(f'<path d="M{points}" fill="none" stroke-width="{width:g}"{style} class="s{self.colour(colour)}"/>')

    def shape(self, corners, colour, opacity=1):
        style = f' fill-opacity="{opacity:g}"' if opacity < 1 else ""
        points = " ".join(f"{near(x)},{near(y)}" for x, y in corners)
        self.parts.append(f'<path d="M{points}Z"{style} class="f{self.colour(colour)}"/>')

    def marks(self, places, marker, colour, hollow=False, radius=3):
        """A marker at each place, all of them in one path."""
        corners = [(radius * x, radius * y) for x, y in MARKERS[marker]]
        steps = [(other[0] - one[0], other[1] - one[1]) for one, other in zip(corners, corners[1:])]
        around = "l" + " ".join(f"{near(x)},{near(y)}" for x, y in steps) + "z"
        around = f"a{radius:g},{radius:g} 0 1 0 {-2 * radius:g},0a{radius:g},{radius:g} 0 1 0 {2 * radius:g},0z" if marker == "circle" else around
        drawn = "".join(f"M{near(x + corners[0][0])},{near(y + corners[0][1])}{around}" for x, y in places)
        style = f'class="fpaper s{self.colour(colour)}" stroke-width="1.3"' if hollow else f'class="f{self.colour(colour)}"'
        self.parts.append(f'<path d="{drawn}" {style}/>')

    def text(self, place, text, colour="ink", size=SIZE, anchor="start", bold=False):
        style = f' text-anchor="{anchor}"' * (anchor != "start") + ' font-weight="bold"' * bold + f' font-size="{size}"' * (size != SIZE)
        self.parts.append(f'<text x="{near(place[0])}" y="{near(place[1])}"{style} class="f{self.colour(colour)}">{html.escape(text)}</text>')

    def styles(self, dark):
        """The style sheet, with the colours that the drawing has."""
        names = [name for name in COLOURS if name in self.used]
        return "".join(f".f{name}{{fill:{COLOURS[name][dark]}}}.s{name}{{stroke:{COLOURS[name][dark]}}}" for name in names)

    def written(self):
        width, height = map(near, self.size)
        head = f'<svg xmlns="http://www.w3.org/2000/svg" width="{width}" height="{height}" viewBox="0 0 {width} {height}"'
        head += f' font-family="sans-serif" font-size="{SIZE}" stroke-linejoin="round">'
        style = f"<style>{self.styles(0)}@media(prefers-color-scheme:dark){{{self.styles(1)}}}</style>"
        lines = [head, f"<title>{html.escape(self.label)}</title>", style, '<rect width="100%" height="100%" class="fpaper"/>', *self.parts, "</svg>\n"]
        return "\n".join(lines).encode()


class Png:
    """The same drawing as points of RGB, SCALE of them for each unit."""

    SCALE, PARTS = 2, 4

    def __init__(self, width, height, label, dark=False):
        self.dark, self.label = dark, label
        self.width, self.height = self.SCALE * math.ceil(width), self.SCALE * math.ceil(height)
        self.rows = [bytearray(self.tone("paper") * self.width) for _ in range(self.height)]

    def tone(self, name):
        return bytes.fromhex(COLOURS[name][self.dark][1:])

    def blend(self, row, shares, tone, opacity):
        """Covers these shares of a row's points."""
        points = self.rows[row]
        for x, share in shares.items():
            place = slice(3 * x, 3 * x + 3)
            points[place] = bytes(round(old + (new - old) * min(1, share) * opacity) for old, new in zip(points[place], tone))

    def rectangle(self, place, size, colour, border=None, corner=0):
        left, top, right, below = (round(self.SCALE * it) for it in (*place, place[0] + size[0], place[1] + size[1]))
        left, right = (min(self.width, max(0, it)) for it in (left, max(right, left + 1)))
        for row in range(max(0, top), min(self.height, max(below, top + 1))):
            self.rows[row][3 * left : 3 * right] = self.tone(colour) * (right - left)
        if border is not None:
            (left, top), (right, below) = place, (place[0] + size[0], place[1] + size[1])
            self.path([(left, top), (right, top), (right, below), (left, below)], border, 1, closed=True)

    def shape(self, corners, colour, opacity=1):
        """A filled polygon."""
        self.fill([corners], colour, opacity)

    def fill(self, outlines, colour, opacity=1):
        """Fills the places that are inside of an odd number of outlines."""
        outlines = [[(self.SCALE * x, self.SCALE * y) for x, y in it] for it in outlines]
        edges = [edge for it in outlines for edge in zip(it, it[1:] + it[:1])]
        heights = [y for it in outlines for _, y in it]
        top, below = math.floor(min(heights)), math.ceil(max(heights))
        for row in range(max(0, top), min(self.height, below)):
            self.blend(row, self.covered(edges, row), self.tone(colour), opacity)

    def covered(self, edges, row):
        """The share of each point of a row that is inside of the edges: the mean of PARTS lines through it."""
        found, lines = collections.Counter(), [row + (part + 0.5) / self.PARTS for part in range(self.PARTS)]
        crossed = [sorted(a[0] + (b[0] - a[0]) * (y - a[1]) / (b[1] - a[1]) for a, b in edges if (a[1] <= y) != (b[1] <= y)) for y in lines]
        for begin, end in (span for it in crossed for span in zip(it[::2], it[1::2])):
            begin, end = max(0, begin), min(self.width, end)
            found.update({x: (min(x + 1, end) - max(x, begin)) / self.PARTS for x in range(math.floor(begin), math.ceil(end))})
        return found

    def path(self, places, colour, width=1.5, dashes=None, closed=False):
        places = places + places[:1] if closed else places
        for (x, y), (right, below) in pieces_of(places, dashes):
            length = math.hypot(right - x, below - y) or 1
            along, aside = (right - x) / length * width / 2, (below - y) / length * width / 2
            begin, end = (x - along / 2, y - aside / 2), (right + along / 2, below + aside / 2)
            sides = [(end[0] - aside, end[1] + along), (end[0] + aside, end[1] - along)]
            self.shape([(begin[0] + aside, begin[1] - along), (begin[0] - aside, begin[1] + along), *sides], colour)

    def marks(self, places, marker, colour, hollow=False, radius=3):
        for x, y in places:
            corners = [(x + radius * right, y + radius * below) for right, below in MARKERS[marker]]
            self.shape(corners, "paper" if hollow else colour)
            if hollow:
                self.path(corners, colour, 1.3, closed=True)

    def text(self, place, text, colour="ink", size=SIZE, anchor="start", bold=False):
        if not fonts():
            self.dots(place, text, colour, size, anchor, bold)
        elif outlines := outlines_of(text, size, bold):
            left = place[0] - {"start": 0, "middle": 0.5, "end": 1}[anchor] * max(x for it in outlines for x, _ in it)
            self.fill([[(left + x, place[1] + y) for x, y in it] for it in outlines], colour)

    def dots(self, place, text, colour, size, anchor, bold):
        dot = 1 if size < 20 else 2
        columns = list(letters_of(text))
        left = self.SCALE * place[0] / dot - {"start": 0, "middle": 1, "end": 2}[anchor] * len(columns) * self.SCALE / 2
        for at, bit in itertools.product(range(len(columns)), range(8)):
            if columns[at] >> bit & 1:
                x, y = left * dot / self.SCALE + at * dot, place[1] + (bit - 7) * dot
                self.rectangle((x, y), (dot + bold * dot / 2, dot), colour)

    def written(self):
        def chunk(kind, data):
            return struct.pack(">I", len(data)) + kind + data + struct.pack(">I", zlib.crc32(kind + data))

        head = struct.pack(">IIBBBBB", self.width, self.height, 8, 2, 0, 0, 0)
        packed = zlib.compress(b"".join(b"\0" + row for row in self.rows), 9)
        said = chunk(b"tEXt", b"Title\0" + self.label.encode("latin-1", "replace"))
        return b"\x89PNG\r\n\x1a\n" + chunk(b"IHDR", head) + said + chunk(b"IDAT", packed) + chunk(b"IEND", b"")


def pieces_of(places, dashes):
    """The straight pieces of a line, cut into dashes."""
    pairs = zip(places, places[1:])
    if not dashes:
        yield from pairs
        return
    stroke, gap = dashes
    ahead = 0
    for (x, y), (right, below) in pairs:
        length = math.hypot(right - x, below - y)
        begins = [ahead + at * (stroke + gap) for at in range(math.ceil((length - ahead) / (stroke + gap)))]
        ends = [(max(0, it), min(length, it + stroke)) for it in begins]
        yield from (tuple((x + (right - x) * it / length, y + (below - y) * it / length) for it in pair) for pair in ends if pair[0] < pair[1])
        ahead = (begins[-1] + stroke + gap if begins else ahead) - length


class Axis:
    """The name of an axis, with its unit, and its range."""

    def __init__(self, name, low=None, high=None, log=False, form="{:g}".format):
        self.name, self.low, self.high, self.log, self.form = name, low, high, log, form

    def ticks(self, values):
        """The values that get a tick: the first and the last are the ends of the axis, if these are not fixed."""
        low = self.low if self.low is not None else min(values, default=0.1 if self.log else 0)
        high = self.high if self.high is not None else max(values, default=1)
        if self.log:
            powers = range(math.floor(math.log10(low) + 1e-9), math.ceil(math.log10(high) - 1e-9) + 1)
            return [10.0**power for power in powers]
        span = high - low or 1
        step = min(it for it in (10.0**power * by for power in range(-12, 15) for by in (1, 2, 5)) if span / it <= 8)
        return [round(step * at, 12) for at in range(math.floor(low / step + 1e-9), math.ceil(high / step - 1e-9) + 1)]

    def ends(self, values):
        ticks = self.ticks(values)
        return ticks[0] if self.low is None else self.low, ticks[-1] if self.high is None else self.high

    def placed(self, ends, value):
        """The place of a value on the axis, from 0 to 1."""
        low, high, value = (math.log10(it) for it in (*ends, value)) if self.log else (*ends, value)
        return (value - low) / ((high - low) or 1)


class Panel:
    """A plot with its axes and its legend. The size is that of the part between the axes."""

    LEFT, ABOVE, BELOW, ROW = 52, 56, 42, 18

    def __init__(self, title, across, up, width=700, height=240):
        self.title, self.across, self.up, self.width, self.height = title, across, up, width, height
        self.drawn, self.labels, self.limits = [], {}, None

    def add(self, kind, label, values, style):
        self.drawn.append((kind, values, style))
        if label is not None:
            self.labels.setdefault(label, (kind, style))

    def line(self, label, values, colour=0, dashes=None, marker=None, hollow=False):
        self.add("line", label, values, {"colour": colour, "dashes": dashes, "marker": marker, "hollow": hollow})

    def points(self, label, values, colour=0, marker="circle", hollow=False):
        self.add("points", label, values, {"colour": colour, "marker": marker, "hollow": hollow})

    def band(self, label, values, colour=0):
        self.add("band", label, values, {"colour": colour})

    def rule(self, label, x, colour=0, name=""):
        self.add("rule", label, [] if x is None else [(x,)], {"colour": colour, "name": name})

    def text(self, x, y, text, colour="ink", anchor="middle"):
        self.drawn.append(("text", [(x, y)], {"colour": colour, "text": text, "anchor": anchor}))

    def entries(self):
        """The rows of the legend: in each the entries with their places."""
        rows, x = [[]], 0
        for label, look in self.labels.items():
            width = 34 + LETTER * SIZE * len(label) + 18
            if rows[-1] and x + width > self.width + self.LEFT:
                rows, x = [*rows, []], 0
            rows[-1].append((x, label, look))
            x += width
        return [row for row in rows if row]

    def size(self):
        return self.LEFT + self.width + MARGIN, self.ABOVE + self.height + self.BELOW + self.ROW * len(self.entries())

    def place(self, x, y):
        """The place of a value on the canvas."""
        right = min(1, max(0, self.across.placed(self.limits[0], x)))
        up = min(1, max(0, self.up.placed(self.limits[1], y)))
        return self.left + right * self.width, self.top + (1 - up) * self.height

    def draw(self, canvas, x, y):
        """Draws all of it, with its upper left corner at this place."""
        self.left, self.top = x + self.LEFT, y + self.ABOVE
        across = [value[0] for _, values, _ in self.drawn for value in values]
        up = [it for _, values, _ in self.drawn for value in values for it in value[1:] if it is not None]
        self.limits = self.across.ends(across), self.up.ends(up)
        self.draw_axes(canvas, across, up)
        for kind, values, style in self.drawn:
            getattr(self, f"draw_{kind}")(canvas, values, **style)
        canvas.text((x, y + 14), self.title, size=13, bold=True)
        self.draw_legend(canvas, x, self.top + self.height + self.BELOW + 8)

    def draw_axes(self, canvas, across, up):
        right, below = self.left + self.width, self.top + self.height
        for value in self.across.ticks(across):
            if self.limits[0][0] <= value <= self.limits[0][1]:
                x, _ = self.place(value, self.limits[1][0])
                canvas.path([(x, self.top), (x, below)], "grid", 1)
                canvas.text((x, below + 16), self.across.form(value), "faint", anchor="middle")
        for value in self.up.ticks(up):
            if self.limits[1][0] <= value <= self.limits[1][1]:
                _, y = self.place(self.limits[0][0], value)
                canvas.path([(self.left, y), (right, y)], "grid", 1)
                canvas.text((self.left - 6, y + 4), self.up.form(value), "faint", anchor="end")
        canvas.path([(self.left, self.top), (self.left, below), (right, below)], "faint", 1)
        canvas.text((self.left - self.LEFT, self.top - 22), self.up.name)
        canvas.text((self.left + self.width / 2, below + 34), self.across.name, anchor="middle")

    def draw_line(self, canvas, values, colour, dashes, marker, hollow):
        parts = itertools.groupby(values, lambda it: it[1] is not None)
        runs = [[self.place(*it) for it in part] for is_there, part in parts if is_there]
        for run in runs:
            canvas.path(run, colour, dashes=dashes)
        if marker and runs:
            canvas.marks([it for run in runs for it in run], marker, colour, hollow)

    def draw_points(self, canvas, values, colour, marker, hollow):
        if values:
            canvas.marks([self.place(*it) for it in values], marker, colour, hollow)

    def draw_band(self, canvas, values, colour):
        if values:
            canvas.shape([self.place(it[0], it[1]) for it in values] + [self.place(it[0], it[-1]) for it in reversed(values)], colour, 0.25)
            self.draw_line(canvas, [(it[0], it[2]) for it in values if len(it) > 3], colour, None, None, False)

    def draw_rule(self, canvas, values, colour, name):
        for (x,) in values:
            ends = [self.place(x, end) for end in self.limits[1]]
            canvas.path(ends, colour, 1, DASHED)
            canvas.text((ends[1][0], ends[1][1] - 5), name, colour, anchor="middle", bold=True)

    def draw_text(self, canvas, values, colour, text, anchor):
        x, y = self.place(*values[0])
        canvas.text((x, y), text, colour, anchor=anchor)

    def draw_legend(self, canvas, x, y):
        entries = [(at, row, label, look) for row, found in enumerate(self.entries()) for at, label, look in found]
        for at, row, label, (kind, style) in entries:
            left, middle = x + at, y + row * self.ROW
            self.draw_sample(canvas, kind, style, left, middle)
            canvas.text((left + 34, middle + 4), label)

    def draw_sample(self, canvas, kind, style, left, middle):
        """The sample of a series that is left of its label in the legend."""
        ends = [(left, middle), (left + 28, middle)]
        if kind == "band":
            canvas.shape([(left, middle - 5), (left + 28, middle - 5), (left + 28, middle + 5), (left, middle + 5)], style["colour"], 0.25)
        if kind != "points":
            canvas.path(ends, style["colour"], 1 if kind == "rule" else 1.5, DASHED if kind == "rule" else style.get("dashes"))
        if style.get("marker"):
            canvas.marks([(left + 14, middle)], style["marker"], style["colour"], style["hollow"])


def laid_out(panels, columns):
    """The upper left corner of each panel, and the size of all: rows of panels, each as high as its highest."""
    rows = [panels[at : at + columns] for at in range(0, len(panels), columns)]
    heights = [max(it.size()[1] for it in row) for row in rows]
    tops = [sum(heights[:at]) + MARGIN * at for at in range(len(rows))]
    places = [(it, sum(one.size()[0] + MARGIN for one in row[:at]), top) for row, top in zip(rows, tops) for at, it in enumerate(row)]
    return places, max((x + it.size()[0] for it, x, _ in places), default=0), sum(heights) + MARGIN * max(0, len(rows) - 1)


def converted(drawing):
    """A light PNG of an SVG, two points for each unit, or nothing without an rsvg-convert that works."""
    program = shutil.which("rsvg-convert")
    made = subprocess.run([program, "--zoom=2"], input=drawing, capture_output=True, check=False).stdout if program else b""
    return made if made.startswith(b"\x89PNG") else b""


def write(path, panels, title, columns=1, dark=False, note=""):
    """Draws panels, in this number of columns, to a file whose name ends with .svg or .png. A note is written below the title."""
    kind = {".svg": Svg, ".png": Png}.get(path[-4:].lower())
    if not kind:
        raise ValueError(f"{path}: a picture's name ends with .svg or .png")
    places, width, height = laid_out(panels, columns)
    above = MARGIN + 22 + 20 * bool(note)
    size = max(width, WIDE * TITLE * len(title), WIDE * SIZE * len(note)) + 2 * MARGIN, height + MARGIN + above

    def drawn(canvas):
        canvas.text((MARGIN, MARGIN + 10), title, size=TITLE, bold=True)
        if note:
            canvas.text((MARGIN, MARGIN + 30), note, "faint")
        for panel, x, y in places:
            panel.draw(canvas, x + MARGIN, y + above)
        return canvas.written()

    made = converted(drawn(Svg(*size, title))) if kind is Png and not dark and not fonts() else b""
    with open(path, "wb") as file:
        file.write(made or drawn(Svg(*size, title) if kind is Svg else Png(*size, title, dark)))
