"""Draws the frames of a report over their position, as `tools/report --plot` does.

    plot.draw("link.svg", frames, "QPSK 3/4, normal frames, pilots", 4.03, "report, 2030-01-31 12:00 UTC")

The frames are objects as `tools/report --json` prints them. Up to FEW frames are drawn one by one, each with the mark and the colour of its
verdict. More are drawn in STRETCHES: the least, the mean and the greatest value of each, with the mark of its worst verdict. A share of
lost frames is that of GROUP frames in a row, or of a stretch. A dashed line shows the Es/N0 that the mode needs, if it is given."""
import picture

FEW, STRETCHES, GROUP, HEIGHT = 400, 100, 10, 190
# Each verdict, the worst last, with its colour and its mark.
VERDICTS = {"sole": (2, "circle"), "most-likely": (0, "square"), "parity": (4, "triangle"), "broken": (1, "cross")}
UNITS = ((1e6, "millions of symbols"), (1e3, "thousands of symbols"), (1, "symbols"))
ES_N0, ERRORS = "es_n0_db", "bit_error_ratio"
RATIOS = {"mer_db": "modulation error ratio"}
# Other panels: their title, their unit and its part of one, and their figures with labels. PLAIN is for frames without figures.
OTHERS = [
    ("Amplitude", "amplitude", 1, {"amplitude": "amplitude"}),
    ("Phase", "degrees", 1, {"phase_deg": "phase", "phase_drift_deg": "phase from frame to frame"}),
    ("Carrier", "millionths of a cycle per symbol", 1e-6, {"carrier_error": "carrier error"}),
]
PLAIN = [("Bits that BCH decoding changed", "bits", 1, {"fixed_bits": "bits changed"})]


def unit_of(frames):
    """The number of symbols in the unit of positions, and the unit's name."""
    last = max((frame["at_symbol"] for frame in frames), default=0)
    return next((size, name) for size, name in UNITS if last >= size or size == 1)


def grouped(frames, length):
    return [frames[at : at + length] for at in range(0, len(frames), length)]


def stretches(frames):
    """Groups of frames in a row, of equal lengths but for the last: single frames if they are few."""
    return grouped(frames, 1 if len(frames) <= FEW else -(-len(frames) // STRETCHES))


def points_of(groups, name, size, part=1):
    """Position, least, mean and greatest value of each group that has the figure, and its worst verdict. The values are in parts of their unit."""
    order = [*VERDICTS]
    found = [(it, [frame[name] / part for frame in it if name in frame]) for it in groups]
    worst = [max((frame["verdict"] for frame in it), key=order.index) for it, values in found if values]
    places = [(it[len(it) // 2]["at_symbol"] / size, min(values), sum(values) / len(values), max(values)) for it, values in found if values]
    return list(zip(places, worst))


def add_figure(panel, points, label, colour):
    """The means as a line, and a band from the least to the greatest values if these differ."""
    if any(least < greatest for (_, least, _, greatest), _ in points):
        return panel.band(f"{label}: least, mean and greatest", [place for place, _ in points], colour)
    panel.line(label, [(x, mean) for (x, _, mean, _), _ in points], colour)


def add_verdicts(panel, points, label):
    """The means as marks that show the verdicts."""
    for verdict, (colour, mark) in VERDICTS.items():
        values = [(x, mean) for (x, _, mean, _), which in points if which == verdict]
        if values:
            panel.points(f"{label}, {verdict}", values, colour, mark)


def ratios(frames, groups, size, across, needed_db):
    """The panel of ratios in dB."""
    panel = picture.Panel("Es/N0 and modulation error ratio", across, picture.Axis("dB"), height=HEIGHT)
    for name, label in RATIOS.items():
        points = points_of(groups, name, size)
        if points:
            add_figure(panel, points, label, "faint")
    points, is_single = points_of(groups, ES_N0, size), len(groups) == len(frames)
    if not is_single:
        add_figure(panel, points, "Es/N0", 0)
    add_verdicts(panel, points, "Es/N0" if is_single else "mean Es/N0, worst verdict")
    if needed_db is not None:
        ends = [(frames[at]["at_symbol"] / size, needed_db) for at in (0, -1)]
        panel.line(f"for 99 of 100 frames the mode needs {needed_db:g} dB", ends, "ink", picture.DASHED)
    return panel


def errors(frames, groups, size, across):
    """The panel of errors, on a logarithmic axis. A share of 0 has no place there."""
    lengths = grouped(frames, GROUP) if len(groups) == len(frames) else groups
    lost = [(it[len(it) // 2]["at_symbol"] / size, sum(frame["outcome"] == "lost" for frame in it) / len(it)) for it in lengths]
    wrong = [(x, mean) for (x, _, mean, _), _ in points_of(groups, ERRORS, size)]
    low = min([0.1, *(share for _, share in lost + wrong if share)])
    up = picture.Axis("share", high=1, low=low / 2, log=True, form=lambda share: f"{100 * share:g} %")
    panel = picture.Panel("Errors", across, up, height=HEIGHT)
    panel.line("bits that the decoder changed (bit error ratio)", [(x, share or None) for x, share in wrong], 0)
    several = f"of {GROUP} in a row" if len(groups) == len(frames) else "of a stretch"
    panel.points(f"share of frames lost, {several}", [(x, share) for x, share in lost if share], "ink", "cross")
    return panel


def others(panels, groups, size, across):
    """Those panels whose figures the frames have."""
    for title, unit, part, names in panels:
        found = {label: points for name, label in names.items() if (points := points_of(groups, name, size, part))}
        panel = picture.Panel(title, across, picture.Axis(unit), height=HEIGHT)
        for colour, (label, points) in enumerate(found.items()):
            add_figure(panel, points, label, colour)
        if found:
            yield panel


def draw(path, frames, title, needed_db=None, note=""):
    """Draws a report to a file whose name ends with .svg or .png. The note is written below the title."""
    size, name = unit_of(frames)
    across, groups = picture.Axis(f"position in {name}"), stretches(frames)
    has_figures = any(ES_N0 in frame for frame in frames)
    panels = [ratios(frames, groups, size, across, needed_db)] if has_figures else []
    panels += [errors(frames, groups, size, across), *others(OTHERS if has_figures else PLAIN, groups, size, across)]
    picture.write(path, panels, title, note=note)
