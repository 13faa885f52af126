"""`run --seeds`: its last line and its notes, computed from the reports and notes of `run --seed`."""
import re

from cases import common
from cases.common import UNDECODED, Rule, tuned

# Words of `run`, and a range of seeds: without a delivered frame; with missing headers; with figures; without any frame; with all options that matter.
RANGES = [
    ("--level 700 --rounds 1", 1, 4),
    ("--level 840 --uncertified", 7, 11),
    ("--esn0 2.2 --rounds 5 --figures", 0, 2),
    ("--level 65535 --strict", 1, 2),
    ("--esn0 1.5 --tuned --dummy 1 --figures --strict", 18, 21),
    ("--level 500 --passes 96 --pilots --number 7", 2**64 - 2, 2**64 - 1),
    ("--level 300", 9, 9),
    ("--level 500 --exit-by delivery", 3, 4),
]
END = re.compile(rb"^end frames (\d+) delivered (\d+) packets (\d+) bad (\d+)", re.M)
NOTES = {
    "skipped": re.compile(rb"s2: note: (\d+) symbols? skipped in (\d+) places?, the first at (\d+)\n"),
    "none": re.compile(rb"(s2: note: no frame of .* in )(\d+)( symbols: try s2 scan, or tools/receive for floats and 8-bit samples\n)"),
    "incomplete": re.compile(rb"s2: note: (\d+) packets? incomplete\n"),
    "refused": re.compile(rb"s2: note: of (\d+) lost frames? (\d+) had a BCH word whose header is refused\n"),
    "amplitude": re.compile(rb"s2: note: the headers' amplitude, noise included, is (\d+), not 990: use --gain \d+\.\d{4} of tools/convert, or --equalize\n"),
}


def totals(reports):
    return [sum(column) for column in zip(*(map(int, END.search(it).groups()) for it in reports))]


def summed(reports):
    """The last line."""
    return f"seeds {len(reports)} frames {{}} delivered {{}} packets {{}} bad {{}}\n".format(*totals(reports)).encode()


def found(notes, name):
    return [[int(it) for it in match.groups() if it.isdigit()] for text in notes if (match := NOTES[name].search(text))]


def counted(number, noun):
    return f"{number} {noun}{'s' * (number != 1)}"


def noted(reports, notes, is_tuned):
    """The notes of all. The symbol that is named is the first of the first run that skipped some."""
    frames, delivered, _, _ = totals(reports)
    lines, skipped, incomplete, refused = [], found(notes, "skipped"), found(notes, "incomplete"), found(notes, "refused")
    if skipped:
        symbols, places, _ = map(sum, zip(*skipped))
        lines.append(f"s2: note: {counted(symbols, 'symbol')} skipped in {counted(places, 'place')}, the first at {skipped[0][2]}\n")
    if not frames and not any(b"\ncut at " in b"\n" + it for it in reports):
        first = NOTES["none"].search(notes[0])
        lines.append(f"{first[1].decode()}{sum(it for it, in found(notes, 'none'))}{first[3].decode()}")
    if incomplete:
        lines.append(f"s2: note: {counted(sum(it for it, in incomplete), 'packet')} incomplete\n")
    if refused:
        lines.append(f"s2: note: of {counted(frames - delivered, 'lost frame')} {sum(it for _, it in refused)} had a BCH word whose header is refused\n")
    amplitudes = [it for it, in found(notes, "amplitude")] if frames and not delivered else []
    lost, with_words = frames - delivered, sum(it for _, it in refused)
    advice = [] if is_tuned or lost == with_words else [tuned(lost, frames)]
    if lost and not delivered and not with_words and not amplitudes:
        advice = [UNDECODED]
    return with_amplitude("".join(lines).encode(), amplitudes, common.noted(*advice).encode())


def with_amplitude(text, amplitudes, advice):
    """The notes, after them that on an amplitude, and the last: the amplitude is between those of the single runs, if each of them has one."""
    if not amplitudes:
        return text + advice

    def holds(got):
        said = NOTES["amplitude"].search(got)
        return said and got == text + said[0] + advice and min(amplitudes) <= int(said[1]) <= max(amplitudes)

    return Rule(f"{text!r}, an amplitude from {min(amplitudes)} to {max(amplitudes)}, and {advice!r}", holds)
