"""The advice of tools/receive for a recording in which nothing is found: a description of its numbers, and what to try."""
import array
import math
import subprocess
import sys
import typing

from program import Fault

# Forms that are written in the file.
TOLD = ("sigmf", "wav")
# Symbols of a header; symbols that are examined, and the form in which they are read: 64-bit floats, which hold every number of each form.
HEADER, LOOKED, FORM, BYTES = 90, 1 << 15, "cf64_le", 16
FLOATS, INTEGERS = ("cf32_le", "cf32_be", "cf64_le", "cf64_be"), ("ci16_le", "ci16_be", "ci8", "cu8")
# Floats of a recording are within this range, and the greatest is at most this multiple of the RMS.
USUAL, MOST = (1e-9, 1e9), 100
# Bytes of 8-bit numbers are alike in both orders: the RMS of 16 bits is the same, but for this.
ALIKE = 1.1
# Bytes in whose better reading the RMS is above this are read so that many of them are clipped, if that can be.
LOUD = 45
# How alike neighbouring samples are, from which on a symbol may have several.
NEIGHBOURS, CLIPPED = 0.3, 0.01


class Look(typing.NamedTuple):
    """What the first symbols look like in a form: how many they are, their RMS, the greatest number, the share of symbols that have it, and how
    alike neighbours are, from 0 to 1."""

    form: str
    count: int
    rms: float
    greatest: float
    clipped: float
    neighbours: float

    @classmethod
    def of(cls, form, numbers):
        count, greatest = len(numbers) // 2, max(map(abs, numbers), default=0)
        # divided by the greatest, so that no square is too large for a float
        scale = greatest or 1
        symbols = [complex(real / scale, imaginary / scale) for real, imaginary in zip(numbers[::2], numbers[1::2])]
        power = sum(it.real**2 + it.imag**2 for it in symbols)
        clipped = sum(max(abs(it.real), abs(it.imag)) == greatest / scale for it in symbols) / max(1, count)
        together = abs(sum(one * other.conjugate() for one, other in zip(symbols[1:], symbols)))
        return cls(form, count, scale * math.sqrt(power / max(1, count)), greatest, clipped, together / power if power else 0)

    def is_usual(self):
        """Whether floats look like those of a recording."""
        return self.count > 0 and USUAL[0] < self.rms < USUAL[1] and self.greatest < MOST * self.rms


def name_of(recording):
    return recording.name if recording.is_file else "standard input"


def numbers_of(convert, recording, form, limit, is_known):
    """The first numbers of a recording in a form. If the form is known, and the numbers cannot be read in it, that is a fault."""
    words, given = [convert, form, FORM, "--gain", "1"], subprocess.DEVNULL
    if form in TOLD and recording.is_file:
        words.append(recording.name)
    else:
        given = recording.opened(limit)
    with subprocess.Popen(words, stdin=given, stdout=subprocess.PIPE, stderr=subprocess.PIPE) as child:
        data = child.stdout.read(LOOKED * BYTES)
        child.stdout.close()
        said = child.stderr.read().decode(errors="replace").splitlines()
    if is_known and len(data) < HEADER * BYTES and child.returncode:
        why = said[-1].removeprefix("convert: ")
        raise Fault(why if name_of(recording) in why else f"{name_of(recording)}: {why}")
    numbers = array.array("d", data[: len(data) - len(data) % BYTES])
    if sys.byteorder == "big":
        numbers.byteswap()
    return numbers


def likely(convert, recording, forms, sizes):
    """How it looks in the form that it has most likely."""
    looks = {it: Look.of(it, numbers_of(convert, recording, it, LOOKED * sizes.get(it, 4), len(forms) == 1)) for it in forms}
    if len(looks) == 1:
        return next(iter(looks.values()))
    usual = [looks[it] for it in FLOATS if looks[it].is_usual() and looks[it].count >= min(LOOKED, recording.size // sizes[it])]
    little, big, signed, unsigned = (looks[it] for it in INTEGERS)
    if usual:
        return usual[0]
    if max(little.rms, big.rms) > ALIKE * min(little.rms, big.rms):
        return min(little, big, key=lambda it: it.rms)
    quiet, other = sorted((signed, unsigned), key=lambda it: it.rms)
    return other if quiet.rms > LOUD and other.clipped > CLIPPED else quiet


def looks(recording, finder, convert, sizes):
    """The lines."""
    name = name_of(recording)
    if finder.others:
        wanted = f"not {finder.chosen.modcod}" if finder.chosen.modcod else "which s2 demod does not receive"
        yield f"found in {name}: {', '.join(dict.fromkeys(finder.others))}, {wanted}"
        return
    given = finder.forms()
    look = likely(convert, recording, given if len(given) == 1 else [*FLOATS, *INTEGERS], sizes)
    yield f"nothing found in {name}, which has {recording.size} bytes"
    if look.count < HEADER:
        yield "that is less than the header of a frame"
        return
    first = "" if look.count < LOOKED else "first "
    yield f"it looks like {look.form}: the {first}{look.count} symbols have RMS {look.rms:.4g}, {100 * look.clipped:.1f} % of them have the greatest number {look.greatest:.4g}"
    if look.clipped > CLIPPED:
        yield "many have the greatest number: the receiver's input may be too strong"
    if look.neighbours > NEIGHBOURS:
        yield f"neighbouring samples are {100 * look.neighbours:.0f} % alike: it may have several samples per symbol; try examples/gnuradio/receive --rate R"
    else:
        yield "neighbouring samples are not alike: it may be noise, or have another carrier frequency or another standard than DVB-S2"
    yield "try --form FORM if it has another form, and s2 scan for its headers; one sample per symbol without carrier offset is received"
