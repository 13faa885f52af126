"""What tools/report estimates from the figures of frames: gain and noise of a link, whatever its amplitude is, and 95 % intervals.

A received symbol is r = g s + w: s is the sent symbol, g the complex gain of the frame, w noise. The figures of N symbols are the squared error
E = sum |r - s|^2, the power P = sum |r|^2, and along + i across = sum r conj(s). So the energy of the sent symbols is S = E - P + 2 along. The best
gain is (along + i across) / S, and the noise energy that it leaves is P - |along + i across|^2 / S. It has N - 1 degrees of freedom, and as much
noise as one of them has is left in the energy of the signal. After an equalizer g is what the equalizer left."""
import cmath
import collections
import math

# the symbols of a header and of a block of pilots, those from the begin of one block to that of the next, and the number that is a gain of 1
HEADER, PILOTS, PERIOD, ONE = 90, 36, 1476, 1024
# the energy of a symbol; standard deviations of a 95 % interval; decibels of a ratio of e
ENERGY, DEVIATIONS, DECIBELS = 980000, 1.959964, 10 / math.log(10)
Correlation = collections.namedtuple("Correlation", "error power along across")


class Fit(collections.namedtuple("Fit", "symbols freedom signal noise", defaults=(0, 0, 0, 0))):
    """Energies of signal and noise, summed over the symbols of frames, and the degrees of freedom of the noise."""

    @classmethod
    def of(cls, it):
        """That of one gain. Symbols of two at least have one."""
        sent = it.error - it.power + 2 * it.along
        if sent < 2 * ENERGY:
            return cls()
        symbols, noise = sent / ENERGY, max(it.power * sent - it.along**2 - it.across**2, 0) / sent
        return cls(symbols, symbols - 1, it.power - noise - noise / (symbols - 1), noise)

    def plus(self, other):
        return Fit(*map(sum, zip(self, other)))

    def ratio(self):
        """Es/N0, infinite without noise, and 0 if the noise explains the signal."""
        if not self.symbols:
            return 0
        signal = max(self.signal, 0) / self.symbols
        return signal * self.freedom / self.noise if self.noise else math.inf

    def decibels(self):
        ratio = self.ratio()
        return 10 * math.log10(ratio) if ratio else -math.inf

    def interval(self):
        """The 95 % interval of Es/N0 in decibels. Noise and gain are independent: their relative variances are added."""
        ratio, middle = self.ratio(), self.decibels()
        half = DEVIATIONS * DECIBELS * math.sqrt(1 / self.freedom + 2 / (self.symbols * ratio)) if 0 < ratio < math.inf else math.inf
        return middle - half, middle + half

    def amplitude(self):
        """In units of the symbol file: sent are symbols of about 990."""
        return math.sqrt(max(self.signal, 0) / self.symbols) if self.symbols else math.nan


def share_interval(count, of):
    """The 95 % interval of a share (Wilson's)."""
    square = DEVIATIONS**2
    middle, half = (count + square / 2) / (of + square), DEVIATIONS * math.sqrt(count * (of - count) / of + square / 4) / (of + square)
    return max(middle - half, 0), min(middle + half, 1)


def degrees(turn):
    """The angle of a complex number, -180 to 180."""
    return math.degrees(cmath.phase(turn))


def unit(turn):
    """The same angle, of length 1."""
    return turn / abs(turn) if turn else 0


class Frame:
    """The estimates of a frame, by its known symbols, and by its payload if its word was decoded. It was rotated back by a number of quarter turns,
    and perhaps divided by a gain. If the carrier rotates, the equalizer makes the symbols between pilot blocks smaller. So with pilots the gain is that of
    the known symbols."""

    def __init__(self, known, payload, quarters, gain=None, rotation=None):
        parts = [known, payload] if payload else [known]
        self.known, self.payload = Fit.of(known), Fit.of(payload) if payload else Fit()
        self.all = self.known.plus(self.payload)
        blocks = max(0, self.known.symbols - HEADER) / PILOTS if gain is not None else 0
        self.level, parts = (self.known, [known]) if blocks else (self.all, parts)
        left = unit(complex(sum(it.along for it in parts), sum(it.across for it in parts)))
        # the mean distance of the middles of two blocks: the first two are those of the header and of a block
        self.distance = PERIOD + (HEADER - PILOTS) / 2 / blocks if blocks else 0
        self.rotation, self.left = (unit(rotation) if blocks else 0), (left if gain is None else 0)
        gain = 1 if gain is None else gain / ONE
        self.turn, self.strength = unit(left * gain) * 1j ** (quarters % 4), abs(gain)

    def amplitude(self):
        return self.strength * self.level.amplitude()
