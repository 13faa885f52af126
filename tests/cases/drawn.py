"""Made rows and noise, computed from their seeds independently of the program, as docs/formats.md describes them."""
import functools
import statistics
import struct
from decimal import Decimal


class Pcg32:
    MULTIPLIER = 6364136223846793005

    def __init__(self, seed):
        words = []
        for _ in range(4):
            seed = (seed * self.MULTIPLIER + 11634580027462260723) % 2**64
            words.append(self.permuted(seed))
        self.gain = words[2] + (words[3] << 32) | 1
        self.state = words[0] + (words[1] << 32) + self.gain
        self.step()

    @staticmethod
    def permuted(state):
        word = ((state >> 18 ^ state) >> 27) % 2**32
        turn = state >> 59
        return (word >> turn | word << (32 - turn)) % 2**32

    def step(self):
        self.state = (self.state * self.MULTIPLIER + self.gain) % 2**64

    def next_word(self):
        word = self.permuted(self.state)
        self.step()
        return word


def made_rows(group, groups, q, weight, seed):
    """The text of a row file."""
    generator, lines = Pcg32(seed), []
    for _ in range(groups):
        row = []
        for _ in range(weight):
            address = generator.next_word() % (group * q)
            while address in row:
                address = (address + 1) % (group * q)
            row.append(address)
        lines.append(" ".join(map(str, row)) + "\n")
    return "".join(lines).encode()


def moved(symbols, gains):
    """The bytes of symbols whose components have these gains, in turn."""
    components = struct.unpack(f">{len(symbols) // 4 * 2}h", symbols[: len(symbols) // 4 * 4])
    return struct.pack(f">{len(components)}h", *(max(-32768, min(32767, value + gain)) for value, gain in zip(components, gains)))


def sums(seed, weights):
    """Sums of what the eight bytes of two words of a generator weigh."""
    generator = Pcg32(seed)
    state, gain, most = generator.state, generator.gain, 2**64 - 1
    while True:
        total = 0
        for _ in range(2):
            # the next word, before its rotation, twice
            word = ((state >> 18 ^ state) >> 27 & 0xFFFFFFFF) * 0x100000001 >> (state >> 59)
            total += weights[word & 255] + weights[word >> 8 & 255] + weights[word >> 16 & 255] + weights[word >> 24 & 255]
            state = state * Pcg32.MULTIPLIER + gain & most
        yield total


@functools.cache
def spoilt(symbols, seed, level):
    """The bytes of symbols with the noise of a level."""
    differences = (it - 1020 for it in sums(seed, range(256)))
    return moved(symbols, (abs(it) * level // 256 * (1 if it >= 0 else -1) for it in differences))


@functools.cache
def entries():
    """The entries of all bytes: quantiles of a normal distribution, but for the last two sizes, and the same less than 0."""
    quantile = statistics.NormalDist().inv_cdf
    sizes = [round(1024 * quantile((k + 128.5) / 256)) for k in range(126)] + [2345, 3190]
    return sizes + [-size for size in sizes]


def amplitude_of(decibels):
    """The amplitude of an Es/N0 in 2^-30: at -10 dB a deviation of 700 * 10^(1/2), and 10^(-1/2000) times that each 0.01 dB."""
    one, variance = 2**30, Decimal(8 * sum(it**2 for it in entries())) / 256
    amplitude, factor = round(one * 700 * (10 / variance).sqrt()), round(one * Decimal(10) ** (Decimal(-1) / 2000))
    for _ in range(int(100 * Decimal(decibels)) + 1000):
        amplitude = (amplitude * factor + one // 2) // one
    return amplitude


@functools.cache
def gaussian(symbols, seed, decibels):
    """The bytes of symbols with Gaussian noise of an Es/N0, given as on the command line."""
    amplitude = amplitude_of(decibels)
    return moved(symbols, ((abs(it) * amplitude + 2**29) // 2**30 * (1 if it >= 0 else -1) for it in sums(seed, entries())))
