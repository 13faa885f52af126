"""Sends packets by our transmitter through a channel with a fractional delay, a frequency offset, an unknown phase and noise, and receives
them by GNU Radio's loops and our receiver.

A band edge loop corrects the frequency, symbol_sync recovers the symbol timing with matched filters, and a Costas loop corrects the rest of
the frequency, and the phase up to a multiple of 90 degrees. The headers of the frames determine that multiple. The first frames are lost while
the loops settle; after the first received packet none may be missing."""
import itertools
import random
import sys

import numpy
from gnuradio import blocks, digital, filter as filters, gr

sys.dont_write_bytecode = True
import flow
from headers import START_OF_FRAME, bpsk, header

# The largest frequency offset, as a fraction of the symbol rate.
MAX_OFFSET = 0.05
# The number of filters of symbol_sync, for the times between two samples.
FILTERS = 32


class Turns(gr.sync_block):
    """Finds the headers of a mode, or without it those of all modes, in symbols that are rotated by a multiple of 1 / `parts` of a circle. It
    derotates the symbols from each header on."""

    def __init__(self, mode=None, parts=4):
        gr.sync_block.__init__(self, "turns", [numpy.complex64], [numpy.complex64])
        modes = [mode] if mode else itertools.product(range(32), range(4))
        self.heads = numpy.array([bpsk(header(*each)) for each in modes]) / 2**0.5
        self.turn, self.part, self.count = 1, 2 * numpy.pi / parts, self.heads.shape[1]
        self.set_history(self.count)

    def found(self, symbols):
        """The places at which a header begins, and the rotation of each."""
        start = self.heads[0][: len(START_OF_FRAME)]
        sums, level = numpy.correlate(symbols, start, "valid"), numpy.mean(abs(symbols) ** 2) ** 0.5
        for place in numpy.flatnonzero(abs(sums[: len(symbols) - self.count + 1]) > 0.5 * level * len(start)):
            head = symbols[place : place + self.count]
            like = self.heads.conj() @ head / (numpy.linalg.norm(head) * self.count**0.5)
            best = like[numpy.argmax(abs(like))]
            if abs(best) > 0.6:
                yield place, numpy.angle(best)

    def work(self, input_items, output_items):
        symbols, out, begun = input_items[0], output_items[0], 0
        for place, angle in self.found(symbols):
            out[begun:place], begun = symbols[begun:place] * self.turn, place
            self.turn = numpy.exp(-1j * self.part * round(angle / self.part))
        out[begun:] = symbols[begun : len(out)] * self.turn
        return len(out)


def spoilt(graph, samples, ratio, seed):
    """Samples after a channel with a delay, an offset and a phase from the seed."""
    draw = random.Random(seed)
    delay, offset, phase = draw.uniform(0, flow.SAMPLES), draw.uniform(-MAX_OFFSET, MAX_OFFSET), draw.random()
    told = f"delay {delay / flow.SAMPLES:.3f} symbols, offset {offset:.4f} of the symbol rate, phase {360 * phase:.0f} degrees"
    print(told, file=sys.stderr, flush=True)
    places = numpy.arange(-24, 30) - delay
    delayed = filters.fir_filter_ccf(1, list(numpy.sinc(places) * (0.54 + 0.46 * numpy.cos(numpy.pi * places / 30))))
    turned = blocks.rotator_cc(2 * numpy.pi * offset / flow.SAMPLES)
    phased = blocks.multiply_const_cc(numpy.exp(2j * numpy.pi * phase))
    graph.connect(samples, delayed, turned, phased)
    return flow.noised(graph, phased, ratio, seed)


def recovered(graph, samples, quarters=0, rate=flow.SAMPLES, roll_off=flow.ROLL_OFF, psk=4, mode=(flow.MODCOD, flow.TYPE)):
    """Symbols of samples at this rate, derotated by the headers of a mode if it is known. The Costas loop locks to any of the phases between which
    the constellation is the same; `quarters` rotates by multiples of 90 degrees more."""
    points = digital.constellation_qpsk().base()
    bank = flow.pulse(FILTERS, FILTERS * rate, roll_off)
    timing = digital.symbol_sync_cc(
        digital.TED_SIGNAL_TIMES_SLOPE_ML, rate, 0.002, 1, 1, 0.1, 1, points, digital.IR_PFB_MF, FILTERS, bank
    )
    turns = Turns(mode, psk)
    edges = digital.fll_band_edge_cc(rate, roll_off, 12 * round(rate) + 1, 0.0015)
    # the loop of order 8 locks to points between those of DVB-S2
    turned = blocks.multiply_const_cc(1j**quarters * numpy.exp(1j * numpy.pi / 8 * (psk == 8)))
    graph.connect(samples, edges, timing, digital.costas_loop_cc(0.008, psk), turned, turns)
    graph.turns = turns  # the graph itself does not keep a block of Python alive
    return turns


def main():
    chosen = flow.words_given(__doc__, 7.0, 10, 3, quarters="additional quarter turns after the Costas loop, by default 0")
    graph, link = gr.top_block(), flow.Link(chosen)
    shaped = flow.shaped()
    graph.connect(link.sent(graph), shaped)
    noisy = spoilt(graph, shaped, chosen.ratio, chosen.seed)
    symbols = recovered(graph, noisy, chosen.quarters)
    link.receive(graph, symbols)
    link.finish(graph, "recovered", noisy, symbols, 10 * flow.DRAWN)


if __name__ == "__main__":
    main()
