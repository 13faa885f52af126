"""The common parts of the flow graphs of this folder: both ends of the modem as blocks, pulses, noise, pictures, and the check of the received
packets."""
import argparse
import os
import random
import sys
import tempfile

import gnuradio
import numpy
import pmt
from gnuradio import analog, blocks, filter as filters, gr
from gnuradio.filter import firdes

TOP = os.path.dirname(os.path.dirname(os.path.dirname(os.path.abspath(__file__))))
# QPSK 3/4, normal frames, pilots: the numbers in its headers, the packets per frame, and the amplitude in a symbol file for 1.
MODCOD, TYPE = 7, 1
PACKETS_A_FRAME = 32
AMPLITUDE = 990
# Samples per symbol, and the root raised cosine pulses: their roll-off, and their length in symbols.
SAMPLES, ROLL_OFF, SPAN = 4, 0.35, 32
# The number of symbols drawn, of symbols in the spectrum, and of samples in one transform.
DRAWN, HEARD, LINE = 8000, 60000, 512


def ends():
    """The blocks of the modem: those in the folder gnuradio/ beside examples/."""
    gnuradio.__path__.append(os.path.join(TOP, "gnuradio"))
    from gnuradio import sembarohy

    return sembarohy


def pulse(gain, rate=SAMPLES, roll_off=ROLL_OFF):
    return firdes.root_raised_cosine(gain, rate, 1, roll_off, round(SPAN * rate) + 1)


def shaped():
    """Symbols to samples."""
    return filters.interp_fir_filter_ccf(SAMPLES, pulse(SAMPLES))


def matched():
    """Samples to symbols, with known timing: every SAMPLES-th sample from the first on is a pulse's peak."""
    return filters.fir_filter_ccf(SAMPLES, pulse(1))


def noised(graph, samples, ratio, seed):
    """Samples with white noise of this Es/N0 in dB, for symbols of amplitude 1."""
    added = blocks.add_cc()
    graph.connect(samples, (added, 0))
    graph.connect(analog.noise_source_c(analog.GR_GAUSSIAN, (SAMPLES / 10 ** (ratio / 10)) ** 0.5, seed), (added, 1))
    return added


def numbers():
    """Symbols of amplitude 1 to those of a symbol file."""
    return [blocks.multiply_const_cc(AMPLITUDE), blocks.complex_to_interleaved_short(), blocks.endian_swap(2)]


class Keep(gr.sync_block):
    """Keeps some items of a stream for a picture, after a number that it skips."""

    def __init__(self, count, after=0):
        gr.sync_block.__init__(self, "keep", [numpy.complex64], None)
        self.kept, self.room, self.after = [], count, after

    def work(self, input_items, output_items):
        taken = input_items[0][self.after : self.after + self.room]
        self.after = max(0, self.after - len(input_items[0]))
        self.room -= len(taken)
        self.kept.append(taken.copy())
        return len(input_items[0])

    def items(self):
        return numpy.concatenate(self.kept)


class Lines(gr.basic_block):
    """Prints a line for each frame, and keeps these lines."""

    def __init__(self):
        gr.basic_block.__init__(self, "lines", None, None)
        self.kept = []
        self.message_port_register_in(pmt.intern("frames"))
        self.set_msg_handler(pmt.intern("frames"), self.tell)

    def tell(self, frame):
        words = pmt.to_python(frame)
        ending = f"fixed {words['fixed']}" if "fixed" in words else "lost"
        self.kept.append(f"frame {words['number']} at {words['at']} {words['verdict']} {ending}")
        print(self.kept[-1], flush=True)


class Link:
    """The packets that are sent, and the two ends of the modem: blocks of the flow graph."""

    def __init__(self, chosen):
        self.chosen, self.room = chosen, tempfile.TemporaryDirectory(prefix="flow-")
        draw = random.Random(chosen.seed)
        self.packets = [b"\x47" + draw.randbytes(187) for _ in range(PACKETS_A_FRAME * chosen.frames)]
        with open(self.place("packets"), "wb") as file:
            file.write(b"".join(self.packets))
        self.ends, self.lines = [], Lines()

    def place(self, name):
        return os.path.join(self.room.name, name)

    def end(self, kind, **options):
        """An end of the modem: `transmitter` or `receiver`."""
        try:
            self.ends.append(getattr(ends(), kind)(self.chosen.rows, MODCOD, pilots=True, **options))
        except Exception as fault:  # a file or a number that is refused, or no library
            sys.exit(f"{kind}: {fault}")
        return self.ends[-1]

    def sent(self, graph):
        """The symbols of the transmitter, amplitude 1. A dummy frame follows each frame, so that the symbols that the filters hold back at
        the end belong to no frame with packets."""
        sender = self.end("transmitter", dummy_every=1, packets=len(self.packets))
        graph.connect(blocks.file_source(gr.sizeof_char, self.place("packets")), sender)
        return sender

    def receive(self, graph, symbols):
        """Symbols of amplitude 1 into the receiver."""
        receiver, self.sink = self.end("receiver", tuned=False, passes=self.chosen.passes), blocks.file_sink(gr.sizeof_char, self.place("received"))
        graph.connect(symbols, receiver, self.sink)
        graph.msg_connect(receiver, "frames", self.lines, "frames")

    def run(self, graph):
        """Runs the flow graph until it ends, and prints the lines of frames as they come."""
        graph.run()
        self.sink.close()
        self.sink.do_update()  # without which the file is closed much later
        for end in self.ends:
            if end.fault:
                sys.exit(f"{end.name()}: {end.fault}")

    def finish(self, graph, what, samples, symbols, passed=SPAN):
        """Runs the flow graph and judges the received packets. If a picture is requested, it draws these samples on the channel, and these
        symbols after the first `passed` of them."""
        heard, shown = Keep(SAMPLES * HEARD), Keep(DRAWN, passed)
        graph.connect(samples, heard)
        graph.connect(symbols, shown)
        self.run(graph)
        if self.chosen.picture:
            draw(self.chosen.picture, f"{what}, Es/N0 {self.chosen.ratio} dB", heard.items(), shown.items())
        self.judge(self.chosen.lost)

    def received(self):
        """The places of the received packets among those that were sent; None for one that was not sent."""
        places = {packet: place for place, packet in enumerate(self.packets)}
        with open(self.place("received"), "rb") as file:
            came = file.read()
        return [places.get(came[at : at + 188]) for at in range(0, len(came), 188)]

    def frames(self):
        """The words of each frame's line."""
        return [line.split() for line in self.lines.kept]

    def judge(self, most_lost):
        """Prints the numbers of packets, and exits with 1 if packets are wrong, out of order or missing after the first received one, or if
        more frames than allowed are missing."""
        came, frames = self.received(), self.frames()
        certified = sum(words[4] in ("sole", "most-likely") for words in frames)
        lost = len(self.packets) - len(came)
        first = came[0] if came else None
        print(f"sent {len(self.packets)} packets, received {len(came)}, from packet {first} on; {certified} of {len(frames)} frames certified")
        in_order = first is not None and came == list(range(first, first + len(came)))
        if not in_order or lost > most_lost * PACKETS_A_FRAME:
            sys.exit("packets are missing")


def spectrum(samples):
    """The power of samples by frequency, in dB, means of many lines; and the frequencies, in symbol rates."""
    lines = samples[: len(samples) // LINE * LINE].reshape(-1, LINE) * numpy.hanning(LINE)
    power = numpy.mean(abs(numpy.fft.fftshift(numpy.fft.fft(lines), axes=1)) ** 2, axis=0)
    return numpy.fft.fftshift(numpy.fft.fftfreq(LINE, 1 / SAMPLES)), 10 * numpy.log10(power / max(power))


def draw(path, title, samples, symbols):
    """A picture of the spectrum on the channel and of the symbols after the receiver's filter."""
    import matplotlib

    matplotlib.use("Agg")
    from matplotlib import pyplot

    figure, (left, right) = pyplot.subplots(1, 2, figsize=(9, 4))
    left.plot(*spectrum(samples), linewidth=0.8)
    left.set(xlabel="frequency / symbol rate", ylabel="power, dB", title="spectrum on the channel")
    right.plot(symbols.real, symbols.imag, ",")
    right.set(xlabel="I", ylabel="Q", title="received symbols", xlim=(-2, 2), ylim=(-2, 2), aspect="equal")
    figure.suptitle(title)
    figure.tight_layout()
    figure.savefig(path, dpi=100, metadata={"Software": None})


def words_given(what, ratio, frames, most_lost, **more):
    """The arguments of a flow graph; `more` are further options with their help, integers that are 0 by default."""
    words = argparse.ArgumentParser(description=what, formatter_class=argparse.RawDescriptionHelpFormatter)
    words.add_argument("rows", help="row file of rate 3/4, normal frames")
    words.add_argument("--ratio", type=float, default=ratio, help=f"Es/N0 in dB, by default {ratio}")
    words.add_argument("--frames", type=int, default=frames, help=f"number of frames to send, by default {frames}")
    words.add_argument("--seed", type=int, default=1, help="seed of packets and noise")
    words.add_argument("--lost", type=int, default=most_lost, help=f"number of frames that may be lost at the beginning and the end, by default {most_lost}")
    words.add_argument("--passes", type=int, default=96, help="maximum number of passes of the search for a certificate, by default 96")
    words.add_argument("--picture", help="PNG of the spectrum and the symbols")
    for name, told in more.items():
        words.add_argument(f"--{name}", type=int, default=0, help=told)
    return words.parse_args()
