"""Tests of the blocks in gnuradio/ over the fake library `fake_library.c`, by gr_unittest: tests/gnuradio starts it with S2_LIBRARY in the environment.

The fake receiver takes frames of 10 symbols, and the fake transmitter makes 100 symbols of 100 bytes."""
import os
import sys
import tempfile

import numpy
import pmt
from gnuradio import blocks, gr, gr_unittest

sys.dont_write_bytecode = True
TOP = os.path.dirname(os.path.dirname(os.path.dirname(os.path.abspath(__file__))))
# The folder gnuradio/ of the sources is a part of the package `gnuradio` from here on.
import gnuradio

gnuradio.__path__.append(os.path.join(TOP, "gnuradio"))
from gnuradio import sembarohy

# The most items at a time that a block gets, so that streams are cut anywhere.
SIZES = (1, 7, 100, 5000, 100000000)


def packets_of(number):
    """The packets of a frame of the fake library."""
    return bytes((number + place) % 256 for place in range(188 * (number % 41)))


def symbols_of(number):
    """The symbols of a frame that the fake transmitter makes."""
    numbers = numpy.frombuffer(bytes((number * 11 + place) % 256 for place in range(400)), ">i2").astype(numpy.float32) / 990
    return numbers.view(numpy.complex64)


def frames_of(*first):
    """Symbols of frames: each is given by its first four bytes."""
    data = b"".join(bytes(it) + bytes(36) for it in first)
    return (numpy.frombuffer(data, ">i2").astype(numpy.float32) / 990).view(numpy.complex64)


class Blocks(gr_unittest.TestCase):
    def setUp(self):
        self.room = tempfile.TemporaryDirectory(prefix="blocks-")
        self.rows = os.path.join(self.room.name, "rows")
        with open(self.rows, "w", encoding="ascii") as file:
            file.write("0 1 2")

    def tearDown(self):
        self.room.cleanup()

    def received(self, symbols, size, **options):
        """The block, its sink and its messages after these symbols."""
        graph, block = gr.top_block(), sembarohy.receiver(self.rows, "qpsk3/4", **options)
        sink, messages = blocks.vector_sink_b(), blocks.message_debug()
        graph.connect(blocks.vector_source_c(symbols.tolist()), block, sink)
        graph.msg_connect(block, "frames", messages, "store")
        graph.run(size)
        return block, sink, [pmt.to_python(messages.get_message(place)) for place in range(messages.num_messages())]

    def sent(self, data, size, **options):
        graph, block, sink = gr.top_block(), sembarohy.transmitter(self.rows, "qpsk3/4", **options), blocks.vector_sink_c()
        graph.connect(blocks.vector_source_b(list(data)), block, sink)
        graph.run(size)
        return block, sink

    def test_receiver(self):
        symbols = numpy.concatenate([frames_of(*([[1, 3, 0, 12]] * 90), [0, 0, 0, 0], [1, 1, 1, 0]), numpy.ones(3, numpy.complex64)])
        for size in SIZES:
            block, sink, messages = self.received(symbols, size)
            self.assertEqual(bytes(sink.data()), b"".join(packets_of(number) for number in range(1, 92)))
            wanted = [{"number": it, "at": 10 * it - 10, "verdict": "sole", "outcome": "delivered", "packets": it % 41, "fixed": 12} for it in range(1, 91)]
            wanted.append({"number": 91, "at": 910, "verdict": "parity", "outcome": "no word", "packets": 9})
            self.assertEqual(messages, wanted)
            starts = [188 * sum(it % 41 for it in range(1, number)) for number in range(1, 92)]
            tags = [(tag.offset, pmt.to_python(tag.key), pmt.to_python(tag.value)) for tag in sink.tags()]
            self.assertEqual(tags, [(start, "frame", it) for start, it in zip(starts, wanted) if it["packets"]])
            self.assertEqual((block.totals.frames, block.cut.symbols, block.fault, block.last), (91, 3, None, []))
        block, sink, _ = self.received(symbols, 100, resync=True)
        self.assertEqual((len(sink.data()), [frame.number for frame in block.last]), (188 * sum(it % 41 for it in range(1, 92)), [92]))

    def test_figures(self):
        _, _, messages = self.received(frames_of([1, 3, 0, 12]), 100, figures=True)
        self.assertEqual(messages[0]["figures"] | {"header": 2, "known_along": -11, "payload_across": -15, "equalized": False}, messages[0]["figures"])
        _, _, messages = self.received(frames_of([1, 3, 0, 12]), 100, figures=True, equalize=True)
        self.assertEqual(messages[0]["figures"] | {"equalized": True, "gain_across": -17, "rotation_across": 19}, messages[0]["figures"])

    def test_amplitude(self):
        block, _, _ = self.received(frames_of([1, 3, 0, 12]) * numpy.float32(0.25), 100, amplitude=0.25)
        self.assertEqual(block.totals.frames, 1)

    def test_transmitter(self):
        data = b"".join(bytes([0x47, *([place] * 187)]) for place in range(25))
        for size in SIZES:
            block, sink = self.sent(data, size)
            self.assertComplexTuplesAlmostEqual(sink.data(), numpy.concatenate([symbols_of(number) for number in range(1, 48)]).tolist(), 5)
            self.assertEqual([(tag.offset, pmt.to_python(tag.value)) for tag in sink.tags()], [(100 * it, it + 1) for it in range(47)])
            self.assertEqual(block.modem.counts, (25, 47))
            for packets, frames in ((25, 47), (24, 46), (7, 14)):
                block, sink = self.sent(data[: 188 * 26], size, packets=packets, amplitude=2.0)
                self.assertEqual(len(sink.data()), 100 * frames)
                self.assertEqual(block.modem.counts, (packets, frames))
        self.assertComplexTuplesAlmostEqual(sink.data()[:100], (2 * symbols_of(1)).tolist(), 5)

    def test_faults(self):
        block, sink = self.sent(b"H" + bytes(500), 1000)
        self.assertEqual((str(block.fault), len(sink.data())), ("text of -16", 0))
        block, sink, _ = self.received(numpy.array([1, float("nan")]), 1000)
        self.assertEqual((str(block.fault), len(sink.data())), ("symbol 1 is not finite", 0))
        with self.assertRaisesRegex(Exception, "text of -12"):
            sembarohy.receiver(self.rows, 7, rounds=201)
        for block in (sembarohy.receiver, sembarohy.transmitter):
            for amplitude in (0, -1.0, float("nan")):
                with self.assertRaisesRegex(ValueError, f"an amplitude is above 0, not {amplitude}"):
                    block(self.rows, 7, amplitude=amplitude)
        with self.assertRaisesRegex(ValueError, "the number of packets is 0 or more, not -1"):
            sembarohy.transmitter(self.rows, 7, packets=-1)

    def test_twice(self):
        graph, block, sink = gr.top_block(), sembarohy.receiver(self.rows, 7), blocks.vector_sink_b()
        source = blocks.vector_source_c(frames_of([1, 3, 0, 12]).tolist())
        graph.connect(source, block, sink)
        for times in (1, 2):
            source.rewind()
            graph.run()
            self.assertEqual((bytes(sink.data()), block.totals.frames), (times * packets_of(1), 1))


if __name__ == "__main__":
    gr_unittest.run(Blocks)
