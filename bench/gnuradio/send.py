"""GNU Radio's DVB-S2 transmitter: send.py PACKETS SYMBOLS RATE QPSK|8PSK NORMAL|SHORT ON|OFF [NUMBER [STAGES]]

Writes its symbols as a symbol file: pairs of 16-bit integers, big endian, amplitude 990. NUMBER is the scrambling number, by default 0. STAGES.bbframes,
STAGES.codewords and STAGES.labels get BBFRAMEs and codewords, a byte for each bit, and the interleaver's labels."""
import sys

from gnuradio import blocks, dtv, gr

packets, symbols, rate, points, size, pilots, number, stages, *_ = [*sys.argv[1:], *[None] * 2][:8]
standard = dtv.STANDARD_DVBS2
size = getattr(dtv, "FECFRAME_" + size)
rate = getattr(dtv, "C" + rate.replace("/", "_"))
points = getattr(dtv, "MOD_" + points)
pilots = getattr(dtv, "PILOTS_" + pilots)

frames = dtv.dvb_bbheader_bb(standard, size, rate, dtv.RO_0_35, dtv.INPUTMODE_NORMAL, dtv.INBAND_OFF, 168, 4000000)
encoder = dtv.dvb_ldpc_bb(standard, size, rate, dtv.MOD_OTHER)
interleaver = dtv.dvbs2_interleaver_bb(size, rate, points)
graph = gr.top_block()
graph.connect(
    blocks.file_source(gr.sizeof_char, packets),
    frames,
    dtv.dvb_bbscrambler_bb(standard, size, rate),
    dtv.dvb_bch_bb(standard, size, rate),
    encoder,
    interleaver,
    dtv.dvbs2_modulator_bc(size, rate, points, dtv.INTERPOLATION_OFF),
    dtv.dvbs2_physical_cc(size, rate, points, pilots, int(number or 0)),
    blocks.keep_m_in_n(gr.sizeof_gr_complex, 1, 2, 0),  # a zero follows each symbol, for a pulse filter
    blocks.multiply_const_cc(990),
    blocks.complex_to_interleaved_short(),
    blocks.endian_swap(2),
    blocks.file_sink(gr.sizeof_short, symbols),
)
for name, block in (("bbframes", frames), ("codewords", encoder), ("labels", interleaver)):
    if stages:
        graph.connect(block, blocks.file_sink(gr.sizeof_char, f"{stages}.{name}"))
graph.run()
