"""Sends packets by GNU Radio's own DVB-S2 transmitter through noise, and receives them by a matched filter and our receiver.

The row file must be the standard's, which that transmitter has built in. An incomplete frame at the end is never sent, and the filters hold
back some symbols of the last complete one."""
from gnuradio import blocks, dtv, gr

import flow

MODE = dtv.STANDARD_DVBS2, dtv.FECFRAME_NORMAL, dtv.C3_4


def transmitter(graph, packets):
    """The symbols of GNU Radio's transmitter, amplitude 1."""
    last = blocks.keep_m_in_n(gr.sizeof_gr_complex, 1, 2, 0)  # it puts a zero after each symbol
    graph.connect(
        blocks.file_source(gr.sizeof_char, packets),
        dtv.dvb_bbheader_bb(*MODE, dtv.RO_0_35, dtv.INPUTMODE_NORMAL, dtv.INBAND_OFF, 168, 4000000),
        dtv.dvb_bbscrambler_bb(*MODE),
        dtv.dvb_bch_bb(*MODE),
        dtv.dvb_ldpc_bb(*MODE, dtv.MOD_OTHER),
        dtv.dvbs2_interleaver_bb(*MODE[1:], dtv.MOD_QPSK),
        dtv.dvbs2_modulator_bc(*MODE[1:], dtv.MOD_QPSK, dtv.INTERPOLATION_OFF),
        dtv.dvbs2_physical_cc(*MODE[1:], dtv.MOD_QPSK, dtv.PILOTS_ON, 0),
        last,
    )
    return last


def main():
    chosen = flow.words_given(__doc__, 7.0, 8, 2)
    graph, link = gr.top_block(), flow.Link(chosen)
    shaped, matched = flow.shaped(), flow.matched()
    graph.connect(transmitter(graph, link.place("packets")), shaped)
    noisy = flow.noised(graph, shaped, chosen.ratio, chosen.seed)
    graph.connect(noisy, matched)
    link.receive(graph, matched)
    link.finish(graph, "GNU Radio's transmitter", noisy, matched)


main()
