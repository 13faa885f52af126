"""Sends a file of packets as complex symbols: transmit.py ROWS PACKETS SYMBOLS

The mode is QPSK 3/4 with pilots. SYMBOLS has 32-bit floats, amplitude 1: the form cf32_le of tools/convert."""
import os
import sys

from gnuradio import blocks, gr, sembarohy


def main(rows, packets, symbols):
    graph = gr.top_block("transmit")
    sent = sembarohy.transmitter(rows, "qpsk3/4", pilots=True, packets=os.path.getsize(packets) // 188)
    graph.connect(blocks.file_source(gr.sizeof_char, packets), sent, blocks.file_sink(gr.sizeof_gr_complex, symbols))
    graph.run()
    return 1 if sent.fault else 0


if __name__ == "__main__":
    sys.exit(main(*sys.argv[1:]) if len(sys.argv) == 4 else __doc__)
