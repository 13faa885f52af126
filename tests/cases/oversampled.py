"""Makes a recording with 4 samples per symbol, for a Python with GNU Radio: oversampled.py GRAPHS SYMBOLS RECORDING RATIO SEED. It has a
delay, a frequency offset and a phase from the seed, and noise of this Es/N0 in dB, as recovery.py has them. It ends with the pulses of the last
symbols."""
import sys

import numpy
from gnuradio import blocks, gr

graphs, symbols, recording, ratio, seed = sys.argv[1:]
sys.path.insert(0, graphs)
import flow
import recovery

sent = numpy.fromfile(symbols, ">i2").reshape(-1, 2) @ [1, 1j] / flow.AMPLITUDE
graph, shaped, sink = gr.top_block(), flow.shaped(), blocks.file_sink(gr.sizeof_gr_complex, recording)
graph.connect(blocks.vector_source_c([*sent, *flow.SPAN * [0]]), shaped)
graph.connect(recovery.spoilt(graph, shaped, float(ratio), int(seed)), sink)
graph.run()
sink.close()
