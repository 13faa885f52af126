"""Sends packets by our transmitter in root raised cosine pulses through noise, and receives them by a matched filter and our receiver.

Each frame is reported as it comes. All packets must be received."""
from gnuradio import gr

import flow


def main():
    chosen = flow.words_given(__doc__, 7.0, 8, 0)
    graph, link = gr.top_block(), flow.Link(chosen)
    shaped, matched = flow.shaped(), flow.matched()
    graph.connect(link.sent(graph), shaped)
    noisy = flow.noised(graph, shaped, chosen.ratio, chosen.seed)
    graph.connect(noisy, matched)
    link.receive(graph, matched)
    link.finish(graph, "our transmitter", noisy, matched)


main()
