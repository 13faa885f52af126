"""Tests of the parts of examples/gnuradio, for a Python with GNU Radio: tests/gnuradio starts it with the folder of the flow graphs.
It prints a line for each part that fails, and then exits with 1."""
import argparse
import contextlib
import io
import re
import sys

import numpy
from gnuradio import blocks, gr

sys.path.insert(0, sys.argv[1])
import flow
import recovery

FRAMES, SEEDS = 6, range(1, 21)
MANY = 400_000


def through(symbols, block):
    """What a block makes of these symbols."""
    graph, out = gr.top_block(), blocks.vector_sink_c()
    graph.connect(blocks.vector_source_c(list(symbols)), block, out)
    graph.run()
    return numpy.array(out.data())


def turned_back(turns, parts=4):
    """Whether the symbols of three frames, each rotated by its number of parts of a circle, are received unchanged. In eighths these are frames of
    8PSK 3/4 with another amplitude, whose mode is not given."""
    draw, mode, level = numpy.random.default_rng(1), (flow.MODCOD, flow.TYPE), 1
    block = recovery.Turns(mode) if parts == 4 else recovery.Turns(parts=parts)
    if parts == 8:
        mode, level = (14, 1), 0.3
    head = numpy.array(recovery.bpsk(recovery.header(*mode))) / 2**0.5
    payloads = [numpy.exp(2j * numpy.pi * (draw.integers(0, parts, 3000) / parts + 1 / 8)) for _ in turns]
    sent = [level * numpy.concatenate([head, payload]) for payload in payloads]
    came = through(numpy.concatenate([frame * numpy.exp(2j * numpy.pi * turn / parts) for frame, turn in zip(sent, turns)]), block)
    # the block waits for the rest of a header, and returns the same number of zeros first
    held, wanted = len(head) - 1, numpy.concatenate(sent)
    return len(came) == len(wanted) and abs(came[held:] - wanted[:-held]).max() < 0.01


def judged(places, most_lost):
    """The result of `judge` for received packets, given by their places; None is one that was not sent."""
    link = flow.Link(argparse.Namespace(seed=1, frames=FRAMES))
    with open(link.place("received"), "wb") as file:
        file.write(b"".join(bytes(188) if place is None else link.packets[place] for place in places))
    with contextlib.redirect_stdout(io.StringIO()):
        try:
            link.judge(most_lost)
        except SystemExit as ended:
            return str(ended)
    return ""


def judgements():
    """(what, whether it is well judged) of some packets."""
    count = flow.PACKETS_A_FRAME
    all_of = list(range(FRAMES * count))
    exchanged = [*all_of[:40], all_of[41], all_of[40], *all_of[42:]]
    fine = {"all": (all_of, 0), "all but the first frame": (all_of[count:], 1), "all but the last one": (all_of[:-count], 1)}
    missing = {"none": ([], 0), "none, with all lost": ([], FRAMES), "two exchanged": (exchanged, 3), "a gap": (all_of[:40] + all_of[41:], 3)}
    missing |= {"one twice": (all_of[:40] + all_of[39:], 3), "one that was not sent": ([*all_of[:40], None, *all_of[41:]], 3)}
    missing |= {"all but a frame, with none lost": (all_of[count:], 0), "all but a frame and a packet": (all_of[count + 1 :], 1)}
    for cases, said in ((fine, ""), (missing, "packets are missing")):
        yield from ((f"judge of {what}", judged(*case) == said) for what, case in cases.items())


def noise_is(ratio):
    """Whether the noise of an Es/N0 has its power, for symbols of amplitude 1 and this number of samples per symbol."""
    graph, out = gr.top_block(), blocks.vector_sink_c()
    silence = blocks.vector_source_c([0] * MANY)
    graph.connect(flow.noised(graph, silence, ratio, 1), out)
    graph.run()
    power = numpy.mean(abs(numpy.array(out.data())) ** 2) / flow.SAMPLES
    return abs(power * 10 ** (ratio / 10) - 1) < 0.02


def offset_of(seed):
    """The offset that the channel of a seed prints, and the one that its samples have."""
    graph, out = gr.top_block(), blocks.vector_sink_c()
    told = io.StringIO()
    with contextlib.redirect_stderr(told):
        graph.connect(recovery.spoilt(graph, blocks.vector_source_c([1] * 20_000), 60, seed), out)
    graph.run()
    samples = numpy.array(out.data())[1000:]
    turn = numpy.angle(numpy.sum(samples[1:] * samples[:-1].conjugate())) / (2 * numpy.pi)
    return float(re.search(r"offset (\S+) of the symbol rate", told.getvalue())[1]), turn * flow.SAMPLES


def failed_end():
    """What `run` ends with if an end of the modem has a fault."""
    link = flow.Link(argparse.Namespace(seed=1, frames=1))
    link.ends, link.sink = [argparse.Namespace(fault="no sync", name=lambda: "an end")], blocks.file_sink(1, link.place("received"))
    try:
        link.run(gr.top_block())
    except SystemExit as ended:
        return str(ended)
    return ""


def parts():
    yield "a fault of an end", failed_end() == "an end: no sync"
    for quarters in ((0, 0, 0), (1, 1, 1), (2, 2, 2), (3, 3, 3), (0, 1, 3), (2, 3, 1)):
        yield f"turns of {quarters} quarters", turned_back(quarters)
    for eighths in ((0, 1, 3), (7, 6, 5), (4, 2, 1)):
        yield f"turns of {eighths} eighths", turned_back(eighths, 8)
    yield from judgements()
    yield from ((f"noise of {ratio} dB", noise_is(ratio)) for ratio in (0, 7, 10))
    offsets = [offset_of(seed) for seed in SEEDS]
    yield "offsets as told", all(abs(told - is_there) < 0.001 for told, is_there in offsets)
    yield "offsets up to the most", 0.8 < max(abs(told) for told, _ in offsets) / recovery.MAX_OFFSET <= 1


def main():
    failed = [what for what, is_fine in parts() if not is_fine]
    for what in failed:
        print(f"FAILED: examples/gnuradio, {what}")
    return 1 if failed else 0


if __name__ == "__main__":
    sys.exit(main())
