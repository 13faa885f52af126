"""Reads, writes and cuts that fail, one after another."""
from cases import audit, records
from cases.common import LINK, LONG_ROWS, PAIR, TOY, TWO

READ, WRITE = "cannot read", "cannot write"
MOD, DEMOD = f"mod {LINK} made packets out", f"demod {LINK} made two out"
DUMMY, ACROSS = f"mod {LINK} --dummy 1 made packets out", f"demod {LINK} made among out"
NOISE, RUN = "noise --seed 1 --level 256 two out", f"run {LINK} --seed 1 --level 0 made packets out"
RUNS, EACH = f"run {LINK} --seeds 1..2 --level 0 made packets out", f"judge {TOY} --each --cert out toy soft"
PIECE, STITCH = f"demod {LINK} --piece 0..16380 made two out", f"stitch {LINK} made two recorded out"
NO_FRAME = "end frames 0 delivered 0 packets 0 bad 0\n"
NOTHING, FRAMES = [(0, 0)], [(188, 0), (376, 26), (376, 55)]


def is_whole_symbols(moved, size, printed):
    """If a read fails, the symbols read before are in the output."""
    return (size, printed) == (moved // 4 * 4, 0)


def is_moved(moved, size, printed):
    """If a write fails, the bytes written before are kept, and nothing more is written."""
    return (size, printed) == (moved, 0)


# For each command and one file that it reads or writes: the line after a failed call on that file, and the numbers of bytes in `out` and
# `printed` by then. If they change, they are given for the first call and those after it. For `noise` it is a condition on these and on the number of bytes
# of the file that were moved. `mod` writes a frame once it has its packets, and a frame's line after all frames; `demod` and `run` write
# packets and lines frame by frame. Rows are printed at once. Standard input is `given`, and standard output `printed`.
FAILING = [
    ("", "given", READ, NOTHING),
    ("", "printed", WRITE, NOTHING),
    (f"rows {PAIR} --weight 1 --seed 1", "printed", WRITE, NOTHING),
    (LONG_ROWS, "printed", WRITE, NOTHING),
    (f"judge {TOY} toy stored", "toy", READ, NOTHING),
    (f"judge {TOY} toy stored", "stored", READ, NOTHING),
    (f"judge {TOY} toy stored", "printed", WRITE, NOTHING),
    (f"judge {TOY} --cert out toy stored", "stored", READ, NOTHING),
    (f"judge {TOY} --cert out toy stored", "printed", WRITE, [(128, 0)]),
    ("check toy certificate", "toy", READ, NOTHING),
    ("check toy certificate", "certificate", READ, NOTHING),
    ("check toy certificate", "printed", WRITE, NOTHING),
    (MOD, "made", READ, NOTHING),
    (MOD, "packets", READ, [(0, 0), (32_760, 0)]),
    (f"mod --resync {MOD[4:]}", "packets", READ, [(0, 0), (32_760, 0)]),
    (MOD, "out", WRITE, [(0, 0), (32_760, 0)]),
    (MOD, "printed", WRITE, [(65_520, 0)]),
    (NOISE, "two", READ, is_whole_symbols),
    (NOISE, "out", WRITE, is_moved),
    (DEMOD, "made", READ, NOTHING),
    (DEMOD, "two", READ, [(0, 0), (188, 26), (376, 55)]),
    (DEMOD, "out", WRITE, [(0, 0), (188, 26)]),
    (DEMOD, "printed", WRITE, FRAMES),
    # a record is one write, before the line of its frame; that of a piece without frames is written before the last line
    (PIECE, "made", READ, NOTHING),
    (PIECE, "two", READ, [(0, 0), (2050, 26), (4100, 55)]),
    (PIECE, "out", WRITE, [(0, 0), (2050, 26)]),
    (PIECE, "printed", WRITE, [(2050, 0), (4100, 26), (4100, 55), (4100, len(TWO))]),
    (f"demod {LINK} --piece 7..9 made stored out", "out", WRITE, [(0, len(NO_FRAME))]),
    (f"demod {LINK} --piece 7..9 made stored out", "printed", WRITE, [(0, 0), (2050, len(NO_FRAME))]),
    (STITCH, "made", READ, NOTHING),
    # the records of both frames are in the buffer by the first read
    (STITCH, "recorded", f"records: {READ}", [(0, 0), (376, 55)]),
    (STITCH, "out", WRITE, [(0, 0), (188, 26)]),
    (STITCH, "printed", WRITE, FRAMES),
    # each frame is written with the dummy frame after it
    (DUMMY, "packets", READ, [(0, 0), (46_080, 0)]),
    (DUMMY, "out", WRITE, [(0, 0), (46_080, 0)]),
    (DUMMY, "printed", WRITE, [(92_160, 0)]),
    (ACROSS, "among", READ, [(0, 0), (188, 26), (376, 56)]),
    (ACROSS, "out", WRITE, [(0, 0), (188, 26)]),
    (ACROSS, "printed", WRITE, [(188, 0), (376, 26), (376, 56)]),
    (RUN, "made", READ, NOTHING),
    (RUN, "packets", READ, NOTHING),
    (RUN, "out", WRITE, [(0, 0), (188, 26)]),
    (RUN, "printed", WRITE, FRAMES),
    # packets and lines of many runs, and the line of their sums
    (RUNS, "packets", READ, NOTHING),
    (RUNS, "out", WRITE, [(0, 0), (188, 26), (376, 96), (564, 122)]),
    (RUNS, "printed", WRITE, [*FRAMES, (564, 96), (752, 122), (752, 151), (752, 192)]),
    # three frames of soft values: lines of 14, 19 and 14 bytes, certificates of 128. The whole file is in the buffer by the first read
    (EACH, "toy", READ, NOTHING),
    (EACH, "soft", READ, [(0, 0), (384, 47)]),
    (EACH, "out", WRITE, lambda moved, size, printed: (size, printed) == (moved, (0, 14, 33)[moved // 128])),
    (EACH, "printed", WRITE, [(128, 0), (256, 14), (384, 33)]),
    # each record of `mod` is one write, before the symbols of its frame
    (f"mod {LINK} --codewords out made packets sent", "out", WRITE, [(0, 0), (2025, 0)]),
    (f"mod {LINK} --bbframes out made packets sent", "out", WRITE, [(0, 0), (384, 0)]),
    (f"mod {LINK} --labels out made packets sent", "out", WRITE, [(0, 0), (8100, 0)]),
    (f"mod {LINK} --symbols-plain out made packets sent", "out", WRITE, [(0, 0), (32_400, 0)]),
    (f"mod {LINK} --codewords record --bbframes other made packets out", "out", WRITE, [(0, 0), (32_760, 0)]),
    (f"mod {LINK} --labels record --symbols-plain other made packets out", "out", WRITE, [(0, 0), (32_760, 0)]),
    (f"mod {LINK} --bbframes out made packets sent", "packets", READ, [(0, 0), (384, 0)]),
    # how a report was made is written at the end, with one write
    (f"demod {LINK} --about out made two sent", "out", WRITE, [(0, len(TWO))]),
    (f"demod {LINK} --about record made two out", "out", WRITE, [(0, 0), (188, 26)]),
]
# Commands whose first call on an existing `out` truncates it.
JOIN = f"join {LINK} bbframes out"
CUTTING = [MOD, DEMOD, NOISE, RUN, RUNS, JOIN, EACH, f"judge {TOY} --cert out toy stored", f"judge {PAIR} --cert out pair odd"]


def in_steps(lines):
    """How many bytes are printed after each of these lines, and before the first."""
    return [(0, sum(map(len, lines[:count]))) for count in range(len(lines) + 1)]


def failing(two):
    """The same of `scan`, `join`, `check --each` and `audit`, and of records: the symbols of two frames, their report, certificates and
    BBFRAMEs are `two`, `report`, `certificates` and `bbframes`."""
    written = records.records(two)
    shown = audit.shown(TWO, audit.apart(written["--certificates"]))
    audited, checked = in_steps(shown), in_steps([" ".join(line.split()[4:]) + "\n" for line in shown])
    check, auditing = "check --each made certificates", f"audit {LINK} made two report certificates"
    whole = auditing.replace(LINK, f"{LINK} --codewords codewords --packets packets")
    cases = [
        ("scan two", "two", READ, NOTHING),
        ("scan two", "printed", WRITE, NOTHING),
        # both frames are in the buffer by the first read
        (JOIN, "bbframes", READ, [(0, 0), (376, 0)]),
        (JOIN, "out", WRITE, [(0, 0), (188, 0)]),
        (JOIN, "printed", WRITE, [(376, 0)]),
        (check, "made", READ, NOTHING),
        (check, "certificates", READ, checked),
        (check, "printed", WRITE, checked[:-1]),
        (auditing, "made", READ, NOTHING),
        (auditing, "two", READ, audited),
        # the whole report is in the buffer by the first read
        (auditing, "report", READ, audited[::2]),
        (auditing, "certificates", READ, audited),
        (auditing, "printed", WRITE, audited),
        # the bits of both frames, and their packets, are in their buffers by the first read
        (whole, "codewords", READ, audited[::2]),
        (whole, "packets", READ, audited[::2]),
    ]
    sizes = {option: len(text) for option, text in records.records(two[: 4 * records.FRAME]).items()}
    words = f"demod {LINK} {{}} out made two received"
    cases.append((words.format("--certificates"), "out", WRITE, recording(sizes.pop("--certificates"))))
    # of these each record is one write
    return cases + [(words.format(option), "out", WRITE, [(0, 0), (size, 26)]) for option, size in sizes.items()]


def recording(first):
    """If a write of a certificate fails, the bytes before it are kept, and the line of the first frame if its certificate is complete."""
    return lambda moved, size, printed: (size, printed) == (moved, 26 if moved >= first else 0)
