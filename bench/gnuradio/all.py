"""Compares `s2 mod` with GNU Radio's DVB-S2 transmitter in all 64 modes: all.py FOLDER. `bench/gnuradio/run --all FOLDER` starts it.

FOLDER has the standard's row files. Each mode has its own scrambling number. Four stages are compared, bit by bit: BBFRAMEs, codewords,
interleaved bits (labels) and symbols. GNU Radio writes only the frames that the packets fill; these are compared, at least one in each mode. A line
for each mode has their number, or the first stage that differs with its frame and byte. The last line counts the modes.

S2 in the environment names the program, and PYTHON a Python with GNU Radio (/usr/bin/python3). The exit status is 0 if all modes are the
same, 2 if not, and 1 after an error."""
import concurrent.futures
import os
import random
import subprocess
import sys
import tempfile

HERE = os.path.dirname(os.path.abspath(__file__))
TOP = os.path.dirname(os.path.dirname(HERE))
sys.dont_write_bytecode = True
sys.path.insert(0, os.path.join(TOP, "tools"))
from program import Fault, program_of
from setups import last_line, modes_of, s2, version

PYTHON = os.environ.get("PYTHON", "/usr/bin/python3")
# Packets of each mode; scrambling numbers of two modes in a row differ by this.
PACKETS, APART = 200, 4093
DIGITS = bytes.maketrans(b"\0\1", b"01")
SYMBOL = 4


def contents(path):
    with open(path, "rb") as file:
        return file.read()


def packed(bits, size):
    """Whole words of bits, eight of them in a byte."""
    words = (bits[at : at + size] for at in range(0, len(bits) - size + 1, size))
    return b"".join(int(it.translate(DIGITS), 2).to_bytes(size // 8, "big") for it in words)


def theirs(mode, number, room):
    """GNU Radio's files of each stage, in our forms."""
    points, rate = (mode.name[:4].upper(), mode.name[4:])
    words = [rate, points, mode.length.upper(), "ON" if mode.pilots else "OFF", str(number), f"{room}/theirs"]
    ended = subprocess.run([PYTHON, f"{HERE}/send.py", f"{room}/packets", f"{room}/theirs.symbols", *words], capture_output=True, text=True, check=False)
    if ended.returncode:
        raise Fault(f"GNU Radio's transmitter, {mode.text()}: {last_line(ended.stderr, f'exit {ended.returncode}')}")
    found = {name: contents(f"{room}/theirs.{name}") for name in ("bbframes", "codewords", "labels", "symbols")}
    return found | {"bbframes": packed(found["bbframes"], mode.kbch), "codewords": packed(found["codewords"], mode.n)}


def ours(program, mode, number, rows, room):
    """Our files of each stage, and the number of frames."""
    records = [word for name in ("codewords", "bbframes", "labels") for word in (f"--{name}", f"{room}/ours.{name}")]
    words = ["--quiet", *mode.options(), "--number", str(number), *records, rows, f"{room}/packets", f"{room}/ours.symbols"]
    frames = int(s2(program, "mod", *words).split()[-1])
    return {name: contents(f"{room}/ours.{name}") for name in ("bbframes", "codewords", "labels", "symbols")}, frames


def compared(one, other, frames):
    """The number of frames of a stage that both have as a whole, and the place of the first difference in these."""
    size = len(one) // frames
    count = min(frames, len(other) // size)
    place = next((at for at in range(count * size) if one[at] != other[at]), None) if one[: count * size] != other[: count * size] else None
    return count, None if place is None else divmod(place, size)


def line_of(program, mode, number, folder):
    """Whether a mode is the same, and its line."""
    head = f"{mode.text()} number {number}:"
    with tempfile.TemporaryDirectory(prefix="gnuradio-") as room:
        with open(f"{room}/packets", "wb") as file:
            drawn = random.Random(number)
            file.writelines(b"\x47" + drawn.randbytes(187) for _ in range(PACKETS))
        (mine, frames), other = ours(program, mode, number, os.path.join(folder, mode.rows()), room), theirs(mode, number, room)
    counts = []
    for name, data in mine.items():
        count, place = compared(data, other[name], frames)
        counts.append(count)
        if place or not count:
            return False, f"{head} {name} differ: " + (f"frame {place[0] + 1}, byte {place[1]}" if place else "GNU Radio wrote no frame")
    return True, f"{head} the same: bbframes {counts[0]}, codewords {counts[1]}, labels {counts[2]}, frames of symbols {counts[3]}"


def run(folder):
    program = program_of()
    modes = modes_of(program)
    told = subprocess.run([PYTHON, "-c", "from gnuradio import dtv, gr; print(gr.version())"], capture_output=True, text=True, check=False)
    if told.returncode:
        raise Fault(f"{PYTHON} has no GNU Radio: {last_line(told.stderr, 'no gr-dtv')}")
    if missing := [it for it in modes if not os.path.isfile(os.path.join(folder, it.rows()))]:
        raise Fault(f"{os.path.join(folder, missing[0].rows())} is missing")
    print(f"{version(program)}, GNU Radio {told.stdout.strip()}", flush=True)
    went = []
    with concurrent.futures.ThreadPoolExecutor(len(os.sched_getaffinity(0))) as pool:
        for is_same, line in pool.map(lambda it: line_of(program, it[1], APART * it[0], folder), enumerate(modes)):
            print(line, flush=True)
            went.append(is_same)
    print(f"{went.count(True)} of {len(went)} modes are the same")
    return 0 if all(went) else 2


if __name__ == "__main__":
    try:
        sys.exit(run(sys.argv[1]) if len(sys.argv) == 2 else __doc__)
    except (Fault, OSError) as fault:
        sys.exit(f"all.py: {f'{fault.filename}: {fault.strerror}' if getattr(fault, 'filename', None) else fault}")
