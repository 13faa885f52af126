"""Runs what the unpacked archive has, for tests/release: its tools, its examples, and the commands and the Python of its pages, each in a copy of
its folder. PATH has nothing but python3, the utilities that commands of pages name, and a `receiver` that writes symbols."""
import os
import re
import shlex
import shutil
import subprocess

UTILITIES, BASH = ("cat", "cmp", "head", "tail"), shutil.which("bash")
# The lines after which all files are there that the others read.
BEGIN = """./s2 rows --group 360 --groups 135 --q 45 --weight 6 --seed 1 > rows
python3 -c "print(end=200 * ('G' + 187 * '.'))" > sent.ts
./s2 mod --modcod qpsk3/4 --pilots rows sent.ts symbols
cat rows > normal_3_4.rows
cat rows > tables/normal_3_4.rows
cat symbols > recording
tools/convert ci16_be cf32_le symbols recording.cf32
tools/convert ci16_be cf32_le symbols symbols.cf32"""
TOOLS = """tools/pieces --jobs 2 --modcod qpsk3/4 --pilots --tuned rows symbols received.ts
cmp sent.ts received.ts
./s2 demod --modcod qpsk3/4 --pilots --tuned --figures --certificates certs --about about rows symbols received.ts > report
examples/check.py --each rows certs
tools/report --modcod qpsk3/4 --pilots --tuned --about about report
tools/report --plot plot.svg report
tools/compare --modcod qpsk3/4 --pilots --tuned report received.ts sent.ts
tools/receive --rows tables recording.cf32 received.ts
cmp sent.ts received.ts
tools/live --jobs 2 --modcod qpsk3/4 --pilots --tuned rows < symbols > received.ts
cmp sent.ts received.ts
tools/strip sent.ts received.ts
cmp sent.ts received.ts
tools/vectors --made --modes qpsk3/4:normal:pilots --frames 1 modes
tools/vectors --check modes
python3 -c "import shutil; shutil.copytree('modes', 'device', ignore=shutil.ignore_patterns('rows', 'manifest.json', 'SHA256SUMS', 'packets.ts', 'noisy', 'values', 'certificates', 'report'))"
tools/conform modes device
tools/impair --modcod qpsk3/4 --pilots --with miss=5 rows symbols missing.sigmf-meta
./s2 demod --modcod qpsk3/4 --pilots --bbframes frames rows symbols received.ts
tools/pcap --modcod qpsk3/4 --pilots frames frames.pcap
tools/pcap --back frames.pcap frames.again
cmp frames frames.again
./s2 mod --modcod qpsk3/4 --pilots --codewords words rows sent.ts symbols
tools/bracket --modcod qpsk3/4 --pilots rows words report certs
./s2 rows --group 4 --groups 20 --q 10 --weight 3 --seed 1 > small.rows
tools/alist export --group 4 --groups 20 --q 10 small.rows small.alist
python3 -c "print(*[9] * 240)" > small.values
tools/alist judge small.alist small.values small.judged
tools/alist check small.alist small.values small.judged
tools/alist compare small.alist small.judged small.judged/words"""
# What needs GNU Radio.
RADIO = """tools/rows --from-gnuradio standard
examples/gnuradio/receive --rate 4 --rows tables oversampled.cf32 received.ts
python3 -c "import os; exit(os.path.getsize('received.ts') < 60 * 188)\""""
# What needs the library too. `run` begins the graphs of its folder.
GRAPHS = """RUNS=1 FRAMES=5 examples/gnuradio/measure rows 9
GRC -o . gnuradio/examples/transmit_qpsk.grc
GRC -o . gnuradio/examples/receive_qpsk.grc
PYTHONPATH=.:python python3 transmit_qpsk.py --count 200
PYTHONPATH=.:python python3 receive_qpsk.py"""
C = """CC -Iinclude examples/receive.c build/libs2.a
./a.out"""
BEGUN = {f"examples/gnuradio/{name}.py" for name in ("flow", "headers", "pulses", "recovery", "transmitter")}
# Commands of pages, those that need other machines, a display or GNU Radio's tables, and the names that they have for our files.
TYPED = re.compile(r"(?:\./s2 |tools/|examples/|export |python3 |printf |echo |cat |receiver \|)")
NOT_HERE = re.compile(r"--hosts|--slurm|--from-gnuradio")
CODES = "/usr/share/gnuradio/fec/ldpc"
NAMES = [("--rate 2 ", "--rate 4 "), (" recording.cf32", " oversampled.cf32"), ("rows/", "tables/"), ("/path/to/", "standard/")]
BLOCK = re.compile(r"^```(\w*)\n(.*?)^```$|^((?:    [^\n]*\n)+)", re.S | re.M)


def over_library(line):
    """Whether a command needs the library."""
    return re.match(r"examples/gnuradio/(?!receive)|python3 gnuradio/|PYTHONPATH|RUNS", line)


class Place:
    """A copy of the archive, and a folder with the only programs that commands find by their names. `ran` has each command, the expected result, and the
    result. The Python has GNU Radio if `has_radio`."""

    def __init__(self, room, folder, python, has_radio):
        self.folder, self.bin, self.ran, self.untried, self.exports = f"{room}/alone", f"{room}/bin", [], [], ""
        self.has_radio, self.has_library = has_radio, os.path.exists(f"{folder}/build/libs2.so")
        shutil.copytree(folder, self.folder)
        for path in (self.bin, f"{self.folder}/tables"):
            os.makedirs(path)
        for name, line in (("python3", f'{python} "$@"'), ("receiver", "cat symbols")):
            with open(f"{self.bin}/{name}", "w", encoding="utf-8") as file:
                file.write(f"#!/bin/sh\nexec {line}\n")
            os.chmod(file.name, 0o755)
        for name in UTILITIES:
            os.symlink(shutil.which(name), f"{self.bin}/{name}")

    def run(self, *words):
        known = {"PATH": self.bin, "HOME": self.folder, "PYTHONDONTWRITEBYTECODE": "1", "GRC_BLOCKS_PATH": f"{self.folder}/gnuradio/grc"}
        return subprocess.run(words, cwd=self.folder, env=known, capture_output=True, text=True, timeout=600, stdin=subprocess.DEVNULL)

    def command(self, line, lines=None, exits=(0,)):
        """Runs a command, whose output must be these lines if they are given."""
        ended = self.run(BASH, "-o", "pipefail", "-c", self.exports + line)
        is_well = ended.returncode in exits and "Traceback" not in ended.stderr and lines in (None, ended.stdout.splitlines())
        self.ran.append((line, True, is_well or (ended.returncode, ended.stdout[-300:], ended.stderr[-600:])))

    def commands(self, text, exits=(0,)):
        for line in text.splitlines():
            self.command(line, exits=exits)

    def page(self, page):
        """Runs the commands of a page's blocks, and its Python."""
        with open(f"{self.folder}/{page}", encoding="utf-8") as file:
            blocks = BLOCK.findall(file.read())
        self.exports = ""
        for kind, fenced, indented in blocks:
            if kind == "python" and self.has_library and (self.has_radio or "gnuradio" not in fenced):
                self.command(f"PYTHONPATH=.:python python3 -c {shlex.quote(fenced)}")
            for line, lines in lines_of(fenced if kind == "sh" else re.sub("(?m)^    ", "", indented)):
                self.typed(line, lines)

    def typed(self, line, lines):
        is_radio = "gnuradio" in line and not line.startswith("export")
        if NOT_HERE.search(line) or is_radio and not self.has_radio or over_library(line) and not self.has_library:
            return
        # only the packages of a distribution have GNU Radio's alist files there
        if "gnuradio.alist" in line and not os.path.isdir(CODES):
            return
        for old, new in NAMES if is_radio else ():
            line = line.replace(old, new)
        if line.startswith("export "):
            self.exports += f"{line}\n"
        else:
            self.command(line, lines or None, (0, 2))


def lines_of(text):
    """The commands of a block, and the lines that each prints: these begin with `# `."""
    found = []
    for line in text.splitlines():
        if line.startswith("# ") and found:
            found[-1][1].append(line[2:])
        elif TYPED.match(line) or line.startswith("cmp "):
            found.append((line, []))
    return found


def compiled(text, compiler, word):
    """The commands with a compiler instead of its word; without it, those before the first that needs it."""
    path = shutil.which(compiler)
    return text.replace(word, f"PATH=$PATH:{os.environ['PATH']} {path}") if path else text.partition(word)[0].rpartition("\n")[0]


def all_of(room, folder, python, has_radio, oversampled):
    """Runs everything. `oversampled` makes a recording with 4 samples per symbol of symbols."""
    place = Place(room, folder, python, has_radio)
    place.page("README.md")
    place.commands(BEGIN)
    place.commands(TOOLS)
    for name in sorted(os.listdir(f"{folder}/tools")):
        name.endswith(".py") and place.command(f"python3 tools/{name}")
    if has_radio:
        oversampled(f"{place.folder}/symbols", f"{place.folder}/oversampled.cf32")
        place.commands(RADIO, (0, 2))
    else:
        place.untried.append("the archive's examples for GNU Radio: no Python here has it")
    if not place.has_library:
        place.untried.append("the archive's examples over the library: there is none in it")
    elif has_radio:
        place.commands(compiled(GRAPHS, "grcc", "GRC"))
    place.commands(compiled(C, "cc", "CC") if place.has_library else "")
    for at, _, names in os.walk(folder):
        for name in sorted(names):
            name.endswith(".md") and place.page(os.path.relpath(f"{at}/{name}", folder))
    return place
