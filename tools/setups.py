"""The modes, as `s2 modes` lists them, and the calls of s2, for the tools that work on many modes. No table of the standard is in it."""
import argparse
import contextlib
import hashlib
import os
import re
import subprocess
import sys
import typing

from program import Fault

GROUP = 360
# The bits of a codeword by the name of its frames.
LENGTHS = {"normal": 64800, "short": 16200}
LINE = re.compile(r"modcod (\d+) (\S+) (normal|short) kbch (\d+) k (\d+) symbols (\d+) (\d+) bits \S+ \S+ esn0 (-?[\d.]+).*")
# The words that choose some of the modes of a name.
KINDS = ("normal", "short", "pilots", "no-pilots")


class Words(argparse.ArgumentParser):
    """The command line. Refused arguments have exit status 1: 2 means that something differs or is lost."""

    def __init__(self, name, text):
        super().__init__(name, description=text, formatter_class=argparse.RawDescriptionHelpFormatter, allow_abbrev=False)

    def error(self, message):
        self.exit(1, f"{self.prog}: {message}; see tools/{self.prog} --help\n")


class Mode(typing.NamedTuple):
    """A mode: a constellation with its code rate, the length of frames, and pilots or none. Kbch, k and n are in bits, the frame is in symbols."""

    modcod: int
    name: str
    length: str
    pilots: bool
    kbch: int
    k: int
    n: int
    frame: int
    ideal: float

    def options(self):
        return ["--modcod", self.name, *["--short"] * (self.length == "short"), *["--pilots"] * self.pilots]

    def kinds(self):
        return self.length, "pilots" if self.pilots else "no-pilots"

    def text(self):
        return " ".join((self.name, *self.kinds()))

    def folder(self):
        return "-".join((self.name.replace("/", "_"), *self.kinds()))

    def rows(self):
        """The name of its row file."""
        return f"{self.length}_{re.sub('^(qpsk|8psk)', '', self.name).replace('/', '_')}.rows"

    def shape(self):
        """The options of `s2 rows` for rows of its shape."""
        return ["--group", str(GROUP), "--groups", str(self.k // GROUP), "--q", str((self.n - self.k) // GROUP)]


def mode_of(program, chosen):
    """The mode of the options --modcod, --short and --pilots."""
    wanted = "short" if chosen.short else "normal", bool(chosen.pilots)
    for mode in modes_of(program):
        if chosen.modcod.lower() in (mode.name, str(mode.modcod)) and (mode.length, mode.pilots) == wanted:
            return mode
    raise Fault(f"--modcod {chosen.modcod}: no such mode")


def last_line(text, otherwise):
    return (text.strip() or otherwise).splitlines()[-1].removeprefix("s2: ")


def s2(program, *words, given=b"", exits=(0,)):
    """What a command of s2 prints on standard output. Another exit is a fault, with the last line of standard error."""
    ended = subprocess.run([program, *words], input=given, capture_output=True, check=False)
    if ended.returncode not in exits:
        raise Fault(f"s2 {words[0]}: {last_line(ended.stderr.decode(errors='replace'), f'exit {ended.returncode}')}")
    return ended.stdout


def version(program):
    return s2(program, "--version").decode().splitlines()[0]


def modes_of(program):
    """All modes in the order of `s2 modes`, each without pilots and with them."""
    found = []
    for line in s2(program, "modes").decode().splitlines():
        if not (it := LINE.fullmatch(line)):
            raise Fault(f"s2 modes: {line}")
        modcod, name, length, kbch, k, *frames, ideal = it.groups()
        found += [Mode(int(modcod), name, length, pilots, int(kbch), int(k), LENGTHS[length], int(frames[pilots]), float(ideal)) for pilots in (False, True)]
    return found


def chosen_modes(modes, text):
    """Those of a list such as qpsk3/4,14:short,8psk3/5:normal:pilots. Words after a colon choose some of the modes of a name."""
    taken = []
    for it in text.split(","):
        name, *kinds = it.lower().split(":")
        if unknown := [kind for kind in kinds if kind not in KINDS]:
            raise Fault(f"--modes {it}: {unknown[0]} is none of {', '.join(KINDS)}")
        found = [mode for mode in modes if name in (mode.name, str(mode.modcod)) and {*kinds} <= {*mode.kinds()}]
        if not found:
            raise Fault(f"--modes {it}: no such mode")
        taken += [mode for mode in found if mode not in taken]
    return [mode for mode in modes if mode in taken]


def contents(path):
    """The bytes of a file, or of standard input."""
    with open(0, "rb", closefd=False) if path == "-" else open(path, "rb") as file:
        return file.read()


def digest(path):
    """The SHA-256 of a file."""
    with open(path, "rb") as file:
        return hashlib.file_digest(file, "sha256").hexdigest()


def same_file(one, other):
    return os.path.exists(one) and os.path.exists(other) and os.path.samefile(one, other)


def write(tool, path, data):
    """Writes an output: a file as a whole, under another name first, or a device or standard output. A note says if a file is replaced."""
    if path == "-" or os.path.exists(path) and not os.path.isfile(path):
        with open(1, "wb", closefd=False) if path == "-" else open(path, "wb") as file:
            file.write(data)
        return
    place = os.path.realpath(path)
    part = os.path.join(os.path.dirname(place), f".{os.path.basename(place)}.{os.getpid()}")
    try:
        with open(part, "wb") as file:
            file.write(data)
        if os.path.exists(place):
            print(f"{tool}: note: {path} is replaced", file=sys.stderr)
        os.replace(part, place)
    finally:
        with contextlib.suppress(FileNotFoundError):
            os.remove(part)


def whole(least, most):
    """A type of arguments: whole numbers of a range."""

    def number(text):
        if not re.fullmatch("[0-9]{1,20}", text) or not least <= int(text) <= most:
            raise ValueError(text)
        return int(text)

    number.__name__ = f"number ({least} to {most})"
    return number


def rate(text):
    """A number of symbols per second, as `s2 modes --rate` takes it: 27500000, 27.5M or 27500k."""
    found = re.fullmatch(r"(\d{1,10}(?:\.\d{1,9})?)([kKM]?)", text)
    number = float(found[1]) * {"": 1, "M": 1e6}.get(found[2], 1e3) if found else 0
    if not 0 < number <= 1e9:
        raise ValueError(text)
    return number
