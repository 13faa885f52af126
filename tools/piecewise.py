"""The code of tools/pieces and tools/live: their command line, processes of `s2 demod --piece`, and `s2 stitch` with its outputs. The options of
demod are passed on to both as they are given. What `s2 demod --help` prints says which of them have a value, and which values are outputs (FILE)."""
import argparse
import contextlib
import ctypes
import hashlib
import itertools
import os
import pathlib
import queue
import re
import select
import shlex
import shutil
import signal
import subprocess
import sys
import tempfile
import time
from concurrent.futures import ThreadPoolExecutor

from program import TOP, Fault, add_option, program_of

STANDARD, REMOVING = ("-", "/dev/stdout"), 'PATH=$PATH:/usr/bin:/bin; cat; for it; do mv "$it" "$it.old" && rm -rf "$it.old"; done 2>/dev/null'
# Bytes of a symbol; symbols of the longest PLFRAME, and those that a piece reads after its end at most.
SYMBOL, FRAME, OVER = 4, 33282, 33282 + 90
# Pieces for each process, and of the rest near the end. Frames of a piece at least and at most; with --hosts and --slurm frames at least, pieces at most.
FOR_EACH, FOR_EACH_LEFT, LEAST, MOST, LEAST_AWAY, MOST_AWAY = 8, 2, 32, 1024, 512, 1000
# Frames of a group; seconds without input that end it, and that are noted; bytes that a copy keeps: more than a pipe, buffers and three frames.
GROUP, PAUSE, LONG, PASSED = 63, 0.1, 1.0, 1 << 20
# The end of the name of an output that is not complete, which nobody can guess; the names of the files in a work folder.
PART, OWN = f".pieces-{os.urandom(8).hex()}", re.compile(r"plan|log(-\d+)?|piece-\d{6,}(\.\d+)?|\..+\.pieces-\w{16}")
# of Linux: the signal that a process gets when the thread that began it ends, and a hole in a file of the same size
LIBC, PR_SET_PDEATHSIG, FALLOC_FL_PUNCH_HOLE = ctypes.CDLL(None), 1, 3
BOTH = {
    "--jobs": {"type": int, "metavar": "N", "help": "processes at a time: here (default: one for each core), on each host, or of the array job"},
    "--frames": {"type": int, "metavar": "F", "help": "frames of a piece or a group, if they have the greatest length"},
}
PIECES = {
    "--hosts": {"metavar": "FILE", "help": "decode by GNU parallel on the hosts of this file, one per line; `:` is this machine"},
    "--slurm": {"action": "store_true", "help": "decode by an array job of Slurm (sbatch --wait); SBATCH_PARTITION and so on are as for sbatch"},
    "--work": {"metavar": "FOLDER", "help": "work folder, new or empty, kept after an error (default with --hosts and --slurm: PACKETS.pieces)"},
    "--resume": {"action": "store_true", "help": "continue with the pieces in the work folder"},
    "--task": {"type": int, "help": argparse.SUPPRESS},
}
LIVE = {"--seconds": {"type": float, "default": 1.0, "metavar": "T", "help": "a group ends after this time at the latest (default: 1)"}}


class Output(str):
    """The name of an output. A file gets it when it is complete. A device, a pipe and standard output are written at once."""

    def part(self):
        """The name by which s2 writes it."""
        folder, name = os.path.split(os.path.realpath(self))
        is_file = self not in STANDARD and (not os.path.exists(self) or os.path.isfile(self))
        return f"{folder}/.{name}{PART}" if is_file else str(self)


def help_of(program):
    """The help on demod's options: the program prints it, and without a program, the man page of this folder has it."""
    if program:
        return subprocess.run([program, "demod", "--help"], stdout=subprocess.PIPE, text=True, check=False).stdout
    page = pathlib.Path(TOP, "docs/s2.1").read_text(encoding="utf-8").replace("\\-", "-")
    return page.partition(".SS demod\n")[2].partition(".SS ")[0]


def parted(given, printed):
    """The options of demod in a command line, in which an output is an Output, and the files. `printed` is the help of demod."""
    values, words, files, given = dict(re.findall(r"(--[a-z0-9-]+) <([^>]+)>", printed)), [], [], iter(given)
    for word in given:
        option, equals, value = word.partition("=")
        if word in ("-", "--") or not word.startswith("-"):
            files += given if word == "--" else [word]
        elif values.get(option) == "FILE":
            words += [option, *map(Output, [value] if equals else itertools.islice(given, 1))]
        else:
            words += [word, *itertools.islice(given, int(word in values))]
    return words, files


def refuse(words, chosen, files, options):
    """Refuses an option that demod does not have, and another number of files."""
    for it in chosen.words:
        if it.startswith("-") and it.partition("=")[0] not in options:
            words.error(f"{it} is not an option of demod")
    if len(chosen.files) != files:
        words.error(f"{len(chosen.files)} files are named, not {files}")


def line_of(name, text, files, options):
    """The arguments: the tool's options, demod's options as words, in which an output is an Output, and files. Another number of files is refused."""
    words = argparse.ArgumentParser(name, description=text, formatter_class=argparse.RawDescriptionHelpFormatter, allow_abbrev=False)
    # 2 means that something was lost
    words.error = lambda message: words.exit(1, f"{name}: {message}; see tools/{name} --help\n")
    for option, how in (BOTH | options).items():
        words.add_argument(option, **how)
    add_option(words)
    chosen, rest = words.parse_known_args()
    if any(it is not None and it <= 0 for it in (chosen.jobs, chosen.frames, getattr(chosen, "seconds", None))):
        words.error("numbers are above 0")
    chosen.given, missing = rest, None
    try:
        chosen.s2 = program_of(chosen.s2)
    except Fault as fault:
        chosen.s2, missing = None, fault
    printed = help_of(chosen.s2)
    chosen.words, chosen.files = parted(rest, printed)
    if missing:
        # these faults come first, and an input that cannot be read
        refuse(words, chosen, files, re.findall(r"--[a-z0-9-]+", printed))
        for it in chosen.files[: max(1, files - 1)]:
            it in STANDARD or open(it, "rb").close()
        raise missing
    if len(chosen.files) != files:
        os.execv(chosen.s2, ["s2", "demod", *chosen.given])
    # the call for a piece, which writes no files of records and shows no progress
    chosen.call = [chosen.s2, "demod", *(os.devnull if isinstance(it, Output) else it for it in chosen.words if it != "--progress")]
    return chosen


def outputs_of(chosen, inputs, files):
    """The outputs of demod with these files. If it refuses options, rows or files, or may do so, or if an input is no file, it runs by itself."""
    outputs = [it for it in (*chosen.words, Output(files[2])) if isinstance(it, Output)]
    parts = [it for it in outputs if it.part() != it]
    known = [os.stat(it)[1:3] if os.path.exists(it) else os.path.realpath(it) for it in (*inputs, *parts)]
    known += [os.fstat(1)[1:3]] * any(it in STANDARD for it in outputs)
    places = [it for name in parts for it in (os.path.dirname(name.part()), name) if it != name or os.path.exists(it)]
    well = len({*known}) == len(known) and all(os.access(it, os.W_OK) for it in places)
    well = well and all(os.path.isfile(it) and os.access(it, os.R_OK) and it not in ("-", "/dev/stdin") for it in inputs)
    if not well or subprocess.run([*chosen.call, files[0], "-", os.devnull], stdin=subprocess.DEVNULL, capture_output=True, check=False).returncode:
        os.execv(chosen.s2, ["s2", "demod", *chosen.given, *files[len(chosen.files) :]])
    return outputs


def tied(parent=os.getpid()):
    """In a new process: it ends with the thread that began it, or at once if the process of that has ended, and not at an interrupt."""
    for it in (signal.SIGINT, signal.SIGTERM):
        signal.signal(it, signal.SIG_IGN)
    LIBC.prctl(PR_SET_PDEATHSIG, signal.SIGKILL)
    if os.getppid() != parent:
        os._exit(1)


def received(what, words, symbols, at, others=()):
    """What `s2 demod --piece` reports of a file from a place on. If it fails, it runs once more."""
    for _ in range(2):
        os.lseek(symbols.fileno(), at, os.SEEK_SET)
        ended = subprocess.run(words, stdin=symbols, capture_output=True, pass_fds=others, preexec_fn=tied, check=False)
        if not ended.returncode:
            return ended.stdout
    last = ended.stderr.decode(errors="replace").strip().split("\n")[-1]
    raise Fault(f"{what}: {subprocess.CalledProcessError(ended.returncode, 's2 demod')} {last}".rstrip())


def pour(files, pipe, copy=None):
    """Writes files, each from a place on, to a pipe of `s2 stitch`. If that ends before, the rest is awaited. A copy keeps the last ones."""
    passed = -PASSED
    with contextlib.suppress(BrokenPipeError):
        for file, at in files:
            while sent := os.sendfile(pipe.fileno(), file.fileno(), at, 1 << 20):
                at, passed = at + sent, passed + sent
            copy and LIBC.fallocate(copy.fileno(), FALLOC_FL_PUNCH_HOLE, ctypes.c_long(0), ctypes.c_long(passed))
        pipe.close()
    any(False for _ in files)


def ahead(items, found):
    """The items of a generator that runs in another thread. Those that it is ahead are in this queue."""
    end = object()
    running = ThreadPoolExecutor(1).submit(lambda: any(map(found.put, items)))
    running.add_done_callback(lambda _: found.put(end))
    yield from iter(found.get, end)
    running.result()


def stitched(words, outputs, records, *left):
    """The exit status of `s2 stitch` with these records. Its files get their names if nothing failed. After any end, a shell removes the others."""
    parts = {it: it.part() for it in outputs if it.part() != it}
    cleaner = subprocess.Popen(["/bin/sh", "-c", REMOVING, "sh", *parts.values(), *left], stdin=subprocess.PIPE, start_new_session=True)
    # it inherits pipes that the user's shell made
    stitch = subprocess.Popen([parts.get(it, it) if isinstance(it, Output) else it for it in words], stdin=subprocess.PIPE, close_fds=False, preexec_fn=tied)
    feeding = ThreadPoolExecutor(1).submit(pour, records, stitch.stdin)
    feeding.add_done_callback(lambda it: it.exception() and stitch.kill())
    try:
        code = stitch.wait()
    finally:
        stitch.kill()
    (feeding.done() or code in (0, 2)) and feeding.result()
    if code not in (0, 1, 2):
        raise Fault(subprocess.CalledProcessError(code, "s2 stitch"))
    for name, part in parts.items() if code != 1 else ():
        os.path.exists(name) and shutil.copymode(name, part)
        os.replace(part, os.path.realpath(name))
    cleaner.communicate()
    return code


class Work:
    """The pieces of a recording, and the folder with the records of those that are decoded."""

    def __init__(self, chosen, folder):
        self.chosen, self.folder, (self.rows, self.symbols, _) = chosen, folder, map(os.path.realpath, chosen.files)
        self.is_away, self.jobs, self.status = chosen.hosts or chosen.slurm, chosen.jobs or len(os.sched_getaffinity(0)), os.stat(self.symbols)
        self.total, self.cuts = self.status.st_size // SYMBOL, [0]
        self.frames = chosen.frames or self.is_away and max(LEAST_AWAY, -(-(self.total // FRAME) // MOST_AWAY))
        while (left := self.total - self.cuts[-1]) > 0:
            some = min(self.total // FOR_EACH, left // FOR_EACH_LEFT) // self.jobs // FRAME
            self.cuts.append(self.cuts[-1] + min(left, FRAME * (self.frames or max(LEAST, min(MOST, some)))))

    def plan(self):
        """A script that decodes a piece by its number. It has a line on the rows and the recording."""
        own = ["--s2", self.chosen.s2, "--work", self.folder, f"--frames={self.frames}" if self.frames else f"--jobs={self.jobs}", "--task"]
        task = ["python3", os.path.join(TOP, "tools/pieces"), *self.chosen.call[2:], self.rows, self.symbols, os.devnull, *own]
        which = f"{hashlib.sha256(pathlib.Path(self.rows).read_bytes()).hexdigest()} {self.status.st_size} {self.status.st_mtime_ns}"
        return os.fsencode(f"#!/bin/sh\n# {which}\nexec {shlex.join(task)} ${{1-$SLURM_ARRAY_TASK_ID}}\n")

    def path(self, number):
        return f"{self.folder}/piece-{number:06}"

    def decode(self, number):
        """Decodes a piece. The file with its records has its name when it is complete."""
        start, stop, part = *self.cuts[number : number + 2], f"{self.path(number)}.{os.getpid()}"
        words = [*self.chosen.call, "--piece", f"{start}..{stop}", *["--last"] * (stop == self.total), self.rows, "-", part]
        with open(self.symbols, "rb") as symbols:
            received(f"piece {number}, symbols {start} to {stop}", words, symbols, SYMBOL * start)
            if os.fstat(symbols.fileno()).st_mtime_ns != self.status.st_mtime_ns:
                raise Fault(f"{self.symbols} has changed since this began")
        os.rename(part, self.path(number))

    def missing(self):
        # over a network a list is more recent than a single name
        there = {*os.listdir(self.folder)}
        return [it for it in range(len(self.cuts) - 1) if os.path.basename(self.path(it)) not in there]

    def schedule(self):
        """Decodes the missing pieces, or has GNU parallel or an array job of Slurm decode them."""
        chosen, plan, log, numbers = self.chosen, f"{self.folder}/plan", f"{self.folder}/log", [*map(str, self.missing())]
        if not self.is_away:
            return [*ThreadPoolExecutor(self.jobs).map(self.decode, self.missing())]
        words = ["parallel", "--will-cite", "--sshloginfile", chosen.hosts, f"--jobs={chosen.jobs or '100%'}", "sh", plan, ":::", *numbers]
        if chosen.slurm:
            array = f"--array={','.join(numbers)}%{chosen.jobs or MOST_AWAY}"
            words = ["sbatch", "--wait", f"--job-name=pieces-{os.getpid()}", f"--output={log}-%a", array, plan]
        with open(log, "wb") as file:
            numbers and subprocess.run(words, stdin=subprocess.DEVNULL, stdout=file, stderr=file, preexec_fn=tied, check=False)
        if missing := self.missing():
            raise Fault(f"piece {missing[0]}{f' and {len(missing) - 1} more' * (len(missing) > 1)} failed: see {log}*")

    def records(self):
        """The files with the records in order. One that is read is removed, unless the folder is kept."""
        scheduling = ThreadPoolExecutor(1).submit(self.schedule)
        for number in range(len(self.cuts) - 1):
            while not os.path.exists(self.path(number)):
                scheduling.done() and scheduling.result()
                time.sleep(0.01)
            with open(self.path(number), "rb") as file:
                yield file, 0
            self.chosen.work or os.remove(self.path(number))

    def enter(self, outputs):
        """Makes the work folder, or finds one of the same call."""
        there, plan = os.listdir(self.folder) if os.path.exists(self.folder) else [], pathlib.Path(self.folder, "plan")
        if others := [it for it in there if "plan" not in there or not OWN.fullmatch(it)]:
            raise Fault(f"{self.folder} is not a work folder: it contains {min(others)}")
        if there and not self.chosen.resume:
            raise Fault(f"{self.folder} is not empty: --resume continues with its pieces")
        if there and plan.read_bytes() != self.plan():
            raise Fault(f"{self.folder} has the pieces of another call")
        for it in outputs:
            if OWN.fullmatch(os.path.relpath(os.path.realpath(it), self.folder).split(os.sep)[0]):
                raise Fault(f"{it} is the name of a file in a work folder")
        os.makedirs(self.folder, exist_ok=True)
        plan.write_bytes(self.plan())


def pieces(text):
    """The exit status of tools/pieces."""
    chosen = line_of("pieces", text, 3, PIECES)
    rows, symbols, packets = chosen.files
    if chosen.task is not None:
        return Work(chosen, chosen.work).decode(chosen.task) or 0
    outputs, is_away = outputs_of(chosen, [rows, symbols], chosen.files), chosen.hosts or chosen.slurm
    place = None if outputs[-1].part() == packets else os.path.dirname(os.path.realpath(packets))
    chosen.work = chosen.work or (f"{packets}.pieces" if is_away and place else None)
    if (is_away or chosen.resume) and not chosen.work:
        raise Fault("--hosts, --slurm and --resume need --work")
    work = Work(chosen, os.path.realpath(chosen.work) if chosen.work else tempfile.mkdtemp(prefix=".pieces-", dir=place))
    chosen.work and work.enter(outputs)
    try:
        words = [chosen.s2, "stitch", *chosen.words, rows, symbols, "-", outputs[-1]]
        code = stitched(words, outputs, work.records(), *[work.folder] * (not chosen.work))
    except KeyboardInterrupt:
        print(f"pieces: interrupted{f'; --resume continues with the pieces in {work.folder}' * bool(chosen.work)}", file=sys.stderr)
        raise
    finally:
        chosen.slurm and subprocess.run(["scancel", f"--name=pieces-{os.getpid()}"], check=False)
    if chosen.work and code != 1:
        # the plan last, so that --resume can continue after an interrupt
        for name in sorted(filter(OWN.fullmatch, os.listdir(work.folder)), key=lambda it: (it == "plan", it)):
            os.remove(f"{work.folder}/{name}")
        with contextlib.suppress(OSError):
            os.rmdir(work.folder)
    return code


def groups(chosen, wake):
    """Standard input in groups, up to its end or a byte in a pipe. Of each: its first symbol, the one after its last, a file in memory with them, and
    the number of its bytes that the group before has too. The frame of these symbols may be cut there."""
    length, noted = SYMBOL * FRAME * (chosen.frames or GROUP), float("inf") if "--quiet" in chosen.words else 0
    start, size, shared, due, piece, file = 0, 0, 0, 0.0, None, open(os.memfd_create("group"), "w+b", 0)
    while piece != b"":
        has_more, piece = size > shared, None
        if found := select.select([0, wake], [], [], max(0, min(PAUSE, due - time.monotonic())) if has_more else LONG)[0]:
            piece = b"" if wake in found else os.read(0, min(1 << 18, shared + length - size))
            due = due if has_more else time.monotonic() + chosen.seconds
            size += file.write(piece)
        stop = start + size // SYMBOL
        if size > shared and (not piece or size == shared + length or time.monotonic() >= due):
            yield start, stop, file, shared
            at = SYMBOL * (max(start, stop - OVER) - start)
            rest, file = os.pread(file.fileno(), size - at, at), open(os.memfd_create("group"), "w+b", 0)
            start, size = start + at // SYMBOL, (shared := file.write(rest))
        elif not found and noted < stop:
            noted = stop
            os.write(2, f"live: note: no symbols after {stop}\n".encode())


def decoded(chosen, rows, wake, pipe, copy, waiting):
    """The records of the groups, after their symbols. `s2 stitch` reads none before it finds a frame: of those of no frame that wait, the last one stays."""
    pool, last = ThreadPoolExecutor(jobs := chosen.jobs or len(os.sched_getaffinity(0))), None

    def decode(start, stop, symbols, shared):
        records = open(os.memfd_create("records"), "w+b", 0)
        words = [*chosen.call, "--piece", f"{start}..{stop}", rows, "-", f"/dev/fd/{records.fileno()}"]
        report = received(f"symbols {start} to {stop}", words, symbols, 0, [records.fileno()])
        return report.split()[-1] != b"0", records, (symbols, shared)

    for group in ahead((pool.submit(decode, *it) for it in groups(chosen, wake)), queue.Queue(jobs)):
        has_frames, records, symbols = group.result()
        copy.write(os.pread(symbols[0].fileno(), 1 << 30, symbols[1]))
        pipe.put(symbols)
        with waiting.mutex, contextlib.suppress(ValueError):
            has_frames or waiting.queue.remove(last)
        yield (records, 0) if has_frames else (last := (records, 0))
    pipe.put(None)


def live(text):
    """The exit status of tools/live."""
    chosen = line_of("live", text, 1, LIVE)
    (rows,), (wake, waker), pipe = chosen.files, os.pipe2(os.O_NONBLOCK | os.O_CLOEXEC), queue.Queue(2)
    copy = open(os.memfd_create("copy", 0), "w+b", 0)
    outputs = outputs_of(chosen, [rows], [rows, "-", "-"])
    signal.set_wakeup_fd(waker)
    for it in (signal.SIGTERM, signal.SIGINT):
        # one that is ignored, as SIGINT is in the background of a shell, stays so; a second SIGINT ends the tool
        if signal.getsignal(it) != signal.SIG_IGN:
            signal.signal(it, lambda number, _: number == signal.SIGINT and signal.signal(number, signal.default_int_handler))
    end, into = os.pipe()
    os.set_inheritable(end, True)
    ThreadPoolExecutor(1).submit(pour, iter(pipe.get, None), open(into, "wb"), copy)
    words = [chosen.s2, "stitch", *chosen.words, "--again", f"/dev/fd/{copy.fileno()}", rows, f"/dev/fd/{end}", "-", "-"]
    code = stitched(words, outputs, ahead(decoded(chosen, rows, wake, pipe, copy, waiting := queue.Queue()), waiting))
    return 128 + os.read(wake, 1)[0] if code != 1 and select.select([wake], [], [], 0)[0] else code


def ending_of(name, main):
    """The exit of a tool. An interrupt ends it in order."""
    signal.signal(signal.SIGTERM, signal.default_int_handler)
    try:
        return main()
    except (Fault, OSError) as fault:
        what = f"{fault.filename}: {fault.strerror}" if getattr(fault, "filename", None) else fault
        print(f"{name}: {what}", file=sys.stderr)
        return 1
    except KeyboardInterrupt:
        return 130
