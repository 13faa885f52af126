"""The program s2 that a tool starts: the one of --s2, else that of S2 in the environment, else the proved one of this folder. A tool never builds it,
and looks for it after it has read its own arguments and files."""
import os
import shutil

TOP = os.path.dirname(os.path.dirname(os.path.realpath(__file__)))


class Fault(Exception):
    """Why the work cannot go on, in one line."""


def add_option(words):
    words.add_argument("--s2", metavar="PROGRAM", help="the program s2 (default: S2 in the environment, or else that of this folder)")


def usable(named, why=""):
    """The path of a program that is named: of this file, or of a command."""
    if not (path := shutil.which(os.path.abspath(named)) or shutil.which(named)):
        raise Fault(f"{named}{why} is not a program")
    return os.path.abspath(path)


def proved():
    """The proved program of this folder, for this processor. One that is older than its sources counts only if it cannot be built here."""
    # only the sources have this
    import build

    is_there, front = os.path.exists(build.PROGRAM), os.path.join(os.path.relpath(TOP), "s2")
    if build.is_new(build.PROGRAM, build.crates()) or is_there and not shutil.which(build.TOOLCHAIN):
        return build.fitting()
    what = "the proved s2 is older than its sources" if is_there else "there is no proved s2"
    other = f"{os.path.relpath(build.PROGRAM)} takes it unchanged" if is_there else f"{front} takes a trial build, some thousand times slower"
    raise Fault(f"{what}: {build.way(front)}; --s2 {other}")


def program_of(named=None):
    """The program's path. If there is none, a Fault names it and says what to do."""
    if named:
        return usable(named)
    if named := os.environ.get("S2"):
        return usable(named, ", S2 in the environment,")
    # an archive has the program, not its sources
    return proved() if os.path.exists(f"{TOP}/crates.txt") else usable(f"{TOP}/s2")
