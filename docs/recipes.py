"""The files, crates and names that the pages on working with the code name: what docs/clauses looks up there."""
import functools
import os
import re

from contracts import CODE_LETTERS, NAME, ROOT
from pages import paragraphs
from words import commands, identifiers, text_at

PAGES = ("docs/working.md", "docs/architecture.md")
# The folder of the toolchain's output, whose files need not exist.
MADE = "out"
PATH = re.compile(r"(?:[\w.*-]+/)+[\w.*-]*|[\w*-]+\.(?:rt|antt|py|md|edit|svg|txt|json|c)")
CRATE = re.compile(r"s2_[a-z_]+")
IDENTIFIER = re.compile(r"[^\W\d]\w*(?:::\w+)*")
RECIPE = re.compile(r"(?:- )?\*\*")
# The folders in which a path may begin.
FOLDERS = ("", "crates/", "tests/cases/")
# The texts for any name, and for any folders.
ANY = {"NAME": "[^/]*", "*": "[^/]*", "...": ".*"}
ANY_OF = re.compile(r"\bNAME\b|\*|\.\.\.")


@functools.cache
def paths():
    """The last part of each file and folder of the tree -> their paths."""
    found = {}
    for folder, folders, files in os.walk(ROOT):
        folders[:] = [it for it in folders if it not in (MADE, ".git", "__pycache__")]
        for name in folders + files:
            found.setdefault(name, []).append(os.path.relpath(os.path.join(folder, name), ROOT))
    return found


def ends_so(name):
    """The paths that end with a name -> the part before it."""
    parts, places = ANY_OF.split(name), [ANY[it] for it in ANY_OF.findall(name)]
    pattern = re.compile("(|.*/)" + "".join(re.escape(part) + place for part, place in zip(parts, [*places, ""])))
    last = name.rpartition("/")[2]
    names = paths() if ANY_OF.search(last) else [last]
    ends = ((path, pattern.fullmatch(path)) for it in names for path in paths().get(it, ()))
    return {path: end[1] for path, end in ends if end}


def crates_of(text):
    """The crates that the code letters of a text name, also within a path."""
    return {part for word in CODE_LETTERS.findall(text) for part in word.split("/") if CRATE.fullmatch(part)}


def found(word, crates):
    """The files and folders that a word names: from the top, from one of a few folders, or within one of these crates, within any if there is
    none."""
    begins = ends_so(word.split(" ")[0].removeprefix("./").rstrip("/"))
    whole = [path for path, begin in begins.items() if begin in FOLDERS]
    return whole or [path for path in begins if path.startswith("crates/") and (not crates or path.split("/")[1] in crates)]


def blocks(text):
    """The paragraphs of each section or recipe of a page, each with the number of its first line."""
    block = []
    for number, part in paragraphs(text.splitlines()):
        if part.startswith("#") or RECIPE.match(part):
            yield block
            block = []
        block.append((number, part))
    yield block


def is_path(word):
    return PATH.fullmatch(word.split(" ")[0]) is not None and word.strip("/") != MADE


def has_name(path, name):
    """Whether a file, or one in a folder, has a name; one that ends with _ may go on."""
    end = "" if name.endswith("_") else r"\b"
    files = [path] if (ROOT / path).is_file() else [str(it.relative_to(ROOT)) for it in (ROOT / path).rglob("*") if it.is_file()]
    return any(re.search(rf"\b{re.escape(name)}{end}", text_at(it)) for it in files)


def wrong_names(cells, crates):
    """The names of a row of a table that are missing: beside a file they have to be in it, beside a crate in its code."""
    first, last, crate = CODE_LETTERS.findall(cells[0]), CODE_LETTERS.findall(cells[-1]), None
    files = [path for word in first if is_path(word) for path in found(word, crates)]
    for word in last:
        names = NAME.findall(word) if IDENTIFIER.fullmatch(word) and word not in commands() else []
        if (ROOT / "crates" / word).is_dir():
            crate = word
        elif files:
            yield from (f"{name} is not in {' or '.join(files)}" for name in names if not any(has_name(path, name) for path in files))
        elif crate:
            yield from (f"{crate} has nothing called {name}" for name in names if name not in identifiers(crate))


def wrong_in(part, crates, of_files):
    """The errors in a paragraph, an item or a row of a table."""
    words = CODE_LETTERS.findall(part)
    named = [word for word in words if is_path(word)]
    yield from (f"there is no file {word}" for word in named if not found(word, crates_of(part) or crates))
    yield from (f"there is no crate {it}" for it in crates_of(part) if not (ROOT / "crates" / it).is_dir())
    if RECIPE.match(part) and part.startswith("-") and not named and not crates_of(part):
        yield "this step names no file"
    if part.startswith("|"):
        cells = part.strip("|").split("|")
        if of_files and not any(is_path(it) for it in CODE_LETTERS.findall(cells[0])):
            yield "this step names no file"
        yield from wrong_names(cells, crates_of(part) or crates)


def wrong_of(name, text):
    """A line for each file, crate and name of a page that is not there."""
    for block in blocks(text):
        crates, of_files, is_table = set().union(*(crates_of(part) for _, part in block)), False, False
        for number, part in block:
            if not part.startswith("|"):
                is_table = False
            elif not is_table:
                is_table, of_files = True, part.strip("| ").startswith("File |")
                continue
            elif set(part) <= set("|- "):
                continue
            yield from (f"{name} line {number}: {it}" for it in wrong_in(part, crates, of_files))


def wrong_pages():
    """The same of all pages."""
    return [line for name in PAGES for line in wrong_of(name, text_at(name))]
