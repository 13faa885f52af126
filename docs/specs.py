"""The definitions of the crates in the files of specs/, for docs/define."""
import re
from typing import NamedTuple

from citations import named
from contracts import NAME, ROOT

CLAUSE = re.compile(r" ?\((?:this project's )?(own|EN 302 307-1, [^()]*)\b[^()]*\)")
DEFINITION = re.compile(r"( {0,4})(?:(?:abbrev|unfoldable) pub|pub (?:record|data)) ([^\W\d]\S*)|()pub (?!use |mod )([^\W\d]\S*) :")
FIELD = re.compile(r" +(?:pub )?([^\W\d]\w*) :")
COMMENT = re.compile(r"( *)-- ?(.*)")
MARK = "---- "
MAX_EQUATION = 90


class Definition(NamedTuple):
    """A definition: its name, the comment above it, (name, comment) of each field that has one, and its text."""

    name: str
    comment: str
    fields: list
    text: str

    def value(self):
        """The value of a number without arguments, if it is on one line."""
        found = re.search(rf"^\w* ?pub {re.escape(self.name)} : [ℕℤ]\n{re.escape(self.name)} = (.*)", self.text)
        return found and found[1]

    def equations(self):
        """Its equations in one line, or None if it has none or they are longer than a page shows."""
        lines = [line.strip() for line in self.text.split("\n")[1:] if line.strip() and not COMMENT.fullmatch(line)]
        begins = [at for at, line in enumerate(lines) if line.startswith(f"{self.name} ")]
        joined_lines = [" ".join(lines[at:end]) for at, end in zip(begins, [*begins[1:], len(lines)])]
        said = "; ".join(joined_lines)
        return said if 0 < len(said) <= MAX_EQUATION else None


class File(NamedTuple):
    """A file of specs/: its crate, its module, its head without the clause, that clause, its definitions and its text."""

    crate: str
    module: str
    head: str
    clause: str
    definitions: list
    text: str


def crates():
    """The crates, lowest first."""
    lines = (ROOT / "crates.txt").read_text(encoding="utf-8").splitlines()
    return [line.split(":")[0] for line in lines if line and not line.startswith("#")]


def joined(comments):
    """The comments in one line, without the marks between parts of a file."""
    return " ".join(line.strip() for line in comments if not line.startswith(MARK))


def head_of(lines):
    """How many lines a file's head has, what it says without the clause, and the clause: None if it names none."""
    end = next((at for at, line in enumerate(lines) if not line.startswith("--")), len(lines))
    text = joined(COMMENT.match(line)[2] for line in lines[:end])
    clause = CLAUSE.search(text)
    return end, CLAUSE.sub("", text, count=1), clause and clause[1].removeprefix("EN 302 307-1, ")


def fields_of(block):
    """(name, comment) of each field or rule of a record that has a comment."""
    above, found = [], []
    for line in block:
        comment, field = COMMENT.fullmatch(line), FIELD.match(line)
        if field and not comment:
            found.append((field[1], joined(above)))
        above = above + [comment[2]] if comment else []
    return [it for it in found if it[1]]


def end_of(lines, at, indent):
    """The line at which the definition ends that begins at another: before the next one, a module, or a comment of its depth."""
    for later in range(at + 1, len(lines)):
        comment = COMMENT.fullmatch(lines[later])
        is_head = DEFINITION.match(lines[later]) or lines[later].lstrip().startswith("module ")
        if is_head or comment and len(comment[1]) <= indent:
            return later
    return len(lines)


def definitions_of(lines):
    """The definitions of a file's lines, in order."""
    found, above, at = [], [], 0
    while at < len(lines):
        comment, definition = COMMENT.fullmatch(lines[at]), DEFINITION.match(lines[at])
        end = end_of(lines, at, len(definition[1] or "")) if definition else at + 1
        if definition:
            block = lines[at:end]
            found.append(Definition(definition[2] or definition[4], joined(above), fields_of(block[1:]), "\n".join(block)))
        above = above + [comment[2]] if comment else []
        at = end
    return found


def files():
    """The files of specs/ of all crates, the lowest crate first, and in each as its Lib.antt has them."""
    for crate in crates():
        folder = ROOT / "crates" / crate / "specs"
        lib = (folder / "Lib.antt").read_text(encoding="utf-8") if folder.exists() else ""
        for module in re.findall(r"^pub mod (\w+)$", lib, re.M):
            text = (folder / f"{module}.antt").read_text(encoding="utf-8")
            lines = text.split("\n")
            end, head, clause = head_of(lines)
            yield File(crate, module, head, clause, definitions_of(lines[end:]), text)


def rests_on(file, definition):
    """The definitions that a definition names: (crate, module, name)."""
    words = set(NAME.findall(definition.text))
    yield from ((file.crate, file.module, it.name) for it in file.definitions if it.name in words and it is not definition)
    yield from named(file.text, definition.text, r"\buse ")
