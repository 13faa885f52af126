"""The functions of the crates and their clauses in the sources, for docs/define and docs/clauses."""
import pathlib
import re
from typing import NamedTuple

ROOT = pathlib.Path(__file__).resolve().parent.parent
CODE_LETTERS = re.compile(r"`([^`]*)`")
NAME = re.compile(r"[^\W\d]\w*")
COMMENT = re.compile(r"//[^\n]*")
LITERAL = re.compile(r'"(?:\\.|[^"\\])*"|\'(?:\\.|[^\'\\])\'')
CLAUSE = re.compile(r"\b(?:(requires|ensures)\*?(?:\s+(\w+))?|ghost\s+\w+\s*[:=])\s*$")
ITEM = re.compile(r"\b(?:(pub\s+)?fn\s+(\w+)|(impl|pub\s+trait)\b)")
GHOST = re.compile(r"\bghost\s+(\w+)\s*[:=]\s*(?={)")


class Clause(NamedTuple):
    """`requires`, `ensures` or `ghost`, its name, what it says, and where it begins and ends in its text."""

    kind: str
    name: str
    said: str
    begin: int
    end: int


def closing(text, at):
    """The place after the brace that closes the one at `at`."""
    depth = 0
    for place in range(at, len(text)):
        depth += {"{": 1, "}": -1}.get(text[place], 0)
        if depth == 0:
            return place + 1
    return len(text)


def head_and_body(text, at):
    """An item's clauses, the beginning and the end of its body, and the place after both."""
    clauses, parens = [], 0
    while at < len(text):
        c = text[at]
        parens += {"(": 1, "[": 1, ")": -1, "]": -1}.get(c, 0)
        if c == ";" and parens == 0:
            return clauses, (at, at), at + 1
        if c == "{":
            end = closing(text, at)
            begin = max(0, at - 80)
            clause = CLAUSE.search(text[begin:at])
            if not clause:
                return clauses, (at + 1, end - 1), end
            clauses.append(Clause(clause[1] or "ghost", clause[2], text[at + 1:end - 1], begin + clause.start(), end))
            at = end
        else:
            at += 1
    return clauses, (at, at), at


def without_generics(head):
    """A head without the parts between < and >."""
    head = head.replace("->", "")
    while re.search(r"<[^<>]*>", head):
        head = re.sub(r"<[^<>]*>", "", head)
    return head


def owner_of(head):
    """The type of `Type` or `Trait for Type`, or the trait, also if the type is a tuple."""
    trait, _, type_name = head.split(" where")[0].rpartition(" for ")
    names = [] if type_name.startswith("(") else NAME.findall(type_name.split(":")[0])
    return (names or NAME.findall(trait))[-1]


def functions(text, owner=None, of_trait=False, within=None):
    """Each function of a text, and each model: its owner's name, its own, whether callers see it, its clauses. `within` is the part
    of the text that is looked through, if not all."""
    at, end = within or (0, len(text))
    while found := ITEM.search(text, at, end):
        clauses, body, at = head_and_body(text, found.end())
        if found[2]:
            yield owner, found[2], bool(found[1]) or of_trait, clauses
            continue
        head = without_generics(text[found.end():text.index("{", found.end())]).strip()
        is_trait = found[3] != "impl" or " for " in head
        if is_trait:
            yield owner_of(head), "model", True, values(text, body)
        if not head.startswith("Model "):
            yield from functions(text, owner_of(head), is_trait, body)


def values(text, body):
    """What a model or a trait says of values."""
    found = ((m, closing(text, m.end())) for m in GHOST.finditer(text, *body))
    return [Clause("ghost", m[1], text[m.end():end], m.start(), end) for m, end in found]


def file_of(folder, module):
    """The file of a module in a folder, if it is there."""
    for path in (folder / (module + ".rt"), folder / module / "mod.rt"):
        if path.exists():
            return path


def exports(path, folder):
    """(file, name) of all that a module file exports; name None where it is the file itself."""
    text = COMMENT.sub("", path.read_text(encoding="utf-8"))
    for module in re.findall(r"\bpub mod (\w+);", text):
        inner = file_of(folder, module)
        yield inner, None
        yield from exports(inner, folder / module)
    for use in re.findall(r"\bpub use ([^;]*);", text):
        module, _, names = use.partition("::")
        inner = file_of(folder, module.strip())
        if inner is None:
            continue
        for name in NAME.findall(names):
            yield inner, name
            yield from ((f, n) for f, n in exports(inner, folder / module) if n == name)


def sources(folder):
    """The files of a crate but its tests."""
    return [p for p in folder.rglob("*.rt") if "test" not in str(p.relative_to(folder))]


def text_of(path):
    """A source without its comments and literals, with its lines unchanged."""
    text = COMMENT.sub("", path.read_text(encoding="utf-8"))
    return LITERAL.sub(lambda found: "\n" * found[0].count("\n"), text)


def public_calls(crate):
    """(file, its text, owner, name, clauses) of each public call of a crate. Public calls are the functions that its src/lib.rt
    exports, the methods of the types and traits that it exports, and the contents of its public modules (`laws`). The program exports
    nothing: its public calls are the public functions of its modules."""
    folder = crate / "src"
    if (folder / "lib.rt").exists():
        wanted = set(exports(folder / "lib.rt", folder))
        files = {path for path, _ in wanted}
    else:
        files = {p for p in sources(folder) if p.stem != "main"}
        wanted = {(path, None) for path in files}
    names = {name for _, name in wanted}
    for path in sorted(files | set(sources(folder))):
        text = text_of(path)
        for owner, name, is_seen, clauses in functions(text):
            if is_seen and ((path, None) in wanted or (path, name) in wanted or owner in names - {None}):
                yield path, text, owner, name, clauses
