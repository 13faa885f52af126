"""What a word in code letters may name beside a call and a clause: what docs/clauses looks up."""
import functools
import re

from contracts import COMMENT, NAME, ROOT, sources, text_of

DEFINED = re.compile(r"\bpub (?:record |data )?([^\W\d]\w*)")
LITERAL = re.compile(r'"((?:\\.|[^"\\])*)"')
COMMAND = re.compile(r'^ +(\w+)\) words="([^"]*)"', re.M)


@functools.cache
def text_at(path):
    """The text of a file, empty if it is not there."""
    return (ROOT / path).read_text(encoding="utf-8") if (ROOT / path).is_file() else ""


@functools.cache
def definitions():
    """The names that specs/ of all crates define."""
    texts = (path.read_text(encoding="utf-8") for path in (ROOT / "crates").glob("*/specs/**/*.antt"))
    return {name for text in texts for name in DEFINED.findall(text)}


@functools.cache
def commands():
    """Each command of the program -> its options, as docs/s2.bash has them."""
    return {name: words.split() for name, words in COMMAND.findall(text_at("docs/s2.bash"))}


@functools.cache
def ported():
    """The crates of the kit that crates.txt names."""
    lines = (line.partition(":") for line in text_at("crates.txt").splitlines() if not line.startswith("#"))
    return {name for _, _, names in lines for name in names.split()}


@functools.cache
def identifiers(crate):
    """The identifiers of a crate's code, or of all code if there is no crate."""
    return {name for path in sources(ROOT / "crates" / (crate or "")) for name in NAME.findall(text_of(path))}


@functools.cache
def literals():
    """The texts in the code of all crates."""
    texts = (COMMENT.sub("", path.read_text(encoding="utf-8")) for path in sources(ROOT / "crates"))
    return {found.strip() for text in texts for found in LITERAL.findall(text)}


@functools.cache
def is_printed(word):
    """Whether a text in the code begins with this word."""
    begins = re.compile(rf"{re.escape(word)}(?![\w-])")
    return any(begins.match(text) for text in literals())


def has_option(text, option):
    return re.search(rf"(?<![\w-]){re.escape(option)}(?![\w-])", text) is not None


def is_file(path, options):
    """Whether a file or a folder is there, and names these options."""
    return (ROOT / path).exists() and all(has_option(text_at(path), option) for option in options)


def is_command(name, options):
    """Whether the program has this command with these options, or an option of this name."""
    if name.startswith("--"):
        return not options and any(name in words for words in commands().values())
    return name in commands() and all(option in commands()[name] for option in options)


def is_named(word, crate):
    """Whether this is a file, a command, a definition, a word that the program prints, a crate of the kit, or a type or variant that the
    crate's code names."""
    name, *options = word.split() or [""]
    if re.search(r"[./]", word):
        return is_file(name, options)
    is_in_code = name[:1].isupper() and name in identifiers(crate)
    return is_command(name, options) or is_printed(word) or not options and (is_in_code or name in definitions() | ported())
