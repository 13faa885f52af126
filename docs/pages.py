"""The pages and the comments as text: what docs/clauses, docs/define and docs/prose read, and the tests of links."""
import re

BREAK = re.compile(r"\s*$|\s*(?:[-*]|\d+\.)\s|#|\||\s*```|!\[")


def paragraphs(lines):
    """(number of its first line, its text) of each paragraph, heading, list item and row of a table. Code blocks are left out."""
    number, text, fenced = 0, "", False
    for at, line in enumerate([*lines, ""], 1):
        is_fence = line.strip().startswith("```")
        is_code = fenced or is_fence or line.startswith("    ") and not text
        if text and (is_code or BREAK.match(line) or text.startswith(("#", "|"))):
            yield number, text
            text = ""
        fenced ^= is_fence
        if not is_code and line.strip() and not line.startswith("!["):
            number, text = (number, f"{text} {line.strip()}") if text else (at, line.strip())


def anchor_of(heading):
    """The name of a heading in a link."""
    return re.sub(r"[^\w\- ]", "", heading.lower()).replace(" ", "-")


def anchors(text):
    """The names of all headings of a page."""
    return [anchor_of(heading) for heading in re.findall(r"^#+ (.*)", text, re.M)]


def links(text):
    """(file, name of a heading) of each link of a page to another file, or to itself; either may be empty."""
    return [tuple(it.partition("#")[::2]) for it in re.findall(r"\]\(([^)\s]+)\)", text) if "://" not in it]
