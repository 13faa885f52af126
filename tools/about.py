"""The record that `s2 demod --about` writes of a reception, at the head of what a tool prints."""
import hashlib
import json
import os

# What the record has of a file: the end of a key, and the file's number or digest by its bytes.
DIGEST, LENGTH = "_sha256", "_bytes"


class Fault(Exception):
    """Why a record is refused, in one line."""


def record_in(name):
    """The record in a file: a JSON object of texts, numbers and truth values."""
    with open(name, "rb") as file:
        try:
            found = json.load(file)
        except ValueError as fault:
            raise Fault(f"{name}: {fault}") from None
    if not isinstance(found, dict) or any(isinstance(it, (list, dict)) for it in found.values()) or "command" not in found:
        raise Fault(f"{name} is not a record of s2 --about")
    return found


def compare(name, found, what, path):
    """Refuses the record if it is of another file. A pipe is not read twice, so it is not compared."""
    if not os.path.isfile(path):
        return
    with open(path, "rb") as file:
        digest = hashlib.file_digest(file, "sha256").hexdigest()
    if found.get(what + DIGEST, digest) != digest or found.get(what + LENGTH, os.path.getsize(path)) != os.path.getsize(path):
        raise Fault(f"{name} is the record of another file than {path}")


def head(found, form):
    """The lines of a record: a JSON object of one line, comments of CSV, or words."""
    if form == "json":
        return [json.dumps({"type": "about", **found})]
    mark = "# " if form == "csv" else ""
    return [f"{mark}{key} {json.dumps(it).strip(chr(34))}" for key, it in found.items()]
