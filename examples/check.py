#!/usr/bin/env python3
"""Checks certificates without the modem and without any of its code.

    examples/check.py ROWS CERTIFICATE
    examples/check.py --each ROWS CERTIFICATES

It prints what `s2 check` prints. With --each it reads certificates one after another, and prints a line for each as it comes.
A file may be -, standard input. docs/certificates.md explains what a certificate proves, and docs/formats.md has both file formats.

The exit status is 0 if all certificates are accepted, 2 if one is not, and 1 if a file cannot be read, with a sentence on standard error.

Why an accepted certificate is a proof: changing a bit of the word adds its value, in favour of the word, to the cost. The scale
times this value is the bit's rest plus its shares. Another codeword changes an even number of bits in each check, and no two shares
of a check sum to less than 0. So it costs more by at least the rests of the bits that it changes, divided by the scale."""
import os
import re
import struct
import sys

# The values that each number of the files may have (docs/formats.md).
RANGES = {
    "bytes of a row file": range(2**24 + 1),
    "addresses of a row": range(1, 25),
    "group": range(1, 361),
    "groups": range(1, 2**16),
    "q": range(1, 2**16),
    "bits": range(64_801),
    "scale": range(1, 4097),
    "entries": range(1_555_201),
    "soft value": range(-511, 512),
    "padding bit": range(1),
    "amount": range(2**31),
}
# Of each version the numbers after its byte, and those of an entry of its split: a share, or the place and the amount of a move.
VERSIONS = {1: (">4HI", ">i"), 2: (">4H", ">HI")}


class Refused(Exception):
    """A file that cannot be read, or an output that cannot be written."""


# The check is the next three functions, thirty lines. All others read files.
def members_of(rows, group, groups, q):
    """The bits of each check, rising."""
    k, count = group * groups, group * q
    members = [[] for _ in range(count)]
    for i in range(k):
        for address in rows[i // group]:
            members[(address + i % group * q) % count].append(i)
    return [bits + [*range(max(k, k + j - 1), k + j + 1)] for j, bits in enumerate(members)]


def shares_of(members, word, version, split):
    """What each check takes from each of its bits, in favour of the word; None if the split is not of these checks."""
    if version == 2:
        fits = all(place < len(bits) for bits, (place, _) in zip(members, split))
        shares = [[-amount if at == place else amount for at in range(len(bits))] for bits, (place, amount) in zip(members, split)]
    else:
        fits, left = len(split) == sum(map(len, members)), iter(split)
        shares = [[-share if word[i] else share for i, (share,) in zip(bits, left)] for bits in members]
    return shares if fits else None


def checked(members, scale, soft, word, shares):
    """What a certificate proves: a line in the words of `s2 check`."""
    for j, bits in enumerate(members):
        if sum(word[i] for i in bits) % 2:
            return f"no check {j}"
    rests = [scale * (-value if bit else value) for value, bit in zip(soft, word)]
    for bits, own in zip(members, shares):
        for i, share in zip(bits, own):
            rests[i] -= share
    if min(rests) < 0 or any(sum(sorted(own)[:2]) < 0 for own in shares if len(own) > 1):
        return "no bound"
    cost = sum(value for value, bit in zip(soft, word) if bit)
    return f"{'sole' if min(rests) > 0 else 'yes'} cost {cost}"


def are_in(name, *values):
    return all(value in RANGES[name] for value in values)


def rows_of(text, group, groups, q):
    """The rows of a row file: for each group of bits its addresses, all below the count of checks, none twice."""
    rows = []
    for number, line in enumerate(text.split(b"\n"), 1):
        words = re.findall(rb"[^ \t\r]+", line)
        if words and not words[0].startswith(b"#"):
            row = [int(found[1]) for word in words if (found := re.fullmatch(rb"0*([0-9]{1,5})", word))]
            if len(row) < len(words) or not are_in("addresses of a row", len(row)) or len(set(row)) < len(row) or max(row) >= group * q:
                raise Refused(f"rows: line {number} is no row of addresses")
            rows.append(row)
    if len(rows) != groups or not are_in("bytes of a row file", len(text)):
        raise Refused(f"rows: there are not {groups} rows")
    return rows


def next_bytes(file, size):
    """The next bytes of a certificate."""
    found = file.read(size)
    if len(found) < size:
        raise Refused("certificate: cut")
    return found


def read_head(file, front):
    """Version, shape, scale and number of entries of the certificate that begins with these bytes, five if it is whole."""
    if not any((b"S2ML%c" % version).startswith(front) for version in VERSIONS):
        raise Refused("certificate: magic")
    if len(front) < 5:
        raise Refused("certificate: cut")
    numbers = VERSIONS[front[4]][0]
    group, groups, q, scale, *entries = struct.unpack(numbers, next_bytes(file, struct.calcsize(numbers)))
    if not (are_in("group", group) and are_in("groups", groups) and are_in("q", q) and are_in("bits", group * (groups + q))):
        raise Refused("certificate: shape")
    # without their number there is one for each check
    [entries] = entries or [group * q]
    if not (are_in("scale", scale) and are_in("entries", entries)):
        raise Refused("certificate: range")
    return front[4], (group, groups, q), scale, entries


def read_body(file, version, shape, entries, is_last):
    """Soft values, word and split of a certificate. After the last one the file must end."""
    group, groups, q = shape
    n, entry = group * (groups + q), VERSIONS[version][1]
    soft = struct.unpack(f">{n}h", next_bytes(file, 2 * n))
    bits = [byte >> place & 1 for byte in next_bytes(file, (n + 7) // 8) for place in range(7, -1, -1)]
    split = [*struct.iter_unpack(entry, next_bytes(file, entries * struct.calcsize(entry)))]
    if is_last and file.read(1):
        raise Refused("certificate: extra: several certificates need --each")
    moves = [move for move in split if move[1:]]
    are_moves = are_in("amount", *(amount for _, amount in moves)) and all(amount or not place for place, amount in moves)
    if not (are_in("soft value", *soft) and are_in("padding bit", *bits[n:]) and are_moves):
        raise Refused("certificate: range")
    return soft, bits[:n], split


def answers(text, file, each):
    """The line for each certificate of a file, as they come. The rows are those of the first one's shape."""
    known, front = None, file.read(5)
    while front or not each:
        version, shape, scale, entries = read_head(file, front)
        soft, word, split = read_body(file, version, shape, entries, not each)
        if known is None:
            known, members = shape, members_of(rows_of(text, *shape), *shape)
        shares = shares_of(members, word, version, split) if shape == known else None
        yield "no shape" if shares is None else checked(members, scale, soft, word, shares)
        if not each:
            return
        front = file.read(5)


def opened(name):
    """A file, or standard input."""
    try:
        return open(0 if name == "-" else name, "rb", closefd=name != "-")
    except OSError as fault:
        raise Refused(f"cannot open {name}: {fault.strerror}") from None


def written(line):
    """Writes a line without a buffer, so that no write can fail later."""
    try:
        os.write(1, f"{line}\n".encode())
    except OSError:
        raise Refused("cannot write") from None


def check_files(rows, certificates, each):
    """Writes a line for each certificate, and returns whether all are accepted."""
    is_accepted = True
    with opened(rows) as file:
        text = file.read(RANGES["bytes of a row file"].stop)
    with opened(certificates) as file:
        for line in answers(text, file, each):
            written(line)
            is_accepted &= not line.startswith("no")
    return is_accepted


def main(words):
    if words in (["-h"], ["--help"]):
        print(__doc__)
        return 0
    try:
        each = words[:1] == ["--each"]
        if len(words) != 2 + each:
            raise Refused("it takes [--each] ROWS CERTIFICATE")
        return 0 if check_files(*words[-2:], each) else 2
    except (Refused, OSError) as fault:
        print(f"check.py: {'cannot read' if isinstance(fault, OSError) else fault}", file=sys.stderr)
        return 1


if __name__ == "__main__":
    sys.exit(main(sys.argv[1:]))
