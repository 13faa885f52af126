"""`check`."""
from cases.common import FAULT, HEAD, NO, STORED_CERTIFICATE, STORED_MOVED, WRONG_CERTIFICATE, WRONG_MOVED, Case, fault


def with_byte(at, byte):
    return WRONG_CERTIFICATE[:at] + bytes([byte]) + WRONG_CERTIFICATE[at + 1 :]


def pair(place, amount):
    """Of two bits that are to be the same, values -5 and 3, scale 2: so much is moved to the bit at a place."""
    front = bytes.fromhex("53324D4C 02 0001 0001 0001 0002 FFFB 0003 C0")
    return front + place.to_bytes(2, "big") + amount.to_bytes(4, "big")


# Moves of the pair, and the results: rests of 3 and 1, 4 and 0, 5 and -1, 1 and 3, 0 and 4, -1 and 5; places past the two bits.
PAIRS = [
    (1, 7, 0, "sole cost -2\n"),
    (1, 6, 0, "yes cost -2\n"),
    (1, 5, NO, "no bound\n"),
    (1, 9, 0, "sole cost -2\n"),
    (1, 10, 0, "yes cost -2\n"),
    (1, 11, NO, "no bound\n"),
    (0, 7, NO, "no bound\n"),
    (0, 0, NO, "no bound\n"),
    (1, 2**31 - 1, NO, "no bound\n"),
    (2, 7, NO, "no shape\n"),
    (65_535, 7, NO, "no shape\n"),
]
# Certificates under the toy rows, and the results.
ANSWERS = [
    (WRONG_CERTIFICATE, 0, "yes cost 0\n"),
    (STORED_CERTIFICATE, 0, "sole cost -45\n"),
    (WRONG_MOVED, 0, "yes cost 0\n"),
    (STORED_MOVED, 0, "sole cost -45\n"),
    (with_byte(16, 0x2E)[:244], NO, "no shape\n"),
    (with_byte(57, 0x80), NO, "no check 0\n"),
    (with_byte(67, 3), NO, "no bound\n"),
    # soft value 0, of a bit that is 1, speaks for 0, so that the word costs more than the shares prove
    (STORED_CERTIFICATE[:17] + b"\x00\x05" + STORED_CERTIFICATE[19:], NO, "no bound\n"),
    # soft value 0 is the least, and soft value 1, of a bit that is 0, the largest
    (STORED_CERTIFICATE[:17] + b"\xFE\x01\x01\xFF" + STORED_CERTIFICATE[21:], 0, "sole cost -551\n"),
]
EXTRA = "extra: several certificates need --each"
FAULTS = [
    (with_byte(0, 0x54), "magic"),
    (b"S2ML\x03", "magic"),
    (b"S2ML\x02", "cut"),
    (WRONG_MOVED + b"\x00", EXTRA),
    (b"", "cut"),
    (b"S2ML\x01", "cut"),
    # a byte a value
    (HEAD + bytes([0xFC] + 19 * [10]) + WRONG_CERTIFICATE[57:], "cut"),
    (with_byte(16, 0x2E), EXTRA),
    (WRONG_CERTIFICATE + b"\x00", EXTRA),
    (with_byte(12, 0), "range"),
    (HEAD + b"\x02\x00" + WRONG_CERTIFICATE[19:], "range"),
    (HEAD + b"\xFE\x00" + WRONG_CERTIFICATE[19:], "range"),
    (with_byte(59, 1), "range"),
    (with_byte(10, 0), "shape"),
    (with_byte(6, 0), "shape"),
]


def altered(file, *changes):
    """A file with these bytes at these places."""
    made = bytearray(file)
    for at, byte in changes:
        made[at] = byte
    return bytes(made)


# The limits: changes of the wrong bit's certificate, and the result. A scale of 4096 or 4097; 1,555,200 shares or one more; a soft
# value of 64, 511, 512, -64, -511 or -512; a padding bit.
LIMITS = [
    ([(11, 0x10), (12, 0)], "no bound\n"),
    ([(11, 0x10), (12, 1)], "range"),
    ([(14, 0x17), (15, 0xBB), (16, 0)], "cut"),
    ([(14, 0x17), (15, 0xBB), (16, 1)], "range"),
    ([(20, 0x40), (21, 0xFF), (22, 0xC0)], "no bound\n"),
    ([(21, 0x01), (22, 0xFF), (59, 0x10)], "no check 11\n"),
    ([(21, 0xFE), (22, 0x01), (59, 0x10)], "no check 11\n"),
    *(([(at, high), (at + 1, 0), (59, 0x10)], "range") for at in (17, 55) for high in (0x02, 0xFE)),
    ([(59, 0x08), (20, 0x3F), (22, 0x3F)], "range"),
]
# The same of version 2: a third version too, a place of a check that moves nothing, and a negative amount.
LIMITS_OF_MOVES = [
    ([(11, 0x10), (12, 0)], "no bound\n"),
    ([(11, 0x10), (12, 1)], "range"),
    ([(17, 0x01), (18, 0xFF)], "yes cost 0\n"),
    ([(17, 0x02), (18, 0x00)], "range"),
    ([(55, 0x10)], "no check 11\n"),
    ([(55, 0x08)], "range"),
    ([(4, 3), (12, 0)], "magic"),
    ([(62, 0x01)], "range"),
    ([(63, 0x01)], "range"),
    ([(63, 0x01), (67, 1)], "yes cost 0\n"),
    ([(61, 0x00), (57, 1)], "range"),
    ([(56, 0xFF), (57, 0xFF)], "no shape\n"),
    ([(58, 0x7F), (59, 0xFF)], "no bound\n"),
    ([(58, 0x80), (61, 0x00)], "range"),
]


def turned(file, at):
    """A file with the highest bit of a byte inverted."""
    return file[:at] + bytes([file[at] ^ 0x80]) + file[at + 1 :]


def on_turned(at, is_codeword):
    """The results for the wrong bit's certificate with a byte changed so, and for the codeword's: a fault, or a line."""
    if at in range(5):
        return "magic"
    if at in (5, 7, 9):
        return "shape"
    if at in (6, 8, 10, 15, 16):
        return "cut"
    if at in (11, 13, 14) or at in range(17, 57, 2):
        return "range"
    # another scale, and values that say more for their bits, by 128
    if is_codeword and at in [18 + 2 * bit for bit in ONES]:
        return "sole cost -173\n"
    if at in range(20, 57, 2) or is_codeword and at == 12:
        return YES[is_codeword]
    return {57: "no check 0\n", 58: "no check 0\n", 59: "no check 8\n"}.get(at, "no bound\n")


def on_turned_moves(at, is_codeword):
    """The same of version 2, which has no count of shares, and moves of six bytes from byte 56 on."""
    if at < 56:
        return on_turned(at if at < 13 else at + 4, is_codeword)
    # a place without a move, or past the members; an amount of 2^31 and more
    if at in (56, 57) and not is_codeword:
        return "no shape\n"
    return "range" if (at - 56) % 6 < 3 else "no bound\n"


# The lines for the wrong bit's certificates and for the codeword's, and the ones of the codeword.
YES, ONES = ["yes cost 0\n", "sole cost -45\n"], [0, 8, 9, 10, 11, 16, 17, 18, 19]
# With q 4 instead of 3 the rows have 55 edges, not 47.
OTHER_Q = with_byte(10, 4)[:17] + bytes(2 * 24 + 3 + 188)


def checked(certificate, code, line, rows="toy"):
    return Case(f"check {rows} out", code, line, reads={"out": certificate})


def refused(certificate, text, rows="toy"):
    return fault(f"check {rows} out", f"certificate: {text}", reads={"out": certificate})


def answered(certificate, said):
    """A case with this line, or this text of its fault."""
    if not said.endswith("\n"):
        return refused(certificate, said)
    return checked(certificate, NO if said.startswith("no") else 0, said)


# Certificates one after another: all are accepted, or the second one is not.
ACCEPTED, THREE = STORED_MOVED + WRONG_CERTIFICATE + WRONG_MOVED, "sole cost -45\nyes cost 0\nyes cost 0\n"
ODD = WRONG_MOVED[:53] + b"\x80" + WRONG_MOVED[54:]
# Files of several certificates, the exit, the lines, and the text of the fault after them.
SEVERAL = [
    (b"", 0, "", ""),
    (STORED_MOVED, 0, "sole cost -45\n", ""),
    (ODD, NO, "no check 0\n", ""),
    (ACCEPTED, 0, THREE, ""),
    # the exit is that of all lines, wherever one says no
    (ODD + ACCEPTED, NO, "no check 0\n" + THREE, ""),
    (ACCEPTED + ODD, NO, THREE + "no check 0\n", ""),
    (STORED_MOVED + ODD + WRONG_MOVED, NO, "sole cost -45\nno check 0\nyes cost 0\n", ""),
    (ACCEPTED + b"S2M", FAULT, THREE, "cut"),
    (ACCEPTED[:-1], FAULT, "sole cost -45\nyes cost 0\n", "cut"),
    (ODD + WRONG_MOVED[:5], FAULT, "no check 0\n", "cut"),
    (ACCEPTED + b"\n", FAULT, THREE, "magic"),
    (ACCEPTED + bytes(1), FAULT, THREE, "magic"),
    (ACCEPTED + WRONG_MOVED[:11] + bytes(2) + WRONG_MOVED[13:], FAULT, THREE, "range"),
    (ACCEPTED + WRONG_MOVED[:5] + bytes(8), FAULT, THREE, "shape"),
    # no code has this number of bits, and no certificate this number of shares: only the header is read
    (ACCEPTED + WRONG_MOVED[:5] + 8 * b"\xff" + STORED_MOVED, FAULT, THREE, "shape"),
    (ACCEPTED + HEAD[:13] + 4 * b"\xff" + STORED_MOVED, FAULT, THREE, "range"),
    # the rows are those of the first certificate's shape
    (STORED_MOVED + pair(1, 7) + WRONG_MOVED, NO, "sole cost -45\nno shape\nyes cost 0\n", ""),
]


def each_checked(certificates, code, lines, text):
    errors = f"s2: certificate: {text}\n" if text else ""
    return Case("check --each toy out", code, lines, errors, reads={"out": certificates})


CASES = [
    *(each_checked(*several) for several in SEVERAL),
    *(each_checked(ACCEPTED[:size], FAULT, "sole cost -45\n" if size > 128 else "", "cut") for size in range(1, 376, 5) if size != 128),
    *(Case("check --each toy out", code, line, reads={"out": certificate}) for certificate, code, line in ANSWERS),
    Case("check --each pair out", 0, "sole cost -2\nyes cost -2\n", reads={"out": pair(1, 7) + pair(1, 6)}),
    Case("check --each toy -", 0, THREE, given=ACCEPTED),
    fault("check --each pair out", "rows: too many rows", reads={"pair": b"0\n1\n", "out": pair(1, 7) + pair(1, 6)}),
    # without a certificate the rows are not parsed; they are read first
    Case("check --each letter out", reads={"letter": b"x", "out": b""}),
    fault("check --each /dev/zero out", "file too long", reads={"out": ACCEPTED}),
    fault("check --each . out", "cannot read", reads={"out": ACCEPTED}),
    fault("check --each toy .", "cannot read"),
    fault("check --each toy out", "cannot write", reads={"out": ACCEPTED}, to="/dev/full"),
    *(checked(*answer) for answer in ANSWERS),
    *(checked(pair(place, amount), code, line, "pair") for place, amount, code, line in PAIRS),
    *(refused(pair(1, amount), "range", "pair") for amount in (0, 1 << 31, (1 << 32) - 1)),
    *(refused(*answer) for answer in FAULTS),
    *(refused(start, "cut") for start in (b"S2M", b"S2ML")),
    *(refused(start, "magic") for start in (b"T", b"S2MX", b"S2ML\0")),
    *(answered(altered(WRONG_CERTIFICATE, *changes), said) for changes, said in LIMITS),
    *(answered(altered(WRONG_MOVED, *changes), said) for changes, said in LIMITS_OF_MOVES),
    *(refused(WRONG_MOVED[:size], "cut") for size in range(128)),
    *(answered(turned(whole, at), on_turned(at, n)) for n, whole in enumerate((WRONG_CERTIFICATE, STORED_CERTIFICATE)) for at in range(248)),
    *(answered(turned(whole, at), on_turned_moves(at, n)) for n, whole in enumerate((WRONG_MOVED, STORED_MOVED)) for at in range(128)),
    *(refused(WRONG_CERTIFICATE[:size], "cut") for size in range(248)),
    checked(OTHER_Q, NO, "no shape\n"),
    Case("check short_rows out", NO, "no shape\n", reads={"short_rows": b"0 4 8\n0 1\n", "out": WRONG_CERTIFICATE}),
    Case("check normal normal_certificate", out="yes cost 0\n"),
    # a byte after the end is reported before other errors, and an incomplete header before a shape
    refused(turned(WRONG_MOVED, 13) + b"\x00", EXTRA),
    refused(WRONG_MOVED[:5] + bytes(7), "cut"),
    refused(WRONG_MOVED[:5] + bytes(8), "shape"),
    refused(WRONG_MOVED[:11] + bytes(2), "range"),
    # the certificate is taken apart before the rows
    refused(with_byte(0, 0x54), "magic", "odd"),
    fault("check letter out", "rows: not a number in line 1", reads={"letter": b"x", "out": WRONG_CERTIFICATE}),
    fault("check . .", "cannot read"),
    fault("check toy .", "cannot read"),
    # the rows are read first
    fault("check /dev/zero .", "file too long"),
    fault("check toy out", "cannot write", reads={"out": WRONG_CERTIFICATE}, to="/dev/full"),
]
