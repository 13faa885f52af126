"""`mod` in all modes and with each option: its symbols are compared with those of a modulator written in C."""
from cases.common import Case, digest
from cases.drawn import made_rows

# MODCOD, options, groups and q of the shape, and the digest of the symbols that the other program makes of the two packets on made
# rows (weight 3, seed 1). Pilots are on, the scrambling number is 15000 times the MODCOD, and the roll-off is the MODCOD modulo 3.
MODES = [
    (1, "", 45, 135, 0x35D059083614540A),
    (1, "--short", 9, 36, 0x147AA91A7D03A77A),
    (2, "", 60, 120, 0xE4ECC322B030E83D),
    (2, "--short", 15, 30, 0x32D341CEDA0AC212),
    (3, "", 72, 108, 0xE2BC6CB41E615CAD),
    (3, "--short", 18, 27, 0x430FE8369E744312),
    (4, "", 90, 90, 0xB5D3684518359D2D),
    (4, "--short", 20, 25, 0xE50B61F755F7084A),
    (5, "", 108, 72, 0xBFB3CCCFACF3DE5D),
    (5, "--short", 27, 18, 0xAAA54AA5E571AE12),
    (6, "", 120, 60, 0xBAE7032B54DED6DD),
    (6, "--short", 30, 15, 0x2CC42148C25F34BA),
    (7, "", 135, 45, 0x33378FBBED7634E2),
    (7, "--short", 33, 12, 0x997EF6BFEF2EB4B2),
    (8, "", 144, 36, 0xC96BC078A75B705D),
    (8, "--short", 35, 10, 0x6B118FDA62C7E8F2),
    (9, "", 150, 30, 0x8379438D75744B4A),
    (9, "--short", 37, 8, 0xB64509EB0858E0F5),
    (10, "", 160, 20, 0x203631B0097FEDCD),
    (10, "--short", 40, 5, 0xE95DA90B1E2825ED),
    (11, "", 162, 18, 0xAB0A6D974CCFEAD5),
    (12, "", 108, 72, 0x90809B891A70D57E),
    (12, "--short", 27, 18, 0x8E824C730199779D),
    (13, "", 120, 60, 0xD62D946A6A621A58),
    (13, "--short", 30, 15, 0xC6A247EF406978B4),
    (14, "", 135, 45, 0x8D181F37A99B3DC0),
    (14, "--short", 33, 12, 0x0BA646850831F0B7),
    (15, "", 150, 30, 0x369D604E0B449D6A),
    (15, "--short", 37, 8, 0x3201D86FA63CFF41),
    (16, "", 160, 20, 0x57789FC5CB3EFC27),
    (16, "--short", 40, 5, 0xA85B54A9E4C76271),
    (17, "", 162, 18, 0xDE2E0E0BB389CB06),
]
# The same for MODCOD 4 without all these words, but with one.
WORDS = [
    ("", 90, 90, 0xBE37560BC4FDF202),
    ("--pilots", 90, 90, 0x6E9E8D60369DD88D),
    ("--number 262141", 90, 90, 0x3B473889C1C0D36D),
    ("--ro 1", 90, 90, 0xED805E16D13E99C2),
    ("--ro 2", 90, 90, 0x850E4F3BE15DA00A),
    ("--short", 20, 25, 0xEACD1902C5F056D2),
]
# Two packets with a different byte at each place.
PACKETS = b"\x47" + bytes((7 * at + 3) % 256 for at in range(1, 188)) + b"\x47" + bytes((11 * at + 5) % 256 for at in range(1, 188))


def sent(words, groups, q, wanted):
    """Whatever the mode, the two packets fill one frame, but the shortest data field, which leaves three bytes for a second."""
    reads = {"in": PACKETS, "rows": made_rows(360, groups, q, 3, 1)}
    frames = 2 if (groups, q) == (9, 36) else 1
    return Case(f"mod {words} rows in out", out=f"packets 2 frames {frames}\n", reads=reads, writes={"out": digest(wanted)})


CASES = [
    *(sent(f"--modcod {m} {words} --pilots --number {15000 * m} --ro {m % 3}", *rest) for m, words, *rest in MODES),
    *(sent(f"{words} --modcod 4", *rest) for words, *rest in WORDS),
]
