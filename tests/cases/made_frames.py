"""Frames of made codes, and what `judge` decides on them. Rows, codeword and noise come from a seed, and the verdicts and checksums are those of
`bench/settle/frames.py`, which judges by the plain rules."""
import os
import sys

from cases.common import NO, Case, Rule
from cases.drawn import made_rows

sys.path.append(os.path.join(os.path.dirname(os.path.abspath(__file__)), "../../bench/settle"))
from frames import fnv, frame

# A group, groups, q, the weight of a row, a seed, the deviation of the noise, the verdict, and the checksum of a certificate that settling finds,
# or 0. The last five are as long as the standard's.
VERDICTS = [
    (1, 40, 80, 4, 1, 40, "sole", 0),
    (1, 40, 80, 4, 2, 50, "sole", 0),
    (1, 40, 80, 4, 3, 60, "sole", 995081063),
    (1, 40, 80, 4, 4, 70, "sole", 4124626899),
    (4, 30, 35, 4, 5, 40, "sole", 0),
    (4, 30, 35, 4, 6, 50, "sole", 436493412),
    (4, 30, 35, 4, 7, 60, "sole", 2451708257),
    (4, 30, 35, 4, 8, 70, "sole", 1976945966),
    (7, 20, 19, 3, 9, 40, "most-likely", 0),
    (7, 20, 19, 3, 10, 50, "sole", 3481613025),
    (7, 20, 19, 3, 11, 60, "sole", 1457550057),
    (7, 20, 19, 3, 12, 70, "sole", 3408312839),
    (8, 30, 15, 4, 13, 40, "sole", 0),
    (8, 30, 15, 4, 14, 50, "sole", 2919142117),
    (8, 30, 15, 4, 15, 60, "sole", 141636180),
    (8, 30, 15, 4, 16, 70, "sole", 3874904132),
    (9, 12, 14, 5, 17, 40, "most-likely", 0),
    (9, 12, 14, 5, 18, 50, "sole", 646429204),
    (9, 12, 14, 5, 19, 60, "sole", 3647402980),
    (9, 12, 14, 5, 20, 70, "sole", 1513933857),
    (17, 9, 11, 4, 21, 40, "most-likely", 0),
    (17, 9, 11, 4, 22, 50, "sole", 1078553123),
    (17, 9, 11, 4, 23, 60, "sole", 951402865),
    (17, 9, 11, 4, 24, 70, "sole", 2556090769),
    (20, 20, 20, 4, 25, 40, "most-likely", 0),
    (20, 20, 20, 4, 26, 50, "sole", 3473969266),
    (20, 20, 20, 4, 27, 60, "sole", 2221752455),
    (20, 20, 20, 4, 28, 70, "sole", 1707192812),
    (45, 9, 6, 3, 29, 40, "most-likely", 0),
    (45, 9, 6, 3, 30, 50, "sole", 1982490094),
    (45, 9, 6, 3, 31, 60, "sole", 2699025578),
    (45, 9, 6, 3, 32, 70, "parity", 0),
    (360, 2, 2, 3, 33, 40, "most-likely", 0),
    (360, 2, 2, 3, 34, 50, "sole", 3877202646),
    (360, 2, 2, 3, 35, 60, "sole", 3512425398),
    (360, 2, 2, 3, 36, 70, "sole", 2645667448),
    (3, 100, 40, 4, 37, 40, "most-likely", 0),
    (3, 100, 40, 4, 38, 50, "sole", 60080462),
    (3, 100, 40, 4, 39, 60, "sole", 2202644587),
    (1, 1, 1, 1, 2, 90, "sole", 2637244158),
    (1, 4, 14, 2, 5, 100, "sole", 257734938),
    (4, 3, 5, 2, 13, 100, "sole", 2815003749),
    (360, 20, 25, 6, 101, 50, "sole", 1501705100),
    (360, 33, 12, 4, 102, 40, "sole", 2313657578),
    (360, 90, 90, 6, 104, 60, "sole", 2501386105),
    (360, 135, 45, 4, 105, 45, "sole", 3244517491),
    (360, 20, 25, 6, 37, 76, "sole", 841202732),
]


def judged(group, groups, q, weight, seed, deviation, verdict, checksum):
    """`judge` with 40 passes on the values of a frame."""
    soft = frame(group, groups, q, weight, seed, deviation, 40)[3]
    reads = {"rows": made_rows(group, groups, q, weight, seed), "values": " ".join(map(str, soft)).encode()}
    said = Rule(f"{verdict} cost ..", lambda got: got.startswith(f"{verdict} cost ".encode()))
    words = f"judge --group {group} --groups {groups} --q {q} --passes 40"
    if not checksum:
        return Case(f"{words} rows values", NO if verdict == "parity" else 0, said, reads=reads)
    settled = Rule(f"a file of checksum {checksum}", lambda got: fnv(got) == checksum)
    return Case(f"{words} --cert out rows values", out=said, reads=reads, writes={"out": settled})


CASES = [judged(*it) for it in VERDICTS]
