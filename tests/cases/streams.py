"""Outputs that stay unchanged, files that are used twice, and standard streams."""
from cases.audit import HINT
from cases.common import LINK, NO, PACKET, PAIR, STORED, STORED_MOVED, TOY, TWO, WANTED, Case, Rule, fault, noted, size
from cases.drawn import spoilt
from cases.links import NONE, SAMPLES, SPOILT

NOISE, RUN, DEMOD = "noise --seed 1 --level 256", f"run {LINK} --seed 1 --level 0", f"demod {LINK}"
SENT, TOO_FEW = "packets 2 frames 2\n", "rows: too few rows"
LONG, LONGER = bytes(range(100)), 1000 * b"longer "


def twice(words, name, **more):
    return fault(words, f"{name} is used twice", **more)


# An existing file is unchanged if the command ends before it begins to write, and is cut when it begins.
WHOLE = [
    fault(f"mod {LINK} toy packets old", TOO_FEW, WANTED),
    fault(f"{DEMOD} toy in old", TOO_FEW, WANTED, reads={"in": b""}),
    fault(f"{RUN} toy packets old", TOO_FEW, WANTED),
    fault(f"mod {LINK} . packets old", "cannot read"),
    fault(f"judge {TOY} --cert old pair stored", TOO_FEW),
    fault(f"judge {TOY} --cert old toy odd", "values: too few"),
    fault(f"judge {TOY} --cert old missing stored", "cannot open missing"),
    # the words exchanged
    fault(f"mod {LINK} packets made old", "rows: not a number in line 1", WANTED),
    fault(f"{NOISE} missing old", "cannot open missing"),
    fault("mod --modcod 11 --short made packets old", "no such mode"),
    Case(f"mod {LINK} made packets long", out=SENT, reads={"long": 70_000 * b"l"}, writes={"long": size(65_520)}),
    Case(f"{NOISE} in long", reads={"in": SAMPLES, "long": LONG}, writes={"long": SPOILT}),
    fault(f"mod {LINK} made in long", "packets: not a whole packet", reads={"in": b"\x47", "long": LONG}, writes={"long": b""}),
    fault(f"{RUN} made in long", "packets: not a whole packet", reads={"in": b"\x47", "long": LONG}),
]

# Two files exchanged on the command line: a file with other contents is refused, or another file is written.
NO_NUMBER = "not a number in line 1"
EXCHANGED = [
    fault(f"judge {TOY} stored toy", f"rows: {NO_NUMBER}"),
    fault(f"judge {TOY} --cert toy out stored", "cannot open out"),
    fault(f"judge {TOY} --cert old stored toy", f"rows: {NO_NUMBER}"),
    fault(f"judge {TOY} --cert stored toy old", f"values: {NO_NUMBER}"),
    fault("check certificate toy", "certificate: magic"),
    fault(f"mod {LINK} made old packets", "packets: not a whole packet", writes={"packets": b""}),
    fault(f"mod {LINK} old packets made", f"rows: {NO_NUMBER}", WANTED),
    Case(f"{NOISE} long in", reads={"in": SAMPLES, "long": LONG}, writes={"in": spoilt(LONG, 1, 256)}),
    fault(f"{DEMOD} in made old", f"rows: {NO_NUMBER}", WANTED, reads={"in": SAMPLES}),
    fault(f"{DEMOD} old in made", f"rows: {NO_NUMBER}", WANTED, reads={"in": SAMPLES}),
    Case(f"{DEMOD} made old in", out=NONE, reads={"in": SAMPLES}, writes={"in": b""}),
    fault(f"{RUN} packets made old", f"rows: {NO_NUMBER}", WANTED),
    fault(f"{RUN} old packets made", f"rows: {NO_NUMBER}", WANTED),
    fault(f"{RUN} made out packets", "cannot open out"),
]

TWICE = [
    twice(f"mod {LINK} made packets packets", "packets"),
    twice(f"mod {LINK} made packets made", "made"),
    twice(f"{NOISE} in in", "in", reads={"in": SAMPLES}),
    twice(f"{DEMOD} made in in", "in", reads={"in": SAMPLES}),
    twice(f"{DEMOD} made in made", "made", reads={"in": SAMPLES}),
    twice(f"{RUN} made packets packets", "packets"),
    twice(f"{RUN} made packets ./packets", "./packets"),
    *(
        twice(f"{words} {link}", link, reads={"in": SAMPLES}, links={link: (how, target)})
        for how, link in [("hard", "other"), ("symbolic", "seen")]
        for words, target in [
            (f"mod {LINK} made packets", "packets"),
            (f"mod {LINK} made packets", "made"),
            (f"{NOISE} in", "in"),
            (f"{DEMOD} made in", "in"),
            (f"{RUN} made packets", "packets"),
        ]
    ),
    twice(f"judge {TOY} --cert toy toy stored", "toy"),
    twice(f"judge {TOY} --cert stored toy stored", "stored"),
    twice(f"judge {TOY} --cert seen toy stored", "toy", links={"seen": ("symbolic", "toy")}),
    # a row file that can be read as packets and symbols is refused as early
    twice(f"mod {LINK} in in in", "in", reads={"in": b""}),
    # one file may be read twice
    fault(f"mod {LINK} toy toy out", TOO_FEW, WANTED, writes={"out": b""}),
    # a standard stream that is named twice, and one that is a file
    *(
        twice(words, name)
        for words, name in [
            (f"mod {LINK} - - out", "-"),
            (f"mod {LINK} - /dev/stdin out", "/dev/stdin"),
            (f"mod {LINK} /dev/stdin - out", "-"),
            (f"{DEMOD} - - old", "-"),
            (f"{RUN} - - old", "-"),
            (f"judge {TOY} - -", "-"),
            ("check - -", "-"),
            ("check --each - -", "-"),
            (f"audit {LINK} - made - old", "-"),
            (f"audit {LINK} made - old /dev/stdin", "/dev/stdin"),
            (f"audit {LINK} --codewords - made - old stored", "-"),
            (f"audit {LINK} --codewords old --packets /dev/stdin made stored - packets", "/dev/stdin"),
        ]
    ),
    twice(f"mod {LINK} made - in", "in", reads={"in": PACKET}, given="in"),
    twice(f"{NOISE} in -", "-", reads={"in": SAMPLES}, to="in"),
    twice(f"{NOISE} - /dev/stdout", "/dev/stdout", reads={"in": SAMPLES}, given="in", to="in"),
    Case(f"audit {LINK} made in in in", NO, "report line 1: expected end frames 0 delivered 0 packets 0 bad 0\n", noted(HINT), reads={"in": b""}),
    Case(f"audit {LINK} --codewords in --packets in made in in in", NO, "report line 1: expected end frames 0 delivered 0 packets 0 bad 0\n", noted(HINT), reads={"in": b""}),
    # devices hold nothing
    Case(f"{NOISE} /dev/null /dev/null"),
]


def streams(two, rows):
    """Cases over the symbols of the two packets: from standard input, to standard output, and both."""
    symbols = Rule("the symbols of two packets", lambda got: got == two)
    return [
        *(Case(f"mod {LINK} made {name} out", out=SENT, given=2 * PACKET, writes={"out": symbols}) for name in ("-", "/dev/stdin")),
        *(Case(f"mod {LINK} made packets {name}", out=symbols, errors=SENT) for name in ("-", "/dev/stdout")),
        Case(f"mod {LINK} made - -", out=symbols, errors=SENT, given=2 * PACKET),
        Case(f"mod {LINK} - packets out", out=SENT, given="rows", reads={"rows": rows}, writes={"out": symbols}),
        *(Case(f"{NOISE} {name} out", given=SAMPLES, writes={"out": SPOILT}) for name in ("-", "/dev/stdin")),
        *(Case(f"{NOISE} in {name}", out=SPOILT, reads={"in": SAMPLES}) for name in ("-", "/dev/stdout")),
        Case(f"{NOISE} - -", out=SPOILT, given=SAMPLES),
        *(Case(f"{DEMOD} made in {name}", out=2 * PACKET, errors=TWO, reads={"in": two}) for name in ("-", "/dev/stdout")),
        *(Case(f"{DEMOD} made {name} out", out=TWO, given=two, writes={"out": 2 * PACKET}) for name in ("-", "/dev/stdin")),
        Case(f"{DEMOD} made - -", out=2 * PACKET, errors=TWO, given=two),
        Case(f"{RUN} made - -", out=2 * PACKET, errors=TWO, given=2 * PACKET),
        Case(f"judge {TOY} toy -", out="sole cost -45\n"),
        Case(f"judge {TOY} - stored", out="sole cost -45\n", given=b"0 4 8\n0 1 2\n"),
        Case("check - certificate", out="sole cost -45\n", given=b"0 4 8\n0 1 2\n"),
        *(Case(f"judge {TOY} --cert {name} toy stored", out=STORED_MOVED, errors="sole cost -45\n") for name in ("-", "/dev/stdout")),
        # a fault is after the report
        fault(f"mod {LINK} made in -", "packets: not a whole packet", reads={"in": b"\x47"}),
        fault(f"mod {LINK} toy packets -", TOO_FEW, WANTED),
        *(fault(words, "cannot write", to=to, **more) for to in ("/dev/full", "closed") for words, more in [
            (f"mod {LINK} made packets -", {}),
            (f"{NOISE} in -", {"reads": {"in": SAMPLES}}),
            (f"{DEMOD} made in -", {"reads": {"in": two}}),
            (f"{RUN} made packets -", {}),
        ]),
        # nothing is left of an output that was longer
        Case(f"{DEMOD} made in long", out=TWO, reads={"in": two, "long": LONGER}, writes={"long": 2 * PACKET}),
        Case(f"{RUN} made packets long", out=TWO, reads={"long": LONGER}, writes={"long": 2 * PACKET}),
        Case(f"judge {TOY} --cert long toy stored", out="sole cost -45\n", reads={"long": LONGER}, writes={"long": STORED_MOVED}),
        Case(f"judge {PAIR} --cert long pair odd", NO, "broken cost -5 check 0\n", reads={"long": LONGER}, writes={"long": b""}),
        # the existing contents of standard output are not cut
        Case(f"{NOISE} in -", reads={"in": SAMPLES, "long": LONG}, to="long", writes={"long": SPOILT + LONG[8:]}),
    ]
