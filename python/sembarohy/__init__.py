"""The DVB-S2 modem Sembarohy (ETSI EN 302 307-1) in Python: its shared library `libs2.so` by ctypes.

    import sembarohy

    code = sembarohy.Code.from_file("normal_3_4.rows", "qpsk3/4")
    receiver = sembarohy.Receiver(code, "qpsk3/4", pilots=True, tuned=True)
    for frame in receiver.feed(symbols):
        print(frame.number, frame.at, frame.verdict, len(frame.packets))

The library does all the work: this package only passes arrays to it and takes arrays from it. It is found by S2_LIBRARY in the environment,
which is its path or its folder. Otherwise it is found beside this package, in `build/` of the sources, or among the libraries of the system.
numpy is optional: without it, arrays are those of the standard module `array`, and symbols are bytes, `array("h")` or complex
numbers in an iterable.

Each object takes one call at a time, and other threads wait meanwhile. Different objects work at the same time. What the library refuses
raises `Error` with the library's text. Numbers that no C type can hold, and arrays of another type, raise `ValueError` and `TypeError`.
"""
from ._library import FOLDERS, Error, library
from .code import NAMES, Code, Mode
from .evidence import ANSWERS, Checked, Judge, Judgement, check, judge
from .receiver import OUTCOMES, RECORDS, VERDICTS, Cut, Figures, Frame, Receiver, Totals
from .scanning import Scanner, Seen, scan
from .transmitter import SentFrame, Transmitter

__version__ = "0.1"
__all__ = [
    *("ANSWERS", "Checked", "Code", "Cut", "Error", "FOLDERS", "Figures", "Frame", "Judge", "Judgement", "Mode", "NAMES", "OUTCOMES", "RECORDS", "Receiver"),
    *("Scanner", "Seen", "SentFrame", "Totals", "Transmitter", "VERDICTS", "check", "judge", "library", "scan"),
]
