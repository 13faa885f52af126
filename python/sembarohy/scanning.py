"""The headers of an unknown recording."""
from __future__ import annotations

import ctypes
from ctypes import c_size_t
from typing import Any, NamedTuple

from . import _library, _symbols
from ._library import Held
from .code import NAMES


class Seen(NamedTuple):
    """A kind of headers that was seen (`docs/formats.md`, Output of `scan`).

    `turn` and `conjugate` say what happened to the symbols: they were multiplied by the `turn`-th power of i, and then conjugated.
    `little_endian` is the byte order of the symbols. `seen` is the number of headers, and `pairs` of them are at the frame's distance from the
    one before. `first` is the position of the first, `every` the most frequent distance, `amplitude` that of the headers without noise."""

    modcod: int
    short: bool
    pilots: bool
    turn: int
    conjugate: bool
    little_endian: bool
    seen: int
    pairs: int
    first: int
    every: int
    amplitude: int

    @property
    def name(self) -> str:
        """The name of its mode, such as `qpsk3/4`, or `dummy`."""
        return NAMES[self.modcod]

    def __str__(self) -> str:
        """Its line in the output of `s2 scan`."""
        mode = "dummy" if self.modcod == 0 else f"{self.name} {'short' if self.short else 'normal'} {'pilots' if self.pilots else 'no-pilots'}"
        place = f"seen {self.seen} first {self.first} every {self.every} turn {self.turn} conjugate {'yes' if self.conjugate else 'no'}"
        return f"{mode} {place} bytes {'little' if self.little_endian else 'big'} amplitude {self.amplitude}"


class Scanner(Held):
    """Finds the headers in unknown symbols. It keeps at most 2^24 symbols."""

    def __init__(self) -> None:
        super().__init__()
        self._library.call("scan_new", ctypes.byref(self._handle))

    def feed(self, symbols: Any) -> None:
        """Takes symbols in any number, as `Receiver.feed` does."""
        data = _symbols.bytes_of(symbols)
        self._call("scan_feed", data, len(data))

    def find(self) -> list[Seen]:
        """The kinds of headers in the symbols so far, the most probable first."""
        count = c_size_t()
        with self._lock:
            self._call("scan_find", ctypes.byref(count))
            return [self._at(place) for place in range(count.value)]

    def _at(self, place: int) -> Seen:
        told = _library.Seen()
        self._call("scan_at", place, ctypes.byref(told))
        numbers = {name: getattr(told, name) for name in "modcod turn seen pairs first every amplitude".split()}
        flags = {"short": told.is_short, "pilots": told.has_pilots, "conjugate": told.conjugate, "little_endian": told.little_endian}
        return Seen(**numbers, **{name: it == 1 for name, it in flags.items()})


def scan(symbols: Any) -> list[Seen]:
    """The kinds of headers in symbols, the most probable first.

    >>> print(scan(open("symbols", "rb").read())[0])
    qpsk3/4 normal pilots seen 2 first 0 every 33282 turn 0 conjugate no bytes big amplitude 990
    """
    with Scanner() as scanner:
        scanner.feed(symbols)
        return scanner.find()
