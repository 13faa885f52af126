"""The transmitter: packets in, frames of symbols out."""
from __future__ import annotations

import ctypes
from ctypes import c_size_t, c_uint32, c_uint64
from typing import Any, Iterator

from . import _symbols
from ._library import Held
from .code import Code, options_of

# The most bytes of a frame's symbols, with those of a dummy frame after it.
SYMBOLS = 146448


class SentFrame:
    """The symbols of a frame, with those of a dummy frame after it if one is due.

    `number` counts from 1. `data` are the symbols as bytes of a symbol file. `word` is its codeword, which is read from the transmitter when it
    is first used, so use it before the next frame."""

    def __init__(self, transmitter: "Transmitter", place: int, number: int, data: bytes):
        self.number, self.data = number, data
        self._transmitter, self._place, self._word = transmitter, place, None  # type: Transmitter, int, Any

    @property
    def integers(self) -> Any:
        """The symbols as 16-bit integers, amplitude 990: an array of `int16`, a row of I and Q for each; without numpy an `array("h")`."""
        return _symbols.integers_of(self.data)

    @property
    def symbols(self) -> Any:
        """The symbols as complex numbers, amplitude 1: an array of `complex64`; without numpy a list."""
        return _symbols.complex_of(self.data)

    @property
    def word(self) -> Any:
        """The codeword, a bit per byte: an array of `uint8`; without numpy an `array("B")`."""
        if self._word is None:
            self._word = self._transmitter._word_of(self._place, self.number)
        return self._word

    def __repr__(self) -> str:
        return f"<frame {self.number} symbols {len(self.data) // _symbols.SYMBOL}>"


class Transmitter(Held):
    """Makes frames of packets of 188 bytes.

    `mode` is a MODCOD or a name. `roll_off` is written into headers: 0 for 0.35, 1 for 0.25, 2 for 0.20. `scrambling` is the number of the
    scrambling sequence. A dummy frame follows each `dummy_every`-th frame; 0 means none.

    >>> code = Code.from_file("normal_3_4.rows", "qpsk3/4")
    >>> transmitter = Transmitter(code, "qpsk3/4", pilots=True)
    >>> for frame in [*transmitter.feed(open("sent.ts", "rb").read()), *transmitter.close()]:
    ...     print(frame.number, len(frame.symbols))
    1 33282
    2 33282
    >>> transmitter.counts
    (40, 2)
    """

    def __init__(
        self,
        code: Code,
        mode: int | str,
        *,
        short: bool | None = None,
        pilots: bool = False,
        roll_off: int = 0,
        scrambling: int = 0,
        dummy_every: int = 0,
    ):
        super().__init__()
        numbers = {"has_pilots": int(pilots), "roll_off": roll_off, "scrambling": scrambling, "dummy_every": dummy_every}
        self._make("transmitter_new", code, options_of(code, mode, short, **numbers))
        # the bytes that are kept, the bits of a codeword, and how many frames and new streams there were
        self._waiting, self._n, self._place = bytearray(), code.n, 0
        self._room = ctypes.create_string_buffer(SYMBOLS)

    def feed(self, packets: bytes | bytearray | memoryview) -> Iterator[SentFrame]:
        """Takes bytes of packets, in any pieces, and iterates over the frames that they complete.

        Bytes are kept at once, and sent while the frames are iterated over. Those of frames that were not are sent in the next iteration."""
        data = bytes(packets)
        with self._lock:
            self._waiting += data
        return self._frames()

    def close(self) -> list[SentFrame]:
        """Ends the stream, and returns its last frame, if it has one, after those that were not iterated over."""
        with self._lock:
            frames = list(self._frames())
            self._call("transmitter_close")
            return frames + list(self._frames())

    def reset(self) -> None:
        """Begins a new stream with the same options. Bytes that were kept are dropped."""
        with self._lock:
            self._call("transmitter_reset")
            self._waiting.clear()
            self._place += 1

    @property
    def counts(self) -> tuple[int, int]:
        """How many packets were taken, and how many frames were made."""
        packets, frames = c_uint64(), c_uint64()
        self._call("transmitter_counts", ctypes.byref(packets), ctypes.byref(frames))
        return packets.value, frames.value

    def _frames(self) -> Iterator[SentFrame]:
        while (frame := self._next()) is not None:
            yield frame

    def _next(self) -> SentFrame | None:
        with self._lock:
            if self._waiting and not self._is_ready():
                self._put()
            return self._taken() if self._is_ready() else None

    def _is_ready(self) -> bool:
        is_ready = c_uint32()
        self._call("transmitter_ready", ctypes.byref(is_ready))
        return is_ready.value == 1

    def _put(self) -> None:
        """Gives the bytes that are kept, up to the end of a data field. If they are refused they are dropped."""
        taken = c_size_t(len(self._waiting))
        try:
            self._give("transmitter_put", self._waiting, len(self._waiting), ctypes.byref(taken))
        finally:
            del self._waiting[: taken.value]

    def _taken(self) -> SentFrame:
        count = c_size_t()
        self._call("transmitter_take", self._room, SYMBOLS, ctypes.byref(count))
        self._place += 1
        return SentFrame(self, self._place, self.counts[1], ctypes.string_at(self._room, count.value))

    def _word_of(self, place: int, number: int) -> Any:
        with self._lock:
            if place != self._place:
                raise RuntimeError(f"the transmitter has gone on: use word of frame {number} before the next frame")
            return self._list("transmitter_word", self._n, "B")
