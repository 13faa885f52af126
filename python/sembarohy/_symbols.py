"""Symbols of a caller as the bytes of a symbol file, and back.

A symbol file has I and Q of each symbol in 16 bits each, big endian, with the amplitude 990. numpy is used if it is installed. Without it,
arrays are those of the standard module `array`."""
from __future__ import annotations

import array
import math
import sys
from typing import Any, Iterable

try:
    import numpy
except ImportError:
    numpy = None  # type: ignore[assignment]

AMPLITUDE = 990
"""The amplitude in a symbol file for a symbol of magnitude 1."""

SYMBOL = 4
"""The bytes of a symbol."""

_LEAST, _GREATEST = -(2**15), 2**15 - 1


def bytes_of(symbols: Any) -> bytes:
    """The bytes of symbols in a symbol file.

    `symbols` is one of these:

    - bytes of a symbol file, which are unchanged;
    - an array of 16-bit integers (numpy's `int16`, or `array("h")`), I and Q alternating, or in two columns: they are taken as they are;
    - a numpy array of complex numbers: these are multiplied by 990, rounded, halves to even, and limited to 16 bits;
    - an iterable of complex numbers, the same.

    A number that is not finite is refused with `ValueError`, another type with `TypeError`.

    >>> bytes_of([1, 1j, 0.5 - 0.5j]).hex(" ", 2)
    '03de 0000 0000 03de 01ef fe11'
    >>> import array
    >>> bytes_of(array.array("h", [700, -700])).hex(" ", 2)
    '02bc fd44'
    """
    if isinstance(symbols, (bytes, bytearray)):
        return bytes(symbols)
    if isinstance(symbols, memoryview) and symbols.format in ("B", "b", "c"):
        return symbols.tobytes()
    if isinstance(symbols, array.array):
        return _of_integers(symbols)
    if numpy is not None and hasattr(symbols, "__array__"):
        return _of_array(numpy.asarray(symbols))
    if isinstance(symbols, (str, memoryview)) or not hasattr(symbols, "__iter__"):
        raise TypeError(f"symbols are bytes, an array of int16, or complex numbers, not {type(symbols).__name__}")
    return _of_numbers(symbols)


def _of_integers(numbers: array.array) -> bytes:
    if numbers.typecode != "h" or len(numbers) % 2:
        raise TypeError(f"an array of symbols has type 'h' and an even length, not {numbers.typecode!r} and {len(numbers)}")
    return _swapped(numbers)


def _swapped(numbers: array.array) -> bytes:
    """16-bit integers, big endian."""
    if sys.byteorder == "little":
        numbers = array.array("h", numbers)
        numbers.byteswap()
    return numbers.tobytes()


def _of_numbers(symbols: Iterable[complex]) -> bytes:
    numbers = array.array("h")
    for place, symbol in enumerate(symbols):
        symbol = complex(symbol)
        if not (math.isfinite(symbol.real) and math.isfinite(symbol.imag)):
            raise ValueError(f"symbol {place} is not finite")
        numbers.extend(min(max(round(AMPLITUDE * part), _LEAST), _GREATEST) for part in (symbol.real, symbol.imag))
    return _swapped(numbers)


def _of_array(symbols: Any) -> bytes:
    if symbols.dtype.kind == "c":
        return _of_complex(symbols)
    is_paired = symbols.ndim == 2 and symbols.shape[1] == 2 or symbols.ndim == 1 and len(symbols) % 2 == 0
    if symbols.dtype.newbyteorder("=") != numpy.int16 or not is_paired:
        raise TypeError(f"an array of symbols is complex, or int16 with I and Q, not {symbols.dtype} of shape {symbols.shape}")
    return _big_endian(symbols.astype(numpy.int16))


def _big_endian(numbers: Any) -> bytes:
    return (numbers.byteswap() if sys.byteorder == "little" else numbers).tobytes()


def _of_complex(symbols: Any) -> bytes:
    if symbols.ndim != 1:
        raise TypeError(f"an array of complex symbols has one dimension, not {symbols.ndim}")
    real = numpy.float32 if symbols.dtype.itemsize == 8 else numpy.float64
    parts = numpy.multiply(numpy.ascontiguousarray(symbols, symbols.dtype.newbyteorder("=")).view(real), AMPLITUDE, dtype=numpy.float64)
    # a sum is faster than a test of all, and it is finite only if all are
    if not (math.isfinite(parts.sum()) or numpy.isfinite(parts).all()):
        raise ValueError(f"symbol {int(numpy.flatnonzero(~numpy.isfinite(parts))[0]) // 2} is not finite")
    numpy.rint(parts, out=parts)
    numpy.clip(parts, _LEAST, _GREATEST, out=parts)
    return _big_endian(parts.astype(numpy.int16))


def integers_of(data: bytes) -> Any:
    """The 16-bit integers of a symbol file's bytes: a numpy array of `int16`, one row of I and Q for each symbol; without numpy an
    `array("h")`, I and Q alternating."""
    if numpy is not None:
        return numpy.frombuffer(data, ">i2").astype(numpy.int16).reshape(-1, 2)
    numbers = array.array("h", data)
    if sys.byteorder == "little":
        numbers.byteswap()
    return numbers


def complex_of(data: bytes) -> Any:
    """The symbols of a symbol file's bytes as complex numbers, 1 for the amplitude 990: a numpy array of `complex64`; without numpy a list."""
    if numpy is not None:
        parts = numpy.frombuffer(data, ">i2").astype(numpy.float32)
        parts /= AMPLITUDE
        return parts.view(numpy.complex64)
    numbers = integers_of(data)
    return [complex(i, q) / AMPLITUDE for i, q in zip(numbers[0::2], numbers[1::2])]


def numbers_for(length: int, kind: str) -> tuple[Any, int]:
    """Room for numbers of a kind of the module `array`, and its address: a numpy array, or without numpy an array of that module."""
    if numpy is not None:
        out = numpy.zeros(length, {"h": numpy.int16, "B": numpy.uint8}[kind])
        return out, out.ctypes.data
    numbers = array.array(kind, bytes(length * array.array(kind).itemsize))
    return numbers, numbers.buffer_info()[0]


def soft_values_of(soft: Any) -> Any:
    """Soft values as 16-bit integers of this machine, in an object with a buffer. Numbers beyond 16 bits are refused with `ValueError`, others
    than whole ones with `TypeError`."""
    if numpy is not None and hasattr(soft, "__array__"):
        values = numpy.asarray(soft)
        if values.dtype.kind not in "iu" or values.ndim != 1:
            raise TypeError(f"soft values are one row of whole numbers, not {values.dtype} of shape {values.shape}")
        if values.size and not (_LEAST <= values.min() and values.max() <= _GREATEST):
            raise ValueError("a soft value is beyond 16 bits")
        return numpy.ascontiguousarray(values, numpy.int16)
    try:
        return array.array("h", soft)
    except OverflowError:
        raise ValueError("a soft value is beyond 16 bits") from None


def address_of(numbers: Any) -> int:
    """The address of the first number of an array."""
    return numbers.buffer_info()[0] if isinstance(numbers, array.array) else numbers.ctypes.data
