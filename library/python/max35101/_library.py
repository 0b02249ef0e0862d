"""The shared library's functions, as ``include/max35101.h`` declares them, and the buffers that they are lent."""

from __future__ import annotations

import ctypes
import operator
import os
from pathlib import Path
from typing import Any, Callable, Iterable, Union

ACCEPTED = 0xFFFFFFFF
FAILED = 0xFFFFFFFE
CALL_WORDS = 3
ANSWER_WORDS = 5
SETUP_BYTES = 33
SETUP_FRAMES = 8

Buffer = Union[bytes, bytearray, memoryview]


def _load() -> ctypes.PyDLL:
    """The shared library: ``MAX35101_LIBRARY``, or where ``library/build`` puts it.

    A ``PyDLL`` keeps the interpreter's lock during a call, so that no two threads are in a model's bytes at once.
    """
    built = Path(__file__).resolve().parents[3] / "target" / "library" / "libmax35101.so"
    try:
        return ctypes.PyDLL(os.environ.get("MAX35101_LIBRARY") or str(built))
    except OSError as error:
        raise ImportError(f"{error}; library/build makes the library, MAX35101_LIBRARY names one elsewhere") from error


_loaded = _load()
_U8 = ctypes.POINTER(ctypes.c_uint8)
_U32 = ctypes.POINTER(ctypes.c_uint32)
_I32 = ctypes.POINTER(ctypes.c_int32)
_SIZES = ctypes.POINTER(ctypes.c_size_t)
_SIZE = ctypes.c_size_t
_WORD = ctypes.c_uint32


def _function(name: str, *arguments: type, result: type = _WORD) -> Callable[..., Any]:
    try:
        function = getattr(_loaded, "max35101_" + name)
    except AttributeError as error:
        raise ImportError(f"{error}; library/build makes a library that has it") from error
    function.argtypes = arguments
    function.restype = result
    return function  # type: ignore[no-any-return]


_BYTES = (_U8, _SIZE)
_WORDS = (_U32, _SIZE)
_DIFFERENCES = (_I32, _SIZE)
_COUNTS = (_SIZES, _SIZE)
fresh = _function("fresh", *_BYTES)
transaction = _function("transaction", *_BYTES, *_BYTES, *_BYTES, *_BYTES, *_WORDS)
tick = _function("tick", *_BYTES, *_WORDS)
stretch = _function("stretch", *_BYTES, _WORD, *_WORDS)
flight_delivery = _function("flight_delivery", *_BYTES, *_WORDS, *_WORDS, *_WORDS)
temperature_delivery = _function("temperature_delivery", *_BYTES, *_WORDS, *_WORDS)
run = _function("run", *_BYTES, *_WORDS, *_BYTES, *_WORDS, *_BYTES, *_BYTES, *_WORDS, result=_SIZE)
interrupt_pending = _function("interrupt_pending", *_BYTES, *_WORDS)
flight_awaited = _function("flight_awaited", *_BYTES, *_WORDS)
temperature_awaited = _function("temperature_awaited", *_BYTES, *_WORDS)
regulator_on = _function("regulator_on", *_BYTES, *_WORDS)
initialised = _function("initialised", *_BYTES, *_WORDS)
flight_left = _function("flight_left", *_BYTES, *_WORDS)
temperature_left = _function("temperature_left", *_BYTES, *_WORDS)
flight_place = _function("flight_place", *_BYTES, *_WORDS)
temperature_place = _function("temperature_place", *_BYTES, *_WORDS)
peek = _function("peek", *_BYTES, _WORD, *_WORDS)
setup_frames = _function("setup_frames", *_BYTES, *_BYTES, *_WORDS, *_COUNTS)
degrees = _function("degrees", _WORD, _WORD, *_WORDS)
degrees_by = _function("degrees_by", *_WORDS, _WORD, _WORD, *_WORDS)
quietest_place = _function("quietest_place", *_DIFFERENCES, _SIZE, *_COUNTS)
quietest = _function("quietest", *_DIFFERENCES, _SIZE, *_DIFFERENCES)
nanoseconds = _function("nanoseconds", ctypes.c_int32, result=ctypes.c_double)
write_listing_as = _function("write_listing_as", _WORD, *_DIFFERENCES, _WORD, *_BYTES, *_COUNTS)


def data(buffer: Buffer) -> bytes:
    """A copy of what a buffer holds. A number, of which ``bytes`` would make as many zeros, is none."""
    return bytes(memoryview(buffer))


def room(count: int) -> ctypes.Array[ctypes.c_uint8]:
    """So many bytes, all 0."""
    return (ctypes.c_uint8 * count)()


def octets(content: bytes | bytearray) -> ctypes.Array[ctypes.c_uint8]:
    """Bytes of their own."""
    return (ctypes.c_uint8 * len(content)).from_buffer_copy(content)


def answer(count: int) -> ctypes.Array[ctypes.c_uint32]:
    """So many words, all 0."""
    return (ctypes.c_uint32 * count)()


def counts(count: int) -> ctypes.Array[ctypes.c_size_t]:
    """So many sizes, all 0."""
    return (ctypes.c_size_t * count)()


def words(numbers: Iterable[int]) -> ctypes.Array[ctypes.c_uint32]:
    """Numbers as words of 32 bits."""
    values = [operator.index(number) for number in numbers]
    for value in values:
        if not 0 <= value <= 0xFFFFFFFF:
            raise OverflowError(f"{value} is no word of 32 bits")
    return (ctypes.c_uint32 * len(values))(*values)


def word(number: int) -> int:
    """A number that is a word of 32 bits."""
    return int(words([number])[0])


def differences(numbers: Iterable[int]) -> ctypes.Array[ctypes.c_int32]:
    """Numbers as differences of 32 bits."""
    values = [operator.index(number) for number in numbers]
    for value in values:
        if not -0x80000000 <= value <= 0x7FFFFFFF:
            raise OverflowError(f"{value} is no difference of 32 bits")
    return (ctypes.c_int32 * len(values))(*values)
