"""Runs of bytes and numbers on their way to the library, and what is refused before it is asked.

What the library only reads is copied, so nothing that it reads can overlap what it writes. What it writes is lent itself, and so it
has to be a writable run of bytes without gaps: of anything else a copy would be written, and the write lost.
"""

from __future__ import annotations

import operator
from array import array
from ctypes import c_size_t
from mmap import mmap
from typing import TYPE_CHECKING, Any, NamedTuple, SupportsIndex, Union

if TYPE_CHECKING:
    Array = array[int]
else:
    Array = array

Readable = Union[bytes, bytearray, memoryview, Array, mmap]
Writable = Union[bytearray, memoryview, Array, mmap]

_MOST = c_size_t(-1).value


class Lent(NamedTuple):
    """A run that the library may write: how many items it has, and the bytes of each."""

    run: Any
    length: int
    width: int = 1


def _view(name: str, run: object) -> memoryview:
    """What a run has, without a copy."""
    try:
        return memoryview(run)  # type: ignore[arg-type]
    except TypeError:
        raise TypeError(f"{name}: bytes are due, not {type(run).__name__}") from None


def _of_bytes(view: memoryview) -> bool:
    """Whether it is one run, of bytes."""
    return view.ndim == 1 and view.itemsize == 1 and view.format.lstrip("@=<>!") in ("B", "b", "c")


def reading(name: str, run: Readable) -> bytes:
    """A copy of a run of bytes, which the library reads."""
    if isinstance(run, bytes):
        return run
    with _view(name, run) as view:
        if not _of_bytes(view):
            raise TypeError(f"{name}: a run of bytes is due, and this {type(run).__name__} has items of another kind")
        return view.tobytes()


def writing(name: str, run: Writable) -> Lent:
    """A run of bytes that the library writes, in place."""
    with _view(name, run) as view:
        if view.readonly:
            raise TypeError(f"{name}: the library writes here, and {type(run).__name__} can't be written; a bytearray can")
        if not _of_bytes(view) or not view.c_contiguous:
            raise TypeError(f"{name}: the library writes here; a run of bytes without gaps is due, such as a bytearray")
        return Lent(run, view.nbytes)


def writing_numbers(name: str, run: Array) -> Lent:
    """The same of numbers of 32 bits."""
    with _view(name, run) as view:
        numbers = view.ndim == 1 and view.itemsize == 4 and view.format.lstrip("@=") in ("I", "L")
        if view.readonly or not numbers or not view.c_contiguous:
            raise TypeError(f"{name}: the library writes here; numbers of 32 bits are due, as marks() gives them")
        return Lent(run, view.nbytes // 4, 4)


def flag(name: str, value: bool) -> bool:
    """True or False, and nothing that only counts as one of them: "off" would be true."""
    if not isinstance(value, bool):
        raise TypeError(f"{name}: True or False is due, not {type(value).__name__}")
    return value


def shown(name: str, value: int) -> str:
    """A field with its value, for a message; keys and numbers without end stay out of messages."""
    return name if name == "key" or value.bit_length() > 64 else f"{name}={value}"


def whole(name: str, value: SupportsIndex) -> int:
    """A whole number."""
    try:
        return operator.index(value)
    except TypeError:
        raise TypeError(f"{name}: a whole number is due, not {type(value).__name__}") from None


def number(name: str, value: SupportsIndex, most: int) -> int:
    """A number from 0 to the most that its place holds, to which ctypes would cut it without a word."""
    got = whole(name, value)
    if not 0 <= got <= most:
        raise ValueError(f"{shown(name, got)}: 0 to {most}")
    return got


def size(name: str, value: SupportsIndex) -> int:
    """A count or a position; one that a size can't hold is as good as the largest that it can."""
    got = whole(name, value)
    if got < 0:
        raise ValueError(f"{shown(name, got)}: 0 or more")
    return min(got, _MOST)
