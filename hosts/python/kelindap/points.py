"""Group values as Python has them, by datapoint type: True or False for 1, a number up to 255 for 5, a float for 9 (21.5, by hundredths)
and for 14 (of 32 bits)."""

from __future__ import annotations

import struct
from decimal import Decimal
from fractions import Fraction
from typing import Any, Dict, Tuple, Union

from . import _library
from ._library import call
from ._runs import Readable, number, reading, shown, whole, writing
from .errors import Refused
from .names import Outcome

Value = Union[bool, int, float]
WIDTHS = {1: 1, 5: 1, 9: 2, 14: 4}
_RANGE = "-671088.64 to 670433.28"
_NO_TYPE = 0


def _type(type: int) -> int:
    """A type, which may be none."""
    got = whole("type", type)
    return got if got in WIDTHS else _NO_TYPE


def _refused(outcome: int, type: int, detail: str) -> Refused:
    """The refusal of a value, or of its type."""
    if outcome == Outcome.POINT_NO_TYPE:
        return Refused(outcome, "type", f"{shown('type', type)}: {', '.join(map(str, WIDTHS))}")
    return Refused(outcome, "value", detail)


def point_read(type: int, run: Readable) -> Value:
    """The value of a type in its bytes. Raises Refused."""
    data = reading("run", run)
    point = call("point_read", _type(type), data)
    if point.outcome != Outcome.OK:
        raise _refused(point.outcome, type, f"{data.hex() or 'no bytes'} for type {type}, which has {WIDTHS.get(type)}")
    if type == 1:
        return bool(point.value)
    if type == 5:
        return int(point.value)
    if type == 9:
        return float(Fraction(point.hundredths, 100))
    return float(struct.unpack("=f", struct.pack("=I", point.bits))[0])


def _hundredths(value: Any) -> int:
    """The nearest hundredths; what they can't be counted by is past every code."""
    try:
        return max(-(1 << 31), min(round(Fraction(value) * 100), (1 << 31) - 1))
    except (ValueError, OverflowError):
        return (1 << 31) - 1


def _bits(value: Any) -> int:
    """The bits of the nearest float of 32 bits; of what is too large, those of an infinity."""
    try:
        packed = struct.pack("=f", float(value))
    except (ValueError, OverflowError):
        packed = struct.pack("=f", float("inf"))
    return int(struct.unpack("=I", packed)[0])


def _told(value: object, due: str) -> str:
    """What a refusal says of a value; of a number without end not the digits."""
    try:
        return f"value={value}: {due}"
    except ValueError:
        return f"value: {due}"


def _point(type: int, value: Any) -> Tuple[Any, str]:
    """The value as the library takes it, and what is due."""
    if type in (9, 14):
        if not isinstance(value, (int, float, Fraction, Decimal)):
            raise TypeError(f"value: a number is due for type {type}, not {value.__class__.__name__}")
        if type == 9:
            return _library.Point(type=type, hundredths=_hundredths(value)), _RANGE
        return _library.Point(type=type, bits=_bits(value)), "a float of 32 bits"
    if type == 1:
        switch = whole("value", value)
        return _library.Point(type=type, value=switch if 0 <= switch <= 255 else 255), "True or False"
    return _library.Point(type=type, value=number("value", value, 255)), "0 to 255"


def point_write(type: int, value: Union[Value, Decimal, Fraction]) -> bytes:
    """The bytes of a value; of type 9 it is taken to the nearest hundredth first. Raises Refused."""
    which = _type(type)
    point, due = _point(which, value) if which else (_library.Point(), "")
    out = bytearray(WIDTHS.get(which, 0))
    outcome = call("point_write", point, writing("out", out))
    if outcome != Outcome.OK:
        raise _refused(outcome, type, _told(value, due))
    return bytes(out)


def point_fields(type: int, value: Union[Value, Decimal, Fraction]) -> Dict[str, Any]:
    """The fields of a group write or response with this value: a switch goes as v, all others as data. Raises Refused."""
    run = point_write(type, value)
    return {"v": run[0], "data": b""} if type == 1 else {"v": 0, "data": run}
