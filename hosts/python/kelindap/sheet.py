"""Sheets: the check, the conversion of old ones, and where a body stands."""

from __future__ import annotations

from typing import Any, NamedTuple, Optional, Tuple

from ._library import call
from ._runs import Readable, Writable, number, reading, size, writing
from .errors import Refused, refuse_sheet
from .names import Outcome, Rule


class Part(NamedTuple):
    """A part of a sheet: `sheet[part.slice]` is its bytes."""

    offset: int
    length: int

    @property
    def slice(self) -> slice:
        """The part as a slice."""
        return slice(self.offset, self.offset + self.length)


def parts(changed: Any) -> Tuple[Part, ...]:
    """The parts that were stored; none without a length."""
    return tuple(Part(part.offset, part.length) for part in changed if part.length)


def check(sheet: Readable) -> Rule:
    """What the sheet is: accepted, the first rule that it breaks, or old."""
    return Rule(call("check", reading("sheet", sheet)))


def accepted(sheet: bytes) -> bytes:
    """The sheet, if it is accepted. Raises Refused."""
    rule = check(sheet)
    if rule is not Rule.ACCEPTED:
        raise refuse_sheet(rule)
    return sheet


def convert(sheet: Writable) -> None:
    """Makes an old sheet one of edition 2, in place. Raises Refused for any other, an accepted one too."""
    outcome = Outcome(call("convert", writing("sheet", sheet)))
    if not outcome.carried_out:
        accepted(reading("sheet", sheet))
        raise Refused(outcome, "sheet", "nothing to convert, it is accepted")


def converted(sheet: Readable) -> bytes:
    """The sheet that an old one becomes; the old one stays. Raises Refused."""
    new = bytearray(reading("sheet", sheet))
    convert(new)
    return bytes(new)


def _body(sheet: Readable, what: str, *place: int) -> Optional[bytes]:
    """The bytes of what a lookup finds; None if it finds nothing in a sheet that is accepted."""
    run = reading("sheet", sheet)
    part = call(what, run, *place)
    if part.length == 0:
        accepted(run)
        return None
    return run[part.offset : part.offset + part.length]


def find_property(sheet: Readable, object: int, id: int) -> Optional[bytes]:
    """The bytes of a property's body; None if the sheet has no such property. Raises Refused if it is not accepted."""
    return _body(sheet, "property", number("object", object, 255), number("id", id, 255))


def find_region(sheet: Readable, k: int) -> Optional[bytes]:
    """The same of region k, counted from 0."""
    return _body(sheet, "region", size("k", k))


def find_group(sheet: Readable, address: int) -> Optional[bytes]:
    """The same of a group object."""
    return _body(sheet, "group", number("address", address, 65535))


def find_user_region(sheet: Readable, k: int) -> Optional[bytes]:
    """The same of user region k, counted from 0."""
    return _body(sheet, "user_region", size("k", k))
