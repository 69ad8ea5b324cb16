"""Versions of a sheet's properties in a store, a buffer of the host's: it survives if the host keeps it. Zeroed, it is good and empty."""

from __future__ import annotations

from typing import Any, List, NamedTuple

from . import _library
from ._library import call
from ._runs import Lent, Readable, Writable, reading, size, writing
from .errors import must
from .names import STORE_LEAST, STORE_MOST, STORE_VERSIONS, Outcome
from .sheet import accepted


class Version(NamedTuple):
    """A version that a store keeps: its number, and the bytes that it takes."""

    number: int
    length: int


def store_check(store: Readable) -> Outcome:
    """OK for a good store, else STORE_BAD."""
    return Outcome(call("store_check", reading("store", store)))


def versions(store: Readable) -> List[Version]:
    """The versions that a store keeps, in rising order. Raises Refused if it is not a good one."""
    run = reading("store", store)
    must(store_check(run), "store")
    kept = [call("kept", run, k) for k in range(STORE_VERSIONS)]
    return [Version(version.number, version.length) for version in kept if version.number]


def remove(store: Writable, number: int) -> None:
    """Takes a version out of the store, in place. Raises Refused."""
    given = size("number", number)
    outcome = call("remove", writing("store", store), given)
    must(outcome, *_wrong(outcome, number))


def save(sheet: Readable, store: Writable) -> int:
    """Keeps the sheet's properties as a version in the store, in place: its number. Raises Refused."""
    run, lent = reading("sheet", sheet), writing("store", store)
    saved = call("save", run, lent)
    judged(saved.outcome, run)
    must(saved.outcome, "store", f"{lent.length} bytes: {STORE_LEAST} to {STORE_MOST}" if saved.outcome == Outcome.STORE_BAD else None)
    return int(saved.number)


def restore(sessions: _library.Sessions, connection: int, sheet: Lent, store: Readable, number: int) -> None:
    """Gives a version back to the sheet that is lent, on behalf of a connection. Raises Refused."""
    outcome = call("restore", sessions, connection, sheet, reading("store", store), size("number", number))
    judged(outcome, bytes(sheet.run))
    must(outcome, *_wrong(outcome, number))


def judged(outcome: int, sheet: bytes) -> None:
    """Raises Refused if it was the sheet that was refused, with the rule."""
    if outcome in (Outcome.BAD_SHEET, Outcome.OLD_SHEET):
        accepted(sheet)


def _wrong(outcome: int, number: int) -> Any:
    """The field that is wrong, where it is the number."""
    return ("number", f"number={number}") if outcome == Outcome.STORE_NOT_KEPT else ()
