"""A sheet, or a store of versions, that survives a power cut: two slots in a medium, what stands in each, and a save as pieces of work.

What a host does with them, and what it must see to, the header kelindap_slots.h says; nothing here writes a medium.
"""

from __future__ import annotations

from typing import Iterator, NamedTuple, Optional, SupportsIndex

from . import _library
from ._library import call
from ._runs import Readable, number, reading, size, writing
from .errors import Refused
from .names import SLOT_NEITHER, SLOT_UNIT, Outcome, Work

_NUMBER = 0xFFFFFFFF


class Slot(NamedTuple):
    """What a slot holds: the number it was saved under, and where in the slot the sheet stands."""

    number: int
    offset: int
    length: int


class SlotGoal(NamedTuple):
    """Where a save goes: slot 0 or 1, and the number to save under."""

    slot: int
    number: int

    def next(self) -> SlotGoal:
        """Where the next save goes, after this one was finished: to the other slot, under the number after it."""
        return SlotGoal(1 - self.slot, (self.number + 1) & _NUMBER)


class SlotPiece(NamedTuple):
    """A piece of work on a slot: what it is, the first byte, how many; and the bytes to write, none of an erase."""

    work: Work
    at: int
    length: int
    data: bytes


def slot(run: Readable) -> Slot:
    """What stands in a slot. Raises Refused if it holds no sheet: SLOT_SHORT, SLOT_UNMARKED, SLOT_LENGTH or SLOT_SUM."""
    return _held(call("slot", reading("slot", run)))


class SlotJudging:
    """A slot that is judged in parts: begun with its first 64 bytes and its room, then `more`, until `left` is 0, then `end`."""

    def __init__(self, front: Readable, room: SupportsIndex) -> None:
        """Begins with the first bytes of a slot, and its room, which is its length."""
        self._judging: _library.SlotJudging = call("slot_begin", reading("front", front), size("room", room))

    @property
    def left(self) -> int:
        """How many bytes of the sheet are still to be handed over; 0 also if the slot is refused already."""
        return int(self._judging.left)

    def more(self, run: Readable) -> None:
        """The next bytes behind the front, in order. What is behind the sheet is not looked at."""
        self._judging = call("slot_more", self._judging, reading("run", run))

    def end(self) -> Slot:
        """What `slot` gives of the whole. Raises Refused as it does, and SLOT_UNREAD if bytes are missing."""
        return _held(call("slot_end", self._judging))


def slot_newer(first: Optional[Slot], second: Optional[Slot]) -> Optional[int]:
    """Which of two slots a unit starts with, 0 or 1; None is a slot that holds no sheet, and of two such ones what is given back."""
    which = int(call("slot_newer", _state("first", first), _state("second", second)))
    return None if which == SLOT_NEITHER else which


def slot_target(first: Optional[Slot], second: Optional[Slot]) -> SlotGoal:
    """Where the next save goes: never to the slot that `slot_newer` names."""
    goal: _library.SlotGoal = call("slot_target", _state("first", first), _state("second", second))
    return SlotGoal(int(goal.slot), int(goal.number))


def slot_work(sheet: Readable, goal: SlotGoal, room: SupportsIndex) -> Iterator[SlotPiece]:
    """The pieces of saving a sheet into a slot with this room, in order: each has ended before the next is asked for.

    Raises Refused with SLOT_NO_ROOM at once, before the first piece."""
    run, under, long = reading("sheet", sheet), number("number", goal.number, _NUMBER), size("room", room)
    first = _piece(run, under, long, 0)

    def pieces() -> Iterator[SlotPiece]:
        """One after the other."""
        piece, k = first, 0
        while piece is not None:
            yield piece
            k += 1
            piece = _piece(run, under, long, k)

    return pieces()


def _piece(run: bytes, under: int, room: int, k: int) -> Optional[SlotPiece]:
    """SlotPiece k, or none if there is none left."""
    buffer = bytearray(SLOT_UNIT)
    got = call("slot_work", run, under, room, k, writing("buffer", buffer))
    if got.refusal:
        raise Refused(got.refusal, "sheet", f"{len(run)} bytes, and the slot has {room}")
    kind = Work(got.work)
    if kind is Work.NONE:
        return None
    data = bytes(buffer[: got.count]) if kind is Work.WRITE else run if kind is Work.SHEET else b""
    return SlotPiece(kind, int(got.at), int(got.count), data)


def _held(state: _library.SlotState) -> Slot:
    """What a slot holds, or the refusal."""
    if state.refusal:
        raise Refused(state.refusal, "slot")
    return Slot(int(state.number), int(state.offset), int(state.length))


def _state(name: str, held: Optional[Slot]) -> _library.SlotState:
    """The other way round."""
    if held is None:
        return _library.SlotState(Outcome.SLOT_UNMARKED, 0, 0, 0)
    if not isinstance(held, Slot):
        raise TypeError(f"{name}: a Slot or None is due, not {type(held).__name__}")
    return _library.SlotState(0, number("number", held.number, _NUMBER), size("offset", held.offset), size("length", held.length))
