"""From the frame to the event: what a frame is to a device, and what serving it gave. What a connection's number is not, is None."""

from __future__ import annotations

from ctypes import byref
from typing import NamedTuple, Optional, Set, Tuple, Union

from . import _library
from ._library import call
from ._runs import Lent, Readable, number, reading
from .names import LINK_NOBODY, Event, Outcome
from .sheet import Part, parts

_EVENTS = frozenset(Event)


class Arrival(NamedTuple):
    """What a frame is to this device: its event, or the outcome that says why there is none; connection; group address of data; who
    sent it; its sequence number; of an acknowledgement, whether it is negative."""

    event: Union[Event, Outcome]
    connection: Optional[int]
    group: int
    source: int
    sequence: int
    negative: bool


class Served(NamedTuple):
    """What serving a frame gave.

    `number` is OK of an event, whose outcome is `outcome`, else why there is none, and `outcome` is None; `frame` is the frame that
    answers, empty if none is due; `changed` are the parts of the sheet that were stored, and `closed` the connections that a Restart has
    closed."""

    number: Outcome
    outcome: Optional[Outcome]
    connection: Optional[int]
    frame: bytes
    changed: Tuple[Part, ...]
    closed: Tuple[int, ...]


def _connection(number: int) -> Optional[int]:
    """A connection, or None."""
    return None if number == LINK_NOBODY else number


def opened(sessions: _library.Sessions) -> Set[int]:
    """The connections that are open."""
    return {connection for connection, session in enumerate(sessions.of) if session.open}


def heard(link: _library.Link, sheet: bytes, frame: Readable) -> Arrival:
    """What a frame is to the device with this link and sheet. Nothing changes."""
    arrival = call("heard", link, sheet, reading("frame", frame))
    event: Union[Event, Outcome] = Event(arrival.event) if arrival.event in _EVENTS else Outcome(arrival.event)
    connection = _connection(arrival.connection)
    return Arrival(event, connection, arrival.group, arrival.source, arrival.sequence, bool(arrival.negative))


def serve(link: _library.Link, sheet: Lent, frame: Readable, sequence: int, out: Lent) -> Served:
    """A frame in, at most one frame out, which goes to the front of what is lent."""
    run, own = reading("frame", frame), number("sequence", sequence, 255)
    before, arrival = opened(link.sessions), heard(link, bytes(sheet.run), run)
    served = call("serve", byref(link), sheet, run, out, own)
    # a disconnect closes its own connection; what else is closed, a Restart closed
    ended = {arrival.connection} if arrival.event is Event.DISCONNECT else set()
    closed = tuple(sorted(before - opened(link.sessions) - ended))
    answer, told = bytes(out.run[: served.count]), _connection(served.connection)
    why = Outcome(served.number)
    # of what is no event 0 would read as a request that was carried out
    outcome = Outcome(served.outcome) if why == Outcome.OK else None
    return Served(why, outcome, told, answer, parts(served.changed), closed)
