"""A device on the desk: a sheet, and the sessions of two connections."""

from __future__ import annotations

import copy
from ctypes import byref
from typing import Any, List, NamedTuple, Optional, Tuple, Union

from . import _library
from . import link as _link
from . import store as _store
from . import trace as _trace
from ._library import call
from ._runs import Array, Lent, Readable, Writable, flag, number, reading, whole, writing
from .errors import must
from .link import Arrival, Served, opened
from .names import CONNECTIONS, LINK_NOBODY, LINK_ROOM, TRACE_EVENTS, Kind, Mode, Outcome, Rule
from .pdu import Pdu, read, without_bars, write
from .sheet import Part, accepted, check, convert, parts
from .trace import Logged


class Session(NamedTuple):
    """The session of a connection: whether it is open, and its level, 0 with most rights."""

    open: bool
    level: int


class Reply(NamedTuple):
    """What a request gave: its outcome, the APDU that answers, empty if none is due, the parts of the sheet that were stored, and the
    connections that a Restart has closed."""

    outcome: Outcome
    answer: bytes
    changed: Tuple[Part, ...]
    closed: Tuple[int, ...]


class Unit:
    """A device: its sheet, and the sessions of connections 0 and 1 with the address that connected last on each.

    The host's duties are those of kelindap.h, and for frames those of kelindap_link.h: above all that it saves `sheet` when a reply has
    `changed`, and before it answers or acknowledges."""

    # nothing else can be assigned: a name that is mistyped would take a sheet and lose it
    __slots__ = ("_any", "_sheet", "_link")

    def __init__(self, sheet: Readable, *, any_sheet: bool = False) -> None:
        """A device at its start, both sessions closed, with a copy of the sheet. Raises Refused if the sheet is not accepted, unless
        any_sheet is true: a device with a sheet that breaks a rule, or is old, answers nothing until it has another."""
        self._any = flag("any_sheet", any_sheet)
        self._sheet = bytearray()
        self.sheet = reading("sheet", sheet)
        self._link = _library.Link(call("fresh"))

    def __repr__(self) -> str:
        """Address, length and state of the sheet, and the sessions; no key, and nothing of what the sheet holds."""
        rule = check(self._sheet)
        state = rule.words if rule in (Rule.ACCEPTED, Rule.OLD) else f"breaks S{rule}"
        area, device = self._sheet[16:18] if rule is Rule.ACCEPTED else (0, 0)
        address = f" {area >> 4}.{area & 15}.{device}" if rule is Rule.ACCEPTED else ""
        told = [f"connection {c} {f'open at level {s.level}' if s.open else 'closed'}" for c, s in enumerate(self.sessions)]
        return f"<kelindap.Unit{address}: sheet of {len(self._sheet)} bytes, {state}; {', '.join(told)}>"

    def __copy__(self) -> Unit:
        """A device of its own, with a sheet and sessions that are as these are now."""
        return copy.deepcopy(self)

    # ---- the sheet ----

    @property
    def sheet(self) -> bytes:
        """The sheet as it stands, which is what a host saves: a copy, so that nothing that is done with it reaches the device.

        A sheet that is assigned is copied in, and judged as at the start; the sessions stay."""
        return bytes(self._sheet)

    @sheet.setter
    def sheet(self, sheet: Readable) -> None:
        """Another sheet, copied in. Raises Refused if it is not accepted, unless any was to be taken."""
        run = reading("sheet", sheet)
        self._sheet = bytearray(run if self._any else accepted(run))

    def _lent(self) -> Lent:
        """The sheet itself, for a call that writes it."""
        return writing("sheet", self._sheet)

    def check(self) -> Rule:
        """What the sheet is: accepted, the first rule that it breaks, or old."""
        return check(self._sheet)

    def convert(self) -> None:
        """Makes an old sheet one of edition 2. Raises Refused for any other, an accepted one too."""
        convert(self._sheet)

    def button(self, on: bool) -> None:
        """The programming button. Raises Refused if the sheet is not accepted."""
        outcome = call("button", self._lent(), flag("on", on))
        _store.judged(outcome, self.sheet)
        must(outcome)

    # ---- sessions ----

    @property
    def _sessions(self) -> Any:
        """The sessions themselves, for a call."""
        return self._link.sessions

    @property
    def sessions(self) -> List[Session]:
        """The session of each connection."""
        return [Session(bool(session.open), int(session.level)) for session in self._sessions.of]

    def set_session(self, connection: int, open: bool, level: int) -> None:
        """Sets a session, for a test; a device at work changes its own."""
        place = number("connection", connection, CONNECTIONS - 1)
        self._sessions.of[place] = _library.Session(flag("open", open), number("level", level, 255))

    @property
    def addresses(self) -> List[int]:
        """Of each connection the address that connected last on it: its partner's, while it is open."""
        return [int(address) for address in self._link.address]

    def connect(self, connection: int) -> None:
        """A partner connects: its session is open at level 3. Raises Refused if there is no such connection. Not for a unit that
        serves frames: kelindap_link.h says why."""
        self._must(call("connect", byref(self._sessions), self._place(connection)), connection)

    def disconnect(self, connection: int) -> None:
        """A connection ends, by its partner or a time limit: its session is closed. Raises Refused if there is no such connection."""
        self._must(call("disconnect", byref(self._sessions), self._place(connection)), connection)

    @staticmethod
    def _place(connection: int) -> int:
        """A connection's number; of what is none, the number that never is one."""
        got = whole("connection", connection)
        return got if 0 <= got < LINK_NOBODY else LINK_NOBODY

    @staticmethod
    def _must(outcome: int, connection: int) -> None:
        """Raises Refused if there is no such connection."""
        must(outcome, "connection", f"connection={connection}: 0 to {CONNECTIONS - 1}")

    # ---- requests ----

    def request(
        self, apdu: Readable, *, connection: Optional[int] = None, group: Optional[int] = None, mode: Optional[int] = None
    ) -> Reply:
        """A request from the bus: on a connection, to a group, or with neither connectionless; `mode` says it where it is another."""
        return self.request_into(bytearray(16), apdu, connection=connection, group=group, mode=mode)

    def request_into(
        self,
        buffer: Writable,
        apdu: Readable,
        *,
        connection: Optional[int] = None,
        group: Optional[int] = None,
        mode: Optional[int] = None,
    ) -> Reply:
        """The same with the answer at the front of a buffer; its other bytes stay as they are."""
        if mode is None:
            if connection is not None and group is not None:
                raise TypeError("a request comes on a connection or to a group, not both")
            mode = Mode.CONNECTED if connection is not None else Mode.MULTICAST if group is not None else Mode.CONNECTIONLESS
        elif mode == Mode.CONNECTED and connection is None:
            raise TypeError("connection is missing: connected data comes on one")
        elif mode == Mode.MULTICAST and group is None:
            raise TypeError("group is missing: multicast goes to one")
        place = LINK_NOBODY if connection is None else self._place(connection)
        way = number("mode", mode, 255), place, number("group", 0 if group is None else group, 65535)
        lent, before = writing("buffer", buffer), opened(self._sessions)
        reply = call("request", byref(self._sessions), self._lent(), *way, reading("apdu", apdu), lent)
        closed = tuple(sorted(before - opened(self._sessions)))
        return Reply(Outcome(reply.outcome), bytes(lent.run[: reply.count]), parts(reply.changed), closed)

    def ask(
        self,
        kind: Union[Kind, str],
        *,
        connection: Optional[int] = None,
        group: Optional[int] = None,
        mode: Optional[int] = None,
        **fields: Any,
    ) -> Tuple[Reply, Optional[Pdu]]:
        """A PDU by its fields as a request: the reply, and the PDU that answers or None. Raises Refused if there is no such PDU."""
        apdu = write(kind, **without_bars(fields))
        reply = self.request(apdu, connection=connection, group=group, mode=mode)
        return reply, read(reply.answer) if reply.answer else None

    # ---- frames ----

    def heard(self, frame: Readable) -> Arrival:
        """What a frame is to this device. Nothing changes."""
        return _link.heard(self._link, self.sheet, frame)

    def serve(self, frame: Readable, sequence: int = 0) -> Served:
        """A frame from the bus in, at most one frame out; of connected data it gets the sequence number."""
        return self.serve_into(bytearray(LINK_ROOM), frame, sequence)

    def serve_into(self, buffer: Writable, frame: Readable, sequence: int = 0) -> Served:
        """The same with the frame that answers at the front of a buffer; its other bytes stay as they are."""
        return _link.serve(self._link, self._lent(), frame, sequence, writing("buffer", buffer))

    # ---- versions ----

    def save(self, store: Writable) -> int:
        """Keeps the properties as a version in the store, in place: its number. Raises Refused."""
        return _store.save(self.sheet, store)

    def restore(self, store: Readable, number: int, connection: int) -> None:
        """Gives a version back to the sheet, on behalf of a connection. Raises Refused."""
        _store.restore(self._sessions, self._place(connection), self._lent(), store, number)

    # ---- traces ----

    def play(self, trace: Readable, played: int = 0, limit: int = TRACE_EVENTS) -> List[Logged]:
        """Plays events of a trace of which so many were played, at most limit: what each gave. Raises Refused if the trace is none."""
        return _trace.play(self._sessions, self._lent(), trace, played, limit)

    def play_marked(self, trace: Readable, marks: Array, marked: int, played: int = 0, limit: int = TRACE_EVENTS) -> List[Logged]:
        """The same with marks, in place: marks() at first, and so many events were marked before. Raises Refused."""
        return _trace.play_marked(self._sessions, self._lent(), trace, marks, marked, played, limit)

    def marks(self) -> Array:
        """Marks of 0 for this sheet: a number for each of its bytes, and one for the level of each connection."""
        return _trace.marks(len(self._sheet))
