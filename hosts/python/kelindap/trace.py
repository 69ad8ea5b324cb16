"""Traces of events: the check, playing them on a device, and marks of who changed what."""

from __future__ import annotations

from array import array
from ctypes import byref
from typing import List, NamedTuple

from . import _library
from ._library import call
from ._runs import Array, Lent, Readable, number, reading, size, writing, writing_numbers
from .errors import Refused
from .names import CONNECTIONS, LOG_LINE, TRACE_EVENTS, Outcome


class Logged(NamedTuple):
    """What an event of a trace gave: its outcome, and its answer."""

    outcome: Outcome
    answer: bytes


def trace_check(trace: Readable) -> Outcome:
    """OK if the trace can be played, else why not."""
    return Outcome(call("trace_check", reading("trace", trace)))


def marks(sheet_length: int) -> Array:
    """Marks of 0 for a sheet of so many bytes: a number for each, and one for the level of each connection."""
    return array("I", bytes(4 * (size("sheet_length", sheet_length) + CONNECTIONS)))


def play(sessions: _library.Sessions, sheet: Lent, trace: Readable, played: int, limit: int) -> List[Logged]:
    """Plays events of a trace of which so many were played, at most limit. Raises Refused."""
    log = bytearray(TRACE_EVENTS * LOG_LINE)
    place = reading("trace", trace), size("played", played), size("limit", limit)
    return _logged(log, call("play", byref(sessions), sheet, *place, writing("log", log)))


def play_marked(
    sessions: _library.Sessions, sheet: Lent, trace: Readable, marks: Array, marked: int, played: int, limit: int
) -> List[Logged]:
    """The same with marks, with which so many events were played before. Raises Refused."""
    log, before = bytearray(TRACE_EVENTS * LOG_LINE), bytearray(sheet.length)
    place = reading("trace", trace), size("played", played), size("limit", limit)
    marking = writing("before", before), writing_numbers("marks", marks), number("marked", marked, (1 << 32) - 1)
    return _logged(log, call("play_marked", byref(sessions), sheet, *place, writing("log", log), *marking))


def _logged(log: bytearray, done: _library.Played) -> List[Logged]:
    """The lines of the log that playing filled. Raises Refused if nothing was played."""
    if done.refusal != Outcome.OK:
        raise Refused(done.refusal, "marks" if done.refusal == Outcome.TRACE_MARKS else "trace")
    lines = [log[LOG_LINE * i : LOG_LINE * (i + 1)] for i in range(done.handled)]
    return [Logged(Outcome(line[0]), bytes(line[2 : 2 + line[1]])) for line in lines]
