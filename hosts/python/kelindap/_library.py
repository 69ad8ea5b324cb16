"""The library: structures and calls as the headers have them, a line for a call. No other module knows how C has them."""

from __future__ import annotations

import ctypes
import os
from ctypes import POINTER, Structure, c_bool, c_int32, c_size_t, c_uint8, c_uint16, c_uint32, c_uint64
from typing import Any, Dict, List, Tuple

from ._runs import Lent
from .names import CHANGED, CONNECTIONS, VERSION


class Session(Structure):
    """kelindap_session"""

    _fields_ = [("open", c_bool), ("level", c_uint8)]


class Sessions(Structure):
    """kelindap_sessions"""

    _fields_ = [("of", Session * CONNECTIONS)]


class Part(Structure):
    """kelindap_part"""

    _fields_ = [("offset", c_size_t), ("length", c_size_t)]


class Reply(Structure):
    """kelindap_reply"""

    _fields_ = [("outcome", c_uint8), ("count", c_uint8), ("changed", Part * CHANGED)]


class Saved(Structure):
    """kelindap_saved"""

    _fields_ = [("outcome", c_uint8), ("number", c_uint16)]


class Listed(Structure):
    """kelindap_listed"""

    _fields_ = [("number", c_uint16), ("length", c_uint16)]


class Played(Structure):
    """kelindap_played"""

    _fields_ = [("refusal", c_uint8), ("handled", c_uint16)]


class Link(Structure):
    """kelindap_link"""

    _fields_ = [("sessions", Sessions), ("address", c_uint16 * CONNECTIONS)]


class Arrival(Structure):
    """kelindap_arrival"""

    _fields_ = [("event", c_uint8), ("connection", c_uint8), ("group", c_uint16), ("source", c_uint16)] + [
        ("sequence", c_uint8),
        ("negative", c_bool),
    ]


class Served(Structure):
    """kelindap_served"""

    _fields_ = [(name, c_uint8) for name in "number outcome connection count".split()] + [("changed", Part * CHANGED)]


class SlotState(Structure):
    """kelindap_slot_state"""

    _fields_ = [("refusal", c_uint8), ("number", c_uint32), ("offset", c_size_t), ("length", c_size_t)]


class SlotJudging(Structure):
    """kelindap_slot_judging"""

    _fields_ = [("refusal", c_uint8)] + [(name, c_uint32) for name in "number length left stated sum".split()]


class SlotGoal(Structure):
    """kelindap_slot_goal"""

    _fields_ = [("slot", c_uint8), ("number", c_uint32)]


class SlotPiece(Structure):
    """kelindap_slot_piece"""

    _fields_ = [("refusal", c_uint8), ("work", c_uint8), ("at", c_size_t), ("count", c_size_t)]


class Written(Structure):
    """kelindap_written"""

    _fields_ = [("outcome", c_uint8), ("count", c_uint8)]


class Pdu(Structure):
    """kelindap_pdu"""

    _fields_ = (
        [("serial", c_uint64), ("key", c_uint32)]
        + [(name, c_uint16) for name in ("address", "domain", "s", "maximum")]
        + [(name, c_uint8) for name in "outcome kind v t object id n index type access level".split()]
        + [("data_offset", c_size_t), ("data_length", c_size_t)]
    )


class Frame(Structure):
    """kelindap_frame"""

    _fields_ = (
        [("source", c_uint16), ("destination", c_uint16)]
        + [(name, c_uint8) for name in "outcome event code control1 control2 transport".split()]
        + [(name, c_size_t) for name in "info_offset info_length tpdu_offset tpdu_length".split()]
    )


class Framed(Structure):
    """kelindap_framed"""

    _fields_ = [("count", c_uint16), ("outcome", c_uint8)]


class Point(Structure):
    """kelindap_point"""

    _fields_ = [("hundredths", c_int32), ("bits", c_uint32), ("type", c_uint8), ("value", c_uint8), ("outcome", c_uint8)]


_RUN: List[Any] = [POINTER(c_uint8), c_size_t]
_NUMBERS: List[Any] = [POINTER(c_uint32), c_size_t]
_SESSIONS: List[Any] = [POINTER(Sessions)]
CALLS: Dict[str, Tuple[Any, List[Any]]] = {
    "version": (c_uint32, []),
    "fresh": (Sessions, []),
    "connect": (c_uint8, _SESSIONS + [c_uint8]),
    "disconnect": (c_uint8, _SESSIONS + [c_uint8]),
    "button": (c_uint8, _RUN + [c_bool]),
    "request": (Reply, _SESSIONS + _RUN + [c_uint8, c_uint8, c_uint16] + 2 * _RUN),
    "check": (c_uint8, _RUN),
    "convert": (c_uint8, _RUN),
    "property": (Part, _RUN + [c_uint8, c_uint8]),
    "region": (Part, _RUN + [c_size_t]),
    "group": (Part, _RUN + [c_uint16]),
    "user_region": (Part, _RUN + [c_size_t]),
    "store_check": (c_uint8, _RUN),
    "save": (Saved, 2 * _RUN),
    "restore": (c_uint8, [Sessions, c_uint8] + 2 * _RUN + [c_size_t]),
    "remove": (c_uint8, _RUN + [c_size_t]),
    "kept": (Listed, _RUN + [c_size_t]),
    "trace_check": (c_uint8, _RUN),
    "play": (Played, _SESSIONS + 2 * _RUN + [c_size_t, c_size_t] + _RUN),
    "play_marked": (Played, _SESSIONS + 2 * _RUN + [c_size_t, c_size_t] + 2 * _RUN + _NUMBERS + [c_uint32]),
    "heard": (Arrival, [Link] + 2 * _RUN),
    "serve": (Served, [POINTER(Link)] + 3 * _RUN + [c_uint8]),
    "slot": (SlotState, _RUN),
    "slot_begin": (SlotJudging, _RUN + [c_size_t]),
    "slot_more": (SlotJudging, [SlotJudging] + _RUN),
    "slot_end": (SlotState, [SlotJudging]),
    "slot_newer": (c_uint8, [SlotState, SlotState]),
    "slot_target": (SlotGoal, [SlotState, SlotState]),
    "slot_work": (SlotPiece, _RUN + [c_uint32, c_size_t, c_uint8] + _RUN),
    "pdu_version": (c_uint32, []),
    "read": (Pdu, _RUN),
    "write": (Written, [Pdu] + 2 * _RUN),
    "point_read": (Point, [c_uint8] + _RUN),
    "point_write": (c_uint8, [Point] + _RUN),
    "frame_read": (Frame, _RUN),
    "frame_write": (Framed, [Frame] + 3 * _RUN),
}


def _load() -> Dict[str, Any]:
    """The calls of the library beside this module, or of that which KELINDAP_LIBRARY names, if it is of this version."""
    path = os.environ.get("KELINDAP_LIBRARY") or os.path.join(os.path.dirname(os.path.abspath(__file__)), "libkelindap.so.0")
    try:
        # Python's lock is kept during a call: no two threads are in the library at once
        library = ctypes.PyDLL(path)
    except OSError as error:
        raise ImportError(f"kelindap: the library is not there, or not for this machine: {error}") from None
    calls: Dict[str, Any] = {}
    for name, (result, parameters) in CALLS.items():
        try:
            calls[name] = library["kelindap_" + name]
        except AttributeError:
            raise ImportError(f"kelindap: {path} has no kelindap_{name}: it is another library, or another version") from None
        calls[name].restype, calls[name].argtypes = result, parameters
    for name in ("version", "pdu_version"):
        number = calls[name]()
        text = f"{number >> 16}.{number >> 8 & 255}.{number & 255}"
        if text != VERSION:
            raise ImportError(f"kelindap: this is version {VERSION}, and {path} is {text}")
    return calls


_calls = _load()
_ITEMS: Dict[int, Any] = {1: c_uint8, 4: c_uint32}


def call(name: str, *arguments: Any) -> Any:
    """Calls the library. Bytes go as a copy and a length, what is lent as itself and a length, all else as it is.

    The loans end here: an exception that is raised later, and kept, keeps no buffer from growing."""
    given: List[Any] = []
    for argument in arguments:
        if isinstance(argument, bytes):
            given += [(c_uint8 * len(argument)).from_buffer_copy(argument) if argument else None, len(argument)]
        elif isinstance(argument, Lent):
            items: Any = _ITEMS[argument.width] * argument.length
            given += [items.from_buffer(argument.run) if argument.length else None, argument.length]
        else:
            given.append(argument)
    return _calls[name](*given)
