"""Kelindap from Python: sheets, versions of them, slots that keep both through power cuts, PDUs, group values, frames, traces, and a
device for two partners, over the proved libraries.

    import kelindap

    unit = kelindap.Unit(open("sheet", "rb").read())
    unit.connect(0)
    unit.ask("authorize_request", key=0x22222222, connection=0)
    reply, pdu = unit.ask("property_write", object=1, id=51, n=1, s=1, data=b"\\x04\\xe2", connection=0)
    if reply.changed:
        save(unit.sheet)

Nothing is decided here: every verdict, outcome and byte is the library's, and the numbers and words are those of its headers, which
tell more. Nothing but the standard library is needed.

What raises. What you want done is done, or it raises and nothing has changed: `Refused` with the library's number and words, a
ValueError for a number that has no place in C, a TypeError for what is of the wrong type. Two things come back as a value whatever it
is, since it is what was asked for: the verdict of a check (`check`, `store_check`, `trace_check`), and the outcome of what came from
the bus (`request`, `ask`, `heard`, `serve`, and each event of a trace that is played), where a refusal is an answer too.

Bytes. What is only read may be bytes or any other run of bytes, and is copied. What the library writes (`convert`, `remove`, a store
that is saved to, each `buffer`, marks) is written in place, and has to be writable and without gaps: a bytearray, a memoryview of one,
an array of bytes, a mmap. Anything else is a TypeError. A unit has its sheet for itself: `unit.sheet` is a copy as bytes, to be saved,
and what is assigned to it is copied in.

Threads. No two threads are in the library at once, but a unit is for one thread: calls on it come one after the other.
"""

from .errors import Refused
from .frames import Frame, frame_read, frame_write, frame_write_into
from .link import Arrival, Served
from .names import CONNECTIONS, LINK_ROOM, SLOT_FRONT, SLOT_MOST, SLOT_UNIT, STORE_LAST, STORE_LEAST, STORE_MOST, STORE_VERSIONS
from .names import TRACE_EVENTS, VERSION
from .names import Event, Kind, Message, Mode, Outcome, Rule, TraceKind, Work
from .pdu import Pdu, read, write, write_into
from .points import point_fields, point_read, point_write
from .sheet import Part, check, convert, converted, find_group, find_property, find_region, find_user_region
from .slots import Slot, SlotGoal, SlotJudging, SlotPiece, slot, slot_newer, slot_target, slot_work
from .store import Version, remove, store_check, versions
from .trace import Logged, trace_check
from .unit import Reply, Session, Unit

__version__ = VERSION
__all__ = [
    "Arrival",
    "CONNECTIONS",
    "Event",
    "Frame",
    "Kind",
    "LINK_ROOM",
    "Logged",
    "Message",
    "Mode",
    "Outcome",
    "Part",
    "Pdu",
    "Refused",
    "Reply",
    "Rule",
    "SLOT_FRONT",
    "SLOT_MOST",
    "SLOT_UNIT",
    "STORE_LAST",
    "STORE_LEAST",
    "STORE_MOST",
    "STORE_VERSIONS",
    "Served",
    "Session",
    "Slot",
    "SlotGoal",
    "SlotJudging",
    "SlotPiece",
    "TRACE_EVENTS",
    "TraceKind",
    "Unit",
    "Version",
    "Work",
    "check",
    "convert",
    "converted",
    "find_group",
    "find_property",
    "find_region",
    "find_user_region",
    "frame_read",
    "frame_write",
    "frame_write_into",
    "point_fields",
    "point_read",
    "point_write",
    "read",
    "remove",
    "slot",
    "slot_newer",
    "slot_target",
    "slot_work",
    "store_check",
    "trace_check",
    "versions",
    "write",
    "write_into",
]
