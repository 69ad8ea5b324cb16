"""Frames of the bus: read by fields, and written."""

from __future__ import annotations

from typing import Any, Dict, NamedTuple, Optional, Tuple

from . import _library
from ._library import call
from ._runs import Readable, Writable, reading, shown, whole, writing
from .errors import Refused
from .names import Event, Message, Outcome


class Frame(NamedTuple):
    """A frame: its fields, what it means, its additional information and its TPDU."""

    code: int
    control1: int
    control2: int
    source: int
    destination: int
    transport: int
    event: Event
    info: bytes
    tpdu: bytes


MOST = 2 + 255 + 7 + 16  # bytes of the longest frame


def frame_read(frame: Readable) -> Frame:
    """The frame in the bytes. Raises Refused."""
    run = reading("frame", frame)
    flat = call("frame_read", run)
    if flat.outcome != Outcome.OK:
        raise Refused(flat.outcome, "frame")
    info = run[flat.info_offset : flat.info_offset + flat.info_length]
    tpdu = run[flat.tpdu_offset : flat.tpdu_offset + flat.tpdu_length]
    numbers = (flat.code, flat.control1, flat.control2, flat.source, flat.destination, flat.transport)
    return Frame(*numbers, Event(flat.event), info, tpdu)


def _reason(numbers: Dict[str, int], info: bytes, apdu: bytes) -> Tuple[Optional[str], Optional[str]]:
    """The field that no frame has, and what is wrong with it."""
    codes = " or ".join(f"{code} ({code:x}h, {code.words})" for code in Message)
    rules = (
        ("code", numbers["code"] in list(Message), codes),
        ("control1", 128 <= numbers["control1"] <= 255, "128 to 255: bit 7 is set in a standard frame"),
        ("control2", 0 <= numbers["control2"] <= 255 and numbers["control2"] % 16 == 0, "0 to 240, bits 3 to 0 clear"),
        ("source", 0 <= numbers["source"] <= 65535, "0 to 65535"),
        ("destination", 0 <= numbers["destination"] <= 65535, "0 to 65535"),
        ("transport", 0 <= numbers["transport"] <= 63, "0 to 63"),
    )
    for name, holds, due in rules:
        if not holds:
            return name, f"{shown(name, numbers[name])}: {due}"
    if len(info) > 255:
        return "info", f"info of {len(info)} bytes: 0 to 255"
    if not 1 <= len(apdu) <= 16:
        return "apdu", f"apdu of {len(apdu)} bytes: 1 to 16"
    return None, None


def frame_write_into(
    buffer: Writable,
    apdu: Readable,
    *,
    code: int,
    control1: int,
    control2: int,
    source: int,
    destination: int,
    transport: int,
    info: Readable = b"",
) -> int:
    """Writes a frame to the front of a buffer: how many bytes it has. Raises Refused."""
    given: Dict[str, Any] = dict(code=code, control1=control1, control2=control2)
    given.update(source=source, destination=destination, transport=transport)
    numbers = {name: whole(name, value) for name, value in given.items()}
    more, data, lent = reading("info", info), reading("apdu", apdu), writing("buffer", buffer)
    flat = _library.Frame(**numbers)
    if any(getattr(flat, name) != value for name, value in numbers.items()):
        flat.code = 0  # no message code, so the library refuses it
    framed = call("frame_write", flat, more, data, lent)
    if framed.outcome == Outcome.FRAME_UNWRITABLE:
        raise Refused(framed.outcome, *_reason(numbers, more, data))
    if framed.outcome != Outcome.OK:
        raise Refused(framed.outcome, "buffer", f"{lent.length} bytes: {9 + len(more) + len(data)}")
    return int(framed.count)


def frame_write(
    apdu: Readable, *, code: int, control1: int, control2: int, source: int, destination: int, transport: int, info: Readable = b""
) -> bytes:
    """A frame with an APDU, whose top six bits become transport, and its additional information. Raises Refused."""
    buffer = bytearray(MOST)
    numbers = dict(code=code, control1=control1, control2=control2, source=source, destination=destination, transport=transport)
    count = frame_write_into(buffer, apdu, info=info, **numbers)
    return bytes(buffer[:count])
