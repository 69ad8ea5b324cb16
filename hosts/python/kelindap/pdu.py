"""PDUs: read by kind and fields, and written.

The table is that of kelindap_pdu.h. What is refused the library says; the table is asked afterwards, for the words.
"""

from __future__ import annotations

import difflib
from typing import Any, Dict, Mapping, NamedTuple, Optional, Tuple, Union

from . import _library
from ._library import call
from ._runs import Readable, Writable, reading, shown, whole, writing
from .errors import Refused
from .names import Kind, Outcome


class Pdu(NamedTuple):
    """A PDU: its kind, and its fields by name. `data`, `and` and `xor` are bytes, all others are numbers."""

    kind: Kind
    fields: Dict[str, Any]


class Row(NamedTuple):
    """What a kind has: the most of each number, and its data: none, from so many bytes to so many, n bytes, or n and n."""

    most: Mapping[str, int]
    data: Union[None, Tuple[int, int], str]

    @property
    def names(self) -> Tuple[str, ...]:
        """The names of its fields, in order."""
        runs = () if self.data is None else ("and", "xor") if self.data == "n n" else ("data",)
        return (*self.most, *runs)


_BYTE, _WORD, _KEY, _SERIAL = (1 << 8) - 1, (1 << 16) - 1, (1 << 32) - 1, (1 << 48) - 1
_PROPERTY = {"object": _BYTE, "id": _BYTE, "n": 15, "s": 4095}
_DESCRIPTION = {"object": _BYTE, "id": _BYTE, "index": _BYTE}

ROWS: Mapping[Kind, Row] = {
    Kind.GROUP_READ: Row({}, None),
    Kind.GROUP_RESPONSE: Row({"v": 63}, (0, 14)),
    Kind.GROUP_WRITE: Row({"v": 63}, (0, 14)),
    Kind.ADDRESS_WRITE: Row({"address": _WORD}, None),
    Kind.ADDRESS_READ: Row({}, None),
    Kind.SERIAL_READ: Row({"serial": _SERIAL}, None),
    Kind.SERIAL_WRITE: Row({"serial": _SERIAL, "address": _WORD}, None),
    Kind.DESCRIPTOR_READ: Row({"t": 63}, None),
    Kind.PROPERTY_READ: Row(_PROPERTY, None),
    Kind.PROPERTY_WRITE: Row(_PROPERTY, (1, 10)),
    Kind.DESCRIPTION_READ: Row(_DESCRIPTION, None),
    Kind.MEMORY_READ: Row({"n": 15, "address": _WORD}, None),
    Kind.MEMORY_WRITE: Row({"n": 12, "address": _WORD}, "n"),
    Kind.MEMORY_BIT_WRITE: Row({"n": 5, "address": _WORD}, "n n"),
    Kind.AUTHORIZE_REQUEST: Row({"key": _KEY}, None),
    Kind.KEY_WRITE: Row({"level": _BYTE, "key": _KEY}, None),
    Kind.RESTART: Row({}, None),
    Kind.ADDRESS_RESPONSE: Row({}, None),
    Kind.SERIAL_RESPONSE: Row({"serial": _SERIAL, "domain": _WORD}, None),
    Kind.DESCRIPTOR_RESPONSE: Row({"t": 63}, (0, 14)),
    Kind.PROPERTY_RESPONSE: Row(_PROPERTY, (0, 10)),
    Kind.DESCRIPTION_RESPONSE: Row({**_DESCRIPTION, "type": _BYTE, "maximum": 4095, "access": _BYTE}, None),
    Kind.MEMORY_RESPONSE: Row({"n": 12, "address": _WORD}, "n"),
    Kind.AUTHORIZE_RESPONSE: Row({"level": _BYTE}, None),
    Kind.KEY_RESPONSE: Row({"level": _BYTE}, None),
    Kind.USER_MEMORY_READ: Row({"n": _BYTE, "address": _WORD}, None),
    Kind.USER_MEMORY_RESPONSE: Row({"n": 11, "address": _WORD}, "n"),
    Kind.USER_MEMORY_WRITE: Row({"n": 11, "address": _WORD}, "n"),
}
_KINDS = {kind.words: kind for kind in ROWS}


def read(apdu: Readable) -> Pdu:
    """The PDU in an APDU. Raises Refused."""
    run = reading("apdu", apdu)
    flat = call("read", run)
    if flat.outcome != Outcome.OK:
        raise Refused(flat.outcome, "apdu", f"{len(run)} bytes: 2 to 16" if flat.outcome == Outcome.BAD_LENGTH else None)
    kind = Kind(flat.kind)
    data = run[flat.data_offset : flat.data_offset + flat.data_length]
    runs = {"data": data, "and": data[: len(data) // 2], "xor": data[len(data) // 2 :]}
    return Pdu(kind, {name: runs[name] if name in runs else getattr(flat, name) for name in ROWS[kind].names})


def kind_of(kind: Union[Kind, str, int]) -> Kind:
    """A kind by itself, its name or its number. Raises Refused, with the nearest name."""
    if isinstance(kind, str):
        if kind in _KINDS:
            return _KINDS[kind]
        near = difflib.get_close_matches(kind.lower(), _KINDS, 1, 0.5)
        raise Refused(Outcome.UNWRITABLE, "kind", f'no kind "{kind}"' + (f'; the nearest is "{near[0]}"' if near else ""))
    got = whole("kind", kind)
    if got not in ROWS:
        raise Refused(Outcome.UNWRITABLE, "kind", f"{shown('kind', got)}: 0 to {max(ROWS)}")
    return Kind(got)


def _named(kind: Kind, fields: Mapping[str, Any]) -> None:
    """Raises TypeError if the fields are not those of the kind."""
    names = ROWS[kind].names
    wrong = [f"{name} is missing" for name in names if name not in fields]
    for name in fields:
        if name not in names:
            near = difflib.get_close_matches(name, names, 1, 0.5)
            wrong.append(f"there is no {name}" + (f", the nearest is {near[0]}" if near else ""))
    if wrong:
        raise TypeError(f"{kind.words} has {'the fields ' + ', '.join(names) if names else 'no fields'}: {'; '.join(wrong)}")


def _reason(kind: Kind, numbers: Mapping[str, int], runs: Mapping[str, bytes]) -> Tuple[Optional[str], Optional[str]]:
    """The field that is against the table, and what is wrong with it."""
    row = ROWS[kind]
    for name, most in row.most.items():
        if not 0 <= numbers[name] <= most:
            return name, f"{kind.words} {shown(name, numbers[name])}: 0 to {most}"
    for name, run in runs.items():
        least, most = (numbers["n"], numbers["n"]) if isinstance(row.data, str) else row.data or (0, 0)
        if not least <= len(run) <= most:
            due = f"{least} to {most}" if least < most else f"n={least}"
            return name, f"{kind.words} {name} of {len(run)} bytes: {due}"
    if runs.get("data") and numbers.get("v"):
        return "v", f"{kind.words} {shown('v', numbers['v'])}: 0 beside data"
    return None, None


def _written(lent: Any, kind: Union[Kind, str, int], fields: Mapping[str, Any]) -> int:
    """Writes a PDU into what is lent: how many bytes it has."""
    which = kind_of(kind)
    _named(which, fields)
    row = ROWS[which]
    numbers = {name: whole(name, fields[name]) for name in row.most}
    runs = {name: reading(name, fields[name]) for name in row.names if name not in numbers}
    flat = _library.Pdu(kind=which)
    for name, value in numbers.items():
        setattr(flat, name, value)
        # what its place can't hold, of which ctypes sets a part, no row has: the library refuses it in its own order
        if getattr(flat, name) != value:
            flat.kind = Kind.NO_KIND
    if "and" in runs and len(runs["and"]) != len(runs["xor"]):
        flat.kind = Kind.NO_KIND
    written = call("write", flat, b"".join(runs.values()), lent)
    if written.outcome == Outcome.UNWRITABLE:
        raise Refused(written.outcome, *_reason(which, numbers, runs))
    if written.outcome != Outcome.OK:
        raise Refused(written.outcome, "buffer", f"{lent.length} bytes: 16 or more")
    return int(written.count)


def write_into(buffer: Writable, kind: Union[Kind, str, int], fields: Mapping[str, Any]) -> int:
    """Writes a PDU to the front of a buffer of 16 bytes or more: how many bytes it has. Raises Refused."""
    return _written(writing("buffer", buffer), kind, fields)


def without_bars(fields: Mapping[str, Any]) -> Dict[str, Any]:
    """Fields as they are named, where `and_` stood for `and`, which is a word of Python's."""
    return {"and" if name == "and_" else name: value for name, value in fields.items()}


def write(kind: Union[Kind, str, int], **fields: Any) -> bytes:
    """The APDU of a PDU, its fields by name; `and_` stands for the field `and`. Raises Refused."""
    buffer = bytearray(16)
    count = write_into(buffer, kind, without_bars(fields))
    return bytes(buffer[:count])
