"""What could be lost at the edge, tried: every call in which the library writes, with every sort of run; the sheet that a unit holds;
and that a loan ends with its call."""

import array
import copy
import ctypes
import mmap
import pickle
import tempfile
import unittest

import kelindap
from kelindap import Mode, Outcome, Refused, Rule
from support import OLD, SAMPLE, run_tests

HEIGHT = dict(object=1, id=51, n=1, s=1)


def mapped(run):
    room = mmap.mmap(-1, max(len(run), 1))
    room[:] = run
    return room


def middle(run):
    """A view of the middle of a bytearray."""
    return memoryview(bytearray(b"\xee" * 3 + run + b"\xee" * 3))[3:-3]


WRITABLE = {
    "bytearray": bytearray,
    "a view of a bytearray": lambda run: memoryview(bytearray(run)),
    "a view of its middle": middle,
    "an array of bytes": lambda run: array.array("B", run),
    "an array of signed bytes": lambda run: array.array("b", run),
    "a mmap": mapped,
    "an array of C": lambda run: (ctypes.c_uint8 * len(run))(*run),
}


def read_only_mapped(run):
    with tempfile.TemporaryFile() as file:
        file.write(run)
        file.flush()
        return mmap.mmap(file.fileno(), len(run), access=mmap.ACCESS_READ)


UNWRITABLE = {
    "bytes": bytes,
    "a view of bytes": lambda run: memoryview(bytes(run)),
    "a view that is read only": lambda run: memoryview(bytearray(run)).toreadonly(),
    "a view with gaps": lambda run: memoryview(bytearray(2 * run))[::2],
    "a view backwards": lambda run: memoryview(bytearray(run))[::-1],
    "a view of rows": lambda run: memoryview(bytearray(run * 2)).cast("B", (2, len(run))),
    "an array of words": lambda run: array.array("H", bytes(run) + bytes(len(run) % 2)),
    "a mmap that is read only": read_only_mapped,
    "a list": list,
    "text": lambda run: run.decode("latin-1"),
    "a number": len,
    "None": lambda run: None,
}
# what is read may be all of these
READABLE = {**WRITABLE, "bytes": bytes, "a view of bytes": memoryview}
READABLE["a view with gaps"] = lambda run: memoryview(b"".join(bytes([byte, 0]) for byte in run))[::2]
UNREADABLE = {name: UNWRITABLE[name] for name in ("a view of rows", "an array of words", "a list", "text", "a number", "None")}


def at_level_1(sheet=SAMPLE):
    unit = kelindap.Unit(sheet)
    unit.connect(0)
    unit.ask("authorize_request", key=0x22222222, connection=0)
    return unit


STORE = bytes(200)
KEPT = bytearray(STORE)
at_level_1().save(KEPT)
FRAME = dict(code=0x29, control1=0xBC, control2=0x60, source=0x1101, destination=0x1105, transport=0)
READ = kelindap.write("property_read", **HEIGHT)
ASKED = kelindap.frame_write(READ, **FRAME)

SERVED = "1100bc6011051101" + "07" + "03d60133100103e8"

# every call in which the library writes what it was given: the run before, the call, what must stand there afterwards
WRITES = {
    "convert": (OLD, kelindap.convert, lambda run: run[0] == 2 and run[1:] == OLD[1:]),
    "remove": (bytes(KEPT), lambda run: kelindap.remove(run, 1), lambda run: not any(run[8:])),
    "save": (STORE, lambda run: at_level_1().save(run), lambda run: run == KEPT),
    "write_into": (bytes(20), lambda run: kelindap.write_into(run, "property_read", HEIGHT), lambda run: run[:6] == READ),
    "frame_write_into": (bytes(40), lambda run: kelindap.frame_write_into(run, READ, **FRAME), lambda run: run[: len(ASKED)] == ASKED),
    "request_into": (bytes(20), lambda run: kelindap.Unit(SAMPLE).request_into(run, READ), lambda run: run[:8].hex() == "03d60133100103e8"),
    "serve_into": (bytes(30), lambda run: kelindap.Unit(SAMPLE).serve_into(run, ASKED), lambda run: run[:17].hex() == SERVED),
}


class Lost(unittest.TestCase):
    def test_in_place(self):
        """A writable run is written itself."""
        for call, (before, act, holds) in WRITES.items():
            for sort, make in WRITABLE.items():
                with self.subTest(call=call, sort=sort):
                    run = make(before)
                    act(run)
                    after = bytes(memoryview(run).cast("B") if not isinstance(run, mmap.mmap) else run[:])
                    self.assertNotEqual(after, before)
                    self.assertTrue(holds(after), after.hex())
                    wide = bytearray(before)
                    act(wide)
                    self.assertEqual(after, wide)

    def test_bytes_around_a_view_stay(self):
        for call, (before, act, _) in WRITES.items():
            with self.subTest(call=call):
                view = middle(before)
                act(view)
                self.assertEqual((view.obj[:3], view.obj[-3:]), (b"\xee" * 3, b"\xee" * 3))

    def test_type_error(self):
        """Of anything else nothing is written, and it is said; also of no bytes at all."""
        for call, (before, act, _) in WRITES.items():
            for sort, make in UNWRITABLE.items():
                for run in (before, b""):
                    if not run and sort in ("a view of rows", "a mmap that is read only", "a view with gaps", "a view backwards"):
                        continue
                    with self.subTest(call=call, sort=sort, length=len(run)):
                        given = make(run)
                        kept = copy.copy(given) if isinstance(given, (list, array.array)) else None
                        with self.assertRaises(TypeError) as caught:
                            act(given)
                        self.assertRegex(str(caught.exception), r"^(sheet|store|buffer): ")
                        if kept is not None:
                            self.assertEqual(given, kept)

    def test_marks(self):
        trace = bytes.fromhex("0001 0100 0000 000a 0000")
        for make in (lambda unit: unit.marks(), lambda unit: memoryview(unit.marks()), lambda unit: mapped_numbers(unit)):
            unit = kelindap.Unit(SAMPLE)
            marks = make(unit)
            self.assertEqual(unit.play_marked(trace, marks, 0), [(1, b"")])
        unit = at_level_1()
        write = kelindap.write("property_write", **HEIGHT, data=b"\x04\xe2")
        entry = bytes([0, 0x03, 0, 0]) + (10).to_bytes(2, "big") + bytes([len(write), 0])
        marks = unit.marks()
        self.assertEqual(unit.play_marked(b"\0\1" + entry + write, marks, 6)[0].outcome, Outcome.ANSWERED)
        self.assertIn(7, marks)
        view = memoryview(marks)
        for wrong in (bytes(4 * len(marks)), array.array("H", bytes(2 * len(marks))), list(marks), view.toreadonly(), view[::2]):
            with self.assertRaises(TypeError):
                unit.play_marked(trace, wrong, 0)
        with self.assertRaises(Refused) as caught:
            unit.play_marked(trace, array.array("I", [0]), 0)
        self.assertIs(caught.exception.outcome, Outcome.TRACE_MARKS)

    def test_reading(self):
        """What is read may be any run of bytes, and stays as it is."""
        reads = {
            "Unit": (SAMPLE, lambda run: kelindap.Unit(run).sheet),
            "check": (SAMPLE, kelindap.check),
            "converted": (OLD, kelindap.converted),
            "find_property": (SAMPLE, lambda run: kelindap.find_property(run, 1, 51)),
            "read": (READ, kelindap.read),
            "request": (READ, lambda run: kelindap.Unit(SAMPLE).request(run)),
            "heard": (ASKED, lambda run: kelindap.Unit(SAMPLE).heard(run)),
            "serve": (ASKED, lambda run: kelindap.Unit(SAMPLE).serve(run)),
            "frame_read": (ASKED, kelindap.frame_read),
            "point_read": (b"\x0c\x33", lambda run: kelindap.point_read(9, run)),
            "store_check": (STORE, kelindap.store_check),
            "trace_check": (b"\0\0", kelindap.trace_check),
            "data": (b"\x04\xe2", lambda run: kelindap.write("property_write", **HEIGHT, data=run)),
        }
        for call, (before, act) in reads.items():
            due = act(before)
            for sort, make in READABLE.items():
                with self.subTest(call=call, sort=sort):
                    run = make(before)
                    self.assertEqual(act(run), due)
            for sort, make in UNREADABLE.items():
                with self.subTest(call=call, sort=sort):
                    with self.assertRaises(TypeError):
                        act(make(before))

    def test_the_sheet_is_copied_in(self):
        """The accident with its signs turned: an authorised write is named as stored, and is."""
        for sort, make in READABLE.items():
            with self.subTest(sort=sort):
                given = make(SAMPLE)
                unit = kelindap.Unit(SAMPLE)
                unit.sheet = given
                unit.connect(0)
                unit.ask("authorize_request", key=0x22222222, connection=0)
                reply, _ = unit.ask("property_write", **HEIGHT, data=b"\x04\xe2", connection=0)
                self.assertEqual(reply.outcome, 0)
                self.assertIn(b"\x04\xe2", [unit.sheet[part.slice] for part in reply.changed])
                self.assertEqual(kelindap.find_property(unit.sheet, 1, 51)[:2], b"\x04\xe2")
                self.assertEqual(bytes(given), SAMPLE, "the run that was given is the host's")
        for sort, make in UNREADABLE.items():
            with self.subTest(sort=sort), self.assertRaises(TypeError):
                kelindap.Unit(SAMPLE).sheet = make(SAMPLE)

    def test_the_sheet_that_is_read(self):
        """It is bytes, as it stood: it can be saved, nothing done with it reaches the device, and it can't be an answer's room."""
        unit = at_level_1()
        before = unit.sheet
        self.assertIs(type(before), bytes)
        unit.ask("property_write", **HEIGHT, data=b"\x04\xe2", connection=0)
        self.assertEqual(before, SAMPLE)
        self.assertEqual(kelindap.Unit(unit.sheet).sheet, unit.sheet)
        with self.assertRaises(TypeError):
            unit.sheet[14] = 1
        with self.assertRaises(TypeError):
            unit.request_into(unit.sheet, READ)
        for name in ("sessions", "shett"):
            with self.assertRaises(AttributeError):
                setattr(unit, name, SAMPLE)

    def test_a_refused_sheet_leaves_the_old_one(self):
        unit = at_level_1()
        for bad in (OLD, SAMPLE[:-1], b""):
            with self.assertRaises(Refused):
                unit.sheet = bad
            self.assertEqual(unit.sheet, SAMPLE)
        self.assertEqual(unit.sessions[0], (True, 1))

    def test_a_bad_sheet(self):
        for bad, outcome, rule in ((OLD, 14, Rule.OLD), (SAMPLE[:-1], 4, Rule.S4), (b"", 4, Rule.S1)):
            with self.assertRaises(Refused) as caught:
                kelindap.Unit(bad)
            self.assertEqual((caught.exception.outcome, caught.exception.rule), (outcome, rule))
            unit = kelindap.Unit(bad, any_sheet=True)
            self.assertEqual((unit.sheet, unit.check()), (bad, rule))
            self.assertEqual(unit.request(READ).outcome, outcome)
            for act in (lambda: unit.button(True), lambda: unit.save(bytearray(200)), lambda: unit.restore(KEPT, 1, 0)):
                with self.assertRaises(Refused) as caught:
                    act()
                self.assertEqual((caught.exception.outcome, caught.exception.rule), (outcome, rule))
        unit = kelindap.Unit(OLD, any_sheet=True)
        unit.convert()
        self.assertEqual(unit.sheet, SAMPLE)
        self.assertEqual(kelindap.converted(OLD), SAMPLE)
        with self.assertRaises(Refused):
            unit.convert()

    def test_a_loan_ends(self):
        """After a call, a refused one too whose exception is kept, a run may grow and a mapping be closed."""
        kept = []
        for call, (before, act, _) in WRITES.items():
            run = bytearray(before)
            act(run)
            run += b"more"
            room = mapped(before)
            act(room)
            room.close()
            short = bytearray(3)
            try:
                act(short)
            except Refused as refused:
                kept.append(refused)
            short += b"more"
        self.assertGreater(len(kept), 3)

    def test_overlap(self):
        """What is read is copied first: a request that lies in its own answer's room is the request that was given."""
        buffer = bytearray(READ + bytes(20))
        reply = kelindap.Unit(SAMPLE).request_into(buffer, memoryview(buffer)[: len(READ)])
        self.assertEqual(reply, kelindap.Unit(SAMPLE).request(READ))
        self.assertEqual(buffer[:8], reply.answer)

    def test_connections(self):
        """No number but a connection's own is one, also from the end."""
        unit = at_level_1()
        for wrong in (-1, 2, 255, 256, 1 << 70):
            for act in (unit.connect, unit.disconnect):
                with self.assertRaises(Refused) as caught:
                    act(wrong)
                self.assertIs(caught.exception.outcome, Outcome.NOT_CONNECTED)
            with self.assertRaises(ValueError):
                unit.set_session(wrong, True, 0)
            self.assertEqual(unit.request(READ, connection=wrong).outcome, Outcome.NOT_CONNECTED)
            with self.assertRaises(Refused):
                unit.restore(KEPT, 1, wrong)
        self.assertEqual(unit.sessions, [(True, 1), (False, 3)])
        for act in (
            lambda: unit.request(READ, mode=Mode.CONNECTED),
            lambda: unit.request(READ, mode=Mode.MULTICAST),
            lambda: unit.request(READ, connection=0, group=1),
            lambda: unit.connect("0"),
            lambda: unit.connect(None),
            lambda: unit.button("off"),
            lambda: unit.request(READ, connection=0.0),
        ):
            with self.assertRaises(TypeError):
                act()

    def test_closed(self):
        """A Restart on one connection closes both, and both are named; a disconnect is none."""
        unit = at_level_1()
        unit.connect(1)
        reply = unit.request(kelindap.write("restart"), connection=1)
        self.assertEqual((reply.closed, unit.sessions), ((0, 1), [(False, 3), (False, 3)]))
        own = dict(FRAME, destination=int.from_bytes(SAMPLE[16:18], "big"))
        connect = bytes.fromhex("2900bc60") + (0x1101).to_bytes(2, "big") + SAMPLE[16:18] + b"\0\x80"
        disconnect = connect[:-1] + b"\x81"
        self.assertEqual(unit.heard(connect), (kelindap.Event.CONNECT, 0, 0, 0x1101, 0, False))
        nak = connect[:-1] + b"\xcf"
        self.assertEqual(unit.heard(nak)[3:], (0x1101, 3, True))
        self.assertEqual(unit.serve(connect).connection, 0)
        self.assertEqual(unit.serve(disconnect).closed, ())
        self.assertEqual(unit.heard(disconnect)[:3], (Outcome.LINK_NO_PARTNER, None, 0))
        unit.serve(connect)
        unit.serve(connect[:5] + b"\x09" + connect[6:])
        restart = kelindap.frame_write(kelindap.write("restart"), **dict(own, transport=16))
        self.assertEqual(unit.serve(restart).closed, (0, 1))

    def test_no_outcome(self):
        """What is no event has no outcome: 0 would be that of a request that was carried out."""
        unit = kelindap.Unit(SAMPLE)
        connect = bytes.fromhex("2900bc60") + (0x1101).to_bytes(2, "big") + SAMPLE[16:18] + b"\0\x80"
        for frame, number in ((b"", 40), (connect[:6] + b"\x19\x99" + connect[8:], 60), (connect[:-1] + b"\x81", 63)):
            self.assertEqual(unit.serve(frame)[:2], (number, None))
        self.assertEqual(unit.serve(connect)[:2], (Outcome.OK, Outcome.DONE))

    def test_copies(self):
        """A copy of a device is another device."""
        for act in (copy.copy, copy.deepcopy, lambda unit: pickle.loads(pickle.dumps(unit))):
            unit = at_level_1()
            other = act(unit)
            self.assertEqual((other.sheet, other.sessions), (unit.sheet, unit.sessions))
            other.ask("property_write", **HEIGHT, data=b"\x04\xe2", connection=0)
            other.disconnect(0)
            self.assertEqual((unit.sheet, unit.sessions[0]), (SAMPLE, (True, 1)))
            self.assertNotEqual(other.sheet, SAMPLE)

    def test_pickle(self):
        """An exception and a number pass between processes."""
        with self.assertRaises(Refused) as caught:
            kelindap.write("property_read", object=1, id=51, n=16, s=1)
        again = pickle.loads(pickle.dumps(caught.exception))
        self.assertEqual((str(again), again.outcome, again.field), (str(caught.exception), 13, "n"))
        self.assertIs(pickle.loads(pickle.dumps(Outcome.DENIED)), Outcome.DENIED)


def mapped_numbers(unit):
    return memoryview(mmap.mmap(-1, 4 * len(unit.marks()))).cast("I")


run_tests("edges")
