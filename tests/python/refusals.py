"""What is refused, and how: every limit of every field held to the library, the words and the field of a refusal, the nearest name,
which calls raise, and values as Python has them."""

import math
import unittest
from decimal import Decimal
from fractions import Fraction

import kelindap
from kelindap import Event, Kind, Mode, Outcome, Refused
from kelindap.pdu import ROWS
from support import OLD, SAMPLE, run_tests

FRAME = dict(code=0x29, control1=0xBC, control2=0x60, source=0x1101, destination=0x1105, transport=0)


class Refusals(unittest.TestCase):
    def refused(self, call, outcome, field=None, detail=None):
        """The call raises Refused with this, and its message has the words, the number and the detail."""
        with self.assertRaises(Refused) as caught:
            call()
        refused = caught.exception
        self.assertEqual(refused.outcome, outcome)
        self.assertTrue(str(refused).startswith(f"{Outcome(outcome).words} ({int(outcome)})"), refused)
        self.assertIsInstance(refused, ValueError)
        if field is not None:
            self.assertEqual(refused.field, field, refused)
        if detail is not None:
            self.assertEqual(str(refused), f"{Outcome(outcome).words} ({int(outcome)}): {detail}")
        return refused

    # ---- PDUs ----

    @staticmethod
    def fields(kind, **given):
        """Fields that fit a kind, but for those that are given."""
        row = ROWS[kind]
        fields = {name: given.get(name, 0) for name in row.most}
        least = row.data[0] if isinstance(row.data, tuple) else fields.get("n", 0)
        fields.update({name: bytes(max(0, min(least, 20))) for name in row.names if name not in fields})
        return {**fields, **given}

    def test_every_field_of_every_kind(self):
        """From 0 to the most that the table says it is written, and reads again; one more, and less than 0, is refused by name."""
        asked = 0
        for kind, row in ROWS.items():
            for name, most in row.most.items():
                for value in {0, 1, most // 2, most}:
                    fields = self.fields(kind, **{name: value})
                    buffer = bytearray(16)
                    count = kelindap.write_into(buffer, kind, fields)
                    self.assertEqual(kelindap.read(buffer[:count]), (kind, fields))
                    asked += 1
                for value in (-1, most + 1, most + 256, 2 * most + 2, 1 << 16, 1 << 64, 10**5000):
                    if not 0 <= value <= most:
                        fields = self.fields(kind, **{name: value})
                        refused = self.refused(lambda: kelindap.write_into(bytearray(16), kind, fields), 13, name)
                        told = name if name == "key" or value >= 1 << 64 else f"{name}={value}"
                        self.assertEqual(refused.detail, f"{kind.words} {told}: 0 to {most}")
                        asked += 1
                for wrong in (1.0, "1", None, b"\1"):
                    with self.assertRaises(TypeError) as caught:
                        kelindap.write_into(bytearray(16), kind, {**self.fields(kind), name: wrong})
                    self.assertIn(name, str(caught.exception))
        self.assertGreater(asked, 300)

    def test_every_length_of_data(self):
        for kind, row in ROWS.items():
            for length in range(20) if row.data else ():
                fields = self.fields(kind)
                if isinstance(row.data, tuple):
                    fits, what = row.data[0] <= length <= row.data[1], {"data": bytes(length)}
                elif row.data == "n":
                    fits, what = length <= row.most["n"], {"n": min(length, row.most["n"]), "data": bytes(length)}
                else:
                    fits, what = length <= 5, {"n": min(length, 5), "and": bytes(length), "xor": bytes(length)}
                fields.update(what)
                if fits:
                    kelindap.write_into(bytearray(16), kind, fields)
                else:
                    refused = self.refused(lambda: kelindap.write_into(bytearray(16), kind, fields), 13)
                    self.assertIn(refused.field, ("data", "and"))
                    self.assertIn(f"{length} bytes", refused.detail)

    def test_words(self):
        write = kelindap.write
        property_ = dict(object=1, id=51, n=1, s=1)
        for call, detail in (
            (lambda: write("property_read", **{**property_, "n": 16}), "property_read n=16: 0 to 15"),
            (lambda: write("property_write", **property_, data=b""), "property_write data of 0 bytes: 1 to 10"),
            (lambda: write("group_write", v=1, data=b"\1"), "group_write v=1: 0 beside data"),
            (lambda: write("memory_write", n=2, address=0, data=b"\1"), "memory_write data of 1 bytes: n=2"),
            (lambda: write("memory_bit_write", n=1, address=0, and_=b"\1", xor=b""), "memory_bit_write xor of 0 bytes: n=1"),
            (lambda: write("key_write", level=0, key=1 << 32), "key_write key: 0 to 4294967295"),
            (lambda: write("propertyread"), 'no kind "propertyread"; the nearest is "property_read"'),
            (lambda: write("qqqq"), 'no kind "qqqq"'),
            (lambda: write(28), "kind=28: 0 to 27"),
            (lambda: write(Kind.NO_KIND), "kind=255: 0 to 27"),
        ):
            self.refused(call, Outcome.UNWRITABLE, None, detail)
        self.refused(lambda: kelindap.write_into(bytearray(15), "restart", {}), 3, "buffer", "15 bytes: 16 or more")
        self.refused(lambda: kelindap.write_into(bytearray(15), "property_read", {**property_, "n": 300}), 3, "buffer")
        self.refused(lambda: kelindap.read(b"\3"), Outcome.BAD_LENGTH, "apdu", "1 bytes: 2 to 16")
        self.refused(lambda: kelindap.read(b"\3\xc5"), Outcome.UNKNOWN, "apdu")
        self.refused(lambda: kelindap.read(b"\3\xd5"), Outcome.UNFIT, "apdu")
        for fields, told in ((dict(property_, ids=1), "there is no ids, the nearest is id"), (dict(object=1, id=2, n=1), "s is missing")):
            with self.assertRaises(TypeError) as caught:
                write("property_read", **fields)
            self.assertEqual(str(caught.exception), f"property_read has the fields object, id, n, s: {told}")
        with self.assertRaises(TypeError):
            write("property_read", **property_, and_=b"")

    def test_nearest(self):
        """A kind with a letter left out, or in capitals with a bar of another kind, has that kind as the nearest."""
        for kind in ROWS:
            for wrong in (kind.words[:3] + kind.words[4:], kind.words.replace("_", "-").upper(), kind.words + "s"):
                if wrong != kind.words:
                    self.assertIn(f'the nearest is "{kind.words}"', str(self.refused(lambda: kelindap.write(wrong), 13, "kind")))
        self.assertEqual(kelindap.write(Kind.RESTART), kelindap.write("restart"))
        self.assertEqual(kelindap.write(16), kelindap.write("restart"))

    # ---- which calls raise ----

    def test_what_raises(self):
        unit = kelindap.Unit(SAMPLE)
        self.refused(lambda: kelindap.Unit(OLD), Outcome.OLD_SHEET, "sheet")
        self.refused(lambda: kelindap.Unit(SAMPLE[:40]), 4, "sheet", "S4, another length than it states, or no room for its entries")
        self.refused(lambda: kelindap.convert(bytearray(SAMPLE)), 4, "sheet")
        self.refused(lambda: kelindap.converted(b""), 4, "sheet", "S1, not 32 to 16,384 bytes")
        self.refused(lambda: kelindap.find_region(OLD, 0), 14, "sheet")
        self.refused(lambda: unit.connect(2), 7, "connection", "connection=2: 0 to 1")
        self.refused(lambda: unit.disconnect(-1), 7, "connection")
        self.refused(lambda: unit.save(bytearray(7)), 30, "store", "7 bytes: 8 to 32768")
        self.refused(lambda: unit.save(bytearray(8)), 33)
        self.refused(lambda: kelindap.remove(bytearray(100), 1), 34, "number", "number=1")
        self.refused(lambda: kelindap.remove(bytearray(3), 1), 30)
        store = bytearray(200)
        self.assertEqual(unit.save(store), 1)
        self.assertEqual([version.number for version in kelindap.versions(store)], [1])
        self.refused(lambda: kelindap.versions(bytes(7)), 30, "store")
        self.refused(lambda: unit.restore(store, 1, 0), 35)
        self.refused(lambda: unit.restore(store, 2, 0), 34, "number", "number=2")
        self.refused(lambda: unit.play(b"\1"), 50, "trace")
        self.refused(lambda: kelindap.point_read(9, b"\0"), 20)
        self.refused(lambda: kelindap.frame_read(b""), 40, "frame")
        self.refused(lambda: unit.ask("propertyread"), 13, "kind")
        # nothing has changed
        self.assertEqual((unit.sheet, unit.sessions), (SAMPLE, [(False, 3), (False, 3)]))

    def test_what_is_told(self):
        """Checks, and what came from the bus, come back as a value."""
        unit = kelindap.Unit(SAMPLE)
        self.assertEqual((kelindap.check(b""), kelindap.check(OLD), kelindap.check(SAMPLE)), (1, 14, 0))
        self.assertEqual((kelindap.store_check(bytes(7)), kelindap.store_check(bytes(8))), (30, 0))
        self.assertEqual((kelindap.trace_check(b""), kelindap.trace_check(bytes(2))), (50, 0))
        self.assertIs(unit.request(b"").outcome, Outcome.BAD_LENGTH)
        self.assertIs(unit.request(b"\3\0", mode=4).outcome, Outcome.BAD_MODE)
        self.assertIs(unit.request(b"\3\0", connection=0).outcome, Outcome.NOT_CONNECTED)
        self.assertIs(unit.request(b"\0\x80", group=1).outcome, Outcome.NOT_FOR_US)
        self.assertIs(unit.request(b"\3\x80", mode=Mode.BROADCAST).outcome, Outcome.WRONG_MODE)
        reply, answer = unit.ask("property_write", object=1, id=51, n=1, s=1, data=b"\0\0")
        self.assertEqual((reply.outcome, reply.outcome.carried_out, reply.changed, answer.fields["n"]), (11, False, (), 0))
        self.assertIs(unit.heard(b"").event, Outcome.FRAME_SHORT)
        self.assertIs(unit.serve(b"").number, Outcome.FRAME_SHORT)
        self.assertIs(unit.serve_into(bytearray(24), b"").number, Outcome.LINK_NO_ROOM)
        self.assertIs(unit.request_into(bytearray(15), b"").outcome, Outcome.NO_ROOM)
        self.assertEqual(unit.play(bytes.fromhex("0001 0100 0000 000a 0000")), [(Outcome.DONE, b"")])
        self.assertIsNone(kelindap.find_property(SAMPLE, 200, 1))
        self.assertIsNone(kelindap.find_region(SAMPLE, 1 << 80))

    def test_no_place(self):
        """A number that no place in C holds is never cut to it."""
        unit = kelindap.Unit(SAMPLE)
        for call, told in (
            (lambda: kelindap.find_property(SAMPLE, 257, 51), "object=257: 0 to 255"),
            (lambda: kelindap.find_property(SAMPLE, 1, 51 + 256), "id=307: 0 to 255"),
            (lambda: kelindap.find_group(SAMPLE, 65536 + 2305), "address=67841: 0 to 65535"),
            (lambda: kelindap.find_region(SAMPLE, -1), "k=-1: 0 or more"),
            (lambda: unit.request(b"\0\0", group=65536), "group=65536: 0 to 65535"),
            (lambda: unit.request(b"\0\0", mode=256), "mode=256: 0 to 255"),
            (lambda: unit.serve(b"", 256), "sequence=256: 0 to 255"),
            (lambda: unit.set_session(0, True, 256), "level=256: 0 to 255"),
            (lambda: kelindap.point_write(5, 256), "value=256: 0 to 255"),
            (lambda: kelindap.point_write(5, -1), "value=-1: 0 to 255"),
            (lambda: unit.play(b"\0\0", -1), "played=-1: 0 or more"),
            (lambda: unit.play_marked(b"\0\0", unit.marks(), 1 << 32), "marked=4294967296: 0 to 4294967295"),
            (lambda: kelindap.remove(bytearray(8), -1), "number=-1: 0 or more"),
        ):
            with self.assertRaises(ValueError) as caught:
                call()
            self.assertEqual((str(caught.exception), isinstance(caught.exception, Refused)), (told, False))

    # ---- values ----

    def test_points(self):
        read, write = kelindap.point_read, kelindap.point_write
        for type, value, hexes in (
            (1, True, "01"), (1, False, "00"), (5, 0, "00"), (5, 255, "ff"), (9, 21.5, "0c33"), (9, 0.0, "0000"), (9, -0.01, "87ff"),
            (9, 670433.28, "7ffe"), (9, -671088.64, "f800"), (14, 21.5, "41ac0000"), (14, -0.0, "80000000"),
        ):  # fmt: skip
            self.assertEqual(write(type, value).hex(), hexes)
            got = read(type, bytes.fromhex(hexes))
            self.assertEqual((got, got.__class__, math.copysign(1, got)), (value, value.__class__, math.copysign(1, value)))
        for value in (21.5, Decimal("21.5"), Fraction(43, 2), 21.504, 21.496):
            self.assertEqual(write(9, value).hex(), "0c33")
        self.assertEqual(write(9, 0.29), write(9, Decimal("0.29")))
        self.assertEqual((write(1, 1), write(9, 21)), (b"\1", write(9, 21.0)))
        self.assertEqual(read(14, write(14, 0.1)), 0.10000000149011612)
        for hundredths in range(-67108864, 67043328, 65521):
            there = write(9, hundredths / 100)
            self.assertEqual(there, write(9, read(9, there)))
            self.assertLessEqual(abs(read(9, there) - hundredths / 100), 163.84)
        for code in range(0, 65536, 7):
            run = code.to_bytes(2, "big")
            if code != 0x7FFF:
                self.assertEqual(read(9, write(9, read(9, run))), read(9, run))
        self.refused(lambda: write(1, 2), 21, "value", "value=2: True or False")
        self.refused(lambda: write(1, -1), 21, "value")
        for value in (670433.29 + 163.84, -700000, 1e300, math.inf, -math.inf, math.nan, 10**5000, Decimal("nan"), Decimal("inf")):
            self.refused(lambda: write(9, value), 23, "value")
        self.refused(lambda: write(9, 7e5), 23, "value", "value=700000.0: -671088.64 to 670433.28")
        for value in (1e39, -1e39, math.inf, math.nan, 10**400, Decimal("snan"), Fraction(10**400)):
            self.refused(lambda: write(14, value), 24, "value")
        for type in (0, 2, 7, 255, 256 + 9, -1):
            self.refused(lambda: write(type, 1), 25, "type", f"type={type}: 1, 5, 9, 14")
            self.refused(lambda: read(type, b"\0"), 25, "type")
        self.refused(lambda: read(1, b"\2"), 21)
        self.refused(lambda: read(9, b"\x7f\xff"), 22)
        self.refused(lambda: read(14, b"\x7f\xc0\0\0"), 24)
        for type, wrong in ((1, "on"), (1, 1.0), (5, 21.5), (9, "21.5"), (9, None), (14, b"\0\0\0\0"), (1, None)):
            with self.assertRaises(TypeError):
                write(type, wrong)

    def test_point_fields(self):
        for type, value in ((1, True), (5, 7), (9, 21.5), (14, 21.5)):
            pdu = kelindap.read(kelindap.write("group_write", **kelindap.point_fields(type, value)))
            run = bytes([pdu.fields["v"]]) if type == 1 else pdu.fields["data"]
            self.assertEqual(kelindap.point_read(type, run), value)

    # ---- frames ----

    def test_frames(self):
        apdu = b"\0\0"
        frame = kelindap.frame_read(kelindap.frame_write(apdu, **FRAME))
        self.assertEqual((frame.event, frame.tpdu, frame.info, frame.source), (Event.CONNECTIONLESS, apdu, b"", 0x1101))
        fits = dict(code=(0x11, 0x29), control1=(128, 255), control2=(0, 16, 240), source=(0, 65535), destination=(0, 65535), transport=(0, 63))
        not_ = dict(code=(0, 0x12, 0x111, -1), control1=(0, 127, 256, 384), control2=(1, 15, 241, 256, -16), transport=(64, 255, 256, -1))
        not_.update(source=(65536, -1), destination=(65536, -1))
        for name, values in fits.items():
            for value in values:
                self.assertEqual(getattr(kelindap.frame_read(kelindap.frame_write(apdu, **{**FRAME, name: value})), name), value)
        for name, values in not_.items():
            for value in values:
                refused = self.refused(lambda: kelindap.frame_write(apdu, **{**FRAME, name: value}), 47, name)
                self.assertTrue(refused.detail.startswith(f"{name}={value}: "), refused.detail)
        self.refused(lambda: kelindap.frame_write(b"", **FRAME), 47, "apdu", "apdu of 0 bytes: 1 to 16")
        self.refused(lambda: kelindap.frame_write(bytes(17), **FRAME), 47, "apdu")
        self.refused(lambda: kelindap.frame_write(apdu, **FRAME, info=bytes(256)), 47, "info", "info of 256 bytes: 0 to 255")
        self.refused(lambda: kelindap.frame_write_into(bytearray(10), apdu, **FRAME), 46, "buffer", "10 bytes: 11")
        self.assertEqual(kelindap.frame_write_into(bytearray(11), apdu, **FRAME), 11)
        self.assertEqual(len(kelindap.frame_write(bytes(16), **FRAME, info=bytes(255))), 280)


run_tests("refusals")
