"""Slots: a sheet that is saved into a medium of bytes and found again, cut at every byte; judged whole and in parts; what is refused."""

import random
import unittest
import zlib

import kelindap
from kelindap import Outcome, Refused, Slot, SlotGoal, SlotJudging, Work, slot, slot_newer, slot_target, slot_work
from support import SAMPLE, run_tests

ROOM = 256


def held(run):
    """What a slot holds, or None."""
    try:
        return slot(run)
    except Refused:
        return None


def start(medium):
    """The sheet that a unit starts with, and where the next save goes."""
    states = [held(medium[0]), held(medium[1])]
    which, goal = slot_newer(*states), slot_target(*states)
    if which is None:
        return None, goal
    found = states[which]
    return bytes(medium[which][found.offset : found.offset + found.length]), goal


def save(medium, goal, sheet, after=None):
    """Carries out the pieces, or so many bytes of them: whether it was finished."""
    for piece in slot_work(sheet, goal, ROOM):
        data = b"\xff" * piece.length if piece.work is Work.ERASE else piece.data
        if after is not None and after < len(data):
            medium[goal.slot][piece.at : piece.at + after] = data[:after]
            return False
        medium[goal.slot][piece.at : piece.at + len(data)] = data
        after = None if after is None else after - len(data)
    return True


class Slots(unittest.TestCase):
    def refused(self, outcome, act):
        with self.assertRaises(Refused) as caught:
            act()
        self.assertEqual(caught.exception.outcome, outcome)
        self.assertTrue(str(caught.exception).startswith(f"{Outcome(outcome).words} ({int(outcome)})"), caught.exception)
        return caught.exception

    def test_every_cut(self):
        """The sheet before until the mark is set, then the new one; and the next save is found whatever was cut."""
        medium = [bytearray(b"\xff" * ROOM) for _ in range(2)]
        self.assertEqual(start(medium), (None, SlotGoal(0, 0)))
        old, goal = SAMPLE, SlotGoal(0, 0xFFFFFFFE)  # the numbers go round
        self.assertTrue(save(medium, goal, old))
        for k in range(4):
            new = SAMPLE[:64] + bytes([k, k]) + SAMPLE[66:]
            sheet, goal = start(medium)
            self.assertEqual(sheet, old)
            work = 32 + ROOM + 32 + len(new) + 32
            for after in range(work + 1):
                torn = [bytearray(half) for half in medium]
                self.assertEqual(save(torn, goal, new, after), after == work)
                sheet, again = start(torn)
                self.assertEqual(sheet, new if after >= work - 32 + 6 else old, after)
                self.assertTrue(save(torn, again, SAMPLE[:40]))
                self.assertEqual(start(torn)[0], SAMPLE[:40])
            self.assertTrue(save(medium, goal, new))
            self.assertEqual(start(medium)[1], goal.next())
            old = new
        self.assertEqual(slot(medium[1]).number, 1)

    def test_by_hand(self):
        """A slot as zlib has its check sum."""
        medium = [bytearray(ROOM), bytearray(ROOM)]
        pieces = list(slot_work(SAMPLE, SlotGoal(1, 7), ROOM))
        self.assertEqual([piece.work for piece in pieces], [Work.WRITE, Work.ERASE, Work.WRITE, Work.SHEET, Work.WRITE])
        self.assertEqual([(piece.at, piece.length) for piece in pieces], [(0, 32), (0, ROOM), (32, 32), (64, 69), (0, 32)])
        self.assertTrue(save(medium, SlotGoal(1, 7), SAMPLE))
        tail = (7).to_bytes(4, "big") + (69).to_bytes(4, "big") + bytes(20)
        front = b"KELIND" + b"\xff" * 26 + zlib.crc32(tail + SAMPLE).to_bytes(4, "big") + tail
        self.assertEqual(bytes(medium[1]), (front + SAMPLE).ljust(ROOM, b"\xff"))
        self.assertEqual(slot(medium[1]), Slot(7, 64, 69))
        self.assertEqual(slot(memoryview(medium[1])), Slot(7, 64, 69))
        self.assertEqual(pieces[1].data, b"")
        self.assertEqual(pieces[3].data, SAMPLE)

    def test_in_parts(self):
        """In parts of any size it is what the whole gives, torn or not."""
        chance = random.Random(1)
        medium = [bytearray(ROOM), bytearray(ROOM)]
        save(medium, SlotGoal(0, 3), SAMPLE)
        for _ in range(500):
            run = bytearray(medium[0])
            for _ in range(chance.randrange(3)):
                run[chance.choice([0, 5, 33, 38, 40, 42, 43, 44, 64, 132, 133, 200])] = chance.randrange(256)
            judging = SlotJudging(run[: 64 + chance.randrange(2)], len(run))
            at = 64
            while judging.left:
                n = chance.randrange(1, 40)
                judging.more(run[at : at + n])
                at += n
            whole = held(run)
            if whole is None:
                outcome = self.refused_by(lambda: slot(run))
                self.refused(outcome, judging.end)
            else:
                self.assertEqual(judging.end(), whole)

    def refused_by(self, act):
        with self.assertRaises(Refused) as caught:
            act()
        return caught.exception.outcome

    def test_refusals(self):
        medium = [bytearray(ROOM), bytearray(ROOM)]
        save(medium, SlotGoal(0, 3), SAMPLE)
        good = medium[0]
        self.refused(Outcome.SLOT_SHORT, lambda: slot(good[:63]))
        self.refused(Outcome.SLOT_UNMARKED, lambda: slot(bytes(ROOM)))
        self.refused(Outcome.SLOT_LENGTH, lambda: slot(good[: 64 + 68]))
        self.refused(Outcome.SLOT_SUM, lambda: slot(good[:70] + b"\x01" + good[71:]))
        self.refused(Outcome.SLOT_UNREAD, SlotJudging(good[:64], ROOM).end)
        self.refused(Outcome.SLOT_SHORT, SlotJudging(good[:63], ROOM).end)
        self.refused(Outcome.SLOT_LENGTH, SlotJudging(good[:64], 64 + 68).end)
        told = self.refused(Outcome.SLOT_NO_ROOM, lambda: slot_work(SAMPLE, SlotGoal(0, 0), 64 + 68))
        self.assertEqual((told.field, told.detail), ("sheet", "69 bytes, and the slot has 132"))
        self.refused(Outcome.SLOT_NO_ROOM, lambda: slot_work(bytes(32769), SlotGoal(0, 0), 1 << 20))
        self.assertEqual(len(list(slot_work(bytes(32768), SlotGoal(0, 0), 1 << 20))), 5)
        for act in (
            lambda: slot("KELIND"),
            lambda: slot_newer(good, None),
            lambda: slot_newer((1, 64, 69), None),
            lambda: slot_target(None, 3),
            lambda: SlotJudging(good[:64], "room"),
            lambda: SlotJudging(good[:64], ROOM).more([1, 2]),
            lambda: slot_work([1], SlotGoal(0, 0), ROOM),
        ):
            with self.assertRaises(TypeError):
                act()
        for number in (-1, 1 << 32):
            with self.assertRaises(ValueError):
                slot_work(SAMPLE, SlotGoal(0, number), ROOM)
            with self.assertRaises(ValueError):
                slot_newer(Slot(number, 64, 1), None)

    def test_which(self):
        """The one whose number is after the other's; of two that do not follow, the first."""
        def at(n):
            return Slot(n, 64, 69)

        for first, second, which, goal in (
            (at(4), at(5), 1, SlotGoal(0, 6)),
            (at(5), at(4), 0, SlotGoal(1, 6)),
            (at(0xFFFFFFFF), at(0), 1, SlotGoal(0, 1)),
            (at(0), at(0xFFFFFFFF), 0, SlotGoal(1, 1)),
            (at(9), None, 0, SlotGoal(1, 10)),
            (None, at(0xFFFFFFFF), 1, SlotGoal(0, 0)),
            (at(3), at(9), 0, SlotGoal(1, 4)),
            (None, None, None, SlotGoal(0, 0)),
        ):
            self.assertEqual((slot_newer(first, second), slot_target(first, second)), (which, goal))
            if which is not None:
                self.assertNotEqual(which, goal.slot)
        self.assertEqual(SlotGoal(1, 0xFFFFFFFF).next(), SlotGoal(0, 0))

    def test_a_store(self):
        """A store of versions is kept in the same way."""
        store, unit = bytearray(100), kelindap.Unit(SAMPLE)
        unit.save(store)
        medium = [bytearray(ROOM), bytearray(ROOM)]
        self.assertTrue(save(medium, slot_target(None, None), store))
        self.assertEqual(kelindap.versions(start(medium)[0]), [kelindap.Version(1, 18)])


run_tests("slots")
