#!/usr/bin/env python3
"""Tests of the two calls between a packed schedule and its records. Run: python3 tools/test_conversion.py

The compiled calls are held to the model: number, parts, and the lent slice with bytes beside it. Where the
library is not built, or older than its sources, the model alone is tested.
"""

import ctypes
import os
import random
import shutil
import sys
import unittest

HERE = os.path.dirname(os.path.abspath(__file__))
ROOT = os.path.dirname(HERE)
sys.path.insert(0, HERE)

import building
import gidzelma
import model
import replaying
import sheetlib
from maps import large, loads, schedules
from maps.changed import flipped
from maps.schedules import fit, flags, limits, line, made, packed, recorded, whole
from model_conversion import Packed, Records

LIBRARY = building.library(ROOT)
LINKED = building.at_hand(ROOT, LIBRARY) and any(map(shutil.which, ("cc", "gcc", "clang")))
NOT_LINKED = "the library is not built, or older than its sources (tools/build exports), or cc is missing"
linked = unittest.skipUnless(LINKED, NOT_LINKED)

MODEL = {"read_schedule": model.read_schedule, "write_schedule": model.write_schedule}
MARGIN = 64  # bytes beside what is lent
FILL = bytes(at * 29 + 195 & 255 for at in range(256)) * (1 << 14)  # above 16 times the largest schedule

# The worked example of W = 4, and one of W = 5 with every construct.
WORKED = bytes.fromhex("06000200800080001090140802800010")
EVERYTHING = bytes.fromhex("04000080800140202820020209160002088180ffeff8")
SMALL = {"nothing": (2, bytes(3)), "worked": (4, WORKED), "everything": (5, EVERYTHING)}


def order_only(sheet):
    """What the order-only call writes."""
    answer = model.order(sheet, bytes(200), bytes(1536))
    return answer.listing[:answer.size]


# --------------------------------------------------------------- the calls

def written(call, w, given, room):
    """The model's answer with a lent slice of so many bytes."""
    return MODEL[call](w, given, FILL[MARGIN:MARGIN + room])


class Calls:
    """The compiled calls, with bytes beside what is lent and numbers behind the parts."""

    def __init__(self):
        self.calls = gidzelma.load(building.shared_object(ROOT, lambda text: None)).calls

    def ask(self, call, w, given, room, parts=3):
        """Number, the parts that were lent, the lent slice, and whether all else was left alone."""
        beside = bytearray(FILL[:room + 2 * MARGIN])
        lent = (ctypes.c_uint8 * (room + MARGIN)).from_buffer(beside, MARGIN)
        numbers = (ctypes.c_uint32 * (parts + 4))(*range(70, 74 + parts))
        number = self.calls[call](w, bytes(given), len(given), lent, room, numbers, parts)
        del lent
        left = (beside[:MARGIN] == FILL[:MARGIN] and beside[MARGIN + room:] == FILL[MARGIN + room:room + 2 * MARGIN]
                and list(numbers)[parts:] == list(range(70 + parts, 74 + parts)))
        return number, list(numbers)[:parts], bytes(beside[MARGIN:MARGIN + room]), left


class Conversion(unittest.TestCase):
    """The model's two calls, and, where the library is built, the compiled ones beside them."""

    @classmethod
    def setUpClass(cls):
        cls.calls = Calls() if LINKED else None

    def held(self, call, w, given, room, what=""):
        """The model's answer; that of the compiled call has to be the same."""
        want = written(call, w, given, room)
        if self.calls:
            got = self.calls.ask(call, w, given, room)
            if got != (want.number, [want.size, 0, 0], want.output, True):
                self.fail(f"{what} {call} {w} {bytes(given).hex()} into {room} bytes: model {want.number} {want.size}, "
                          f"call {got[0]} {got[1]}, left alone: {got[3]}")
        return want

    def both_ways(self, w, schedule, what=""):
        """A schedule into its records and back: what comes out is what went in."""
        read = self.held("read_schedule", w, schedule, 16 * len(schedule), what)
        self.assertEqual(read.number, 0, what)
        records = read.output[:read.size]
        self.assertLessEqual(len(schedule), len(records))
        back = self.held("write_schedule", w, records, len(records), what)
        self.assertEqual((back.number, back.output[:back.size]), (0, schedule), what)
        # exactly the room that is needed, and one byte less
        self.assertEqual(self.held("read_schedule", w, schedule, read.size, what).number, 0, what)
        self.assertEqual(self.held("read_schedule", w, schedule, read.size - 1, what).number, 11, what)
        self.assertEqual(self.held("write_schedule", w, records, back.size, what).number, 0, what)
        self.assertEqual(self.held("write_schedule", w, records, back.size - 1, what).number, 11, what)
        return records

    def test_issue(self):
        """The cases that the format lists (FORMAT 12.3)."""
        for call, w, given, room, number, out in (
                ("read_schedule", 2, "000000", 4, 0, "00000000"), ("read_schedule", 2, "000000", 3, 11, ""),
                ("read_schedule", 2, "000001", 4, 12, ""), ("read_schedule", 2, "00000000", 4, 12, ""),
                ("read_schedule", 2, "ff", 0, 11, ""), ("read_schedule", 2, "ff", 2, 12, ""),
                ("read_schedule", 0, "", 0, 12, ""), ("write_schedule", 1, "", 0, 12, ""),
                ("write_schedule", 2, "0000000000", 3, 12, ""), ("write_schedule", 2, "000000", 3, 11, ""),
                ("write_schedule", 2, "00800000", 3, 12, ""), ("write_schedule", 2, "0080", 0, 11, ""),
                ("write_schedule", 2, "00000000", 3, 0, "000000"), ("write_schedule", 2, "00000000", 2, 11, "")):
            got = self.held(call, w, bytes.fromhex(given), room)
            self.assertEqual((got.number, got.output[:got.size]), (number, bytes.fromhex(out)), (call, given))
        self.assertEqual(self.held("read_schedule", 4, WORKED, 52).output.hex(),
                         "0003" "00000000" "00020000" "00010000" "0002" "0000000000000001" "00000002" "00010001"
                         "00010002" "00010000" "000100000000000000000001")

    def test_round_trips(self):
        """Small schedules, those of large maps, and the largest that was found."""
        for what, (w, schedule) in SMALL.items():
            self.both_ways(w, schedule, what)
        for what in ("acyclic", "chain", "doubled", "layers", "crowd"):
            sheet = sheetlib.encode(large.MAPS[what]())
            answer = model.schedule(sheet, bytes(1 << 18), bytes(1536))
            records = self.both_ways(len(model.sheet_words(sheet)), answer.listing[:answer.size], what)
            if what == "crowd":
                self.assertEqual((answer.size, len(records)), (239675, 719236))

    def test_stored(self):
        """Every stored case that the schedule call accepts, with the W of its sheet; what the order-only
        call lists is refused."""
        seen = 0
        for crate in ("cases", "document_cases"):
            with open(os.path.join(ROOT, "crates", crate, "stdin"), "rb") as source:
                cases = list(replaying.cases_in(source.read()))
            for call, number, what, sheet, listed in cases:
                if number:
                    continue
                w, what = len(model.sheet_words(sheet)), f"{crate} {what}"
                if call == "schedule":
                    self.both_ways(w, listed, what)
                    seen += 1
                else:
                    got = self.held("read_schedule", w, listed, 16 * len(listed), what)
                    self.assertEqual(got.number, 11, what)
        self.assertGreater(seen, 1800)

    def test_cuts_and_rooms(self):
        """Every bit length of a schedule, zeros behind it, and every length of its records, in every room
        up to two bytes more than is needed."""
        for what, (w, schedule) in SMALL.items():
            records = self.both_ways(w, schedule, what)
            for bits in range(8 * len(schedule) + 1):
                size = (bits + 7) // 8
                cut = int.from_bytes(schedule[:size], "big") >> 8 * size - bits << 8 * size - bits
                for room in range(len(records) + 3):
                    got = self.held("read_schedule", w, cut.to_bytes(size, "big"), room, what)
                    if bits % 8 == 0 and size < len(schedule):  # no bit of it was cleared
                        self.assertEqual(got.number, 11, what)
            for size in range(len(records) + 1):
                for room in range(len(schedule) + 3):
                    got = self.held("write_schedule", w, records[:size], room, what)
                    self.assertEqual(got.number, 0 if size == len(records) and room >= len(schedule) else 11, what)

    def test_limits(self):
        """Each limit and one past it, in both directions; the number, and that nothing is written before."""
        for what, w, fields, number in [*limits(), *flags()]:
            records = recorded(fields)
            got = self.held("write_schedule", w, records, len(records), what)
            self.assertEqual(got.number, number, what)
            if fit(fields):
                schedule = packed(fields)
                got = self.held("read_schedule", w, schedule, 16 * len(schedule), what)
                self.assertEqual(got.number, number, what)
                if number == 0:
                    self.assertEqual(self.both_ways(w, schedule, what), records, what)

    def test_words(self):
        """W itself, from 0 to 260 and far above, with a schedule that only uses the words 0 and 1."""
        fields = whole(made(), line(word=1), names=[(0,), (1, 1)])
        schedule, records = packed(fields), recorded(fields)
        for w in [*range(261), 1 << 16, 1 << 32, (1 << 32) + 2, 1 << 63, (1 << 64) - 1]:
            number = 0 if 2 <= w <= 200 else 12
            self.assertEqual(self.held("read_schedule", w, schedule, len(records)).number, number, w)
            self.assertEqual(self.held("write_schedule", w, records, len(schedule)).number, number, w)
            # before every end
            self.assertEqual(self.held("read_schedule", w, b"", 0).number, number or 11, w)

    def test_most_items(self):
        """As many items as their count can tell, and a count without items."""
        fields = whole(*[line()] * 65535, names=[(1, 0)])
        self.assertEqual(self.both_ways(2, packed(fields)), recorded(fields))
        for count in (65535, 1):
            alone = [(7, 0), (16, count)]
            self.assertEqual(self.held("read_schedule", 2, packed(alone), 64).number, 11)
            self.assertEqual(self.held("write_schedule", 2, recorded(alone), 64).number, 11)

    def test_foreign(self):
        """Schedules that no call writes: items in any order, of types that are not listed, names twice."""
        rng = random.Random("foreign")
        for at in range(400):
            w = rng.choice((2, 3, 10, 127, 128, 129, 199, 200))
            names, items = schedules.random_schedule(rng, w)
            records = self.both_ways(w, model.pack(names, items), f"foreign {at}")
            self.assertEqual(records, model.records_of(names, items))
        items = [made(), made(), line(), made(marks=[7]), line()]
        records = self.both_ways(2, packed(whole(*items, names=[(0,), (0,)])))
        for _ in range(10):
            rng.shuffle(items)
            other = self.both_ways(2, packed(whole(*items, names=[(0,), (0,)])))
            self.assertEqual(sorted(records), sorted(other))

    def test_damaged(self):
        """Each single bit of small schedules and of their records, with two numbers of words."""
        numbers = set()
        for w, schedule in SMALL.values():
            records = self.both_ways(w, schedule)
            for words in (w, 200):
                for bit in range(8 * len(schedule)):
                    numbers.add(self.held("read_schedule", words, flipped(schedule, bit), 2000).number)
                for bit in range(8 * len(records)):
                    numbers.add(self.held("write_schedule", words, flipped(records, bit), 200).number)
        self.assertEqual(numbers, {0, 11, 12})

    def test_fill_and_more(self):
        """Each bit of the fill, bytes behind the schedule, an odd byte behind the records."""
        records = recorded(whole(made(), names=[(0,)]))
        schedule = packed(whole(made(), names=[(0,)]))
        used = sum(width for width, _ in whole(made(), names=[(0,)]))
        self.assertGreater(8 * len(schedule), used)
        for bit in range(used, 8 * len(schedule)):
            self.assertEqual(self.held("read_schedule", 2, flipped(schedule, bit), 200).number, 12)
        for more in (b"\0", b"\1", bytes(2), bytes(200)):
            self.assertEqual(self.held("read_schedule", 2, schedule + more, 4000).number, 12)
            self.assertEqual(self.held("write_schedule", 2, records + more, 200).number, 12)
        # before that the ends
        self.assertEqual(self.held("read_schedule", 2, schedule + b"\0", len(records) - 1).number, 11)
        self.assertEqual(self.held("write_schedule", 2, records + b"\0", len(schedule) - 1).number, 11)

    def test_order_only(self):
        """What the order-only call writes has no number of items."""
        for types in (4, 20, 64):
            sheet = sheetlib.encode(loads.ordinary(types))
            listed = order_only(sheet)
            got = self.held("read_schedule", len(model.sheet_words(sheet)), listed, 16 * len(listed))
            self.assertEqual(got.number, 11)

    @linked
    def test_parts(self):
        """With fewer than three numbers 255, and nothing is touched; with more, those behind stay."""
        for call, given in (("read_schedule", WORKED), ("write_schedule", bytes(4)), ("read_schedule", b"\xff")):
            for parts in (0, 1, 2):
                for w in (0, 4, 200):
                    got = self.calls.ask(call, w, given, 60, parts)
                    self.assertEqual(got, (255, list(range(70, 70 + parts)), FILL[MARGIN:MARGIN + 60], True))
            want = written(call, 4, given, 60)
            for parts in (3, 4, 9):
                got = self.calls.ask(call, 4, given, 60, parts)
                self.assertEqual(got, (want.number, [want.size, 0, 0, *range(73, 70 + parts)], want.output, True))


class ModelParts(unittest.TestCase):
    """How the model takes fields."""

    def test_cursors(self):
        fields = whole(made(marks=(None, 7)), line(), names=[(0, 1), (1,)])
        for cursor in (Packed(packed(fields)), Records(recorded(fields))):
            for width, value in fields:
                self.assertTrue(cursor.has(width))
                self.assertEqual(cursor.take(width), value)
            self.assertFalse(cursor.has(8))
            self.assertFalse(cursor.goes_on())
        self.assertTrue(Packed(b"\0\1").goes_on() and Records(b"\0").goes_on())
        self.assertFalse(Packed(b"").goes_on() or Records(b"").goes_on())


@linked
class Python(unittest.TestCase):
    """The calls of tools/gidzelma.py."""

    @classmethod
    def setUpClass(cls):
        cls.library = gidzelma.load(building.shared_object(ROOT, lambda text: None))

    def test_calls(self):
        for w, schedule in SMALL.values():
            records = self.library.read_schedule(w, schedule)
            self.assertEqual(records, model.read_schedule(w, schedule, bytes(2000)).output[:len(records)])
            for form in (bytes, bytearray, memoryview):
                self.assertEqual(self.library.write_schedule(w, form(records)), schedule)
                self.assertEqual(self.library.read_schedule(w, form(schedule)), records)

    def test_from_a_sheet(self):
        """What the schedule call writes is read, and written again."""
        for types in range(4, 64, 9):
            sheet = sheetlib.encode(loads.ordinary(types))
            schedule, w = self.library.schedule(sheet), len(model.sheet_words(sheet))
            self.assertEqual(self.library.write_schedule(w, self.library.read_schedule(w, schedule)), schedule)

    def test_refused(self):
        for call, w, given, number in ((self.library.read_schedule, 4, WORKED[:-1], 11),
                                       (self.library.read_schedule, 2, WORKED, 12),
                                       (self.library.write_schedule, 2, b"", 11),
                                       (self.library.write_schedule, -1, bytes(4), 12)):
            with self.assertRaises(gidzelma.Refused) as caught:
                call(w, given)
            self.assertEqual((caught.exception.number, caught.exception.rows), (number, []))
        self.assertTrue(str(caught.exception).startswith("refused 12: no schedule has such a value"))

    def test_lent(self):
        for room in range(60):
            lent = bytearray(b"\xa5" * room)
            want = model.read_schedule(4, WORKED, bytes(lent))
            got = self.library.lend_one("read_schedule", 4, WORKED, lent)
            self.assertEqual((got, lent), ((want.number, want.size, 0, False), want.output))


if __name__ == "__main__":
    if not LINKED:
        print(f"some tests are skipped: {NOT_LINKED}", file=sys.stderr)
    unittest.main()
