#!/usr/bin/env python3
"""Tests of the call over a tariff, of its readable text and of bin/tariff. Run: python3 tools/test_tariff.py

The compiled call is held to the model: number and sum, with bytes beside the sum, and what is given stays. Where
the library or the program is not built, or older than its sources, what needs it is skipped.
"""

import ctypes
import itertools
import json
import os
import random
import shutil
import struct
import subprocess
import sys
import unittest

HERE = os.path.dirname(os.path.abspath(__file__))
ROOT = os.path.dirname(HERE)
sys.path.insert(0, HERE)

import building
import charging
import gidzelma
import model
import model_tariff
import printed
import proved
import refusals
import replaying
import sheetlib
import showing
import tariff_text
from maps import large, schedules, tariffs
from maps.changed import flipped
from maps.schedules import line, made, packed, whole
from places import Problems, quoted
from test_programs import BASE, EXAMPLES, Folder, at_terminal, run

LINKED = building.at_hand(ROOT, building.library(ROOT)) and any(map(shutil.which, ("cc", "gcc", "clang")))
BUILT = building.at_hand(ROOT, building.program(ROOT, "charge"))
NOT_LINKED = "the library is not built, or older than its sources (tools/build exports), or cc is missing"
NOT_BUILT = "the program charge is not built, or older than its sources (tools/build charge)"
linked = unittest.skipUnless(LINKED, NOT_LINKED)
built = unittest.skipUnless(BUILT, NOT_BUILT)

# The worked example of W = 4: a resource of two parents, which is not virtual, and an extension line.
WORKED = bytes.fromhex("06000200800080001090140802800010")
CHARGES = [0, 2, 1250, 2, 0, 100]
FULL = tariffs.numbers(tariffs.full(tariffs.odd))


def of_parents(virtual=0):
    """A schedule of W = 2 with a resource of each number of parents."""
    return packed(whole(*(made([(0,)] * parents, virtual=virtual) for parents in range(2, 18))))


def stored_schedules():
    """Every stored case that the schedule call accepts: a name, W and the packed schedule."""
    for crate in ("cases", "document_cases"):
        with open(os.path.join(ROOT, "crates", crate, "stdin"), "rb") as source:
            for call, number, what, sheet, listed in replaying.cases_in(source.read()):
                if call == "schedule" and number == 0:
                    yield f"{crate} {what}", len(model.sheet_words(sheet)), listed


def schedule_of(sheet):
    """W and the packed schedule of a sheet."""
    answer = model.schedule(sheet, bytes(1 << 18), bytes(1536))
    return len(model.sheet_words(sheet)), answer.listing[:answer.size]


def largest():
    """The same of the map whose schedule is the largest that was found."""
    return schedule_of(sheetlib.encode(large.MAPS["crowd"]()))


# --------------------------------------------------------------- the call

class Call:
    """The compiled call, with numbers beside the sum and beside the tariff."""

    BESIDE, BEFORE = 0x5AC3C35A5AC3C35A, -77

    def __init__(self):
        self.call = gidzelma.load(building.shared_object(ROOT, lambda text: None)).calls["tariff"]

    def ask(self, numbers, w, schedule):
        """Number, sum, and whether all else was left alone."""
        sums = (ctypes.c_int64 * 3)(self.BESIDE, self.BEFORE, self.BESIDE)
        given = [7, *numbers, 7]
        tariff = (ctypes.c_int32 * len(given))(*given)
        number = self.call(ctypes.byref(tariff, 4), len(numbers), w, schedule, len(schedule), ctypes.byref(sums, 8))
        left = sums[0] == sums[2] == self.BESIDE and list(tariff) == given
        return number, sums[1], left


class Tariff(unittest.TestCase):
    """The model's call, and, where the library is built, the compiled one beside it."""

    @classmethod
    def setUpClass(cls):
        cls.call = Call() if LINKED else None

    def held(self, numbers, w, schedule, what=""):
        """The model's answer; that of the compiled call has to be the same."""
        want = model.tariff(numbers, w, schedule)
        if self.call:
            got = self.call.ask(numbers, w, schedule)
            if got != (*want, True):
                self.fail(f"{what} {numbers} {w} {schedule[:200].hex()}: model {want}, call {got[:2]}, "
                          f"left alone: {got[2]}")
        return want

    def test_listed(self):
        """The smallest cases of the readings."""
        for numbers, w, schedule, want in [
                ([0] * 100, 4, WORKED, (14, 0)), ([0] * 98, 4, WORKED, (15, 0)),
                ([0, 3, 100000, 0, 2, 1, 0, 2, 1], 4, WORKED, (15, 0)), ([0, 2, 1, 0, 2, 1], 4, WORKED, (16, 0)),
                ([0, 2, 100000], 0, WORKED, (15, 0)), ([], 4, WORKED, (0, 0)), ([], 4, WORKED[:-1], (11, 0)),
                ([], 4, WORKED + b"\0", (12, 0)), ([], 0, WORKED, (12, 0)), (CHARGES, 4, WORKED, (0, 1350)),
                ([0, 3, 1250, 2, 0, -5], 4, WORKED, (0, -5)), ([1, 2, 1250], 4, WORKED, (0, 0))]:
            self.assertEqual(self.held(numbers, w, schedule), want, (numbers, w))

    def test_format(self):
        """The cases and the example that the format lists (FORMAT 13.2, 13.3)."""
        for numbers, w, schedule, want in [
                ([0, 2, 1, 0, 2, 1, 2, 0, 100000], 4, WORKED, (15, 0)), ([2, 2, 1], 4, WORKED, (15, 0)),
                ([0, 2, 1, 0, 2, 5], 4, WORKED, (16, 0)), ([0, 2, 1, 1, 2, 5], 4, WORKED, (0, 1)),
                ([0, 1, 1], 0, b"", (15, 0)), ([], 0, b"", (12, 0)), ([], 2, b"", (11, 0)), ([], 2, bytes(3), (0, 0)),
                ([], 2, b"\0\0\1", (12, 0))]:
            self.assertEqual(self.held(numbers, w, schedule), want, (numbers, w))
        numbers, errors = read("real 2 12.50\nreal 4 3.00\nvirtual 2 -0.05\nline 0 1.00\n")
        self.assertEqual((numbers, errors), ([0, 2, 1250, 0, 4, 300, 1, 2, -5, 2, 0, 100], []))
        self.assertEqual(self.held(numbers, 4, WORKED), (0, 1350))
        sheet = sheetlib.sheet_of("resource f\ndomain a\n associate f\ndomain b : a\ndomain c : a\ndomain d : c b a")
        self.assertEqual(self.held(numbers, *schedule_of(sheet)), (0, 5700))

    def test_limits(self):
        """Each limit of a tariff and one past it, and which of its refusals comes first; before every test of W and
        of the schedule."""
        for what, numbers, number in tariffs.limits():
            self.assertEqual(self.held(numbers, 4, WORKED, what).number, number, what)
            for w, schedule, then in ((0, WORKED, 12), (4, b"", 11), (4, WORKED[:-1], 11), (2, WORKED, 12)):
                self.assertEqual(self.held(numbers, w, schedule, what), (number or then, 0), what)

    def test_reached(self):
        """A row charges the items of its sort that have at least as many parents as it names."""
        for virtual in (0, 1):
            schedule, total = of_parents(virtual), 0
            for sort, parents, rate in tariffs.full(tariffs.odd):
                want = rate * (18 - parents) if sort == virtual else 0
                self.assertEqual(self.held([sort, parents, rate], 2, schedule), (0, want), (sort, parents, virtual))
                total += want
            self.assertEqual(self.held(FULL, 2, schedule), (0, total))

    def test_each_item(self):
        """Each number of parents by a full tariff, and extension lines whatever their flags are."""
        rates = [rate for _, _, rate in tariffs.full(tariffs.odd)]
        for virtual, parents in itertools.product((0, 1), range(2, 18)):
            schedule = packed(whole(made([(1, 0)] * parents, virtual=virtual)))
            self.assertEqual(self.held(FULL, 2, schedule).total, sum(rates[16 * virtual:16 * virtual + parents - 1]))
        for flags in itertools.product((0, 1), repeat=2):
            schedule = packed(whole(*[line((1, 0), 1, *flags)] * 5))
            self.assertEqual(self.held(FULL, 2, schedule).total, 5 * rates[-1])

    def test_small(self):
        """0 and 33 rows, one row of each key, and sums around 0."""
        for rate in (-99999, -101, -100, -99, -5, -1, 0, 1, 5, 99, 100, 99999):
            for numbers in ([2, 0, rate], [0, 2, rate], [0, 2, rate, 2, 0, rate], [0, 2, -rate, 2, 0, rate]):
                total = sum(numbers[2::3])
                self.assertEqual(self.held(numbers, 4, WORKED), (0, total), numbers)
        self.assertEqual(self.held(FULL, 4, WORKED), (0, FULL[2] + FULL[-1]))
        self.assertEqual(self.held([], 2, bytes(3)), (0, 0))
        self.assertEqual(self.held(FULL, 2, bytes(3)), (0, 0))

    def test_stored(self):
        """Every stored case that the schedule call accepts, by a full tariff."""
        seen, totals = 0, set()
        for what, w, schedule in stored_schedules():
            answer = self.held(FULL, w, schedule, what)
            self.assertEqual(answer.number, 0, what)
            totals.add(answer.total)
            seen += 1
        self.assertGreater(seen, 1800)
        self.assertGreater(len(totals), 50)

    def test_largest(self):
        """The largest schedule that was found, the order of the rows changed."""
        w, schedule = largest()
        rows = tariffs.full(tariffs.odd)
        want = self.held(tariffs.numbers(rows), w, schedule)
        self.assertEqual(want.number, 0)
        for seed in range(5):
            random.Random(seed).shuffle(rows)
            if self.call:
                self.assertEqual(self.call.ask(tariffs.numbers(rows), w, schedule), (*want, True))

    def test_extreme_sums(self):
        """As many items as can be told, each charged by 16 rows of the greatest rate, or credited: no sum is
        greater."""
        greatest = 16 * 99999 * 65535
        schedule = packed(whole(*[made([(0,)] * 17)] * 65535))
        self.assertEqual(self.held(tariffs.numbers(tariffs.full()), 2, schedule), (0, greatest))
        credits = tariffs.numbers(tariffs.full(lambda at: -99999))
        if self.call:
            self.assertEqual(self.call.ask(credits, 2, schedule), (0, -greatest, True))
        self.assertEqual(self.held(credits, 2, packed(whole(*[line()] * 65535))), (0, -99999 * 65535))
        self.assertEqual(greatest, 104_854_951_440)

    def test_shuffled(self):
        """The order of the rows changes nothing, refusals included."""
        rng = random.Random("shuffled")
        for at in range(300):
            w = rng.choice((2, 3, 10, 200))
            schedule = model.pack(*schedules.random_schedule(rng, w))
            rows = tariffs.random_rows(rng)
            if at % 3 == 0 and rows:
                rows.append(rng.choice([(*rows[0][:2], 1), (3, 2, 1), (2, 0, 100000), (2, 1, 1)]))
            want = self.held(tariffs.numbers(rows), w, schedule)
            for _ in range(4):
                rng.shuffle(rows)
                self.assertEqual(self.held(tariffs.numbers(rows), w, schedule), want)

    def test_random(self):
        """Tariffs near the limits, schedules such as no sheet has, damaged ones, and some W."""
        rng, numbers = random.Random("random"), set()
        for at in range(1500):
            w = rng.choice((2, 3, 10, 127, 128, 199, 200))
            schedule = model.pack(*schedules.random_schedule(rng, w))
            if at % 2:
                schedule = flipped(schedule, rng.randrange(8 * len(schedule)))[:rng.choice((None, None, -1))]
            w = rng.choice((w, w, w, w, 0, 1, 201, 256 + w, 1 << 32, (1 << 64) - 1))
            numbers.add(self.held(tariffs.random_tariff(rng), w, schedule, f"random {at}").number)
        self.assertEqual(numbers, {0, 11, 12, 14, 15, 16})

    def test_damaged(self):
        """Each single bit of a schedule with every construct, each of its cuts, and bytes behind it."""
        schedule = bytes.fromhex("04000080800140202820020209160002088180ffeff8")
        for bit in range(8 * len(schedule)):
            self.held(FULL, 5, flipped(schedule, bit))
        for size in range(len(schedule)):
            self.assertEqual(self.held(FULL, 5, schedule[:size]), (11, 0))
        for more in (b"\0", b"\1", bytes(200)):
            self.assertEqual(self.held(FULL, 5, schedule + more), (12, 0))
        self.assertEqual(self.held(FULL, 5, schedule).number, 0)

    def test_words(self):
        """W, tested before the schedule and behind the tariff."""
        for w in [*range(261), 1 << 16, 1 << 32, (1 << 32) + 2, 1 << 63, (1 << 64) - 1]:
            number = 0 if 2 <= w <= 200 else 12
            self.assertEqual(self.held(CHARGES, w, of_parents()).number, number, w)
            self.assertEqual(self.held(CHARGES, w, b"").number, number or 11, w)
            self.assertEqual(self.held(CHARGES[:-1], w, b"").number, 15, w)


class ModelParts(unittest.TestCase):
    """What is printed, by the model."""

    def test_amounts(self):
        for total, text in [(0, "0.00"), (1, "0.01"), (-1, "-0.01"), (-5, "-0.05"), (99, "0.99"), (-99, "-0.99"),
                            (100, "1.00"), (-100, "-1.00"), (-105, "-1.05"), (123455, "1234.55"), (-250, "-2.50"),
                            (104_854_951_440, "1048549514.40")]:
            self.assertEqual(model.total_printed(model.Charged(0, total)), f"total {text}\n")
            if total:
                self.assertEqual(tariff_text.hundredths(text), total)
        self.assertEqual(model.total_printed(model.Charged(16, 0)), "refused 16\n")

    def test_table(self):
        """The words of the refusals have the model's limits."""
        self.assertEqual(list(refusals.OF_TARIFFS),
                         [model_tariff.TOO_LONG, model_tariff.ROW_NOT_ALLOWED, model_tariff.TWICE])
        self.assertIn(str(model_tariff.MOST_NUMBERS), refusals.meaning_of(14))
        for limits in (model_tariff.RATES, model_tariff.PARENTS[0]):
            self.assertIn(f"{limits[0]:,} to {limits[1]:,}", refusals.meaning_of(15))


@linked
class Python(unittest.TestCase):
    """The call of tools/gidzelma.py."""

    @classmethod
    def setUpClass(cls):
        cls.library = gidzelma.load(building.shared_object(ROOT, lambda text: None))

    def test_sums(self):
        for form in (list, tuple, iter):
            self.assertEqual(self.library.tariff(form(CHARGES), 4, WORKED), 1350)
        for form in (bytearray, memoryview):
            self.assertEqual(self.library.tariff(CHARGES, 4, form(WORKED)), 1350)
        self.assertEqual(self.library.tariff([], 4, WORKED), 0)
        self.assertEqual(self.library.tariff([2, 0, -5], 4, WORKED), -5)

    def test_refused(self):
        for tariff, w, schedule, number in [
                (FULL + [0], 4, WORKED, 14), ([0], 4, WORKED, 15), (2 * CHARGES, 4, WORKED, 16),
                (CHARGES, 4, b"", 11), (CHARGES, 2, WORKED, 12), (CHARGES, -1, WORKED, 12)]:
            with self.assertRaises(gidzelma.Refused) as caught:
                self.library.tariff(tariff, w, schedule)
            self.assertEqual((caught.exception.number, caught.exception.rows), (number, []))
            self.assertEqual(str(caught.exception), f"refused {number}: {refusals.meaning_of(number)}")
            self.assertEqual(self.library.charge(tariff, w, schedule), (number, 0))
        self.assertEqual(self.library.charge(CHARGES, 4, WORKED), (0, 1350))

    def test_no_numbers(self):
        """What fits no 32 bits is not cut to them."""
        for number in (1 << 31, -1 - (1 << 31), 1 << 64):
            with self.assertRaises(OverflowError):
                self.library.tariff([number], 4, WORKED)
        for number in tariffs.EXTREMES:
            self.assertEqual(self.library.charge([0, 2, number], 4, WORKED), (15, 0))


# --------------------------------------------------------------- the text

def read(text, raw=False):
    """The numbers of a text, and what is wrong in it, each with line and column."""
    problems = Problems()
    numbers = tariff_text.parse_text(text, problems, "x", raw)
    return numbers, [str(problem).removeprefix("x:") for problem in problems.sorted()]


def spelled(row):
    """A row as a text has it; a sort that has no name is a number."""
    sort, parents, rate = row
    return f"{('real', 'virtual', 'line')[sort] if sort in range(3) else sort} {parents} {model_tariff.amount(rate)}"


NO_RATE = "is no rate: -999.99 to 999.99, written as 12.50, 3 or -0.05"
BEGINS = "begins no row of a tariff: `real`, `virtual` or `line`"


class Text(unittest.TestCase):
    """The readable text of a tariff."""

    def test_rows(self):
        self.assertEqual(read("real 3 12.50\nvirtual 2 -0.05\nline 0 1.00\n"),
                         ([0, 3, 1250, 1, 2, -5, 2, 0, 100], []))
        self.assertEqual(read(""), ([], []))
        self.assertEqual(read("\n# nothing\n \t\r\n"), ([], []))
        self.assertEqual(read("  real\t17 1 # so much\r\n#line 0 2\nline 0 2 #"), ([0, 17, 100, 2, 0, 200], []))
        self.assertEqual(read("line 0 2#")[1], [f"1:8: error: `2#` {NO_RATE}"])

    def test_rates(self):
        for text, rate in [("0", 0), ("-0", 0), ("0.0", 0), ("3", 300), ("+3", 300), ("-3", -300), ("0.5", 50),
                           ("-0.5", -50), ("0.05", 5), ("-0.05", -5), ("+0.01", 1), ("999.99", 99999),
                           ("-999.99", -99999), ("007.10", 710)]:
            self.assertEqual(read(f"line 0 {text}"), ([2, 0, rate], []), text)
        for text in ("1000", "-1000", "999.999", "1000.00", ".5", "5.", "-.05", "1.234", "1,50", "1e2", "--1", "+-1", "x",
                     "1_0", "0x1", "\u0661", "9" * 5000, "-", "+", "1.-5", "1.5.5", "\u20ac5", "inf", "nan"):
            text = text.encode().decode("latin-1")  # one character a byte, as files are read
            self.assertEqual(read(f"line 0 {text}")[1], [f"1:8: error: {quoted(text)} {NO_RATE}"], text)

    def test_every_rate(self):
        """All rates, in the spellings with two digits and with fewer."""
        for rate in range(-99999, 100000):
            text = model_tariff.amount(rate)
            self.assertEqual(tariff_text.hundredths(text), rate)
            if rate % 10 == 0:
                self.assertEqual(tariff_text.hundredths(text[:-1]), rate)
            if rate % 100 == 0:
                self.assertEqual(tariff_text.hundredths(text[:-3]), rate)

    def test_numbers(self):
        for sort, allowed in (("real", "2 to 17"), ("virtual", "2 to 17"), ("line", "0")):
            for number in (-1, 0, 1, 2, 3, 16, 17, 18, 1 << 31, "x", "2.0", 10 ** 40):
                numbers, errors = read(f"{sort} {number} 1")
                if number in (range(1) if sort == "line" else range(2, 18)):
                    self.assertEqual((numbers, errors), ([tariff_text.SORTS[sort], number, 100], []))
                else:
                    place, shown = f"1:{len(sort) + 2}", quoted(str(number))
                    self.assertEqual(errors, [f"{place}: error: {shown} is no number of parents for `{sort}`: {allowed}"])

    def test_lines(self):
        """What begins no row, and rows that have too little or too much."""
        takes = "takes a number of parents and a rate"
        for text, errors in [
                ("reel 2 1", [f"1:1: error: `reel` {BEGINS}, did you mean `real`"]),
                ("0 2 1", [f"1:1: error: `0` {BEGINS}"]),
                (" lines 0 1", [f"1:2: error: `lines` {BEGINS}, did you mean `line`"]),
                ("Real 2 1", [f"1:1: error: `Real` {BEGINS}, did you mean `real`"]),
                ("real", [f"1:1: error: `real` {takes}"]), ("real 2", [f"1:1: error: `real` {takes}"]),
                ("\nline 1.00", [f"2:1: error: `line` {takes}"]), ("real 2 1 1", [f"1:1: error: `real` {takes}"]),
                ("real 2 # 1", [f"1:1: error: `real` {takes}"])]:
            self.assertEqual(read(text)[1], errors)

    def test_all_at_once(self):
        """Everything that is wrong is told, in the order of the text."""
        self.assertEqual(read("real 18 1000\nfoo\nline 0 1\nline 0 2\n")[1], [
            "1:6: error: `18` is no number of parents for `real`: 2 to 17", f"1:9: error: `1000` {NO_RATE}",
            f"2:1: error: `foo` {BEGINS}", "4:1: error: `line 0` stands twice (first at line 3)"])

    def test_twice(self):
        self.assertEqual(read("real 2 1\nvirtual 2 1\nreal 3 1\n")[1], [])
        self.assertEqual(read("real 2 1\n\nreal 2 1\nreal 02 -5\n")[1],
                         ["3:1: error: `real 2` stands twice (first at line 1)",
                          "4:1: error: `real 2` stands twice (first at line 1)"])

    def test_most(self):
        """33 rows, which are all that differ, and one more."""
        rows = [spelled(row) for row in tariffs.full(tariffs.odd)]
        self.assertEqual(read("\n".join(rows)), (FULL, []))
        self.assertEqual(read("\n".join(["real 2 1", *rows]))[1],
                         ["2:1: error: `real 2` stands twice (first at line 1)", "34:1: error: rows: at most 33"])

    def test_refused(self):
        """What the call refuses is an error, and nothing else is; with --raw it is taken."""
        for what, numbers, number in tariffs.limits():
            rows = list(zip(*[iter(numbers)] * 3))
            if 3 * len(rows) == len(numbers):
                text = "\n".join(map(spelled, rows))
                self.assertEqual(bool(read(text)[1]), number > 0, what)
                self.assertEqual(read(text, raw=True), (numbers, []), what)

    def test_raw(self):
        """Only that numbers fit 32 bits."""
        least, most = tariffs.EXTREMES
        self.assertEqual(read(f"real 1 1000\nreal 1 1\n3 -4 0.1\n{least} {most} -21474836.48\n", True),
                         ([0, 1, 100000, 0, 1, 100, 3, -4, 10, least, most, least], []))
        self.assertEqual(read(f"{most + 1} 2 1\nreal {most + 1} 21474836.48\nreal x -21474836.49\nreal 2\n", True)[1], [
            f"1:1: error: `{most + 1}` {BEGINS}",
            f"2:6: error: `{most + 1}` is no number of parents for `real`: {least} to {most}",
            "2:17: error: `21474836.48` is no rate: -21474836.48 to 21474836.47, written as 12.50, 3 or -0.05",
            f"3:6: error: `x` is no number of parents for `real`: {least} to {most}",
            "3:8: error: `-21474836.49` is no rate: -21474836.48 to 21474836.47, written as 12.50, 3 or -0.05",
            "4:1: error: `real` takes a number of parents and a rate"])


# ------------------------------------------------------------- the program

def number_bytes(numbers):
    """A tariff as --numbers takes it."""
    return struct.pack(f"<{len(numbers)}i", *numbers)


@built
class Program(unittest.TestCase):
    """The proved program itself."""

    def setUp(self):
        self.program = proved.Each(building.program(ROOT, "charge").path)

    def held(self, numbers, w, schedule, what=""):
        """What it prints is what the model prints."""
        text = self.program.text(charging.asked(number_bytes(numbers), w, schedule)).decode()
        self.assertEqual(text, model.total_printed(model.tariff(numbers, w, schedule)), what)
        return text

    def test_limits(self):
        for what, numbers, number in tariffs.limits():
            text = self.held(numbers, 4, WORKED, what)
            self.assertEqual(text.startswith("total"), number == 0)

    def test_sums(self):
        for rate in (-99999, -1000, -105, -100, -99, -10, -5, -1, 0, 1, 9, 10, 99, 100, 101, 99999):
            self.held([2, 0, rate], 4, WORKED)
        lines = packed(whole(*[line()] * 65535))
        for rate in (99999, -99999, 1, -1):
            self.held([2, 0, rate], 2, lines)
        self.assertEqual(self.held(CHARGES, 4, WORKED), "total 13.50\n")

    def test_schedules(self):
        """The stored schedules, some of them; the largest that was found, and what is refused."""
        for what, w, schedule in itertools.islice(stored_schedules(), 0, None, 9):
            self.held(FULL, w, schedule, what)
        self.held(FULL, *largest())
        for size in range(len(WORKED)):
            self.assertEqual(self.held(CHARGES, 4, WORKED[:size]), "refused 11\n")
        for w in (0, 1, 2, 201, 256, 260, 65535):
            self.held(CHARGES, w, WORKED)
            self.held(CHARGES[1:], w, WORKED)
        self.held(CHARGES, 4, WORKED + b"\0")

    def test_counts(self):
        """Numbers beyond those that a tariff has."""
        for count in (100, 255, 256, 257, 1000, 65535):
            self.assertEqual(self.held([0] * count, 4, WORKED), "refused 14\n")

    def test_random(self):
        rng = random.Random("program")
        for at in range(200):
            w = rng.choice((2, 3, 10, 200))
            schedule = model.pack(*schedules.random_schedule(rng, w))
            self.held(tariffs.random_tariff(rng), w, schedule[:rng.choice((None, None, -1))], f"random {at}")


RATES = b"real 2 12.50\nline 0 1.00\n"


@built
class Command(Folder):
    """bin/tariff: what is printed, and the statuses."""

    def setUp(self):
        super().setUp()
        self.write("rates", RATES)
        self.write("numbers", number_bytes(CHARGES))
        self.write("packed", WORKED)
        self.sheet = shutil.copy(BASE, self.path("base.sheet"))

    def tariff(self, *args, **more):
        """Runs the program in the folder."""
        return run("tariff", *args, **{"cwd": self.folder, **more})

    def test_total(self):
        for args in (["rates", "base.sheet", "packed"], ["rates", "-w", "4", "packed"], ["rates", "packed", "-w4"],
                     ["--numbers", "numbers", "base.sheet", "packed"], ["--numbers=numbers", "-w", "4", "packed"],
                     ["--raw", "rates", "base.sheet", "packed"], ["--", "rates", "base.sheet", "packed"]):
            self.assertEqual(self.tariff(*args), (0, b"total 13.50\n", ""), args)

    def test_standard_input(self):
        """Any one of the files."""
        for args in (["rates", "base.sheet", "packed"], ["--numbers", "numbers", "base.sheet", "packed"],
                     ["rates", "-w", "4", "packed"]):
            for at, name in enumerate(args):
                if os.path.exists(self.path(name)):
                    given = [*args[:at], "-", *args[at + 1:]]
                    self.assertEqual(self.tariff(*given, given=self.read(name)), (0, b"total 13.50\n", ""), given)
        for args in (["-", "-", "packed"], ["--numbers", "-", "-", "packed"], ["--numbers", "-", "-w", "4", "-"]):
            self.trouble(self.tariff(*args), "tariff: standard input is given twice")

    def test_signs(self):
        for rate, total in [("-0.05", "-0.05"), ("-1.05", "-1.05"), ("-1", "-1.00"), ("0", "0.00"), ("-0", "0.00"),
                            ("0.07", "0.07"), ("999.99", "999.99"), ("-999.99", "-999.99")]:
            self.assertEqual(self.tariff("-", "-w", "4", "packed", given=f"line 0 {rate}".encode()),
                             (0, f"total {total}\n".encode(), ""))

    def test_empty(self):
        """A tariff without rows: the schedule is read all the same."""
        self.assertEqual(self.tariff("-", "base.sheet", "packed"), (0, b"total 0.00\n", ""))
        self.assertEqual(self.tariff("--numbers", "-", "base.sheet", "packed"), (0, b"total 0.00\n", ""))
        self.write("packed", WORKED[:-1])
        self.assertEqual(self.tariff("-", "base.sheet", "packed"), (1, b"refused 11\n", ""))

    def test_refused(self):
        """The tariff first, then W, then the schedule."""
        for numbers, number in ((FULL + [0], 14), (CHARGES[:-1], 15), ([0, 2, 100000], 15), (2 * CHARGES, 16)):
            self.write("numbers", number_bytes(numbers))
            for words in (["base.sheet"], ["-w", "0"], ["-w", str(1 << 70)]):
                self.assertEqual(self.tariff("--numbers", "numbers", *words, "packed"),
                                 (1, b"refused %d\n" % number, ""))
        for width, data, number in ((4, WORKED[:-1], 11), (4, b"", 11), (4, WORKED + b"\0", 12), (2, WORKED, 12),
                                    (0, WORKED, 12), (201, b"", 12), (1 << 70, WORKED, 12)):
            self.assertEqual(self.tariff("rates", "-w", str(width), "-", given=data), (1, b"refused %d\n" % number, ""))

    def test_raw(self):
        """A text that is refused."""
        for text, number in ((b"real 2 1\nreal 2 1", 16), (b"real 18 1", 15), (b"3 2 1", 15), (b"line 0 1000", 15),
                             (b"line 0 1\n" * 34, 14)):
            self.assertEqual(self.tariff("--raw", "-", "-w", "4", "packed", given=text),
                             (1, b"refused %d\n" % number, ""))
            self.assertEqual(self.tariff("-", "-w", "4", "packed", given=text)[0], 2)

    def test_explain(self):
        self.assertEqual(self.tariff("--explain", "rates", "base.sheet", "packed"), (0, b"total 13.50\n", ""))
        for numbers in (FULL + [0], CHARGES[:-1], 2 * CHARGES):
            self.write("numbers", number_bytes(numbers))
            number = model.tariff(numbers, 4, WORKED).number
            said = f"refused {number}\nrefused {number}: {refusals.meaning_of(number)}\n"
            self.assertEqual(self.tariff("--explain", "--numbers", "numbers", "base.sheet", "packed"),
                             (1, said.encode(), ""))
        words = [os.path.join(ROOT, "bin", "tariff"), "--numbers", "numbers", "base.sheet", "packed"]
        self.assertEqual(at_terminal(words, cwd=self.folder), (1, said))
        out = self.tariff("--explain", "--numbers", "-", "base.sheet", "packed", given=b"real 2 1.0  ")[1].decode()
        self.assertEqual(out.splitlines()[-1], charging.TEXT_AS_NUMBERS)
        said = f"refused 12\nrefused 12: {refusals.meaning_of(12)}\n"
        self.assertEqual(self.tariff("--explain", "rates", "-w", "2", "packed")[1].decode(), said)
        self.write("packed", packed(whole(names=[(3,)])))
        other = self.write("other.sheet", sheetlib.sheet_of("domain a"))
        self.assertEqual(self.tariff("--explain", "rates", other, "packed")[1].decode(),
                         said + charging.OTHER_SHEET + "\n")
        out = self.tariff("--explain", "rates", "-w", "4", "-", given=b"T base\n")[1].decode()
        self.assertEqual(out.splitlines()[-1], showing.TEXT_AS_SCHEDULE)

    def test_json(self):
        head = {"file": "packed", "call": "tariff"}
        status, out, error = self.tariff("--json", "rates", "base.sheet", "packed")
        self.assertEqual((status, error, out.count(b"\n")), (0, "", 1))
        self.assertEqual(json.loads(out), {**head, "status": 0, "total": "13.50", "hundredths": 1350})
        value = json.loads(self.tariff("--json", "-", "-w", "4", "packed", given=b"line 0 -0.05")[1])
        self.assertEqual(value, {**head, "status": 0, "total": "-0.05", "hundredths": -5})
        status, out, error = self.tariff("--json", "rates", "-w", "2", "packed")
        self.assertEqual((status, error, json.loads(out)), (1, "", {**head, "status": 1, "refusal": {
            "number": 12, "meaning": refusals.meaning_of(12), "rows": [], "more": False}}))
        status, out, error = self.tariff("--json", "gone", "base.sheet", "packed")
        self.assertEqual((status, error), (2, "tariff: gone: no such file or directory\n"))
        self.assertEqual(json.loads(out), {**head, "status": 2, "trouble": "gone: no such file or directory"})
        status, out, error = self.tariff("--json", "-", "base.sheet", "packed", given=b"foo")
        self.assertEqual((status, json.loads(out)["trouble"]), (2, "standard input: 1 error, nothing is charged"))

    def test_sheets(self):
        """W is that of the sheet, also of one without an order."""
        for text in ("domain a : a", "words w1 w2 w3 w4 w5 w6 w7\ndomain a"):
            sheet = sheetlib.sheet_of(text)
            w = len(model.sheet_words(sheet))
            self.assertEqual(charging.width_in(self.write("a.sheet", sheet)), w)
            for word, done in ((w - 1, (0, b"total 1.00\n", "")), (w, (1, b"refused 12\n", ""))):
                self.write("packed", packed(whole(line(word=word))))
                self.assertEqual(self.tariff("rates", "a.sheet", "packed"), done)
        for path in (BASE, os.path.join(EXAMPLES, "pool.sheet")):
            with open(path, "rb") as source:
                self.assertEqual(charging.width_in(path), len(model.sheet_words(source.read())))

    def test_example(self):
        """The stored total of the pool controller."""
        with open(os.path.join(EXAMPLES, "pool.total.txt"), "rb") as source:
            stored = source.read()
        names = [os.path.join("examples", name) for name in ("rates.txt", "pool.sheet", "pool.schedule")]
        self.assertEqual(run("tariff", *names, cwd=ROOT), (0, stored, ""))

    def test_largest(self):
        """The largest schedule that was found, and as many lines as can be told."""
        w, schedule = largest()
        for data, width in ((schedule, w), (packed(whole(*[line()] * 65535)), 2)):
            want = model.total_printed(model.tariff(CHARGES, width, data)).encode()
            self.assertEqual(self.tariff("rates", "-w", str(width), "-", given=data), (0, want, ""))

    def test_outputs(self):
        """Outputs that are full or closed; by a link, from another folder."""
        words = [os.path.join(ROOT, "bin", "tariff"), "rates", "base.sheet", "packed"]
        for end, said in (("> /dev/full", "no space left on device"), (">&-", "is closed")):
            done = subprocess.run(["sh", "-c", f'exec "$@" {end}', "sh", *words], cwd=self.folder, capture_output=True,
                                  check=False)
            self.assertEqual((done.returncode, done.stderr.decode()), (2, f"tariff: standard output: {said}\n"))
        os.symlink(words[0], self.path("link"))
        done = subprocess.run([self.path("link"), *map(self.path, words[1:])], cwd="/", stdout=subprocess.PIPE,
                              check=False)
        self.assertEqual((done.returncode, done.stdout), (0, b"total 13.50\n"))


class Options(Folder):
    """What is told before the program is asked: options, files, errors in the text; --help and --version."""

    def setUp(self):
        super().setUp()
        self.write("rates", RATES)
        self.write("packed", WORKED)
        shutil.copy(BASE, self.path("base.sheet"))

    def test_options(self):
        for args, said in [
                ([], charging.NEEDED), (["rates"], charging.NEEDED), (["rates", "packed"], charging.NEEDED),
                (["rates", "-w", "4"], charging.NEEDED), (["rates", "-w", "4", "base.sheet", "packed"], charging.NEEDED),
                (["--numbers", "n", "rates", "base.sheet", "packed"], charging.NEEDED),
                (["--numbers", "n", "packed"], charging.NEEDED),
                (["rates", "-w", "x", "packed"], "argument -w: invalid int value: 'x'; --help has the options"),
                (["rates", "-w=-1", "packed"], "-w -1: is no number of words"),
                (["rates", "-w", "4", "-w", "4", "packed"], "-w is given twice"),
                (["--numbers", "a", "--numbers", "b", "-w", "4", "packed"], "--numbers is given twice"),
                (["--numbers=", "-w", "4", "packed"], "--numbers is given nothing"),
                (["--raw", "--numbers", "n", "-w", "4", "packed"],
                 "--raw does nothing with --numbers, which takes any numbers"),
                (["--json", "--explain", "rates", "base.sheet", "packed"],
                 "--explain does nothing with --json, which has the words"),
                (["--frob"], "unrecognized arguments: --frob; --help has the options")]:
            self.trouble(run("tariff", *args, cwd=self.folder), f"tariff: {said}")

    def test_files(self):
        self.write("long", bytes((1 << 18) + 1))
        self.write("odd", bytes(7))
        self.write("many", bytes(4 * 65536))
        self.write("rows", b"line 0 1\n" * 21846)
        refused = "its W is needed, and the sheet cannot be read"
        for args, said in [
                (["gone", "base.sheet", "packed"], "gone: no such file or directory"),
                (["rates", "gone", "packed"], "gone: no such file or directory"),
                (["rates", "base.sheet", "gone"], "gone: no such file or directory"),
                (["--numbers", "gone", "base.sheet", "packed"], "gone: no such file or directory"),
                ([".", "base.sheet", "packed"], ".: is a directory"),
                (["rates", "base.sheet", "."], ".: is a directory"),
                (["rates", "-w", "4", "long"], "long: longer than 262,144 bytes, which the program takes"),
                (["--numbers", "odd", "-w", "4", "packed"], "odd: 7 bytes, and a number has 4"),
                (["--numbers", "many", "-w", "4", "packed"], "many: more than 65,535 numbers, which the program takes"),
                (["--raw", "rows", "-w", "4", "packed"], "rows: more than 65,535 numbers, which the program takes"),
                (["rates", "rates", "packed"], f"rates: {refused}: {printed.TEXT_AS_SHEET}"),
                (["rates", "-", "packed"],
                 f"standard input: {refused}: refused with 3: bit 0: the end comes within version")]:
            self.trouble(run("tariff", *args, cwd=self.folder), f"tariff: {said}")
        self.trouble(run("tariff", "rates", "-", "packed", cwd=self.folder, given=b"\x10"),
                     f"tariff: standard input: {refused}: refused with 3: bit 4: the end comes within words: count")

    def test_errors(self):
        """Each with its place; nothing is charged."""
        self.write("bad", b"real 2 1.00\n  virtual 1 1.234  # no\nreal 2 3\nfoo\n")
        lines = ["bad:2:11: error: `1` is no number of parents for `virtual`: 2 to 17",
                 f"bad:2:13: error: `1.234` {NO_RATE}", "bad:3:1: error: `real 2` stands twice (first at line 1)",
                 f"bad:4:1: error: `foo` {BEGINS}",
                 "tariff: bad: 4 errors, nothing is charged"]
        self.trouble(run("tariff", "bad", "base.sheet", "packed", cwd=self.folder), "\n".join(lines))
        self.trouble(run("tariff", "--raw", "bad", "base.sheet", "packed", cwd=self.folder),
                     "bad:2:13: error: `1.234` is no rate: -21474836.48 to 21474836.47, written as 12.50, 3 or -0.05\n"
                     f"bad:4:1: error: `foo` {BEGINS}\ntariff: bad: 2 errors, nothing is charged")
        self.write("bad", number_bytes(CHARGES))
        self.trouble(run("tariff", "bad", "base.sheet", "packed", cwd=self.folder),
                     "bad:1:1: error: the byte 00 (hexadecimal) is in no text; --numbers takes a tariff of bytes\n"
                     "tariff: bad: 1 error, nothing is charged")

    def test_help(self):
        for args in (["-h"], ["gone", "--help"]):
            status, out, error = run("tariff", *args)
            self.assertEqual((status, error), (0, ""))
            self.assertTrue(out.decode().startswith("Usage: tariff "))
        numbers = [f"{number:2}  {refusals.said_of(number)}" for number in (11, 12, 14, 15, 16)]
        for part in ["-w W", "--numbers FILE", "--raw", "--explain", "--json", "Status: 0 a total", "262,144", *numbers]:
            self.assertIn(part, out.decode())
        self.assertLess(max(map(len, out.decode().splitlines())), 100)

    def test_version(self):
        self.assertEqual(run("tariff", "--version")[1].split()[0], b"tariff")


class Example(unittest.TestCase):
    """examples/rates.txt and what it comes to for the pool controller, by the model."""

    def test_total(self):
        def stored(name):
            with open(os.path.join(EXAMPLES, name), "rb") as source:
                return source.read()
        numbers, errors = read(stored("rates.txt").decode())
        self.assertEqual(errors, [])
        answer = model.tariff(numbers, len(model.sheet_words(stored("pool.sheet"))), stored("pool.schedule"))
        self.assertEqual(model.total_printed(answer).encode(), stored("pool.total.txt"))
        self.assertIn(b"    " + stored("pool.total.txt"), stored("README.md"))


if __name__ == "__main__":
    for word in [NOT_LINKED] * (not LINKED) + [NOT_BUILT] * (not BUILT):
        print(f"some tests are skipped: {word}", file=sys.stderr)
    unittest.main()
