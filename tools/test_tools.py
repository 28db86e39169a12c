#!/usr/bin/env python3
"""Tests of the tools, of the model, and of the pages. Run: python3 tools/test_tools.py"""

import hashlib
import itertools
import os
import random
import re
import subprocess
import sys
import tempfile
import unittest

HERE = os.path.dirname(os.path.abspath(__file__))
sys.path.insert(0, HERE)

import case_texts
import model
import schedule_text
import sheetlib
from case_texts import fields
from maps import changed, drawn, flavours, hyphens, large, loads, schedules, small
from places import Problems
from sheetlib import encode, sheet_of

LISTING, DIAGNOSIS = b"\xa5" * 65536, b"\x5a" * 1600
CALLS = {"schedule": model.schedule, "order": model.order}


def run(text, call="schedule", listing=LISTING, diagnosis=DIAGNOSIS, rows=256):
    """What the program prints for the map of a text, or for bytes."""
    sheet = text if isinstance(text, bytes) else sheet_of(text)
    result = CALLS[call](sheet, listing, diagnosis, rows)
    return model.printed(sheet, result, call == "schedule")


def number(text, call="schedule", **options):
    """The number of the answer."""
    sheet = text if isinstance(text, bytes) else sheet_of(text)
    options = {"listing": LISTING, "diagnosis": DIAGNOSIS, **options}
    return CALLS[call](sheet, **options).number


def sheet_width(sheet):
    """W, the number of words of a sheet."""
    return len(model.sheet_words(sheet))


class PCases(unittest.TestCase):
    """The cases that 01 marks (p), and the worked example."""

    def test_no_types(self):
        sheet = sheet_of("")
        self.assertEqual(len(sheet), 17)
        self.assertEqual(sheet[:4].hex(" "), "10 24 39 32")
        result = model.schedule(sheet, LISTING, DIAGNOSIS)
        self.assertEqual(result[:4], (0, 3, 0, 0))
        self.assertEqual(result.listing, b"\0\0\0" + LISTING[3:])
        self.assertEqual(result.diagnosis, DIAGNOSIS)
        self.assertEqual(model.order(sheet, LISTING, DIAGNOSIS)[:5],
                         (0, 1, 0, 0, b"\0" + LISTING[1:]))

    def test_order(self):
        for text, rows in [
                ("domain a : b\ndomain b : a", ["D 2 b a -", "D 2 a b -"]),
                ("domain a : b zz\ndomain b : b", ["D 3 a zz -", "D 2 b b -"]),
                ("domain a : self zz", ["D 3 a self -"]),
                ("domain a : self zz\ndomain c", ["D 1 a self -"])]:
            for call in CALLS:
                self.assertEqual(run(text, call), ["refused 8"] + rows)

    def test_two_ways_up(self):
        lines = run("""
            resource resource
            resource file : resource
            domain d : b c
            domain b : a
            domain c : a
            domain a
              associate file
            """)
        self.assertEqual([line for line in lines if " d" in line],
                         ["T d", "R d.file 0 b.file,c.file,resource -", "E d 00 file"])

    def test_parent_and_child(self):
        lines = run("""
            resource file
            domain a
              associate file
            domain b : a
              associate file
            """)
        self.assertEqual([line for line in lines if " b" in line],
                         ["T b", "R b.file 0 file,resource -", "R b.file 0 a.file,resource -",
                          "E b 00 file"])

    def test_limits(self):
        def types(count):
            return "".join(f"domain t{at:02}\n" for at in range(count))
        for call in CALLS:
            self.assertEqual(number(types(64), call), 0)
            self.assertEqual(number(types(65), call), 4)
            self.assertEqual(number("domain p\ndomain a :" + " p" * 8, call), 0)
            self.assertEqual(number("domain p\ndomain a :" + " p" * 9, call), 4)

    def test_nested(self):
        self.assertEqual(run("""
            resource p.file
            domain p
              nest p.file
            domain b : p
            """), ["T p", "T p.file", "T b", "R b.file 0 p.file,resource -", "E b 00 file"])

    def test_worked_example(self):
        examples = os.path.join(HERE, "..", "examples")
        with open(os.path.join(examples, "base.txt"), encoding="latin-1") as source:
            text = source.read()
        with open(os.path.join(examples, "base.sheet"), "rb") as source:
            sheet = source.read()
        self.assertEqual(sheet_of(text), sheet)
        names = ["T base", "T resource", "T file"]
        self.assertEqual(run(sheet, "order"), names)
        self.assertEqual(run(sheet), names + ["R base.file 0 file,resource makelist",
                                              "E base 00 file"])


GOOD = "domain a\n  associate f\nresource f\n"


class RefusalTable(unittest.TestCase):
    """The refusals: the examples (FORMAT 7.2), and the order of the tests (FORMAT 7.3)."""

    def check(self, sheet, want, call, listing=LISTING, diagnosis=DIAGNOSIS, size=0, rows=256):
        result = CALLS[call](sheet, listing, diagnosis, rows)
        self.assertEqual(result[:2], (want, size))
        self.assertEqual(result.listing, listing)
        if want not in (8, 9):
            self.assertEqual(result[2:4], (0, 0))
            self.assertEqual(result.diagnosis, diagnosis)
        return result

    def test_examples(self):
        for call in CALLS:
            good = sheet_of(GOOD)
            self.check(bytes(40961), 1, call)
            self.check(bytes(40960), 4, call)
            self.check(good, 2, call, diagnosis=bytes(1535))
            self.assertEqual(number(good, call, diagnosis=bytes(1536)), 0)
            self.check(b"", 3, call)
            self.check(sheet_of("version 2"), 4, call)
            self.check(sheet_of("words! self resource"), 5, call)
            self.check(sheet_of("domain a\ndomain a"), 6, call)
            self.check(good + b"\0", 7, call)
            result = self.check(sheet_of("domain a : a"), 8, call)
            self.assertEqual(result[2:4], (1, 0))
            self.assertEqual(result.diagnosis, bytes([2, 0, 255, 0, 255, 255]) + DIAGNOSIS[6:])
            needed = CALLS[call](good, LISTING, DIAGNOSIS).size
            self.check(good, 10, call, listing=b"", size=needed)
            self.check(good, 10, call, listing=bytes(needed - 1), size=needed)
            self.assertEqual(number(good, call, listing=bytes(needed)), 0)
        undeclared = sheet_of("domain a\n  associate b")
        result = self.check(undeclared, 9, "schedule")
        self.assertEqual(result[2:4], (1, 0))
        self.assertEqual(result.diagnosis, bytes([4, 0, 255, 1, 255, 1]) + DIAGNOSIS[6:])
        self.assertEqual(run(undeclared), ["refused 9", "D 4 a b b"])
        self.assertEqual(number(undeclared, "order"), 0)

    def test_order_of_tests(self):
        for call in CALLS:
            self.assertEqual(number(bytes(40961), call, diagnosis=b"", rows=0), 1)
            self.assertEqual(number(bytes(40961), call, diagnosis=b""), 1)
            self.assertEqual(number(b"", call, diagnosis=b"", rows=0), 17)
            self.assertEqual(number(b"", call, diagnosis=b""), 2)
            twice = sheet_of("words! self resource a\ndomain a\ndomain a")
            self.assertEqual(number(twice + b"\0", call), 7)
            self.assertEqual(number(twice, call), 5)
            self.assertEqual(number("domain a : a\ndomain a : a", call), 6)
            self.assertEqual(number("domain a : a\n  associate b", call, listing=b""), 8)
        self.assertEqual(number("domain a\n  associate b", listing=b""), 9)

    def test_row_limit(self):
        """17: a limit that is not allowed, whatever the slice; 2: a slice under six bytes a row of the limit."""
        for call in CALLS:
            for rows in (0, 257, 65536, 0x2aaaaaab, (1 << 32) - 1, 1 << 32):
                for diagnosis in (b"", bytes(2), bytes(1536), bytes(1542)):
                    self.check(sheet_of(GOOD), 17, call, diagnosis=diagnosis, rows=rows)
            for rows in (1, 2, 63, 64, 65, 255, 256):
                for less in (1, 6, 6 * rows):
                    self.check(b"", 2, call, diagnosis=bytes(6 * rows - less), rows=rows)
                for more in (0, 1):
                    self.check(b"", 3, call, diagnosis=bytes(6 * rows + more), rows=rows)

    def test_fill(self):
        empty = bytearray(sheet_of(""))  # 131 bits: five of fill
        for bit in range(5):
            damaged = empty[:-1] + bytes([empty[-1] | 1 << bit])
            self.assertEqual(number(bytes(damaged)), 7)


class Reading(unittest.TestCase):
    """Corners of reading a sheet."""

    def test_first_field_decides(self):
        head = [(4, 1), (8, 2), (5, 31)]
        self.assertEqual(number(fields(*head, (8, ord("!")))), 4)
        self.assertEqual(number(fields(*head, (8, ord("a")))), 3)
        self.assertEqual(number(fields(*head, (8, ord("-")))), 4)
        self.assertEqual(number(fields(*head, (8, ord("a")), (8, ord("-")))), 3)
        self.assertEqual(number(fields(*head, (8, ord("a")), (8, ord("-")), (8, ord("!")))), 4)
        self.assertEqual(number(fields((4, 1), (8, 201))), 4)
        self.assertEqual(number(fields((4, 1), (8, 1))), 4)
        self.assertEqual(number(fields((4, 1), (8, 200))), 3)
        self.assertEqual(number(fields((4, 1), (8, 2), (5, 0))), 4)
        two = [(4, 1), (8, 2), (5, 1), (8, 97), (5, 1), (8, 98)]
        self.assertEqual(number(fields(*two, (7, 65))), 4)
        self.assertEqual(number(fields(*two, (7, 64))), 3)
        self.assertEqual(number(fields(*two, (7, 1), (8, 2))), 4)
        self.assertEqual(number(fields(*two, (7, 0), (6, 33))), 4)
        record = [*two, (7, 1), (8, 0), (1, 0)]
        self.assertEqual(number(fields(*record, (2, 3))), 4)
        self.assertEqual(number(fields(*record, (2, 0), (2, 0), (4, 9))), 4)
        self.assertEqual(number(fields(*record, (2, 0), (2, 0), (4, 0), (4, 13))), 4)
        self.assertEqual(number(fields(*record, (2, 0), (2, 0), (4, 0), (4, 1), (3, 7))), 4)
        pair = [*two, (7, 1), (8, 0), (1, 1), (8, 1), (2, 0), (2, 0), (4, 0), (4, 1)]
        self.assertEqual(number(fields(*pair, (3, 2))), 4)
        self.assertEqual(number(fields(*pair, (3, 1))), 3)

    def test_values(self):
        for text, want in [
                ("words @z", 4), ("words a!", 4), ('words! "" resource self', 4),
                ("words -a", 4), ("words -", 4), ("words --", 4), ("words a-", 0), ("words a--b a-b", 0), ("words a, a.", 4),
                ("words! a-b a- resource self", 5), ("words! a- a-b a0 resource self", 0), ("words " + "a" + 30 * "-", 0),
                ("words Z_9", 0), ("words! resource self self", 5), ("words! a resource", 5),
                ("words! resource self a", 5), ("words! resource resource self", 5),
                ("domain @2", 4), ("domain a : @9", 4), ("variant3 a", 4), ("domain a\n  kind7", 4),
                ("domain a.b\n  nest a", 4), ("domain a.b\n  associate", 0),
                ("domain a\n  nest", 0), ("domain a\n  associate", 0),
                ("extend a f", 4), ("extend a f :" + " p" * 8, 0), ("extend a f :" + " p" * 9, 4),
                ("domain a" + "".join(f"\n  derive {at}" for at in range(12)), 0),
                ("domain a" + "".join(f"\n  derive {at}" for at in range(13)), 4),
                ("".join(f"extend a w{at:02} : p\n" for at in range(32)), 0),
                ("".join(f"extend a w{at:02} : p\n" for at in range(33)), 4),
                ("words " + " ".join(f"w{at:03}" for at in range(198)), 0),
                ("words " + " ".join(f"w{at:03}" for at in range(199)), 4),
                ("domain a\n  inherit" + " b" * 15, 0),
                ("domain a\n  nest " + " ".join(f"w{at:02}" for at in range(15)), 0),
                ("words " + "a" * 31, 0)]:
            for call in CALLS:
                self.assertEqual(number(text, call), want, text)

    def test_every_truncation(self):
        sheet = sheet_of(GOOD + "  mark derive 7\n  alias x\nextend a f : p q.f\n")
        for size in range(len(sheet)):
            self.assertEqual(number(sheet[:size]), 3)

    def test_equal_annotations(self):
        for own, want in [
                ("associate f|associate f", 6), ("associate f|associate d.f", 6),
                ("nest f|nest d.f", 6), ("associate f|nest f", 0), ("associate|associate", 6),
                ("associate f g|associate g f", 6), ("associate f g|associate f.g", 0),
                ("associate f d.f", 6), ("nest f f", 6),
                ("inherit a b|inherit b a", 0), ("inherit a|inherit a a", 0),
                ("inherit a b|inherit a b", 6), ("inherit|inherit", 6),
                ("derive 1|derive 1", 6), ("derive 1|derive 2", 0),
                ("alias f|alias f", 6), ("alias f|alias g", 0),
                ("makelist|makelist", 6), ("noderive|noderive", 6), ("makelist|noderive", 0)]:
            text = "domain d\n  " + own.replace("|", "\n  ")
            self.assertEqual(number(text, "order"), want, own)

    def test_equal_names(self):
        self.assertEqual(number("domain a.b\ndomain a\ndomain b", "order"), 0)
        self.assertEqual(number("domain a.b\ndomain a.b", "order"), 6)
        self.assertEqual(number("extend a b : p\nextend a b : q", "order"), 6)
        self.assertEqual(number("extend a b : p\nextend a.b b : p\nextend b b : p", "order"), 0)

    def test_extensions(self):
        lines = run("""
            domain a
              associate f
            resource f
            extend zz f : self
            extend a f : self zz.f zz.f
            """)
        self.assertIn("R a.f 0 f,resource,self,zz.f,zz.f -", lines)

    def test_other_annotations(self):
        """Kinds other than the associates change nothing, and no parent is added."""
        plain = "resource f\n  mark derive 5\ndomain a\n  associate f\ndomain b : a\n"
        more = plain.replace("associate f", "noderive\n  derive 3\n  inherit zz b\n  alias b\n"
                             "  makelist\n  associate f").replace("  mark", "  derive 9\n  mark")
        self.assertEqual(run(more), run(plain))


class Diagnosis8(unittest.TestCase):
    """Corners of the order and of refusal 8."""

    def check(self, text, *rows):
        for call in CALLS:
            self.assertEqual(run(text, call), ["refused 8"] + ["D " + row for row in rows])

    def test_self(self):
        self.check("domain a : self self", "1 a self -", "1 a self -")
        self.check("domain a\ndomain b : a self", "1 b self -")
        self.check("domain b : a self\ndomain a : self\ndomain c.d : self",
                   "1 a self -", "1 b self -", "1 c.d self -")
        self.check("domain self\ndomain a : self", "1 a self -")
        self.check("domain self : self", "1 self self -")
        self.check("domain a : self b\ndomain b : a\ndomain self : a",
                   "2 self a -", "2 b a -", "2 a b -", "2 a self -")
        # A name of two words is not `self`.
        self.check("domain c\ndomain a : self.c", "3 a self.c -")

    def test_first_bad_parent(self):
        self.check("domain a : b a zz\ndomain b : zz", "2 a a -", "3 b zz -")
        self.check("domain a : b b\ndomain b : zz", "3 b zz -", "3 b zz -", "3 b zz -")
        self.check("domain a : b c\ndomain b : a\ndomain c : zz",
                   "2 b a -", "3 c zz -", "2 a b -", "3 c zz -")

    def test_placed_types(self):
        self.check("domain a : b c\ndomain b\ndomain c : c b", "2 c c -", "2 c c -")
        self.assertEqual(run("domain c : b\ndomain b : a\ndomain a", "order"), ["T a", "T b", "T c"])
        # A type whose parent is placed in this round waits for the next one.
        self.assertEqual(run("domain a\ndomain b : a\ndomain c", "order"), ["T a", "T c", "T b"])

    def test_row_limit(self):
        """Of 8, and of 9: as many rows as the limit, one less, one more. The bytes behind them stay, and what is
        written is the beginning of what is written under a larger limit."""
        for limit, beside in itertools.product((1, 2, 63, 64, 65, 255, 256), (-1, 0, 1)):
            count = limit + beside
            for number_, call, sheet in [(8, "order", large.rows_of_eight(count)), (8, "schedule", large.rows_of_eight(count)),
                                         (9, "schedule", large.rows_of_nine(count))]:
                sheet, rows = encode(sheet), min(count, limit)
                result = CALLS[call](sheet, LISTING, DIAGNOSIS, limit)
                if count:
                    self.assertEqual(result[:4], (number_, 0, rows, int(beside > 0)))
                    self.assertEqual(result.listing, LISTING)
                    whole = CALLS[call](sheet, LISTING, DIAGNOSIS)
                    self.assertEqual(result.diagnosis, whole.diagnosis[:6 * rows] + DIAGNOSIS[6 * rows:])
                    short = CALLS[call](sheet, LISTING, DIAGNOSIS[:6 * limit], limit)
                    self.assertEqual(short.diagnosis, result.diagnosis[:6 * limit])
                self.assertEqual(run(sheet, call, rows=limit)[-1:] == ["more"], beside > 0)

    def test_exponential(self):
        """Paths that double at each step end at the row past the limit."""
        text = "".join(f"domain t{at:02} :{f' t{at + 1:02}' * 8}\n" for at in range(62))
        result = model.schedule(sheet_of(text + "domain t62 : zz"), LISTING, DIAGNOSIS)
        self.assertEqual(result[:4], (8, 0, 256, 1))
        text += "domain t62\n  associate f\nresource f"
        self.assertEqual(number(text), 0)


class Synthesis(unittest.TestCase):
    """Corners of the lines and of refusal 9."""

    def rows(self, text, *rows):
        self.assertEqual(run(text), ["refused 9"] + ["D " + row for row in rows])
        self.assertEqual(number(text, "order"), 0)

    def lines(self, text, *lines):
        self.assertEqual([line for line in run(text) if line[0] != "T"], list(lines))

    def refused(self, text):
        """The types that are refused (FORMAT 4.9)."""
        types = model.read_sheet(sheet_of(text))
        names = model.items_of(types, model.organize_type_map(types))[1]
        return {".".join(types.words[w] for w in name) for name in names}

    def test_failed_parents(self):
        """A call that fails passes nothing at that listing, and everything when listed again;
        so a refused type can be without a row."""
        base = "resource f\ndomain p\n  associate f\n  associate zz\n"
        self.rows(base + "domain c : p", "4 p zz zz")
        self.assertEqual(self.refused(base + "domain c : p"), {"p", "c"})
        self.rows(base + "domain q : p", "4 p zz zz", "4 q zz zz")
        self.rows(base + "domain c : p p", "4 p zz zz", "4 c zz zz")
        self.rows(base + "domain b : c c\ndomain c : p", "4 p zz zz", "4 b zz zz")

    def test_row_without_refusal(self):
        """q fails, so that a has p.f alone as first parent: a row, though a is not refused."""
        text = ("resource f\nresource g\nresource p.f\nresource q.g\ndomain p\n  nest f\n"
                "domain q\n  nest f\n  associate g\ndomain a : p q\n  associate p.f\n")
        self.rows(text, "6 q - g", "6 a - f")
        self.assertEqual(self.refused(text), {"q"})

    def test_nest_makes_nothing(self):
        """An unknown class nested in a type refuses its children only."""
        self.lines("domain p\n  nest zz")
        self.rows("domain p\n  nest zz\ndomain b : p", "4 b zz zz")

    def test_within_an_annotation(self):
        self.rows("domain a\n  associate zz yy", "4 a yy yy")
        self.rows("domain d\nresource f\ndomain a\n  associate d f zz", "5 a d d")
        self.rows("domain d\nresource f\ndomain a\n  associate d zz", "5 a d d", "4 a zz zz")
        self.rows("resource d\nresource a.d\ndomain a\n  associate d zz", "6 a - d", "4 a zz zz")
        self.rows("resource d\nresource a.d\ndomain e\ndomain a\n  associate d e", "6 a - d")
        self.rows("domain a\n  associate zz\n  associate yy", "4 a yy yy", "4 a zz zz")
        self.rows("domain a\n  associate m zz\n  associate k yy", "4 a k k", "4 a m m")
        # Kind 5 goes before kind 6.
        self.rows("domain f\nresource a.f\ndomain a\n  associate f", "5 a f f")
        # Kind 4 for each unknown class; kind 5 for the first that is no resource alone.
        self.rows("domain a\n  nest x.f y.g\ndomain b\n  nest y.f x.g\ndomain c : a b",
                  "4 c x.f f", "4 c y.f f")
        self.rows("domain f\ndomain x.f\ndomain a\n  nest x.f\ndomain b\n  nest f\ndomain c : a b",
                  "5 c f f")

    def test_order_of_inherited(self):
        """As the dedup leaves them: not by words, and own Associates before own Nests."""
        self.rows("domain a\n  nest x\n  nest c d\n  associate\ndomain b : a",
                  "4 b c c", "4 b x x")
        self.rows("domain p\n  nest m z\ndomain q\n  nest a m\ndomain t : p q",
                  "4 t z z", "4 t m m", "4 t a a")
        self.rows("domain p\n  nest m z\ndomain q\n  nest a m\ndomain t : q p",
                  "4 t a a", "4 t m m", "4 t z z")

    def test_doms(self):
        """T's own doms join its children's inherited classes and not its own."""
        self.lines("resource f\n  mark derive 1\nresource d.f\n  mark derive 2\n"
                   "domain a\n  associate f\ndomain b : a\n  associate d.f\ndomain c : b\n",
                   "R a.f 0 f,resource derive:1", "E a 00 f",
                   "R b.f 0 d.f,resource derive:2", "R b.f 0 a.f,resource derive:1", "E b 00 f",
                   "R c.f 0 b.f,resource derive:1,derive:2", "E c 00 f")

    def test_names(self):
        self.lines("resource f virtual\n  associate f", "R f.f 1 f,resource -", "E f 10 f")
        self.lines("resource f\ndomain p trait\n  nest f\ndomain b trait : p",
                   "R b.f 0 p.f,resource -", "E b 01 f")
        self.lines("resource f\ndomain a.b\n  associate f\ndomain c.d : a.b",
                   "R a.b.f 0 f,resource -", "E a.b 00 f",
                   "R c.d.f 0 a.b.f,resource -", "E c.d 00 f")

    def test_parents(self):
        """P.r for direct parents alone, once each, ascending."""
        self.lines("resource f\ndomain z\n  nest f\ndomain m : z\ndomain e\ndomain t : z m e z m",
                   "R m.f 0 z.f,resource -", "E m 00 f",
                   "R t.f 0 m.f,z.f,resource -", "E t 00 f")

    def test_virtual_and_marks(self):
        text = ("resource f virtual\n  mark makelist\n  mark makelist\nresource d.f virtual\n"
                "  mark derive 255\ndomain a virtual\n  nest f\ndomain b virtual\n  nest d.f\n"
                "domain c virtual trait : a b\n")
        self.lines(text, "R c.f 1 a.f,b.f,resource makelist,makelist,derive:255", "E c 11 f")
        self.lines(text.replace("d.f virtual", "d.f"),
                   "R c.f 0 a.f,b.f,resource makelist,makelist,derive:255", "E c 11 f")

    def test_identical(self):
        self.rows("resource f\nresource g\ndomain a\n  associate f\n  associate f g", "6 a - f")
        # Own resources stand by ascending class name, whichever annotation gives them.
        for own in ["associate d.f\n  associate f g", "associate f\n  associate d.f g"]:
            self.lines("resource f\nresource d.f\nresource g\ndomain a\n  " + own,
                       "R a.f 0 d.f,resource -", "R a.f 0 f,resource -", "E a 00 f",
                       "R a.g 0 g,resource -", "E a 00 g")
        # An own resource of class P.r beside the inherited one.
        text = "resource p.f\nresource q.f\ndomain p\n  nest q.f\ndomain t : p\n  associate p.f\n"
        self.rows(text, "6 t - f")
        self.lines("resource p.f\n  mark makelist\n" + text[13:],
                   "R t.f 0 p.f,resource makelist", "R t.f 0 p.f,resource -", "E t 00 f")

    def test_dedup(self):
        def entry(words, parent):
            return model.Inherited((sheetlib.ASSOCIATE, tuple((w, 1) for w in words)),
                                   frozenset([parent]))
        out = model.dedup_inherited_annotations([entry([1, 2, 3], "p"), entry([2, 5], "q"),
                                                 entry([3, 5, 6], "r")])
        self.assertEqual([(model.words_of(e.annotation), "".join(sorted(e.parents))) for e in out],
                         [([1], "p"), ([3], "pr"), ([2], "pq"), ([5], "qr"), ([6], "r")])

    def test_pairs_of_kinds(self):
        """Intersection and difference for the seven kinds (FORMAT 8.8)."""
        both, less = model.intersection, model.difference
        samples = [(0, None), (1, ((1, 1), (2, 1))), (2, ((1, 2),)), (3, 4), (4, ((1,),)), (5, 7),
                   (6, None)]
        for left in samples:
            for right in samples:
                if left[0] != right[0]:
                    self.assertIsNone(both(left, right))
                    self.assertEqual(less(left, right), left)
        for at in (0, 3, 6):
            self.assertEqual(both(samples[at], samples[at]), samples[at])
            self.assertIsNone(less(samples[at], samples[at]))
        self.assertIsNone(both((3, 4), (3, 5)))
        self.assertEqual(less((3, 4), (3, 5)), (3, 4))
        for at in (4, 5):
            self.assertIsNone(both(samples[at], samples[at]))
            self.assertEqual(less(samples[at], samples[at]), samples[at])
        for kind in (1, 2):
            left, right = (kind, ((1, 1), (2, 1))), (kind, ((2, 4), (3, 1)))
            self.assertEqual(both(left, right), (kind, ((2, 5),)))
            self.assertEqual(less(left, right), (kind, ((1, 1),)))
            self.assertIsNone(less(left, left))
            self.assertIsNone(both(left, (kind, ((3, 1),))))


# ------------------------------------------------------------ random maps

def rust_cycles(types, name, visited):
    """find_cycles_or_bad_types, word for word: the rows, earlier answers dropped."""
    out = []
    for parent in types.types[name].parents:
        if parent in visited or parent == name:
            return [model.Row(2, name, parent, None)]
        if parent not in types.types:
            return [model.Row(3, name, parent, None)]
        out += rust_cycles(types, parent, visited | {name})
    return out


def rust_organize(types):
    """organize_type_map, word for word: (names, rows)."""
    waiting, out, errors = sorted(types.types, key=types.spelling), [], []
    while waiting:
        ready = []
        for name in waiting:
            wait = False
            for parent in types.types[name].parents:
                if parent == (types.self_word,):
                    errors.append(model.Row(1, name, parent, None))
                elif parent not in out:
                    wait = True
            if not wait:
                ready.append(name)
        if not ready:
            return out, [row for name in waiting for row in rust_cycles(types, name, frozenset())]
        waiting = [name for name in waiting if name not in ready]
        out += ready
        if errors:
            break
    return out, errors


class RustSynthesis(model.Synthesis):
    """inherit_annotations, word for word: every call recurses anew."""

    def __init__(self, types):
        self.types, self.rows, self.makings, self.lines = types, [], {}, {}
        self.interpreted = set()
        for name in types.types:
            self.inherit_annotations(types.types[name])

    def inherit_annotations(self, info):
        """The list passed on, or None where the call fails."""
        got, fails = [], False
        for parent in info.parents:
            passed = self.inherit_annotations(self.types.types[parent])
            fails = fails or passed is None
            got += passed or []
        inherited = model.dedup_inherited_annotations(got)
        if info.name not in self.interpreted:
            self.interpreted.add(info.name)
            before = len(self.rows)
            own = [model.Inherited(ann, frozenset()) for ann in info.annotations]
            for entry in own + inherited:
                if entry.annotation[0] == sheetlib.ASSOCIATE:
                    self.interpret_associate(info, entry)
            fails = fails or len(self.rows) > before
        if fails:
            return None
        me = frozenset([info.name])
        return [model.Inherited((1 if kind == 2 else kind, payload), me)
                for kind, payload in info.annotations + [e.annotation for e in inherited]]


def check_random_map(case, seed, respelled=False):
    """One random map, or the same with hyphens in its words: round trips, the model's assertions,
    the word-for-word transcriptions, relisting. Returns the number of the answer."""
    rng = random.Random(seed)
    type_map = drawn.random_map(rng, rng.choice([4, 8, 12]), rng.choice([0, 0.02, 0.1, 0.3]))
    if respelled:
        type_map = hyphens.respelled(rng, type_map)
    sheet = sheetlib.encode(type_map)
    case.assertEqual(sheetlib.sheet_of(sheetlib.to_text(type_map)), sheet)
    case.assertEqual(sheetlib.sheet_of(sheetlib.text_of(sheet)), sheet)
    result = model.schedule(sheet, LISTING, DIAGNOSIS)
    case.assertIn(result.number, (0, 8, 9), seed)
    types = model.read_sheet(sheet)
    names, rows = rust_organize(types)
    case.assertEqual(bool(rows), result.number == 8, seed)
    if not rows:
        case.assertEqual(model.organize_type_map(types), names)
        rust, ours = RustSynthesis(types), model.Synthesis(types, names)
        rows = rust.rows
        case.assertEqual(ours.rows, rows, seed)
        case.assertEqual((list(ours.makings), ours.lines), (list(rust.makings), rust.lines), seed)
    written = b"".join(model.row_bytes(row) for row in rows[:256])
    case.assertEqual(result.diagnosis, written + DIAGNOSIS[len(written):], seed)
    case.assertEqual(result.flag, int(len(rows) > 256))
    other = model.schedule(sheetlib.encode(changed.relisted(rng, type_map)), LISTING, DIAGNOSIS)
    case.assertEqual(other.number, result.number, seed)
    case.assertEqual(other.listing, result.listing, seed)
    return result.number


class RandomMaps(unittest.TestCase):
    """Random small maps; RANDOM_MAPS in the environment sets their number."""

    def test_random_maps(self):
        count = int(os.environ.get("RANDOM_MAPS", "1500"))
        first = int(os.environ.get("RANDOM_FIRST", "0"))
        met = {check_random_map(self, seed) for seed in range(first, first + count)}
        self.assertEqual(met, {0, 8, 9})

    def test_hyphens(self):
        count, first = int(os.environ.get("RANDOM_MAPS", "1500")) // 3, int(os.environ.get("RANDOM_FIRST", "0"))
        met = {check_random_map(self, seed, respelled=True) for seed in range(first, first + count)}
        self.assertEqual(met, {0, 8, 9})

    def test_damaged_sheets(self):
        """Flipped bits are answered, and what is readable reads as the tool reads it."""
        rng = random.Random(1)
        for _ in range(300):
            sheet = sheetlib.encode(drawn.random_map(rng))
            sheet = changed.flipped(sheet, *(rng.randrange(8 * len(sheet)) for _ in range(rng.choice([1, 1, 2]))))
            result = model.schedule(sheet, LISTING, DIAGNOSIS)
            self.assertIn(result.number, (0, 3, 4, 5, 6, 7, 8, 9))
            if result.number in (3, 7):
                self.assertRaises(sheetlib.SheetError, sheetlib.decode, sheet)
            elif result.number != 4:
                self.assertEqual(sheetlib.sheet_of(sheetlib.text_of(sheet)), sheet)


class Generators(unittest.TestCase):
    """For one seed the maps of tools/maps stay what they are, since stored cases were drawn with them."""

    def check(self, digest, sheets):
        """The first digits of the sheets' SHA-256."""
        self.assertEqual(hashlib.sha256(b"".join(sheets)).hexdigest()[:16], digest)

    def test_drawn(self):
        self.check("184dfbbf6e2a7083", (encode(drawn.random_map(random.Random(seed), 12, 0.2)) for seed in range(60)))

    def test_flavours(self):
        rng = random.Random(1)
        self.check("5b89a44e404391f7", (encode(flavours.random_map(rng, name)) for name in list(flavours.FLAVOURS) * 2))

    def test_small(self):
        digests = ("266c523bbcf61906", "7f3a9e1d1370a11b", "212fd6f395d0f3b9", "21dcd9c7806dd21c", "921f33f64c6589c7",
                   "f351b7b3a9f3d570", "ca11593eedd40884")
        self.assertEqual(len(digests), len(small.EXHAUSTIVE))
        for digest, family in zip(digests, small.EXHAUSTIVE.values()):
            self.check(digest, (encode(given) for given in itertools.islice(family(), 0, None, 500)))

    def test_changed(self):
        rng = random.Random(2)
        given = [drawn.random_map(rng) for _ in range(60)]
        self.check("7ab8bbd7cd61a1ec", (encode(changed.relisted(rng, one)) for one in given))
        self.check("5f6a107bb7e288c5", (encode(changed.rebuilt(rng, one)) for one in given))
        self.check("88d60d734a1ca338", (changed.damaged(rng, encode(one)) for one in given))

    def test_hyphens(self):
        rng = random.Random(3)
        self.check("d8bedd9dec368423", (encode(hyphens.respelled(rng, drawn.random_map(rng, 12, 0.2))) for _ in range(60)))

    def test_loads(self):
        families = (loads.ordinary, loads.s13, loads.chain, loads.doubled, loads.diamonds, loads.star, loads.largest)
        self.check("939a3e4a31a8d808", (encode(family(count)) for family in families for count in (4, 20, 62)))
        self.check("2f8b2b0900d6b2c5", (encode(loads.s13(count, count)) for count in (10, 55)))

    def test_large(self):
        self.check("81348165807c2a3c", (encode(make()) for make in large.MAPS.values()))


def spelled(sheet):
    """A sheet's words, and a function that spells a name of word numbers, as bytes."""
    words = [word.encode() for word in model.sheet_words(sheet)]
    return words, lambda name: b".".join(words[at] for at in name)


class Hyphens(unittest.TestCase):
    """Names compare by all bytes of their spelling: what the model answers for words with hyphens, held to the bytes
    of what it prints and to the order by word numbers and `reach`."""

    def test_without(self):
        """Without hyphens names go by word numbers, one word before two."""
        for seed in range(200):
            types = model.read_sheet(encode(drawn.random_map(random.Random(seed), 12, 0.2))).types
            self.assertEqual(list(types), sorted(types))

    def test_types(self):
        """In name order where the map is read; by round and then by name where it is ordered."""
        rng = random.Random(5)
        some = list(itertools.islice(small.small_hyphen_orders(), 0, None, 40))
        some += [hyphens.respelled(rng, drawn.random_map(rng, 12, 0)) for _ in range(200)]
        otherwise = 0
        for given in some:
            sheet = encode(given)
            types, spell = model.read_sheet(sheet), spelled(sheet)[1]
            self.assertEqual(list(types.types), sorted(types.types, key=spell))
            otherwise += list(types.types) != sorted(types.types)
            result = model.order(sheet, LISTING, DIAGNOSIS)
            if result.number == 0:
                names = [line[2:].encode() for line in model.printed(sheet, result, False)]
                rounds = {}
                parents = {spell(own.name): list(map(spell, own.parents)) for own in types.types.values()}
                for name in names:
                    rounds[name] = max((1 + rounds[parent] for parent in parents[name]), default=0)
                self.assertEqual(names, sorted(names, key=lambda name: (rounds[name], name)))
        self.assertGreater(otherwise, 100)

    def test_rows_of_self(self):
        """The subjects of rows of kind 1 ascend by their bytes."""
        for names in itertools.permutations(["a", "a-b", "a.c", "a-b.c", "a-", "a0"], 3):
            lines = run("".join(f"domain {name} : self\n" for name in names) + "domain z", "order")
            self.assertEqual([line.split()[2].encode() for line in lines[1:]], sorted(name.encode() for name in names))

    def test_lines(self):
        """The items by type name and word; the first parents of an inherited resource by the names of P; its marks,
        here one a class, by dom; own resources by class name."""
        marks = {mark: at for at, mark in enumerate(["derive:0", "derive:1", "derive:3", "derive:2"])}  # f d.f d-.f d-b.f
        met = set()
        for given in itertools.islice(small.small_hyphen_parents(), 0, None, 7):
            lines = [line.split() for line in run(encode(given)) if line[:2] in ("R ", "E ")]
            keys = []
            for kind, name, *rest in lines:
                owner, word = name.rsplit(".", 1) if kind == "R" else (name, rest[1])
                keys.append((owner.encode(), word.encode(), kind == "E"))
                if kind == "R" and owner == "t":
                    parents = [parent.removesuffix("." + word).encode() for parent in rest[1].split(",")[:-1]]
                    self.assertEqual(parents, sorted(parents))
                    met.add(tuple(parents))
                    self.assertEqual(rest[2].split(","), sorted(rest[2].split(","), key=marks.get))
            self.assertEqual(keys, sorted(keys))
        self.assertIn((b"a", b"a-b", b"a.c"), met)
        for given in itertools.islice(small.small_hyphen_resources(), 0, None, 5):
            own = [line.split()[3].split(",")[0].encode() for line in run(encode(given)) if line.startswith("R t.f ")]
            self.assertEqual((own[:-1], own[-1]), (sorted(own[:-1]), b"p.f"))

    def test_three_orders(self):
        """On one map: parents by P, classes by dom, own resources by class name."""
        lines = run(case_texts.CORNERS["threeOrders"]["text"])
        self.assertEqual([line for line in lines if line.startswith("R t.f ")],
                         ["R t.f 0 a-b.f,resource derive:2", "R t.f 0 a.f,resource derive:1",
                          "R t.f 0 a.f,a-b.f,a.c.f,resource derive:1,derive:2"])
        self.assertLess(b"a-b.f", b"a.c.f")
        self.assertLess(b"a.c.f", b"a.f")

    def test_reach(self):
        """Names by word numbers and reach, the last word that begins with a word and a hyphen: the same order as that
        of the bytes. Such words stand directly behind the word."""
        rng = random.Random(7)
        for _ in range(60):
            words = sorted({hyphens.random_word(rng) for _ in range(rng.choice((3, 8, 20)))} | {"resource", "self"})
            inside = [[at for at, word in enumerate(words) if word.startswith(first + "-")] for first in words]
            for at, some in enumerate(inside):
                self.assertEqual(some, list(range(at + 1, at + 1 + len(some))))
            reach = [at + len(some) for at, some in enumerate(inside)]
            numbers = range(len(words))
            names = [(at,) for at in numbers] + [(at, rng.randrange(len(words))) for at in numbers for _ in "123"]
            for (a, *rest), (c, *other) in itertools.product(names, repeat=2):
                before = (not (rest and c <= reach[a]) if a < c else
                          bool(other) and a <= reach[c] if c < a else rest < other)
                self.assertEqual(before, ".".join(words[at] for at in (a, *rest)).encode()
                                 < ".".join(words[at] for at in (c, *other)).encode(), (words, a, rest, c, other))

    def test_absent(self):
        """No word is `-`, so that a line tells what is absent."""
        for name, want in (("-", 4), ("a.-", 4), ("-.a", 4), ("a-", 0), ("a--", 0), ("a-.b-", 0)):
            self.assertEqual(number(f"domain {name}", "order"), want, name)
        self.assertEqual(run("domain a- : self\ndomain c-", "order"), ["refused 8", "D 1 a- self -"])
        self.assertEqual(run("resource f-\nresource a-.f-\ndomain a-\n  associate f-"), ["refused 9", "D 6 a- - f-"])


class LargeMaps(unittest.TestCase):
    """The maps that the program is measured on."""

    def test_answers(self):
        for name, size, answer in [("largest", 33939, 8), ("ordered", 33922, 0), ("acyclic", 1008, 0),
                                   ("ring", 1009, 8), ("undeclared", 1012, 8), ("chain", 512, 0)]:
            sheet = sheetlib.encode(large.MAPS[name]())
            self.assertEqual((len(sheet), number(sheet, "order")), (size, answer), name)

    def test_schedules(self):
        for name, answer in [("doubled", 0), ("layers", 0), ("crowd", 10), ("lists", 9)]:
            sheet = sheetlib.encode(large.MAPS[name]())
            self.assertEqual(number(sheet, "schedule"), answer, name)

    def test_largest(self):
        """Each count and each length is at its limit, so that no readable sheet is longer."""
        largest = large.largest()
        self.assertEqual((len(largest.words), len(largest.types), len(largest.extensions)), (200, 64, 32))
        self.assertEqual(sorted(map(len, largest.words))[:3], [len("self"), len("resource"), 31])
        for record in largest.types:
            self.assertEqual((len(record.name), len(record.annotations), len(record.marks)), (2, 12, 7))
            self.assertTrue(all(len(ann.resources) == 15 for ann in record.annotations))
        for record in largest.types + largest.extensions:
            self.assertEqual([len(name) for name in record.parents], [2] * 8)


class Limits(unittest.TestCase):
    """The maps at the limits of the answers."""

    def test_largest_schedule(self):
        """Written, and read back by another part of the model."""
        sheet = sheetlib.encode(large.largest_schedule())
        result = model.schedule(sheet, bytes(1 << 18), DIAGNOSIS)
        self.assertEqual(result[:4], (0, 239675, 0, 0))
        kinds = [line[0] for line in model.printed(sheet, result, True)]
        self.assertEqual([kinds.count(kind) for kind in "TRE"], [64, 64 * 64 + 63 * 64, 64 * 64])
        self.assertEqual(run(sheet), ["refused 10"])

    def test_rows_of_nine(self):
        for count, rows, more in [(255, 255, 0), (256, 256, 0), (257, 256, 1)]:
            result = model.schedule(sheetlib.encode(large.rows_of_nine(count)), LISTING, DIAGNOSIS)
            self.assertEqual(result[:4], (9, 0, rows, more))


class Programs(unittest.TestCase):
    """The tools as programs."""

    def tool(self, name, *args, given=b""):
        done = subprocess.run([os.path.join(HERE, name), *args], input=given, capture_output=True, check=False)
        return done.returncode, done.stdout, done.stderr.decode()

    def test_sheet(self):
        self.assertEqual(self.tool("sheet", "--hex")[1][:11], b"10 24 39 32")
        sheet = self.tool("sheet", given=GOOD.encode())[1]
        self.assertEqual(sheet, sheet_of(GOOD))
        self.assertEqual(self.tool("sheet", "--decode", given=sheet)[1].decode(), GOOD)
        done = self.tool("sheet", "--truncate", "2", "--append", "ff00", "--flip", "0",
                         "--flip", "31", given=GOOD.encode())
        self.assertEqual(done[1], bytes([sheet[0] ^ 128, sheet[1], 255, 1]))

    def test_stored(self):
        """What the definitions are computed on and what the programs read is as the tools write it."""
        for name in ("cases", "damage", "replays"):
            self.assertEqual(self.tool(name, "--check")[0], 0, name)

    def test_stored_tags(self):
        """What `text_try` reads and prints are the model's records and lines of examples/tags.txt."""
        root = os.path.join(HERE, "..")
        with open(os.path.join(root, "examples", "tags.txt"), encoding="latin-1") as source:
            sheet = sheet_of(source.read())
        result = model.schedule(sheet, LISTING, DIAGNOSIS)
        head = bytes([1, 0, 0, 0, 0, len(sheet) >> 8, len(sheet) & 255])
        lines = "".join(line + "\n" for line in model.printed(sheet, result, True))
        schedule = schedule_text.unpack(result.listing[:result.size], schedule_text.Words(sheet_width(sheet)))
        stored = {"stdin": head + sheet + schedule_text.packed(schedule, records=True), "stdout": lines.encode("latin-1")}
        for name, expected in stored.items():
            with open(os.path.join(root, "crates", "text_try", name), "rb") as source:
                self.assertEqual(source.read(), expected, name)

    def test_model(self):
        sheet = sheet_of("domain a : a")
        self.assertEqual(self.tool("model.py", "order", given=sheet)[1], b"refused 8\nD 2 a a -\n")
        self.assertEqual(self.tool("model.py", "order", "--listing", "0", given=sheet_of(""))[1],
                         b"refused 10\n")
        self.assertEqual(self.tool("model.py", "order", "--diagnosis", "383", given=sheet)[1],
                         b"refused 2\n")
        ring = sheet_of("domain a : b\ndomain b : a")
        self.assertEqual(self.tool("model.py", "order", "--rows", "1", given=ring)[1], b"refused 8\nD 2 b a -\nmore\n")
        for rows in ("0", "257", str((1 << 32) - 1)):
            self.assertEqual(self.tool("model.py", "order", "--rows", rows, given=ring)[1], b"refused 17\n")
        self.assertEqual(self.tool("model.py", "order", given=sheet_of(""))[1], b"")


# ---------------------------------------------------------- texts of schedules

SCHEDULE = """\
# types, then items in any order, also of types that are not listed
T 0
T 1.3

E 1.3 01 2
R 0.2 1 2,1.3.2 makelist,derive:0,derive:255
R 1.3.4 0 0,0 -     # the same parent twice
E 4 10 0
"""


class ScheduleTexts(unittest.TestCase):
    """Packed schedules as text and back: schedule_text.py and tools/schedule."""

    tool = Programs.tool

    def told(self, text, words=5, raw=False, listed=None):
        """What is wrong in a text."""
        problems = Problems()
        schedule_text.parse_text(text, schedule_text.Words(words, listed), problems, "x", raw)
        return [str(problem).removeprefix("x:").replace(": error", "") for problem in problems.sorted()]

    def refused(self, data, width=2, **options):
        """The number with which bytes are refused, 0 for none."""
        try:
            schedule_text.unpack(data, schedule_text.Words(width), **options)
        except sheetlib.SheetError as error:
            return error.number
        return 0

    def test_every_schedule(self):
        """Each listed case that is accepted: packed bytes, text with words and with numbers, records, and back."""
        count = 0
        for case in (*case_texts.DOCUMENT.values(), *case_texts.CORNERS.values()):
            sheet = case_texts.sheet_in(case)
            result = model.schedule(sheet, LISTING, DIAGNOSIS)
            if result.number == 0:
                count += 1
                packed, listed = result.listing[:result.size], model.sheet_words(sheet)
                for words in (schedule_text.Words(len(listed)), schedule_text.Words(len(listed), listed)):
                    schedule = schedule_text.unpack(packed, words)
                    text = schedule_text.to_text(schedule, words)
                    self.assertEqual(schedule_text.parse_text(text, words, Problems()), schedule)
                    self.assertEqual(schedule_text.packed(schedule), packed)
                    records = schedule_text.packed(schedule, records=True)
                    self.assertEqual(schedule_text.unpack(records, words, records=True), schedule)
                self.assertEqual(text.splitlines(), model.printed(sheet, result, True))
        self.assertGreater(count, 20)

    def test_foreign(self):
        """A schedule that is not ours."""
        words, problems = schedule_text.Words(5), Problems()
        schedule = schedule_text.parse_text(SCHEDULE, words, problems)
        self.assertEqual(problems.found, [])
        lines = [line.partition("#")[0].rstrip() for line in SCHEDULE.splitlines()]
        self.assertEqual(schedule_text.to_text(schedule, words).splitlines(), [line for line in lines if line])
        self.assertEqual(schedule_text.unpack(schedule_text.packed(schedule), words), schedule)

    def test_refused(self):
        """The cases of FORMAT 12.3 that need no lent slice."""
        for data, number in [("000000", 0), ("000001", 12), ("00000000", 12), ("ff", 12), ("", 11), ("82", 12), ("80", 11),
                             ("02020000", 0), ("02040000", 12), ("020102", 12), ("00000200000480200000", 0),
                             ("000002000002800000", 12), ("0000020000040000", 12)]:
            self.assertEqual(self.refused(bytes.fromhex(data)), number, data)
        for data, number in [("00000000", 0), ("0000000000", 12), ("000000", 11), ("00800000", 12), ("000100000002", 12)]:
            self.assertEqual(self.refused(bytes.fromhex(data), records=True), number, data)
        for width, number in [(0, 12), (1, 12), (2, 0), (200, 0), (201, 12)]:
            self.assertEqual(self.refused(bytes(3), width), number, width)

    def test_model(self):
        """What is refused, and what is read, is the model's: each limit and one past it, and damaged ones."""
        rng, asked = random.Random(11), []
        for _, w, fields_of, _ in (*schedules.limits(), *schedules.flags()):
            asked.append((w, True, schedules.recorded(fields_of)))
            if schedules.fit(fields_of):
                asked.append((w, False, schedules.packed(fields_of)))
        for _ in range(300):
            w = rng.choice((2, 3, 20, 200))
            names, items = schedules.random_schedule(rng, w)
            asked += [(w, False, changed.damaged(rng, model.pack(names, items))), (w, False, model.pack(names, items)),
                      (w, True, schedules.damaged_records(rng, model.records_of(names, items)))]
        for w, records, data in asked:
            call = model.write_schedule if records else model.read_schedule
            answer, options = call(w, data, bytes(16 * len(data))), {"records": records}
            self.assertEqual(self.refused(data, w, **options), answer.number, (w, options, data))
            if answer.number == 0:
                schedule = schedule_text.unpack(data, schedule_text.Words(w), **options)
                self.assertEqual(schedule_text.packed(schedule, not records), answer.output[:answer.size])

    def test_cuts(self):
        """Every cut passes the end, and every byte more follows it."""
        schedule = schedule_text.parse_text(SCHEDULE, schedule_text.Words(5), Problems())
        for records in (False, True):
            data = schedule_text.packed(schedule, records)
            self.assertEqual({self.refused(data[:size], 5, records=records) for size in range(len(data))}, {11})
            self.assertEqual(self.refused(data + b"\0", 5, records=records), 12)

    def test_limits(self):
        """Each limit and one past it, in a text."""
        for text, wanted in [
                ("T 0\n" * 64, []), ("T 0\n" * 66, ["65:1: types: at most 64"]),
                ("T 4", []), ("T 5", ["1:3: the word 5, allowed are 0 to 4"]),
                ("R 0.1 0 " + ",".join("1" * 17) + " -", []), ("R 0.1 0 1,2 -", []),
                ("R 0.1 0 " + ",".join("1" * 18) + " -", ["1:9: 18 parents, at most 17"]),
                ("R 0.1 0 1 -", ["1:9: 1 parent, at least 2"]), ("R 0.1 0 - -", ["1:9: 0 parents, at least 2"]),
                ("R 0.1 0 1,2.2.2.2 -", ["1:11: `2.2.2.2` is not a name of 1 to 3 words"]),
                ("R 0.1 0 1,2 " + ",".join(["makelist"] * 448), []),
                ("R 0.1 0 1,2 " + ",".join(["makelist"] * 449), ["1:13: 449 marks, at most 448"]),
                ("R 0.1 0 1,2 derive:255", []),
                ("R 0.1 0 1,2 derive:256",
                 ["1:13: `derive:256` is no mark: `makelist` or `derive:` and a tag of 0 to 255"])]:
            self.assertEqual(self.told(text), wanted, text[:40])

    def test_errors(self):
        """What is wrong is told with its place, all of it."""
        self.assertEqual(self.told("T 0.1.2\nT a\nQ 1\nR 0 2 1,, frob\nE 0 3 1\nE 0 00\n  E 0 00 1.2\nT 1"), [
            "1:3: `0.1.2` is not a name of 1 or 2 words", "2:3: `a` is not the number of a word",
            "3:1: `Q` begins no line of a schedule: T, R or E", "4:3: `0` is not a name of 2 or 3 words",
            "4:5: `2` is not 0 or 1", "4:9: `` is not a name of 1 to 3 words",
            "4:10: `` is not a name of 1 to 3 words", "4:11: `frob` is no mark: `makelist` or `derive:` and a "
            "tag of 0 to 255", "5:5: `3` is not two digits, each 0 or 1",
            "6:1: `E` takes a type, two flags and a word", "7:10: `1.2` is not a word",
            "8:1: a type behind an item; the types stand first"])
        self.assertEqual(self.told("T a.c\nT @1", 2, listed=["a", "b"]),
                         ["1:5: the sheet has no word `c`", "2:3: the sheet has no word `@1`"])

    def test_raw(self):
        """What a schedule must not have, within the widths of the fields."""
        text = "T 200\nR 0.255 0 . -\nR 0.1 0 - -\n"
        self.assertEqual(self.told(text, raw=True), [])
        self.assertEqual(self.told("T 256", raw=True), ["1:3: the word 256, allowed are 0 to 255"])
        words = schedule_text.Words(5, list("abcde"))
        schedule = schedule_text.parse_text("T @9\nT a\n", words, Problems(), raw=True)
        self.assertEqual(schedule.names, [(9,), (0,)])
        packed = schedule_text.packed(schedule)
        self.assertEqual(schedule_text.to_text(schedule_text.unpack(packed, words, raw=True), words), "T @9\nT a\n")
        self.assertEqual(self.refused(packed, 5), 12)

    def test_command(self):
        """tools/schedule, both ways, and its statuses."""
        examples = os.path.join(HERE, "..", "examples")
        path, sheet = (os.path.join(examples, "base." + ending) for ending in ("schedule", "sheet"))
        with open(path, "rb") as source:
            packed = source.read()
        text = b"T base\nT resource\nT file\nR base.file 0 file,resource makelist\nE base 00 file\n"
        self.assertEqual(self.tool("schedule", "--text", "--sheet", sheet, path), (0, text, ""))
        self.assertEqual(self.tool("schedule", "--pack", "--sheet", sheet, given=text), (0, packed, ""))
        numbers = b"T 0\nT 2\nT 1\nR 0.1 0 1,2 makelist\nE 0 00 1\n"
        self.assertEqual(self.tool("schedule", "--text", "-w", "4", "-", given=packed), (0, numbers, ""))
        self.assertEqual(self.tool("schedule", "--pack", "-w", "4", "--hex", given=numbers)[:2],
                         (0, packed.hex(" ").encode() + b"\n"))
        records = self.tool("schedule", "--pack", "-w", "4", "--records", given=numbers)[1]
        self.assertEqual(len(records), 52)
        self.assertEqual(self.tool("schedule", "--text", "-w", "4", "--records", given=records), (0, numbers, ""))
        with tempfile.TemporaryDirectory() as folder:
            out = os.path.join(folder, "out")
            self.assertEqual(self.tool("schedule", "--pack", "-w", "4", "-o", out, given=numbers), (0, b"", ""))
            with open(out, "rb") as source:
                self.assertEqual(source.read(), packed)
            self.assertEqual(self.tool("schedule", "--pack", "-w", "2", "-o", out, given=numbers)[0], 1)
            with open(out, "rb") as source:
                self.assertEqual(source.read(), packed)
        self.assertEqual(self.tool("schedule", "--help")[::2], (0, ""))

    def test_command_errors(self):
        for args, given, status, said in [
                (["--text", "-w", "2"], b"\xff", 1,
                 "standard input: error: refused with 12: bit 0: types: count is 127, allowed are 0 to 64\n"
                 "schedule: standard input: 1 error, nothing written\n"),
                (["--text", "-w", "4"], bytes.fromhex("0600020080"), 1,
                 "standard input: error: refused with 11: bit 34: the end comes within items: count\n"
                 "schedule: standard input: 1 error, nothing written\n"),
                (["--text", "-w", "1"], b"", 1,
                 "standard input: error: refused with 12: W is 1, allowed are 2 to 200\n"
                 "schedule: standard input: 1 error, nothing written\n"),
                (["--pack", "-w", "2"], b"T 0\nT 2\n", 1,
                 "standard input:2:3: error: the word 2, allowed are 0 to 1\n"
                 "schedule: standard input: 1 error, nothing written\n"),
                (["--pack"], b"", 2, "schedule: one of the arguments -w --sheet is required; --help has the options\n"),
                (["-w", "2"], b"", 2, "schedule: one of the arguments --text --pack is required; --help has the options\n"),
                (["--text", "-w", "2", "--hex"], b"", 2, "schedule: --hex does nothing with --text\n"),
                (["--text", "-w", "2", "gone"], b"", 2, "schedule: gone: no such file or directory\n"),
                (["--text", "-w", "2", "a", "b"], b"", 2, "schedule: one file is taken\n"),
                (["--text", "--sheet", "-"], b"", 2, "schedule: standard input is given twice\n"),
                (["--text", "--sheet", "-", "gone"], b"", 2,
                 "schedule: standard input: the sheet cannot be read: refused with 3: bit 0: the end comes within version\n")]:
            self.assertEqual(self.tool("schedule", *args, given=given), (status, b"", said))


# ---------------------------------------------------------------- the pages

ROOT = os.path.join(HERE, "..")


def page(name):
    """The text of a page of docs."""
    with open(os.path.join(ROOT, "docs", name), encoding="utf-8") as source:
        return source.read()


def code_texts(text):
    """The indented blocks of a page, each a list of lines."""
    block = []
    for line in text.split("\n") + [""]:
        if line.startswith("    "):
            block.append(line[4:])
        elif block:
            yield block
            block = []


class Format(unittest.TestCase):
    """docs/FORMAT.md: what its examples say."""

    def test_examples(self):
        """Behind `=>` stands what the model prints for the text above it."""
        count = 0
        for *text, last in code_texts(page("FORMAT.md")):
            found = re.match(r"(order )?=> (.*)", last)
            if found:
                count += 1
                lines = run("\n".join(text), "order" if found.group(1) else "schedule")
                self.assertEqual("; ".join(lines) or "nothing", found.group(2), text)
        self.assertGreater(count, 20)

    def check_bits(self, text, data, start):
        """The bits of a table's rows stand at the places that it gives."""
        bits = "".join(f"{byte:08b}" for byte in data)
        rows = re.findall(r"^\| (\d+) \| ([01 ]+?)(?: and \d+ bits)? \|", text[text.index(start):], re.M)
        for at, shown in rows:
            shown = shown.replace(" ", "")
            self.assertEqual(bits[int(at):int(at) + len(shown)], shown, at)
        return len(rows)

    def test_worked_example(self):
        """The bytes of the worked example, and their bits field by field."""
        text = page("FORMAT.md")
        with open(os.path.join(ROOT, "examples", "base.sheet"), "rb") as source:
            sheet = source.read()
        made = model.schedule(sheet, LISTING, DIAGNOSIS)
        schedule = made.listing[:made.size]
        start = text.index("Its sheet (")
        split = text.index("The schedule has 124 bits")
        self.assertIn("    " + sheet.hex(" ") + "\n", text[start:split])
        self.assertIn("    " + schedule.hex(" ") + "\n", text[split:])
        self.assertEqual(self.check_bits(text[:split], sheet, "Its sheet ("), 21)
        self.assertEqual(self.check_bits(text, schedule, "The schedule has 124 bits"), 8)
        self.assertIn(model.order(sheet, LISTING, DIAGNOSIS).listing[:5].hex(" "), text[split:])

    def test_bound(self):
        """The proved bound of a schedule, in bits and in bytes."""
        bits = 7 + 64 * 17 + 16 + 64 * (12 * 15 + 200 + 200) * 4515
        self.assertIn(f"{bits:,} bits", page("FORMAT.md"))
        self.assertIn(f"{(bits + 7) // 8:,}", page("FORMAT.md"))


def write_tree(root, files):
    """Files with their texts, below a directory."""
    for name, text in files.items():
        target = os.path.join(root, name)
        os.makedirs(os.path.dirname(target), exist_ok=True)
        with open(target, "w", encoding="utf-8") as out:
            out.write(text)


TRACE = """
| FORMAT | Definition | Test |
|---|---|---|
| 1.1 words | `Reading.word, low` | `D small`, `code: gone, lost` |
| 1.2 names | `code::read`, `code::Cursor`, `code::Cursor::step`, `Tariff.charged` | `C large`, `T cheap` |
| 2.1 fields | `law_orders First, Statements.Second, second-law` | `docs/FORMAT.md`, `code` |
"""

TREE = {
    "docs/FORMAT.md": "## 1 Words\n\n**1.1** a\n\n**1.2** b\n\n## 2 Sheets\n\n**2.1** c\n\n## 9 Lines\n\n**9.1** d\n",
    "docs/TRACE.md": TRACE,
    "crates/definitions/specs/Reading.antt":
        "-- Reads. FORMAT 1.1, 1.2\nuse A.B.{other}\n\nunfoldable pub word : ℕ → ℕ\nword n = other n\n\n"
        "pub data Kind : Type 0 where\n  low high : Kind\n",
    "crates/definitions/proofs/DocumentCases.antt": "abbrev small : ℕ\nsmall = 1\n",
    "crates/definitions/proofs/CornerCases.antt": "abbrev large : ℕ\nlarge = 1\n",
    "crates/tariff_definitions/specs/Tariff.antt": "abbrev pub charged : ℕ\ncharged = 1\n",
    "crates/tariff_definitions/proofs/TariffCases.antt": "abbrev cheap : ℕ\ncheap = 1\n",
    "crates/code/src/lib.rt":
        "// Code, as FORMAT 2.1 says.\npub struct Cursor {\n    at: usize,\n}\n\nimpl Cursor {\n"
        "    pub fn step(self) -> Cursor\n        ensures { a }\n    {\n        self\n    }\n}\n\n"
        "pub fn read(at: usize) -> usize {\n    at\n}\n",
    "crates/code/must-fail/gone.edit": "file: src/lib.rt\n",
    "crates/code/must-fail/lost.edit": "file: src/lib.rt\n",
    "crates/law_orders/specs/Statements.antt":
        "abbrev pub First : Type 0\nFirst = ℕ\n\npub record Second : Type 0 where\n  pub n : ℕ\n",
    "crates/law_orders/specs/Proofs.antt": "module _ (n : ℕ) where\n  pub second-law : Second\n  second-law = record { n = n }\n",
}


class CheckTrace(unittest.TestCase):
    """tools/check_trace on a small tree, with one thing wrong at a time; and on this repository."""

    tool = Programs.tool

    def check(self, *wanted, changes=None):
        with tempfile.TemporaryDirectory() as root:
            write_tree(root, {**TREE, **(changes or {})})
            code, out, error = self.tool("check_trace", "--root", root)
        self.assertEqual((code, out.decode().split("\n")[:-1], error), (1 if wanted else 0, list(wanted), ""))

    def test_good(self):
        self.check()

    def test_missing_names(self):
        for line, old, new, what in [
                (4, "Reading.word", "Reading.other", "no definition other in crates/definitions/specs/Reading.antt"),
                (4, "Reading.word", "Words.word", "no file crates/definitions/specs/Words.antt"),
                (4, "D small", "D large", "no case large in crates/definitions/proofs/DocumentCases.antt"),
                (4, "gone, lost", "gone, kept", "no edit crates/code/must-fail/kept.edit"),
                (5, "Tariff.charged", "Tariff.paid", "no definition paid in crates/tariff_definitions/specs/Tariff.antt"),
                (5, "T cheap", "T dear", "no case dear in crates/tariff_definitions/proofs/TariffCases.antt"),
                (5, "code::read", "code::write", "no function write in crates/code/src"),
                (5, "Cursor::step", "Cursor::read", "no function Cursor::read in crates/code/src"),
                (5, "code::read", "none::read", "no function read in crates/none/src"),
                (6, "law_orders First", "law_orders Third", "no Third in crates/law_orders/specs"),
                (6, "Statements.Second", "Proofs.Second", "no Second in crates/law_orders/specs/Proofs.antt"),
                (6, "docs/FORMAT.md", "docs/OTHER.md", "no file docs/OTHER.md"),
                (6, "`code`", "`Code`", "`Code` is no reference"),
                (6, "`code`", "`self`", "`self` is no reference")]:
            self.check(f"docs/TRACE.md:{line}: {what}", changes={"docs/TRACE.md": TRACE.replace(old, new)})

    def test_paragraphs(self):
        self.check("docs/TRACE.md:6: no paragraph of FORMAT begins the row: 2.2 fields",
                   "docs/TRACE.md:7: no row for paragraph 2.1",
                   changes={"docs/TRACE.md": TRACE.replace("2.1 fields", "2.2 fields")})
        self.check("docs/TRACE.md:6: FORMAT has no paragraph 3.1",
                   changes={"docs/TRACE.md": TRACE.replace("`code`", "`FORMAT 2.1`, `FORMAT 3.1`")})
        self.check("crates/code/src/lib.rt:1: FORMAT has no paragraph 1.7",
                   changes={"crates/code/src/lib.rt": TREE["crates/code/src/lib.rt"].replace("2.1", "1.1 and 1.7")})
        self.check("docs/NEW.md:1: FORMAT has no paragraph 3", changes={"docs/NEW.md": "See FORMAT 3."})
        self.check("docs/FORMAT.md:14: paragraph 9.1 stands twice",
                   changes={"docs/FORMAT.md": TREE["docs/FORMAT.md"] + "**9.1** e\n"})

    def test_repository(self):
        self.maxDiff = None
        code, out, error = self.tool("check_trace")
        self.assertEqual((out.decode(), error, code), ("", "", 0))


BELIEVED = {
    "crates/definitions/specs/Records.antt":
        "-- The records. More words.\nuse lib.N.{ℕ}\n\n-- a name\nabbrev pub Name : Type 0\nName = ℕ\n",
    "crates/definitions/specs/Answer.antt":
        "-- The answer.\nuse Rattle.lists.specs.Lists.{sort}\nuse Rattle.definitions.specs.Records.{Name}\n\n"
        "pub record Input : Type 0 where\n  pub name : Name\n\nabbrev pub outcome : Input → Name\noutcome i =\n    sort i\n",
    "crates/definitions/specs/Cases.antt": "abbrev pub test : ℕ\ntest = 1\n",
    "crates/lists/specs/Lists.antt":
        "-- Lists.\nabbrev pub insert : ℕ\ninsert = 1\n\n-- used\nabbrev pub sort : ℕ → ℕ\nsort n = insert\n\n"
        "abbrev pub unused : ℕ\nunused = 1\n",
    "crates/access/specs/Answers.antt":
        "-- Answers.\nuse Rattle.definitions.specs.Answer as rules\n"
        "use Rattle.access.specs.declared.Answer.{Answer}\nuse Rattle.law_orders.specs.Statements.{Once}\n\n"
        "abbrev pub answerOf : Answer → rules.Input\nanswerOf a = a\n\nabbrev pub private : ℕ\nprivate = 1\n\n"
        "pub record Promised (a : Answer) : Type 0 where\n  pub once : Once\n",
    "crates/law_orders/specs/Statements.antt": "abbrev pub Once : Type 0\nOnce = ℕ\n\nabbrev pub Law : Type 0\nLaw = ℕ\n",
    "crates/access/src/lib.rt":
        "// Calls.\nghost use Rattle.definitions.specs.Answer.{outcome};\n"
        "ghost use Rattle.access.specs.Answers.{answerOf, private, Promised};\n\n"
        "pub enum Answer {\n    Yes,\n}\n\nfn helper() -> u8\n    ensures { private }\n{\n    1\n}\n\n"
        "// The call.\npub fn order() -> Answer\n    ensures { answerOf result ≡ outcome }\n    ensures { Promised }\n{\n    helper()\n}\n",
    "crates/exports/src/lib.rt": "fn none() -> u8 {\n    1\n}\n",
    "crates/schedule_records/src/lib.rt": "fn none() -> u8 {\n    1\n}\n",
    "crates/tariff/src/lib.rt":
        "// A call.\nghost use Rattle.tariff_definitions.specs.Tariff.{charged};\n\n"
        "pub fn total() -> u8\n    ensures { result ≡ charged }\n{\n    1\n}\n",
    "crates/tariff_definitions/specs/Tariff.antt":
        "-- Tariffs.\n\nabbrev pub charged : ℕ\ncharged = 1\n\nabbrev pub unpaid : ℕ\nunpaid = 1\n",
    "README.md": "Before.\n<!-- believed: written by tools/believed --write -->\n<!-- end of believed -->\nAfter.\n",
}


class Believed(unittest.TestCase):
    """tools/believed on a small tree, and the table of README.md."""

    tool = Programs.tool

    def test_names_are_followed(self):
        """Whole definitions, but no cases; of other files what contracts name, and what that names."""
        with tempfile.TemporaryDirectory() as root:
            write_tree(root, BELIEVED)
            out = self.tool("believed", "--root", root)[1].decode()
        self.assertEqual(out.split("\n")[2:-1], [
            "| `crates/definitions/specs/Records.antt` | declarative | 2 | The records |",
            "| `crates/definitions/specs/Answer.antt` | computed | 5 | The answer |",
            "| `crates/access/specs/Answers.antt` | calls | 4 | of it `answerOf`, `Promised` |",
            "| `crates/access/src/lib.rt` | calls | 6 | of it `Answer`, `order` |",
            "| `crates/law_orders/specs/Statements.antt` | calls | 2 | of it `Once` |",
            "| `crates/lists/specs/Lists.antt` | both | 4 | of it `insert`, `sort` |",
            "| `crates/tariff/src/lib.rt` | calls | 2 | of it `total` |",
            "| `crates/tariff_definitions/specs/Tariff.antt` | computed | 2 | of it `charged` |",
            "| **all** | | **27** | |",
            "| the declarative half but `Relisted`, with all that it names elsewhere | | 2 | |"])

    def test_written_and_checked(self):
        with tempfile.TemporaryDirectory() as root:
            write_tree(root, BELIEVED)
            readme = os.path.join(root, "README.md")
            self.assertEqual(self.tool("believed", "--root", root, "--check", readme)[0], 1)
            self.assertEqual(self.tool("believed", "--root", root, "--write", readme)[0], 0)
            self.assertEqual(self.tool("believed", "--root", root, "--check", readme)[0], 0)
            with open(readme, encoding="utf-8") as source:
                text = source.read()
            table = self.tool("believed", "--root", root)[1].decode()
            self.assertEqual(text.split("\n")[0::len(text.split("\n")) - 2], ["Before.", "After."])
            self.assertIn(table, text)
            write_tree(root, {"README.md": text.replace("**27**", "**26**")})
            self.assertEqual(self.tool("believed", "--root", root, "--check", readme)[0], 1)
            write_tree(root, {"README.md": "No marks.\n"})
            code, _, error = self.tool("believed", "--root", root, "--write", readme)
            self.assertEqual((code, "lacks the lines" in error), (1, True))

    def test_repository(self):
        """What the definitions use of the lists counts; README.md has the table as it is printed."""
        self.assertIn("`crates/lists/specs/Lists.antt`", self.tool("believed")[1].decode())
        for name in ("README.md", os.path.join("docs", "BELIEVE.md")):
            self.assertEqual(self.tool("believed", "--check", os.path.join(ROOT, name))[::2], (0, ""))


def load_tests(loader, tests, _):
    """The tests of test_sheets.py and test_oracle.py besides, where no test is named."""
    tests.addTests(loader.loadTestsFromNames(["test_sheets", "test_oracle"]))
    return tests


if __name__ == "__main__":
    unittest.main()
