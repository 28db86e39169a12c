#!/usr/bin/env python3
"""Tests of how oracle/ puts the Rust's lines in order and compares them; neither the Rust nor a program is run.

Run: python3 tools/test_oracle.py (tools/test_tools.py runs it too).
"""

import itertools
import os
import random
import sys
import unittest

HERE = os.path.dirname(os.path.abspath(__file__))
sys.path[:0] = [HERE, os.path.join(os.path.dirname(HERE), "oracle")]

import case_texts
import model
import sheetlib
from answers import agree
from comparison import Comparison
from maps import flavours, hyphens, small
from ordering import UNFIT, corners, in_order, is_item
from sheet_records import SheetError


def printed(sheet):
    """What the schedule program prints, by the model."""
    return model.printed(sheet, model.schedule(sheet, bytes(1 << 18), bytes(1536)), True)


def as_the_oracle(lines):
    """These lines as the oracle prints them: the items sorted as text."""
    return [line for line in lines if not is_item(line)] + sorted(line for line in lines if is_item(line))


class OrderOfItems(unittest.TestCase):
    """The order of request S-2, whichever way the lines come."""

    def check(self, text, *wanted, types=()):
        """The lines of the map of this text in the order wanted."""
        given, heads = sheetlib.parse_text(text), [f"T {name}" for name in types]
        for items in [sorted(wanted), sorted(wanted, reverse=True), wanted[::-1]]:
            self.assertEqual(in_order([*heads, *items], given), [*heads, *wanted], text)
        return corners([*heads, *wanted], given)

    def test_own_before_inherited(self):
        """Both list `p.f,resource`; marks or the flag tell which is own, whichever is the lesser as text."""
        base = "domain p virtual\n  nest q.f\ndomain t virtual : p\n  associate p.f\nresource p.f{}\nresource q.f{}\n"
        looks = {"": "R t.f 0 {} -", " virtual": "R t.f 1 {} -", "\n  mark makelist": "R t.f 0 {} makelist",
                 "\n  mark derive 7": "R t.f 0 {} derive:7", "\n  mark makelist\n  mark derive 7": "R t.f 0 {} makelist,derive:7"}
        for own, other in itertools.permutations(looks, 2):
            text = base.format(own, other)
            for added, parents in (("", "p.f,resource"), ("extend t f : self a.b", "p.f,resource,self,a.b")):
                found = self.check(text + added, looks[own].format(parents), looks[other].format(parents), "E t 10 f",
                                   types=["p", "p.f", "q.f", "t"])
                self.assertEqual(found, ["an own and an inherited one with equal parents"])

    def test_words_and_doms(self):
        """Two words with several doms, and an inherited word, in one type."""
        own = "domain t : p\n  associate f g\n  associate x.f\n  associate B.f x.g h\n"
        text = own + "domain p\n  nest y.f k\n" + "".join(f"resource {name}\n" for name in "f g h k x.f B.f x.g y.f".split())
        found = self.check(
            text, "R t.f 0 B.f,resource -", "R t.f 0 f,resource -", "R t.f 0 x.f,resource -", "R t.f 0 p.f,resource -",
            "E t 00 f", "R t.g 0 g,resource -", "R t.g 0 x.g,resource -", "E t 00 g", "R t.h 0 h,resource -", "E t 00 h",
            "R t.k 0 p.k,resource -", "E t 00 k", types="B.f f g h k p x.f x.g y.f t".split())
        self.assertEqual(found, ["two or more own ones of one word"])

    def test_types_by_name(self):
        """Not as the T lines go: a type stands by the bytes of its name, wherever its parents are."""
        chain = ["z", "a0", "a.b", "a", "_a", "Z", "0"]
        text, items = "resource f\ndomain z\n  associate f\n", ["R z.f 0 f,resource -", "E z 00 f"]
        for above, name in zip(chain, chain[1:]):
            text += f"domain {name} : {above}\n"
            items[:0] = [f"R {name}.f 0 {above}.f,resource -", f"E {name} 00 f"]
        found = self.check(text, *items, types=["f", *chain])
        self.assertEqual(found, ["types that go otherwise by name than by round"])

    def test_words_by_bytes(self):
        words = ["0", "F", "_f", "f", "f0", "f_", "ff"]
        text = f"domain t\n  associate {' '.join(words[::-1])}\n" + "".join(f"resource {word}\n" for word in words)
        self.check(text, *(line for word in words for line in (f"R t.{word} 0 {word},resource -", f"E t 00 {word}")))

    def test_classes_by_bytes(self):
        """Own resources go by the spelling of their class: neither by word and dom, nor by number."""
        classes = ["0.f", "F.f", "_.f", "a.f", "a0.f", "f", "f.f", "ff.f"]
        text = "domain t\n" + "".join(f"  associate {name} w{at}\n" for at, name in enumerate(classes))
        text += "".join(f"resource {name}\n" for name in [*classes, *(f"w{at}" for at in range(len(classes)))])
        self.check(text, *(f"R t.f 0 {name},resource -" for name in classes), "E t 00 f",
                   *(line for at in range(len(classes)) for line in (f"R t.w{at} 0 w{at},resource -", f"E t 00 w{at}")))

    def test_unfit(self):
        """A set that S-2 gives no order gets a line that no subject prints, and goes by parents and text."""
        given = sheetlib.parse_text("domain t : p\n  associate f\ndomain p\n  nest f\nresource f\n")
        own, other, line = "R t.f 0 f,resource -", "R t.f 0 p.f,resource -", "E t 00 f"
        self.assertEqual(in_order([own, other, line], given), [own, other, line])
        self.assertEqual(in_order([line, other], given), [other, line, f"{UNFIT}own, and missing: {own}"])
        self.assertEqual(in_order([], given), [f"{UNFIT}own, and missing: {own}"])
        for more in ("R t.f 1 p.f,resource -", "R t.f 0 f,resource makelist", own, "E t 10 f"):
            self.assertTrue(in_order([own, other, line, more], given)[-1].startswith(UNFIT + "not alone: "), more)
        lists = ["a", "a,a0", "a,b", "a-", "a-b", "a-b,a", "a-b.c", "a.b", "a.b,a", "a.b.c", "a0"]
        self.assertEqual(in_order([f"R t.f 0 {parents} -" for parents in lists[::-1]], given)[:len(lists)],
                         [f"R t.f 0 {parents} -" for parents in lists])
        self.assertEqual(in_order(["T t"], None), ["T t", UNFIT + "the sheet is not read"])

    def test_no_lines(self):
        """Refusals, and what the oracle says instead of an answer, stay."""
        given = sheetlib.parse_text("domain t\n  associate f\nresource f\n")
        for lines in (["refused 9", "D 6 b - f", "D 4 a g g", "more"], ["refused 10"], ["overflow"], ["timeout"]):
            for some in (given, None):
                self.assertEqual(in_order(lines, some), lines)

    def test_model(self):
        """The model, which has an order of its own, prints the same, on the listed cases, small maps and random ones."""
        rng, sheets = random.Random(3), []
        for case in (case_texts.DOCUMENT | case_texts.CORNERS).values():
            sheets.append(case_texts.sheet_in(case))
        for family in small.EXHAUSTIVE.values():
            sheets += map(sheetlib.encode, itertools.islice(family(), 0, None, 60))
        for flavour in [name for name in flavours.FLAVOURS if name not in flavours.SLOW] * 10:
            given = flavours.random_map(rng, flavour)
            sheets += [sheetlib.encode(given), sheetlib.encode(hyphens.respelled(rng, given))]
        for sheet in sheets:
            lines = printed(sheet)
            try:
                given = sheetlib.decode(sheet)
            except SheetError:
                given = None
            self.assertEqual(in_order(as_the_oracle(lines), given), lines)


class Asked:
    """A side of a comparison that answers by the model, its lines changed."""

    pairs = None

    def __init__(self, change=list):
        self.change = change

    def ask(self, mode, sheets):
        """The answers to sheets."""
        if mode == "order":
            return [model.printed(sheet, model.order(sheet, bytes(200), bytes(1536)), False) for sheet in sheets]
        return [self.change(printed(sheet)) for sheet in sheets]


def moved(key):
    """The items of each answer in another order, which a key gives to a line and its place."""
    def change(lines):
        items = [line for line in lines if is_item(line)]
        places = sorted(range(len(items)), key=lambda at: key(items[at], at))
        return [line for line in lines if not is_item(line)] + [items[at] for at in places]
    return change


class Comparing(unittest.TestCase):
    """The comparison, the model in the place of both sides."""

    # `t` and its parent `z`: two own resources and an inherited one, of one word.
    TEXT = "domain z\n  nest q.f\ndomain t : z\n  associate f\n  associate B.f g\n  associate z.f h\n"
    TEXT += "".join(f"resource {name}\n" for name in ("f", "B.f", "q.f", "g", "h")) + "resource z.f\n  mark makelist\n"
    TEXT += "domain s : t"

    def found(self, change):
        """What a comparison finds where a subject's lines are changed."""
        work, given = Comparison(Asked(change), Asked(as_the_oracle), False), sheetlib.parse_text(self.TEXT)
        work.compare_maps(["listed"], [given])
        work.relist([(given, given)])
        return work

    def test_in_order(self):
        work = self.found(list)
        self.assertEqual(work.found, {})
        for what in ("", ", an own and an inherited one with equal parents", ", two or more own ones of one word",
                     ", types that go otherwise by name than by round"):
            self.assertEqual(work.counts["order of lines compared" + what], 1, what)
        self.assertEqual(work.counts["01: agree, with lines in order"], 1)

    def test_out_of_order(self):
        def type_of(line):
            return line.split()[1].split(".")[0]
        for key in (lambda line, at: line,                                                # sorted as text
                    lambda line, at: -at,
                    lambda line, at: (type_of(line), line[0] == "R", at),                 # extension lines first
                    lambda line, at: (line[0] == "E", at),                                # all of them last
                    lambda line, at: (type_of(line) != "t", at),                          # types as their T lines go
                    lambda line, at: (type_of(line), "t.f 0 z.f,resource -" not in line and at),  # inherited first
                    lambda line, at: (at // 2, "t.f 0 B.f" in line)):                     # no dom before a dom
            found = self.found(moved(key)).found
            self.assertEqual({what for what, *_ in found}, {"disagreement"})

    def test_lines_as_they_stand(self):
        own, other = "R t.f 0 p.f,resource makelist", "R t.f 0 p.f,resource -"
        self.assertTrue(agree("01", ["T t", own, other], ["T t", own, other]))
        self.assertFalse(agree("01", ["T t", other, own], ["T t", own, other]))

    def test_relisted(self):
        """Equal lines in another order are not the same."""
        turns, given = itertools.cycle((list, moved(lambda line, at: -at))), sheetlib.parse_text(self.TEXT)
        work = Comparison(Asked(lambda lines: next(turns)(lines)), Asked(as_the_oracle), False)
        work.relist([(given, given)])
        self.assertEqual([what for what, *_ in work.found], ["relisting"])
        self.assertEqual(work.counts["relisted pairs, subject, 01: not same"], 1)

    def test_untouched(self):
        """What the untouched Rust accepts is no parting by its equality, though one T.r has two makings."""
        work = self.found(moved(lambda line, at: line))
        self.assertEqual(work.counts["rust: disagreement"], 1)
        self.assertEqual(work.counts["rust: equality by name"], 0)


if __name__ == "__main__":
    unittest.main()
