#!/usr/bin/env python3
"""Tests of sheets from text and of the examples, and those of test_cascade.py and test_explain.py.

Run: python3 tools/test_sheets.py (tools/test_tools.py runs it too). What needs the
proved program or a browser is skipped, with a word, where it is not at hand.
"""

import os
import random
import subprocess
import sys
import unittest

HERE = os.path.dirname(os.path.abspath(__file__))
sys.path.insert(0, HERE)

import cascade_text
import map_files
import map_lines
import sheetlib
from maps import changed, drawn, hyphens
from places import Problems
from sheet_checks import check
from sheet_records import ASSOCIATE, DERIVE, MAKE_LIST, NEST_ASSOCIATE, Annotation, TypeRecord
from testing import BUILT, EXAMPLES, NOT_BUILT, ROOT, InFolder, answer, command, found_in, printed, told


class Errors(unittest.TestCase):
    """Every error of the readable text, with its place."""

    def check(self, text, *want):
        self.assertEqual(told(text, severities=("error",)), list(want), text)

    def test_lines(self):
        for text, want in [
                ("domain", "1:1: error: `domain` takes a name"),
                ("\nfoo a", "2:1: error: `foo` begins no line of a type map"),
                ("domian a", "1:1: error: `domian` begins no line of a type map, did you mean `domain`"),
                ("  makelist", "1:3: error: `makelist` stands under no type"),
                ("domain a\nextend a f : a\n  mark makelist", "3:3: error: `mark` stands under no type"),
                ("domain a b", "1:10: error: `b` is no flag; parents follow ` : `"),
                ("domain a :b", "1:10: error: `:b`: white space goes on both sides of `:`"),
                ("domain a: b", "1:9: error: the byte `:` in `a:` is not allowed, A-Z, a-z, 0-9 and _ are, "
                                "and - behind the first byte; white space goes on both sides of `:`"),
                ("domain a.b.c", "1:8: error: `a.b.c` is not a name of one or two words"),
                ("domain a : b. c", "1:12: error: `b.` is not a name of one or two words"),
                ("version", "1:1: error: `version` takes one number"),
                ("version x", "1:1: error: `version` takes one number"),
                ("version 2", "1:9: error: version 2, it has to be 1"),
                ("extend a", "1:1: error: `extend` takes a type name and a word"),
                ("domain a\nextend a b.c : a", "2:10: error: `b.c` is not a word"),
                ("domain a\n  alias", "2:3: error: `alias` takes one word"),
                ("domain a\n  alias b c", "2:3: error: `alias` takes one word"),
                ("domain a\n  alias b.c", "2:9: error: `b.c` is not a word"),
                ("domain a\n  derive", "2:3: error: `derive` takes one tag, a number"),
                ("domain a\n  derive x", "2:3: error: `derive` takes one tag, a number"),
                ("domain a\n  noderive x", "2:12: error: `noderive` takes nothing"),
                ("domain a\n  mark", "2:3: error: a mark is `makelist` or `derive TAG`"),
                ("domain a\n  mark derive", "2:8: error: `derive` takes one tag, a number"),
                ("domain a\n  mark derive 256", "2:3: error: the tag 256, at most 255"),
                ("domain a\n  derive 256\n  mark derive 0", "2:3: error: the tag 256, at most 255")]:
            with self.subTest(text):
                self.assertIn(want, told(text))

    def test_words(self):
        allowed = "is not allowed, A-Z, a-z, 0-9 and _ are, and - behind the first byte"
        self.check("domain größe", f"1:10: error: the byte c3 (hexadecimal) in `größe` {allowed}")
        self.check("# größe\ndomain größe # größe\ndomain -a-b",
                   f"2:10: error: the byte c3 (hexadecimal) in `größe` {allowed}", f"3:8: error: the byte `-` in `-a-b` {allowed}")
        self.check("domain a+b", f"1:9: error: the byte `+` in `a+b` {allowed}")

    def test_hyphens(self):
        """Behind the first byte of a word, twice and last too; the map keeps them, whichever way it is written."""
        allowed = "is not allowed, A-Z, a-z, 0-9 and _ are, and - behind the first byte"
        self.check("domain ph-probe")
        self.check("domain a-\ndomain a--b.c-\nwords z-- Z-0 9- _-")
        self.check("domain -", f"1:8: error: the byte `-` in `-` {allowed}")
        self.check("words -- a", f"1:7: error: the byte `-` in `--` {allowed}")
        self.check("domain a.-b", f"1:10: error: the byte `-` in `-b` {allowed}")
        self.check("domain a\n  alias -a", f"2:9: error: the byte `-` in `-a` {allowed}")
        self.check("domain a\n  associate a-.-f", "2:13: error: `a-.-f` is not declared",
                   f"2:16: error: the byte `-` in `-f` {allowed}")
        self.check("domain " + "a" * 30 + "-")
        self.check("domain " + "a" * 31 + "-", f"1:8: error: `{'a' * 31}-` has 32 bytes, at most 31")
        self.check("words! a a- a--b a-b resource self")
        self.check("words! a-b a- resource self", "1:12: error: `a-` does not come after `a-b` by bytes")
        # The list ascends by bytes: a word before those with a hyphen behind it, these before those with other bytes.
        self.assertEqual(sheetlib.parse_text("domain a0\ndomain a_\ndomain a-b\ndomain a\ndomain a-").word_list(),
                         ["a", "a-", "a-b", "a0", "a_", "resource", "self"])
        self.check("domain " + "a" * 31)
        self.check("domain " + "a" * 32, f"1:8: error: `{'a' * 32}` has 32 bytes, at most 31")
        self.check("words " + " ".join(f"w{at:03}" for at in range(198)))
        self.check("words " + " ".join(f"w{at:03}" for at in range(199)),
                   "1:997: error: 201 words, at most 200 (`resource` and `self` among them)")
        self.check("words! resource self")
        self.check("words! self resource", "1:13: error: `resource` does not come after `self` by bytes")
        self.check("words! resource resource self", "1:17: error: `resource` does not come after `resource` by bytes")
        self.check("words!", "1:1: error: the word list lacks `resource`", "1:1: error: the word list lacks `self`")
        self.check("words! resource self\ndomain a", "2:8: error: `a` is not in the word list")
        self.check('domain a\n  alias ""', "2:9: error: a word without bytes is for damaged sheets (--raw)")
        self.check("domain @0", "1:8: error: `@0`: word numbers are for damaged sheets (--raw)")
        self.check("variant3 a", "1:10: error: the variant 3 is for damaged sheets (--raw)")
        self.check("domain a\n  kind7", "2:3: error: the kind 7 is for damaged sheets (--raw)")

    def test_limits(self):
        types = [f"domain t{at:02}\n" for at in range(65)]
        self.check("".join(types[:64]))
        self.check("".join(types), "65:8: error: 65 types, at most 64")
        parents = "domain p\n" + "domain a :" + " p" * 8
        self.check(parents)
        self.check(parents + " p", "2:28: error: 9 parents, at most 8")
        derives = "domain a" + "".join(f"\n  derive {at}" for at in range(12))
        self.check(derives)
        self.check(derives + "\n  noderive", "14:3: error: 13 annotations, at most 12")
        marks = "domain a" + "\n  mark makelist" * 7
        self.check(marks)
        self.check(marks + "\n  mark derive 1", "9:3: error: 8 marks, at most 7")
        words = "".join(f"resource r{at:02}\n" for at in range(16))
        self.check(words + "domain a\n  associate " + " ".join(f"r{at:02}" for at in range(15)))
        self.check(words + "domain a\n  associate " + " ".join(f"r{at:02}" for at in range(16)),
                   "18:73: error: 16 words in one `associate`, at most 15")
        self.check("domain a\n  inherit" + " a" * 15)
        self.check("domain a\n  inherit" + " a" * 16, "2:41: error: 16 names, at most 15")
        extensions = "domain a\n" + "".join(f"extend a w{at:02} : a\n" for at in range(33))
        self.check(extensions, "34:8: error: 33 extensions, at most 32")
        self.check("domain a\nextend a f :" + " a" * 8)
        self.check("domain a\nextend a f :" + " a" * 9, "2:30: error: 9 parents, at most 8")
        self.check("domain a\nextend a f", "2:8: error: an extension has 1 to 8 parents, after ` : `")

    def test_twice(self):
        self.check("domain a\n\ndomain a", "3:8: error: `a` is declared twice (first at line 1)")
        self.check("domain a\nextend a f : a\nextend a f : a",
                   "3:8: error: `a.f` is extended twice (first at line 2)")
        self.check("resource f\ndomain a\n  associate f f", "3:15: error: `f` twice in one `associate`")
        self.check("resource f\nresource d.f\ndomain a\n  associate f d.f",
                   "4:15: error: `f` twice in one `associate`: as `f` and as `d.f`")
        self.check("domain a\n  derive 1\n  derive 1", "3:3: error: two equal annotations: `derive` (first at line 2)")
        self.check("domain p\n  nest d.f\n  nest f",
                   "3:3: error: two equal annotations: two `nest` of the same words (first at line 2)")
        self.check("domain a.b\n  nest a.c", "2:3: error: `a.b` has two words, so that nothing nests in it")

    def test_no_order(self):
        self.check("domain dosing\ndomain a : dosin", "2:12: error: `dosin` is not declared, did you mean `dosing`")
        self.check("domain a : self", "1:12: error: no type inherits `self`")
        self.check("resource a : resource",
                   "1:14: error: `resource` is not declared; a line `resource resource` declares it")
        self.check("domain a : a", "1:12: error: `a` inherits itself")
        self.check("domain a : b\ndomain b : c\ndomain c : b a",
                   "1:12: error: a cycle: `a` inherits `b`, `b` inherits `c`, `c` inherits `a`")
        self.check("domain a\n  alias old\ndomain b : old", "3:12: error: `old` is not declared: it is an alias of `a` "
                                                             "(x.txt:1), and aliases are not resolved")

    def test_no_lines(self):
        self.check("resource conf\ndomain a\n  associate cnf", "3:13: error: `cnf` is not declared, did you mean `conf`")
        self.check("domain f\ndomain a\n  associate f", "3:13: error: `f` is a domain (x.txt:1), no resource")
        self.check("other f\ndomain a\n  associate f", "3:13: error: `f` is of the variant other (x.txt:1), no resource")
        self.check("resource f\nresource a.f\ndomain a\n  associate f",
                   "4:13: error: `a.f` can't be made: it is declared (x.txt:2)")
        self.check("resource f\nresource b.f\ndomain a\n  associate f\ndomain b : a",
                   "2:10: error: `b.f` is declared, and `a` associates `f` (x.txt:4), which would make it")
        self.check("resource f\nresource g\ndomain a\n  associate f\n  associate f g",
                   "5:13: error: `f` is associated twice by `a` (x.txt:4): two lines `a.f` would be the same")
        self.check("resource p.f\nresource q.f\ndomain p\n  nest q.f\ndomain t : p\n  associate p.f",
                   "6:13: error: `t` has it from `p` already: two lines `t.f` would be the same")
        self.check("domain p\n  nest zz\ndomain b : p", "2:8: error: `zz` is not declared")

    def test_many(self):
        """Several errors in one run, by place."""
        self.check("domain a : zz\n  associate yy\nfoo\ndomain a",
                   "1:12: error: `zz` is not declared", "2:13: error: `yy` is not declared",
                   "3:1: error: `foo` begins no line of a type map", "4:8: error: `a` is declared twice (first at line 1)")

    def test_allowed(self):
        """What 8 and 9 refuse is a warning where it is allowed."""
        text = "domain a : zz\n  associate yy\n"
        self.assertEqual(told(text, allow_refused=True),
                         ["1:12: warning: `zz` is not declared", "2:13: warning: `yy` is not declared"])


class Warnings(unittest.TestCase):
    """Every warning, with its place; none of them stops a sheet."""

    def check(self, text, *want):
        self.assertEqual(told(text), list(want), text)
        self.assertEqual(answer(sheetlib.encode(found_in(text)[0])), 0)

    def test_extensions(self):
        self.check("domain base\nextend bas f : base", "2:8: warning: `bas` is not declared, so that its extension "
                   "changes nothing, did you mean `base`")
        self.check("domain a\nextend a f : a", "2:10: warning: no line `a.f` is made, so that its extension changes nothing")
        self.check("resource f\ndomain a\n  associate f\nextend a f : resource zz a.f f",
                   "4:23: warning: `zz` is neither declared nor made, and is listed as a parent all the same")

    def test_again(self):
        self.check("resource conf\ndomain daemon\n  associate conf\ndomain a : daemon\ndomain b : a\n  associate conf",
                   "6:13: warning: `conf` is associated again: `daemon` associates it (x.txt:3); two lines are charged, "
                   "and Cascade refuses it")

    def test_marks(self):
        self.check("domain a\n  makelist", "2:3: warning: `a` has `makelist` without `mark makelist`, "
                                           "so that no line bears it")
        self.check("domain a\n  derive 7\n  mark derive 6", "2:3: warning: `a` has `derive 7` without `mark derive 7`, "
                                                            "so that no line bears it")
        self.check("domain a\n  makelist\n  derive 7\n  mark derive 7\n  mark makelist")

    def test_others(self):
        self.check("domain p\ndomain a : p p", "2:14: warning: `p` twice among the parents, which Cascade refuses")
        self.check("domain p\n  nest zz", "2:8: warning: `zz` is not declared; nothing inherits `p`, "
                                          "so that nothing is refused")

    def test_none(self):
        self.check("\ufeff# a mark before the text, and lines ended as elsewhere\r\nresource f\r\ndomain a\r\n  associate f\r\n")


class Agreement(unittest.TestCase):
    """The checks find an error exactly where the call refuses."""

    def test_random_maps(self):
        met = set()
        for seed in range(1200):
            rng = random.Random(seed)
            given = drawn.random_map(rng, rng.choice([4, 8, 12]), rng.choice([0, 0.02, 0.1, 0.3]))
            given = hyphens.respelled(rng, given) if seed % 3 == 0 else given
            sheet = sheetlib.encode(given)
            problems = found_in(sheetlib.to_text(given))[1]
            numbers = [problem.number for problem in problems.of("error")]
            self.assertEqual(min(numbers, default=0), answer(sheet), seed)
            met.add(answer(sheet))
        self.assertEqual(met, {0, 8, 9})

    def test_lines(self):
        """The lines with their reasons are those of the model, in its order."""
        for seed in range(600):
            rng = random.Random(seed)
            given = drawn.random_map(rng, 12, 0.02)
            given = hyphens.respelled(rng, given) if seed % 3 == 0 else given
            sheet = sheetlib.encode(given)
            if answer(sheet) == 0:
                view = map_lines.MapView(given)
                rounds = view.rounds()
                names = sorted(rounds, key=lambda name: (rounds[name], sheetlib.show_name(name)))
                want = ["T " + sheetlib.show_name(name) for name in names] + [line.printed() for line in view.lines()]
                self.assertEqual(printed(sheet), want, seed)

    def test_damaged_maps(self):
        """Limits passed and things doubled: unreadable by the model exactly where the checks say so."""
        met = set()
        for seed in range(800):
            rng = random.Random(seed)
            given = drawn.random_map(rng, 8, 0.05)
            for _ in range(rng.choice([0, 1, 1, 2])):
                spoil(rng, given)
            try:
                number = answer(sheetlib.encode(given))
            except sheetlib.SheetError:
                number = 3  # no field is as wide
            problems = found_in(sheetlib.to_text(given))[1]
            hard = any(problem.number == 0 for problem in problems.of("error"))
            self.assertEqual(hard, number in (3, 4, 5, 6, 7), (seed, number, sheetlib.to_text(given)))
            met.add(number)
        self.assertTrue(met >= {0, 3, 4, 5, 6, 8, 9}, met)


def spoil(rng, given):
    """Breaks a limit or a rule of a map, or comes near it."""
    def words():
        listed = given.word_list()
        given.words = rng.sample(listed, len(listed)) if rng.random() < 0.5 else listed[:-1] + ["a"]

    def version():
        given.version = rng.choice([0, 1, 2, 16])

    def extension():
        given.extensions.append(sheetlib.Extension(("a",), "f", [("a",)] * rng.choice([0, 1, 8, 9, 16])))

    def further():
        given.extra = [rng.choice(["a" * 31, "a" * 32, "-b", "a.b", "a-b", ""])]
    choices = [words, version, extension, further]
    if given.types:
        record = rng.choice(given.types)
        other = rng.choice(given.types)

        def annotation():
            record.annotations.append(rng.choice([
                Annotation(ASSOCIATE, [("f", None)] * 2), Annotation(DERIVE, tag=rng.choice([255, 256])),
                Annotation(NEST_ASSOCIATE, [("f", None)]), Annotation(MAKE_LIST), Annotation(7),
                Annotation(ASSOCIATE, [(f"w{at}", None) for at in range(rng.choice([15, 16]))])]))
        choices += [annotation, annotation, annotation,
                    lambda: record.parents.extend([("a",)] * rng.choice([6, 7, 8])),
                    lambda: record.marks.extend([None] * rng.choice([6, 7])),
                    lambda: given.types.append(other),
                    lambda: given.types.extend([TypeRecord(("t", f"w{at}")) for at in range(rng.choice([56, 62]))])]
    rng.choice(choices)()


class Tool(InFolder):
    """tools/sheet as a program."""

    def sheet(self, *args, **options):
        return command("tools/sheet", *args, folder=self.folder, **options)

    def test_statuses(self):
        self.path("good.txt", "domain a\n")
        self.path("bad.txt", "domain a : zz\n")
        self.assertEqual(self.sheet("good.txt", "-o", "good.sheet"), (0, b"", ""))
        self.assertEqual(self.read("good.sheet"), sheetlib.sheet_of("domain a"))
        self.assertEqual(self.sheet("bad.txt", "-o", "bad.sheet"),
                         (1, b"", "bad.txt:1:12: error: `zz` is not declared\nsheet: bad.txt: 1 error, nothing written\n"))
        self.assertFalse(os.path.exists(self.path("bad.sheet")))
        self.assertEqual(self.sheet("bad.txt", "--allow-refused"),
                         (0, sheetlib.sheet_of("domain a : zz"), "bad.txt:1:12: warning: `zz` is not declared\n"))
        self.assertEqual(self.sheet("-q", "bad.txt", "--allow-refused")[2], "")
        self.assertEqual(self.sheet("good.txt"), (0, sheetlib.sheet_of("domain a"), ""))
        self.assertEqual(self.sheet(given=b"domain a"), (0, sheetlib.sheet_of("domain a"), ""))
        self.assertEqual(self.sheet("-", given=b"domain"),
                         (1, b"", "standard input:1:1: error: `domain` takes a name\nsheet: standard input: 1 error, nothing written\n"))

    def test_trouble(self):
        os.mkdir(self.path("folder"))
        self.path("good.txt", "domain a\n")
        self.path("long.txt", b"#" * ((1 << 24) + 1))
        for args, error in [
                (["pool.txt"], "pool.txt: no such file or directory"),
                (["folder"], "folder: is a directory"),
                (["good.txt/x"], "good.txt/x: not a directory"),
                (["long.txt"], "long.txt: longer than 16 MiB"),
                (["good.txt", "-o", "folder"], "folder: is a directory"),
                (["good.txt", "-o", "nowhere/x"], "nowhere/x: no such file or directory"),
                (["good.txt", "--out-dir", "good.txt"], "good.txt: is no directory that can be written"),
                (["good.txt", "-o", "/dev/full"], "/dev/full: no space left on device")]:
            with self.subTest(args):
                self.assertEqual(self.sheet(*args), (2, b"", f"sheet: {error}\n"))
        self.assertEqual(sorted(os.listdir(self.folder)), ["folder", "good.txt", "long.txt"])

    def test_output(self):
        """Standard output that is closed or full, standard input that is closed or a directory."""
        self.path("good.txt", "domain a\n")
        for line, error in [("good.txt >/dev/full", "standard output: no space left on device"),
                            ("--help >/dev/full", "standard output: no space left on device"),
                            ("good.txt >&-", "standard output: is closed"),
                            ("<&-", "standard input: is closed"), ("</", "standard input: is a directory")]:
            done = subprocess.run(["sh", "-c", f"{os.path.join(HERE, 'sheet')} {line}"], cwd=self.folder,
                                  capture_output=True, check=False)
            self.assertEqual((done.returncode, done.stderr.decode()), (2, f"sheet: {error}\n"), line)
        self.assertEqual(self.sheet("--version")[1].splitlines()[0][:6], b"sheet ")

    def test_options(self):
        """Options that are wrong, or would do nothing, are refused in one line."""
        self.path("a.txt", "domain a\n")
        self.path("b.txt", "domain b\n")
        self.path("a.cas", "domain a {}\n")
        for args in ["--bogus", "--hex=1", "--decode --hex a.txt", "--decode --check a.txt", "--decode --flip 1 a.txt",
                     "--decode --truncate 0 a.txt", "--decode --append 00 a.txt", "--decode --allow-refused a.txt",
                     "--decode --join a.txt b.txt", "--decode --strict a.txt", "--decode -q a.txt",
                     "--raw --allow-refused a.txt", "--raw --strict a.txt", "--raw -q a.txt", "--raw --check a.txt",
                     "--raw a.cas", "--raw --cascade a.txt", "--check --hex a.txt", "--check -o x a.txt",
                     "--check --out-dir x a.txt", "--check --flip 1 a.txt", "-o x --out-dir y a.txt",
                     "--out-dir x --hex a.txt", "--out-dir x --join a.txt b.txt", "--join a.txt", "a.txt b.txt",
                     "- -", "--out-dir x -", "--out-dir x a.txt a.cas", "--append 0 a.txt", "--append xy a.txt", "--append= a.txt",
                     "--flip 999 a.txt", "--flip -1 a.txt", "--truncate 999 a.txt", "--truncate -1 a.txt",
                     "--truncate x a.txt", "--deco a.txt"]:
            with self.subTest(args):
                code, out, error = self.sheet(*args.split())
                self.assertEqual((code, out), (2, b""))
                self.assertRegex(error, r"\Asheet: [^\n]*\n\Z")
        self.assertEqual(sorted(os.listdir(self.folder)), ["a.cas", "a.txt", "b.txt"])
        self.assertEqual(self.sheet("--help")[0], 0)

    def test_several(self):
        self.path("a.txt", "domain a\n")
        self.path("b.cas", "domain b {}\n")
        self.path("c.txt", "domain c : zz\n")
        self.assertEqual(self.sheet("--out-dir", "out", "a.txt", "b.cas"), (0, b"", ""))
        self.assertEqual(self.read("out/a.sheet"), sheetlib.sheet_of("domain a"))
        self.assertEqual(self.read("out/b.sheet"), sheetlib.sheet_of("domain b"))
        code, _, error = self.sheet("--out-dir", "new", "c.txt", "a.txt")
        self.assertEqual((code, os.listdir(self.path("new"))), (1, ["a.sheet"]))
        self.assertIn("c.txt:1:12: error", error)
        self.assertEqual(self.sheet("--out-dir", "new", "c.txt", "none.txt", "a.txt")[0], 2)
        self.assertEqual(self.sheet("--out-dir", "texts", "--decode", "out/a.sheet", "out/b.sheet"), (0, b"", ""))
        self.assertEqual(self.read("texts/b.txt"), b"domain b\n")
        self.assertEqual(self.sheet("--check", "a.txt", "b.cas"),
                         (0, b"a.txt: 1 type, 3 words, 0 extensions, 21 bytes\n"
                             b"b.cas: 1 type, 3 words, 0 extensions, 21 bytes\n", ""))
        self.assertEqual(self.sheet("--join", "a.txt", "b.cas", "-o", "both.sheet"), (0, b"", ""))
        self.assertEqual(self.read("both.sheet"), sheetlib.sheet_of("domain a\ndomain b"))
        self.path("d.cas", "extend b inherits a {}\n")
        self.assertEqual(self.sheet("--join", "a.txt", "b.cas", "d.cas", "-o", "all.sheet"), (0, b"", ""))
        self.assertEqual(self.read("all.sheet"), sheetlib.sheet_of("domain a\ndomain b : a"))
        self.assertIn("d.cas:1:8: warning: `b` is not declared", self.sheet("d.cas")[2])

    def test_strict(self):
        self.path("a.txt", "domain a\n  makelist\n")
        self.assertEqual(self.sheet("a.txt")[0], 0)
        code, out, error = self.sheet("--strict", "a.txt")
        self.assertEqual((code, out), (1, b""))
        self.assertIn("a.txt:2:3: error: `a` has `makelist`", error)

    def test_raw(self):
        """Damaged sheets, as the checks would not let them through."""
        text = b"version 2\nwords! self resource\nvariant3 @7 : @8 self\n  kind7\n"
        self.assertEqual(self.sheet("--raw", given=text), (0, sheetlib.sheet_of(text.decode()), ""))
        for text, error in [("domain a :" + " p" * 16, "standard input:1:8: error: type a: parents: count: 16 does not fit 4 bits"),
                            ("domain a\n  derive 256", "standard input:2:3: error: type a: derive: tag: 256 does not fit 8 bits"),
                            ("domain a\n\nextend a f :" + " p" * 16,
                             "standard input:3:8: error: extension a f: parents: count: 16 does not fit 4 bits"),
                            ("words " + "a" * 32,
                             f"standard input:1:7: error: word `{'a' * 32}`: length: 32 does not fit 5 bits"),
                            ("words! a\ndomain b", "standard input:2:8: error: type b: the word `b` is not in the word list"),
                            ("foo", "standard input:1:1: error: `foo` begins no line of a type map")]:
            code, out, told_text = self.sheet("--raw", given=text.encode())
            self.assertEqual((code, out), (1, b""))
            self.assertEqual(told_text.splitlines()[0], error)
        self.assertEqual(self.sheet("--raw", "--decode", given=sheetlib.sheet_of("version 2"))[1], b"version 2\n")

    def test_decode(self):
        """Only what 1 and 3 to 7 let through has a text."""
        good = sheetlib.sheet_of("domain a\n  associate f\nresource f\n")
        for data, error in [(good[:9], "refused with 3: bit 67: the end comes within a byte of a word"),
                            (sheetlib.sheet_of("version 2"), "refused with 4: bit 0: version is 2, it has to be 1"),
                            (sheetlib.sheet_of("domain a :" + " a" * 9),
                             "refused with 4: bit 151: type 1 a: parents: count is 9, allowed are 0 to 8"),
                            (sheetlib.sheet_of("domain a.b\n  nest a"),
                             "refused with 4: bit 180: type 1 a.b: annotation: NestAssociate in a type of two words"),
                            (sheetlib.sheet_of("words! self resource"),
                             "words: `resource` does not come after `self` by bytes"),
                            (sheetlib.sheet_of("domain a\ndomain a"), "types: `a` is declared twice"),
                            (good + b"\0", "refused with 7: 1 more byte after the extensions"),
                            (bytes(40961), "refused with 1: 40,961 bytes, at most 40,960"),
                            (b"", "refused with 3: bit 0: the end comes within version")]:
            with self.subTest(error):
                code, out, told_text = self.sheet("--decode", given=data)
                self.assertEqual((code, out), (1, b""))
                self.assertEqual(told_text.splitlines()[0], f"standard input: error: {error}")
        self.assertEqual(self.sheet("--decode", given=sheetlib.sheet_of("domain a : a")), (0, b"domain a : a\n", ""))

    def test_binary(self):
        self.assertEqual(self.sheet(given=b"domain a\nx \x10")[2].splitlines()[0],
                         "standard input:2:3: error: the byte 10 (hexadecimal) is in no text; --decode prints that of a sheet")

    def test_names(self):
        """Behind `--` all is files; a message is one line; a file that is replaced keeps its mode."""
        self.path("-x", "domain a\n")
        self.path("good.sheet", "")
        os.chmod(self.path("good.sheet"), 0o640)
        self.assertEqual(self.sheet("-o", "good.sheet", "--", "-x"), (0, b"", ""))
        self.assertEqual(self.read("good.sheet"), sheetlib.sheet_of("domain a"))
        self.assertEqual(os.stat(self.path("good.sheet")).st_mode & 0o777, 0o640)
        self.assertEqual(self.sheet("a\nb")[2], "sheet: a\\nb: no such file or directory\n")
        self.assertEqual(self.sheet("-o", "a", "-o", "b", "--", "-x"), (2, b"", "sheet: -o is given twice\n"))

    def test_link(self):
        """Through a link, and from another folder."""
        os.symlink(os.path.join(HERE, "sheet"), self.path("link"))
        done = subprocess.run([self.path("link"), "--hex"], input=b"", capture_output=True, check=False, cwd="/")
        self.assertEqual(done.stdout[:11], b"10 24 39 32")


# ---------------------------------------------------------------- garbage

SOUP = ["domain", "resource", "type", "other", "extend", "virtual", "trait", "inherits", "fn", "module", "associate",
        "nest", "makelist", "derive", "mark", "words", "words!", "version", "alias", "inherit", "noderive", "a", "b",
        "a.b", "a.b.c", "self", "0", "255", "256", "99999999999999999999", "@1", "@associate", "@derive", "@makelist",
        "@alias", "@", ":", ",", ";", ".", "(", ")", "[", "]", "{", "}", "/*", "*/", "//", "#", '"', "\\", "-", "=",
        "\n", "\n", "\n  ", "\r\n", "\t", "é", "\x00", "\x85", "\xa0", "\xff", "²"]


def garbage(rng):
    """Bytes of no use: at random, words of both syntaxes at random, or an example with a few bytes changed."""
    draw = rng.random()
    if draw < 0.2:
        return rng.randbytes(rng.randrange(200))
    if draw < 0.6:
        return " ".join(rng.choices(SOUP, k=rng.randrange(80))).encode("utf-8")
    name = rng.choice(["pool.txt", "pool.cas", "pool.sheet", "base.txt", "base.sheet"])
    with open(os.path.join(EXAMPLES, name), "rb") as source:
        out = bytearray(source.read())
    for _ in range(rng.choice([1, 1, 2, 5])):
        at = rng.randrange(len(out))
        change = rng.random()
        if change < 0.4:
            out[at] = rng.choice(b"{}()[];:,.@#\"/* \nabz_09\x80\x00")
        elif change < 0.7:
            del out[at:at + rng.randrange(30)]
            out = out or bytearray(b"x")
        else:
            out[at:at] = rng.choice(SOUP).encode("utf-8")
    return bytes(out)


class Garbage(unittest.TestCase):
    """No input raises; what has no error is accepted by the call."""

    def test_texts(self):
        for seed in range(1500):
            data = garbage(random.Random(seed))
            for name in ("x.txt", "x.cas"):
                with self.subTest(seed=seed, name=name):
                    problems = Problems()
                    type_map = map_files.read_texts([(name, data)], problems)
                    check(type_map, problems)
                    self.assertTrue(all(str(problem) for problem in problems.sorted()))
                    if not problems.of("error"):
                        self.assertIn(answer(sheetlib.encode(type_map)), (0, 10))

    def test_sheets(self):
        read = 0
        for seed in range(1500):
            rng = random.Random(seed)
            data = garbage(rng)
            if rng.random() < 0.5:
                data = sheetlib.encode(drawn.random_map(rng))
                data = changed.flipped(data, rng.randrange(8 * len(data)))
            with self.subTest(seed=seed):
                problems = Problems()
                type_map = map_files.read_sheet(data, problems)
                refused = answer(data) in (1, 2, 3, 4, 5, 6, 7)
                self.assertEqual(type_map is None, refused)
                if type_map is not None:
                    read += 1
                    self.assertEqual(sheetlib.sheet_of(sheetlib.to_text(type_map)), data)
                    cascade_text.to_cascade(type_map, Problems())
        self.assertGreater(read, 100)

    def test_commands(self):
        """As commands: a status of 0 to 2, and no traceback."""
        for seed in range(24):
            rng = random.Random(seed)
            data = garbage(rng)
            line = rng.choice([["tools/sheet"], ["tools/sheet", "--cascade"], ["tools/sheet", "--raw"],
                               ["tools/sheet", "--decode"], ["tools/sheet", "--decode", "--raw"],
                               ["tools/sheet", "--decode", "--cascade"], ["bin/explain", "-"],
                               ["bin/explain", "--cascade", "-"], ["bin/explain", "--html", "-", "-"]])
            status, _, error = command(*line, given=data)
            self.assertIn(status, (0, 1, 2), (seed, line, error))
            self.assertNotIn("Traceback", error, (seed, line))


class Stored(unittest.TestCase):
    """The stored answers of the examples."""

    def test_lines(self):
        for name in ("pool", "probes"):
            with open(os.path.join(EXAMPLES, name + ".sheet"), "rb") as source:
                sheet = source.read()
            with open(os.path.join(EXAMPLES, name + ".schedule.txt"), encoding="ascii") as source:
                self.assertEqual(source.read().splitlines(), printed(sheet), name)

    def test_numbers(self):
        """Each refused example is refused by the number in its name, by the model."""
        met = set()
        for name in sorted(os.listdir(os.path.join(EXAMPLES, "refusals"))):
            path = os.path.join("examples", "refusals", name)
            if name.endswith((".txt", ".sheet")):
                with open(os.path.join(ROOT, path), "rb") as source:
                    data = source.read()
                sheet = data if name.endswith(".sheet") else sheetlib.sheet_of(data.decode())
                self.assertEqual(str(answer(sheet)), name.split("-")[0], name)
                met.add(answer(sheet))
        self.assertEqual(met, set(range(3, 11)))

    @unittest.skipUnless(BUILT, NOT_BUILT)
    def test_stored(self):
        self.assertEqual(command("tools/examples", "--check"), (0, b"", ""))


def load_tests(loader, tests, _):
    """The tests of the other two besides, where no test is named."""
    for name in ("test_cascade", "test_explain"):
        tests.addTests(loader.loadTestsFromName(name))
    return tests


if __name__ == "__main__":
    unittest.main()
