#!/usr/bin/env python3
"""Tests of Cascade's own syntax, read and printed. Run: python3 tools/test_cascade.py"""

import os
import random
import sys
import unittest

sys.path.insert(0, os.path.dirname(os.path.abspath(__file__)))

import cascade_map
import cascade_text
import sheetlib
from maps import drawn, hyphens
from places import Problems
from sheet_records import DERIVE, MAKE_LIST, NEST_ASSOCIATE, Annotation, TypeRecord
from testing import EXAMPLES, command, found_in, printed, told


class Cascade(unittest.TestCase):
    """Cascade's own syntax, read."""

    def reads(self, policy, text, *notes):
        """A policy gives the map of a text, with these remarks."""
        type_map, problems = found_in(policy, "x.cas")
        self.assertEqual(problems.of("error"), [], policy)
        self.assertEqual(sheetlib.to_text(type_map), sheetlib.to_text(sheetlib.parse_text(text)), policy)
        found = [str(problem).removeprefix("x.cas:") for problem in problems.sorted()]
        self.assertEqual(found, list(notes), policy)

    def errors(self, policy, *want):
        self.assertEqual(told(policy, "x.cas", ("error",)), list(want), policy)

    def test_declarations(self):
        self.reads("domain a {}", "domain a")
        self.reads("domain a;\nresource b; type c {} ;", "domain a\nresource b\nother c")
        self.reads("virtual domain a {}\ntrait domain b {}\nvirtual trait resource c {}",
                   "domain a virtual\ndomain b virtual trait\nresource c virtual trait")
        self.reads("domain a inherits b, c {}\ndomain b {}\ndomain c {}", "domain a : b c\ndomain b\ndomain c")
        self.reads("/* domain x {} */ // domain y {}\ndomain a { /* } */ } // }", "domain a")
        self.reads("", "")

    def test_hyphens(self):
        """Words have hyphens wherever a name is taken; one that is not part of a word is a sign as before."""
        self.reads("domain ph-probe inherits probe- {}\ndomain probe- { resource log--1 {} }\n"
                   "@associate([probe-.log--1])\n@alias(old-probe)\ndomain orp-probe {}",
                   "domain ph-probe : probe-\ndomain probe-\n  nest probe-.log--1\nresource probe-.log--1\n"
                   "domain orp-probe\n  associate probe-.log--1\n  alias old-probe")
        self.reads("f(a - b, -c, 80-90);\ndomain a {}", "domain a", "note: skipped, as no part of a schedule: 1 statement")
        self.reads("@derive(a-b)\n@derive(a - b)\ndomain a {}",
                   "domain a\n  derive 0\n  derive 1\n  mark derive 0\n  mark derive 1")
        # The lists of parents that extensions bring ascend by the spelling of their names, as in the Rust.
        self.reads("domain t {}\nextend t inherits a.c {}\nextend t inherits a-b {}\nextend t inherits a {}\n"
                   "domain a {}\ndomain a-b {}\nresource a.c {}",
                   "domain t : a a-b a.c\ndomain a\ndomain a-b\nresource a.c")

    def test_added_parents(self):
        """The parent that Cascade adds is left out; what is written stays, and is declared."""
        self.reads("resource f inherits resource {}", "resource f : resource\nresource resource")
        self.reads("domain a inherits domain {}", "domain a : domain\ndomain domain")
        self.reads("type f inherits resource {}", "resource f : resource\nresource resource")
        self.reads("type d inherits domain {}", "domain d : domain\ndomain domain")
        self.reads("resource resource {}\nresource f inherits resource {}", "resource resource\nresource f : resource")
        self.reads("domain a inherits resource {}", "resource a : resource\nresource resource",
                   "1:8: warning: the domain `a` inherits `resource`, so that Cascade takes it for a resource")
        self.reads("type t inherits xattr {}", "other t : xattr\nother xattr : fs_type\nother fs_type")
        self.reads("@associate([resource])\nvirtual domain a {}",
                   "domain a virtual\n  associate resource\nresource resource virtual")

    def test_annotations(self):
        self.reads("@makelist @derive(x) @noderive @alias(b, c) @inherit([d e.f])\ndomain a {}",
                   "domain a\n  makelist\n  derive 0\n  noderive\n  alias b\n  alias c\n  inherit d e.f\n"
                   "  mark makelist\n  mark derive 0")
        self.reads("@associate([f d.g])\ndomain a {}\nresource f {}\nresource d.g {}",
                   "domain a\n  associate f d.g\nresource f\nresource d.g")
        self.reads("@associate([f, g])\ndomain a {}\nresource f {}\nresource g {}",
                   "domain a\n  associate f g\nresource f\nresource g")
        self.reads("@noderive @noderive @alias(b) @alias(b)\ndomain a {}", "domain a\n  noderive\n  alias b")
        self.reads("@hint(x)\ndomain a {}", "domain a", "note: skipped, as no part of a schedule: 1 hint")
        self.reads("@associate([])\ndomain a {}", "domain a\n  associate",
                   "1:1: warning: an empty list, which Cascade does not take")
        self.reads("@makelist(x)\ndomain a {}", "domain a\n  makelist\n  mark makelist",
                   "1:11: warning: `@makelist` takes nothing, and this is not read")

    def test_tags(self):
        """Derive texts are numbered by first appearance; white space and comments do not tell them apart."""
        self.reads("@derive([a b], *)\ndomain a { @derive(*) resource r {} }\n@derive([ a /* */ b ],*)\n"
                   "@derive([a b], *)\ndomain b {}\n@derive\ndomain c {}\n@derive()\ndomain d {}",
                   "domain a\n  derive 0\n  nest a.r\n  mark derive 0\nresource a.r\n  derive 1\n  mark derive 1\n"
                   "domain b\n  derive 0\n  mark derive 0\n  mark derive 0\n"
                   "domain c\n  derive 2\n  mark derive 2\ndomain d\n  derive 2\n  mark derive 2")
        self.reads("@derive(tag=7)\ndomain a {}", "domain a\n  derive 7\n  mark derive 7")
        self.errors("@derive(tag=256)\ndomain a {}", "1:1: error: the tag 256, at most 255")
        self.errors("@derive(tag=1)\ndomain a {}\n@derive(x)\ndomain b {}",
                    "3:1: error: tags by number (`tag=`) and by text don't go together")

        def texts(count):
            return "".join(f"@derive(t{at}) " + (f"resource r{at} {{}}\n" if at % 5 == 4 else "") for at in range(count))
        self.assertEqual(told(texts(256) + "resource last {}\n", "x.cas"), [])
        self.assertEqual(told(texts(257) + "resource last {}\n", "x.cas", ("error",)),
                         ["52:15: error: more than 256 different texts of `@derive`"])

    def test_nested(self):
        self.reads("domain p { virtual resource f inherits q {} @makelist resource g {} }\nresource q {}\n"
                   "domain b inherits p {}",
                   "domain p\n  nest p.f\n  nest p.g\nresource p.f virtual : q\nresource p.g\n  makelist\n"
                   "  mark makelist\nresource q\ndomain b : p")
        self.reads("@associate([f])\ndomain p { @associate([f]) resource g {} }\nresource f {}",
                   "domain p\n  associate f\n  nest p.g\nresource p.g\n  associate f\nresource f")
        self.reads("domain p { resource f { resource g { fn x(); } } }", "domain p\n  nest p.f\nresource p.f",
                   "1:34: warning: `g` is nested in a nested type, of which Cascade takes no notice",
                   "note: skipped, as no part of a schedule: 1 deeper type")
        self.errors("domain p { resource f {} resource f {} }", "1:35: error: `p.f` is declared twice (first at line 1)")
        self.errors("domain p { resource a.f {} }", "1:21: error: a nested name is one word, `a.f` is not")
        self.errors("resource a.b { resource c {} }",
                    "1:25: error: `a.b.c` has three words, and a type has at most two")
        many = "domain p {" + "".join(f" resource r{at:02} {{}}" for at in range(13)) + " }"
        type_map, problems = found_in(many, "x.cas")
        self.assertEqual([len(ann.resources) for ann in type_map.types[0].annotations], [13])
        self.assertEqual([str(problem) for problem in problems.found],
                         ["x.cas:1:8: note: the nested resources of `p` are joined to 1 annotation; the lines are the same"])

    def test_extensions(self):
        """Nested extensions of what is made become records; others change the type itself, early."""
        base = "domain p { resource f {} }\ndomain b inherits p { extend f inherits y, x {} }\n"
        text = "domain p\n  nest p.f\nresource p.f\ndomain b : p\n"
        known = "resource x {}\nresource y {}\n"
        names = "resource x\nresource y\n"
        self.reads(base + known, text + names + "extend b f : y x")
        self.reads(base + known + "extend b { extend f inherits x {} extend f inherits y, x {} }",
                   text + names + "extend b f : x y x")
        self.reads(base + known + "extend b.f inherits x {}", text + names + "extend b f : x y x")
        self.reads(base + known + "extend resource p { extend f inherits x {} }",
                   text.replace("p.f\nd", "p.f : x\nd") + names + "extend b f : y x")
        self.reads("domain a {}\n@associate([f])\nextend domain a inherits b, c { resource g {} }\nresource f {}\n"
                   "extend a inherits b, c {}\nextend a inherits b {}\ndomain b {}\ndomain c {}",
                   "domain a : b b c\n  associate f\n  nest a.g\nresource a.g\nresource f\ndomain b\ndomain c",
                   "3:26: warning: `b` twice among the parents, which Cascade refuses")
        self.reads("@makelist @derive(x) @alias(o) @noderive\nextend a {}\ndomain a {}", "domain a",
                   "note: skipped, as no part of a schedule: 4 late annotations of extensions")
        self.reads("domain a { extend f {} }", "domain a",
                   "note: skipped, as no part of a schedule: 1 extension without parents")
        self.reads("@associate([f])\nextend a {}\n@associate([f])\nextend a {}\ndomain a {}\nresource f {}",
                   "domain a\n  associate f\nresource f")
        self.reads("@associate([d.f])\nextend a {}\n@associate([f])\ndomain a {}\nresource f {}\nresource d.f {}",
                   "domain a\n  associate f\nresource f\nresource d.f",
                   "1:1: warning: `a` associates the same words already, so that Cascade drops this")
        self.errors("@associate([d.f])\nextend a {}\n@associate([f])\nextend a {}\ndomain a {}\nresource f {}\n"
                    "resource d.f {}", "3:1: error: another extension of `a` associates the same words in a different "
                                       "way (first at line 1)")
        self.reads("domain a { @associate([d.f]) extend f inherits a {} @associate([f]) extend f inherits a {} }",
                   "domain a\nextend a f : a", "1:37: warning: no line `a.f` is made, so that its extension changes nothing")
        self.errors("@associate([f])\n@associate([f])\nextend a {}\ndomain a {}\nresource f {}",
                    "2:1: error: `@associate` twice, which Cascade refuses")
        self.errors("@makelist\n@makelist\nextend a {}\ndomain a {}",
                    "2:1: error: `@makelist` twice, which Cascade refuses")
        self.assertIn("1:8: warning: `bas` is not declared, so that its extension changes nothing, did you mean `base`",
                      told("extend bas {}\ndomain base {}", "x.cas"))
        self.errors("@inherit([b])\nextend a {}\ndomain a {}",
                    "1:1: error: `@inherit` on an extension can't be read; `inherits` adds parents")

    def test_skipped(self):
        """What no schedule needs is counted."""
        self.reads('''
            fn f(domain a, perm [] b) { allow(a, "}{", [x y]); { } }
            virtual fn g(domain a);
            @associated_call fn h(domain a) {}
            let x = [ a b ];
            allow(a, b, c);
            @hint(y) a.b<c>.d(this, 10.0.0.1, 80-90, ::1);
            module m { domain a; resource b; }
            @alias(n) machine k { module m; }
            collection c { fn read(domain source); }
            domain a {
                this.read(a);
                if (x) { y(); } else { z(); }
                optional { w(); }
                drop this.f();
            }
            ''', "domain a",
                   "note: skipped, as no part of a schedule: 3 functions, 7 statements, 1 module, 1 machine, 1 collection")

    def test_errors(self):
        for policy, want in [
                ("domain {}", "1:8: error: expected a name, found `{`"),
                ("domain -probe {}", "1:8: error: expected a name, found `-`: "
                                     "the bytes of a word are A-Z, a-z, 0-9 and _, and - behind the first"),
                ("domain a.-b {}", "1:9: error: expected `inherits`, `{` or `;`, found `.`: "
                                   "the bytes of a word are A-Z, a-z, 0-9 and _, and - behind the first"),
                ("domain a inherits b, -c {}", "1:22: error: expected a parent, found `-`: "
                                               "the bytes of a word are A-Z, a-z, 0-9 and _, and - behind the first"),
                ("@associate([f -g])\ndomain a {}", "1:15: error: expected a name, found `-`"),
                ("domain größe {}", "1:10: error: expected `inherits`, `{` or `;`, found `öß`: "
                                    "the bytes of a word are A-Z, a-z, 0-9 and _, and - behind the first"),
                ("domain a inherits {}", "1:19: error: expected a parent, found `{`"),
                ("domain a inherits b c {}", "1:21: error: expected `{` or `;`, found `c`"),
                ("domain a inherits b, {}", "1:22: error: expected a parent, found `{`"),
                ("domain a", "1:9: error: expected `inherits`, `{` or `;`, found the end of the file"),
                ("domain a {", "1:10: error: the block `{` is not closed"),
                ("domain a {} }", "1:13: error: `}` closes nothing"),
                ("virtual x;", "1:9: error: expected a declaration after `virtual`, found `x`"),
                ("@(x) domain a {}", "1:2: error: expected the name of an annotation after `@`, found `(`"),
                ("@associate([f] domain a {}", "1:11: error: the bracket `(` is not closed"),
                ("@asociate([f])\ndomain a {}", "1:2: error: `@asociate` is no annotation of a type, "
                                                "did you mean `associate`"),
                ("@associate(f)\ndomain a {}", "1:12: error: `@associate` takes one list of resources in square brackets"),
                ("@associate\ndomain a {}", "1:1: error: `@associate` takes one list of resources in square brackets"),
                ("@associate([\"f\"])\ndomain a {}", "1:13: error: expected a name, found `\"f\"`"),
                ("@associate([a.b.c])\ndomain a {}", "1:13: error: `a.b.c` has more than two words"),
                ("@makelist @makelist\ndomain a {}", "1:11: error: `@makelist` twice, which Cascade refuses"),
                ("@alias(b.c)\ndomain a {}", "1:8: error: an alias is one word, `b.c` is not"),
                ("@alias(\"b\")\ndomain a {}", "1:8: error: expected a name, found `\"b\"`"),
                ("@alias([b])\ndomain a {}", "1:8: error: expected a name, found `[`"),
                ("@associate([f], g)\ndomain a {}",
                 "1:12: error: `@associate` takes one list of resources in square brackets"),
                ("@associate([f] [g])\ndomain a {}", "1:14: error: expected a name, found `]`"),
                ("domain a.b.c {}", "1:8: error: `a.b.c` has more than two words"),
                ("domain a inherits b.c.d {}", "1:19: error: `b.c.d` has more than two words"),
                ("/* domain a {}", "1:1: error: the comment `/*` is not closed"),
                ("f(\"x);\ndomain a {}", "1:3: error: the string is not closed on its line"),
                ("allow(a, b)\ndomain a {}", "1:1: error: the statement `allow` is not ended by `;`"),
                ("domain a { allow(a, b) }", "1:12: error: the statement `allow` is not ended by `;`"),
                ("allow(a, b;\ndomain a {}", "1:1: error: the statement `allow` has a bracket that is not closed"),
                ("fn f() { resource x {} }", "1:10: error: `x` is declared where no type can be read"),
                ("optional { domain x inherits y {} }", "1:12: error: `x` is declared where no type can be read"),
                ("fn f {}", "1:6: error: expected `(`, found `{`"),
                ("fn f() x", "1:8: error: expected `{` or `;`, found `x`"),
                ("domain a {}\ndomain a {}", "2:8: error: `a` is declared twice (first at line 1)"),
                ("domain a inherits dosin {}\ndomain dosing {}",
                 "1:19: error: `dosin` is not declared, did you mean `dosing`"),
                ("domain a { domain " + "b" * 32 + " {} }", f"1:19: error: `{'b' * 32}` has 32 bytes, at most 31")]:
            with self.subTest(policy):
                self.assertIn(want, told(policy, "x.cas"))

    def test_many_errors(self):
        """Reading goes on behind an error."""
        self.errors("domain a inherits {}\ndomain b+c {}\n@foo\ndomain d inherits zz {}\ndomain e { x y }",
                    "1:19: error: expected a parent, found `{`",
                    "2:9: error: expected `inherits`, `{` or `;`, found `+`: the bytes of a word are A-Z, a-z, 0-9 and _, "
                    "and - behind the first",
                    "3:2: error: `@foo` is no annotation of a type", "4:19: error: `zz` is not declared",
                    "5:12: error: the statement `x` is not ended by `;`")

    def test_same_sheet(self):
        """Both texts of an example give its sheet, and printing and reading it gives it again."""
        for name in ("pool", "probes"):
            with open(os.path.join(EXAMPLES, name + ".sheet"), "rb") as source:
                sheet = source.read()
            for ending in ("txt", "cas"):
                self.assertEqual(command("tools/sheet", "-q", "--strict", f"examples/{name}.{ending}"), (0, sheet, ""))
            status, text, error = command("tools/sheet", "--decode", "--cascade", f"examples/{name}.sheet")
            self.assertEqual((status, error), (0, ""))
            self.assertEqual(command("tools/sheet", "--cascade", given=text), (0, sheet, ""))
            status, text, error = command("tools/sheet", "--decode", f"examples/{name}.sheet")
            self.assertEqual(command("tools/sheet", given=text), (0, sheet, ""))


def sayable(rng, given):
    """The map changed so that Cascade's syntax can mostly say it."""
    names, more = {record.name for record in given.types}, []
    for record in given.types:
        record.is_virtual = record.is_virtual or record.is_trait
        kept = []
        for ann in record.annotations:
            if ann.kind != NEST_ASSOCIATE:
                kept.append(ann)
            for word, _ in ann.resources if ann.kind == NEST_ASSOCIATE and len(record.name) == 1 else ():
                nested = (record.name[0], word)
                if nested not in names:
                    names.add(nested)
                    more.append(TypeRecord(nested, 1, rng.random() < 0.5))
                if Annotation(NEST_ASSOCIATE, [(word, record.name[0])]) not in kept:
                    kept.append(Annotation(NEST_ASSOCIATE, [(word, record.name[0])]))
        record.annotations = kept
        if rng.random() < 0.7:
            record.marks = [None if ann.kind == MAKE_LIST else ann.tag for ann in kept if ann.kind in (MAKE_LIST, DERIVE)]
    given.types += more
    return given


def without_order(given):
    """The records of a map, their order and that of annotations aside."""
    for record in given.types:
        record.annotations.sort(key=lambda ann: (ann.kind, str(ann.equal_part())))
    return (sorted(given.types, key=lambda record: record.name),
            sorted(given.extensions, key=lambda extension: (extension.name, extension.word)))


class CascadeText(unittest.TestCase):
    """Maps printed in Cascade's syntax."""

    def test_random_maps(self):
        """What is said gives the same answer when read again; without a warning, the same records."""
        met = set()
        for seed in range(1500):
            rng = random.Random(seed)
            given = drawn.random_map(rng, rng.choice([4, 8, 12]), rng.choice([0, 0.02, 0.1]))
            given = hyphens.respelled(rng, given) if seed % 3 == 0 else given
            if rng.random() < 0.8:
                given = sayable(rng, given)
            problems, again = Problems(), Problems()
            text = cascade_text.to_cascade(given, problems)
            if problems.of("error"):
                met.add("unsayable")
                continue
            read = cascade_map.read_policies([("x.cas", text)], again)
            self.assertEqual(again.of("error"), [], seed)
            before, after = (printed(sheetlib.encode(some)) for some in (given, read))
            if before[:1] in (["refused 8"], ["refused 9"]):
                before, after = sorted(set(before)), sorted(set(after))  # rows follow the listing
            self.assertEqual(before, after, seed)
            if not problems.of("warning"):
                self.assertEqual(without_order(given), without_order(read), seed)
            met.add(("warned" if problems.of("warning") else "same", before[-1].split(" ")[0] if before else ""))
        self.assertTrue(met >= {"unsayable", ("same", "E"), ("warned", "E")}, met)

    def says(self, text, want, *remarks):
        problems = Problems()
        out = cascade_text.to_cascade(sheetlib.parse_text(text), problems)
        self.assertEqual([str(problem) for problem in problems.found], list(remarks))
        if want is not None:
            self.assertEqual(out.strip(), want)

    def test_forms(self):
        self.says("domain a virtual trait : b\n  associate f d.f2\n  alias o\n  noderive\n  inherit x\ndomain b",
                  "@associate([f d.f2])\n@alias(o)\n@noderive\n@inherit([x])\ntrait domain a inherits b {}\n\ndomain b {}")
        self.says("domain p\n  nest p.f\nresource p.f virtual\n  makelist\n  derive 7\n  mark makelist\n  mark derive 7\n"
                  "extend p g : p p.f", "domain p {\n    @makelist\n    @derive(tag=7)\n    virtual resource f {}\n}\n\n"
                  "extend p {\n    extend g inherits p, p.f {}\n}")
        self.says("resource f : resource\nresource resource", "resource f inherits resource {}")

    def test_warnings(self):
        self.says("resource f\n  mark makelist", "@makelist\nresource f {}",
                  "warning: `f` has the mark of `@makelist` alone, and gets the annotation too")
        self.says("resource f\n  makelist", "resource f {}",
                  "warning: `f` has `@makelist` without its mark, it is left out")
        self.says("resource a.b", "resource a.b {}", "warning: `a.b` is declared at the top by a dotted name, "
                                                     "which was not tried with Cascade")
        self.says("resource resource", "resource resource {}",
                  "warning: `resource` is declared, which Cascade has built in and refuses")
        self.says("words zz\ndomain a", "domain a {}", "warning: words that no record uses are left out: zz")
        self.says("domain a\n  associate", "domain a {}", "warning: `a` has an Associate without words, it is left out")
        self.says("domain a\nresource a.f\n  mark makelist\n  makelist\nextend a f : a", None,
                  "warning: `a.f` is declared at the top by a dotted name, which was not tried with Cascade",
                  "warning: the extension of `a.f`, which is a declared type, is left out")
        self.says("domain a : resource\nresource resource", "domain a inherits resource {}",
                  "warning: `a` has the variant domain, and Cascade finds resource")

    def test_unsayable(self):
        for text, error in [("domain a trait", "`a` is a trait and not virtual"),
                            ("domain p\n  nest f\nresource f",
                             "`p` nests `f`, and only declared types of its own nest in a type"),
                            ("domain p\n  nest p.f", "`p` nests `p.f`, and only declared types of its own nest in a type"),
                            ("resource f\n  mark makelist\n  mark makelist\n  makelist",
                             "`f` has the mark makelist more than once"),
                            ("resource f : resource", "`resource` is used and not declared, and Cascade has it built in"),
                            ("domain a : resource\nresource resource\ndomain b\n  associate a",
                             "`a` has the variant domain, and Cascade finds resource")]:
            self.says(text, None, f"error: Cascade's syntax can't say it: {error}")
        status, out, error = command("tools/sheet", "--decode", "--cascade", given=sheetlib.sheet_of("domain a trait"))
        self.assertEqual((status, out), (1, b""))
        self.assertEqual(error.splitlines()[0], "standard input: error: Cascade's syntax can't say it: `a` is a trait and not virtual")

    def test_worked_example(self):
        """01's example has a mark without its annotation: another sheet, the same schedule."""
        text = command("tools/sheet", "--decode", "--cascade", "examples/base.sheet")[1]
        with open(os.path.join(EXAMPLES, "base.sheet"), "rb") as source:
            self.assertEqual(printed(command("tools/sheet", "--cascade", given=text)[1]), printed(source.read()))


if __name__ == "__main__":
    unittest.main()
