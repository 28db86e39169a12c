#!/usr/bin/env python3
"""Tests of bin/explain and of its page, which a real browser opens where one is at hand.

Run: python3 tools/test_explain.py
"""

import json
import os
import random
import re
import shutil
import subprocess
import sys
import unittest
import xml.etree.ElementTree

sys.path.insert(0, os.path.dirname(os.path.abspath(__file__)))

import browser
import explain
import explain_dot
import explain_layout
import explain_page
import map_lines
import model
import sheetlib
from maps import drawn, hyphens, large
from testing import BUILT, EXAMPLES, NOT_BUILT, ROOT, InFolder, command, found_in, printed


def printed_bytes(sheet):
    """What the schedule program prints, by the model."""
    return "".join(line + "\n" for line in printed(sheet)).encode()


class Options:
    """Options of bin/explain, as they are without any."""
    cascade, dot, html, lines, rows = False, False, None, None, None

    def __init__(self, *files):
        self.files = files


class Explain(InFolder):
    """bin/explain."""

    def explained(self, text, name="x.txt"):
        """The explanation of a text, its lines by the model."""
        folder = os.getcwd()
        self.path(name, text)
        os.chdir(self.folder)
        try:
            return explain.Explained(name, Options(name), printed_bytes)
        finally:
            os.chdir(folder)

    def told(self, text, name="x.txt"):
        return self.explained(text, name).text().splitlines()

    def test_own(self):
        text = "resource f virtual\n  mark makelist\n  mark derive 3\ndomain a virtual\n  associate f\nextend a f : f\n"
        self.assertEqual(self.told(text), [
            "T a <- round 0, no parents (x.txt:4)", "T f <- round 0, no parents (x.txt:1)",
            "R a.f 1 f,resource,f makelist,derive:3 <- a associates f (x.txt:5)",
            "    parent f <- the class", "    parent resource <- every resource made has it",
            "    parent f <- extend a f (x.txt:6)", "    class f <- virtual resource (x.txt:1)",
            "    mark makelist <- class f (x.txt:2)", "    mark derive:3 <- class f (x.txt:3)",
            "    virtual 1 <- the type and all its classes are",
            "E a 10 f <- a associates f (x.txt:5)", "    virtual 1, trait 0 <- a (x.txt:4)"])

    def test_inherited(self):
        text = ("resource f\nresource d.f\ndomain a\n  associate f\ndomain c\n  nest d.f\ndomain b : a\n"
                "domain t : b c\n")
        lines = self.told(text)
        at = lines.index("R t.f 0 b.f,c.f,resource - <- a associates f (x.txt:4); c nests d.f (x.txt:6)")
        self.assertEqual(lines[at + 1:at + 9], [
            "    ancestor a <- t inherits b, b inherits a",
            "    parent b.f <- t inherits b (x.txt:8)", "    parent c.f <- t inherits c (x.txt:8)",
            "    parent resource <- every resource made has it",
            "    class f <- resource (x.txt:1)", "    class d.f <- resource (x.txt:2)",
            "    virtual 0 <- t is not (x.txt:8)",
            "E t 00 f <- a associates f (x.txt:4); c nests d.f (x.txt:6)"])
        self.assertIn("T t <- round 2, under b of round 1 (x.txt:8)", lines)

    def test_refusals(self):
        for text, want in [
                ("domain a : b\ndomain b : a", [
                    "refused 8 <- the types have no order",
                    "D 2 b a - <- b inherits a (x.txt:2); a cycle: `a` inherits `b`, `b` inherits `a`",
                    "D 2 a b - <- a inherits b (x.txt:1); a cycle: `b` inherits `a`, `a` inherits `b`"]),
                ("domain dosing\ndomain a : dosin", [
                    "refused 8 <- the types have no order",
                    "D 3 a dosin - <- a inherits dosin (x.txt:2); `dosin` is not declared, did you mean `dosing`"]),
                ("domain a : self\ndomain c", ["refused 8 <- the types have no order",
                                               "D 1 a self - <- a inherits self (x.txt:1), which no type does"]),
                ("domain a : self", ["refused 8 <- the types have no order",
                                     "D 1 a self - <- a inherits self (x.txt:1), which no type does"]),
                ("domain a\n  associate zz\ndomain b : a\n", [
                    "refused 9 <- what a type associates cannot be made",
                    "D 4 a zz zz <- a associates zz (x.txt:2); `zz` is not declared",
                    "D 4 b zz zz <- a associates zz (x.txt:2); `zz` is not declared"]),
                ("domain f\ndomain a\n  associate f", [
                    "refused 9 <- what a type associates cannot be made",
                    "D 5 a f f <- a associates f (x.txt:3); `f` is a domain, no resource (x.txt:1)"]),
                ("resource f\nresource a.f\ndomain a\n  associate f", [
                    "refused 9 <- what a type associates cannot be made",
                    "D 6 a - f <- a associates f (x.txt:4); `a.f` is declared (x.txt:2)"]),
                ("resource f\nresource g\ndomain a\n  associate f\n  associate f g", [
                    "refused 9 <- what a type associates cannot be made",
                    "D 6 a - f <- a associates f (x.txt:4); a associates f (x.txt:5); two lines `a.f` would be the same"]),
                ("domain a :" + " a" * 9, ["refused 4 <- a value that is not allowed; x.txt:1:28: 9 parents, at most 8"]),
                ("domain a\ndomain a", ["refused 6 <- something stands twice; "
                                        "x.txt:2:8: `a` is declared twice (first at line 1)"])]:
            with self.subTest(text):
                self.assertEqual(self.told(text), want)

    def test_row_without_refusal(self):
        """A row for a type that is not refused itself, since its parent passed nothing on."""
        text = ("resource f\nresource g\nresource p.f\nresource q.g\ndomain p\n  nest f\n"
                "domain q\n  nest f\n  associate g\ndomain a : p q\n  associate p.f\n")
        self.assertIn("two lines `a.f` are the same without what a refused parent passes on", self.told(text)[2])

    def test_row_limit(self):
        """Each row has a reason, and `more` says how many are written, under any limit."""
        sheet = sheetlib.encode(large.rows_of_eight(70))
        for rows in (1, 64, 69, 70, 256):
            path = self.path("lines", "".join(line + "\n" for line in printed(sheet, rows)))
            status, out, error = command("bin/explain", "--lines", path, self.path("a.sheet", sheet))
            lines = [line for line in out.decode().splitlines() if line.startswith(("D ", "more"))]
            self.assertEqual((status, error, len(lines)), (1, "", min(rows, 70) + (rows < 70)))
            self.assertTrue(all(line.startswith("D 1 t") and " <- " in line for line in lines[:min(rows, 70)]))
            self.assertEqual(lines[70:] if rows >= 70 else lines[-1:],
                             [] if rows >= 70 else [f"more <- more rows than the {rows} written"])
            if BUILT:
                self.assertEqual(command("bin/explain", "--rows", str(rows), self.path("a.sheet"))[1], out)
                self.assertEqual(command("bin/explain", self.path("a.sheet"))[1] == out, rows == model.SHOWN_ROWS)

    def test_random_maps(self):
        """Every line and every row has a reason."""
        for seed in range(700):
            rng = random.Random(seed)
            given = drawn.random_map(rng, rng.choice([4, 8, 12]), rng.choice([0, 0.02, 0.1, 0.3]))
            given = hyphens.respelled(rng, given) if seed % 3 == 0 else given
            explained = self.explained(sheetlib.to_text(given))
            self.assertEqual([why.line for why in explained.whys], printed(sheetlib.encode(given)), seed)
            self.assertTrue(all(why.because for why in explained.whys), seed)
            self.assertIn("</html>", explain_page.page(explained))
            self.assertIn("digraph", explain_dot.graph(explained))

    def test_sources(self):
        """A text, a policy and a sheet; the lines are the same, the places each its own."""
        policy = "@associate([f])\ndomain a {}\nresource f {}\n"
        sheet = sheetlib.encode(found_in(policy, "x.cas")[0])
        self.assertIn("R a.f 0 f,resource - <- a associates f (x.cas:1)", self.told(policy, "x.cas"))
        self.assertIn("R a.f 0 f,resource - <- a associates f (line 2 of its text)", self.told(sheet, "x.sheet"))
        self.assertIn("R a.f 0 f,resource - <- a associates f (line 2 of its text)", self.told(sheet, "unnamed"))

    def test_graph(self):
        graph = explain_dot.graph(self.explained("domain a\ndomain b virtual : a\n  associate f\nresource f"))
        for part in ['"b" -> "a";', '{ rank=same; "round 0" [shape=plaintext]; "a"; "f"; }',
                     '"b" [label="b\\nassociates f", shape=box, style="dashed"];', '"f" [label="f", shape=ellipse];']:
            self.assertIn(part, graph)
        bad = explain_dot.graph(self.explained("domain a : b\ndomain b : a"))
        self.assertIn('"a" -> "b" [color=red];', bad)
        if shutil.which("dot"):
            done = subprocess.run(["dot", "-Tsvg"], input=graph.encode(), capture_output=True, check=False)
            self.assertEqual((done.returncode, done.stderr), (0, b""))

    def test_page(self):
        """The page is one file, well formed, with all lines; nothing in it is fetched."""
        explained = self.explained("# </script><b> & é\nresource f\ndomain a\n  associate f\n")
        page = explain_page.page(explained)
        self.assertNotRegex(page, r"https?://(?!www\.w3\.org/2000/svg)")
        self.assertNotRegex(page, r"<(link|img|iframe)|src=|@import|url\(")
        self.assertIn("# &lt;/script&gt;&lt;b&gt; &amp; é", page)
        data = json.loads(re.search(r'id="data">(.*?)</script>', page, re.S)[1])
        self.assertEqual([line["line"] for line in data["lines"]], [why.line for why in explained.whys])
        picture = xml.etree.ElementTree.fromstring(re.search(r"<svg.*?</svg>", page, re.S)[0])
        self.assertEqual(len(picture.findall("{http://www.w3.org/2000/svg}g")), 2)

    def test_layout(self):
        """No two types of a row overlap, and rounds go downwards."""
        for seed in range(60):
            given = drawn.random_map(random.Random(seed), 12, 0.1)
            layout = explain_layout.Layout(map_lines.MapView(given))
            for row in layout.rows:
                for one, other in zip(row, row[1:]):
                    self.assertLessEqual(one.x + one.width / 2, other.x - other.width / 2 + 0.01, seed)

    def test_trouble(self):
        for args, error in [([], "which map?"), (["none.txt"], "none.txt: no such file or directory"), ([ROOT], "is a directory"),
                            (["--dot", "--html", "x", "a"], "not allowed with"), (["--bogus"], "unrecognized"),
                            (["--dot", "a", "b"], "take one map"), (["-", "-"], "standard input"),
                            (["--rows", "0", "a"], "--rows 0: the limit is 1 to 256 rows"),
                            (["--rows", "257", "a"], "--rows 257: the limit is 1 to 256 rows"),
                            (["--rows", "x", "a"], "argument --rows: invalid int value: 'x'"),
                            (["--rows", "1", "--lines", "a", "b"], "--rows does nothing with --lines"),
                            (["--lines", "none", "examples/base.txt"], "none: no such file or directory")]:
            status, out, told_text = command("bin/explain", *args)
            self.assertEqual((status, out), (2, b""), args)
            self.assertRegex(told_text, r"\Aexplain: [^\n]*\n\Z")
            self.assertIn(error, told_text)
        self.assertEqual(command("bin/explain", "--help")[0], 0)
        status, out, error = command("bin/explain", "-", given=b"foo")
        self.assertEqual((status, out), (1, b""))
        self.assertEqual(error, "standard input:1:1: error: `foo` begins no line of a type map\n"
                                "explain: standard input: the text makes no sheet\n")
        explained = self.explained("domain @0")  # a good sheet, from a text that is for damaged ones
        self.assertEqual((explained.whys, explained.view), ([], None))

    def test_lines(self):
        """Lines that were printed elsewhere; lines of another map are found out."""
        path = self.path("lines", printed_bytes(sheetlib.sheet_of("domain a")))
        self.assertEqual(command("bin/explain", "--lines", path, "-", given=b"domain a")[:2],
                         (0, (explain.HEAD + "\nT a <- round 0, no parents (standard input:1)\n").encode()))
        status, _, error = command("bin/explain", "--lines", path, "-", given=b"domain b")
        self.assertEqual((status, error), (2, "explain: standard input: no reason found for the line `T a`; "
                                              "the lines are not those of this map\n"))

    @unittest.skipUnless(BUILT, NOT_BUILT)
    def test_program(self):
        """With the proved program: the stored answer, statuses, several maps, a link."""
        status, out, error = command("bin/explain", "examples/pool.txt")
        with open(os.path.join(EXAMPLES, "pool.why.txt"), "rb") as source:
            self.assertEqual((status, out, error), (0, source.read(), ""))
        self.assertEqual(command("bin/explain", "examples/refusals/8-cycle.txt")[0], 1)
        status, out, _ = command("bin/explain", "examples/base.txt", "examples/refusals/8-self.txt", "none")
        self.assertEqual(status, 2)
        self.assertEqual([line for line in out.decode().splitlines() if line.startswith(("==", "#"))],
                         [explain.HEAD, "== examples/base.txt", "== examples/refusals/8-self.txt"])
        link = os.path.join(self.folder, "why")
        os.symlink(os.path.join(ROOT, "bin", "explain"), link)
        done = subprocess.run([link, os.path.join(EXAMPLES, "base.sheet")], capture_output=True, check=False, cwd="/")
        self.assertEqual((done.returncode, done.stderr), (0, b""))
        self.assertIn(b"R base.file 0 file,resource makelist <- base associates file", done.stdout)
        page = os.path.join(self.folder, "page.html")
        self.assertEqual(command("bin/explain", "--html", page, "examples/pool.cas"), (0, b"", ""))
        self.assertTrue(os.path.exists(page))

    @unittest.skipUnless(BUILT, NOT_BUILT)
    def test_listing(self):
        out = command("bin/explain", "examples/refusals/10-long.txt")[1].decode().splitlines()
        self.assertEqual(out[1:], ["refused 10 <- 8,192 lines in 76,331 bytes, and the program lends a listing of 65,536"])
        with open(os.path.join(EXAMPLES, "refusals", "10-long.txt"), encoding="utf-8") as source:
            sheet = sheetlib.sheet_of(source.read())
        self.assertEqual(model.schedule(sheet, b"", bytes(1536)).size, 76331)


@unittest.skipUnless(browser.find(), "no Chromium is at hand")
class Page(InFolder):
    """The page in a real browser."""

    def page(self, name):
        """The page of an example, with the stored lines."""
        lines = os.path.join(self.folder, "lines")
        with open(os.path.join(EXAMPLES, name), "rb") as source:
            sheet = sheetlib.encode(found_in(source.read().decode(), name, True)[0])
        with open(lines, "wb") as out:
            out.write(printed_bytes(sheet))
        path = os.path.join(self.folder, "page.html")
        status, _, error = command("bin/explain", "--html", path, "--lines", lines, f"examples/{name}")
        self.assertIn((status, error), ((0, ""), (1, "")))
        return "file://" + path

    def test_clicks(self):
        with browser.Browser(browser.find()) as page:
            address = self.page("pool.txt")
            page.open(address)
            self.assertEqual(page.value("document.querySelector('#answer').innerText"),
                             "Accepted: 27 types, 60 synthesized resources, 60 extension lines.")
            self.assertEqual(page.value("document.querySelectorAll('svg .type').length"), 27)
            self.assertEqual(page.value("document.querySelectorAll('button.line').length"), 147)
            number = page.value("[...document.querySelectorAll('button.line')].findIndex("
                                "(found) => found.textContent.startsWith('R acid_pump.log'))")
            page.click(f"#line-{number}")
            reason = page.value("document.querySelector('#reason').innerText")
            for part in ["alarmed associates log (examples/pool.txt:30)", "daemon associates log (examples/pool.txt:23)",
                         "ancestor daemon <- acid_pump inherits dosing", "mark makelist <- class log"]:
                self.assertIn(part, reason)
            self.assertEqual(page.value("[...document.querySelectorAll('svg .lit[data-type]')].map("
                                        "(found) => found.dataset.type).sort()"), ["alarmed", "daemon", "device", "dosing"])
            self.assertEqual(page.value("document.querySelector('svg .chosen').dataset.type"), "acid_pump")
            self.assertIn("source-23", page.value("[...document.querySelectorAll('.source.lit')].map((found) => found.id)"))
            page.click("svg [data-type=regulator]")
            self.assertIn("associates state", page.value("document.querySelector('#reason').innerText"))
            self.assertEqual(page.value("location.hash"), "#type-regulator")
            page.value("document.querySelector('#filter').value = 'setpoint', "
                       "document.querySelector('#filter').dispatchEvent(new Event('input'))")
            self.assertEqual(page.value("document.querySelector('#shown').innerText"), "8 shown")
            self.assertEqual(page.faults(), [])
            self.assertEqual([url for url in page.requests() if not url.startswith(address)], [])

    def test_refused(self):
        with browser.Browser(browser.find()) as page:
            page.open(self.page("refusals/8-cycle.txt") + "#line-1")
            self.assertTrue(page.value("document.querySelector('#answer').innerText").startswith("refused 8"))
            self.assertEqual(page.value("document.querySelectorAll('svg .edge.bad').length"), 3)
            self.assertIn("a cycle", page.value("document.querySelector('#reason').innerText"))
            self.assertEqual(page.faults(), [])


if __name__ == "__main__":
    unittest.main()
