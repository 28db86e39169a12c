#!/usr/bin/env python3
"""Tests of bin/schedule, bin/order, bin/show and bin/compare as people run them. Run: python3 tools/test_programs.py

Those that ask the proved programs are skipped where these are not built, those that ask for packed bytes
where the library is not. How the programs build what is missing is tried in a small copy, with a stand-in
for rt.
"""

import itertools
import json
import os
import pty
import random
import shlex
import shutil
import signal
import stat
import subprocess
import sys
import tempfile
import time
import unittest

HERE = os.path.dirname(os.path.abspath(__file__))
ROOT = os.path.dirname(HERE)
sys.path.insert(0, HERE)

import building
import case_texts
import gidzelma
import model
import printed
import proved
import refusals
import schedule_text
import sheetlib
import showing
import side_by_side
from maps import changed, large
from places import Problems

CALLS = ("schedule", "order")
EXAMPLES = os.path.join(ROOT, "examples")
BASE = os.path.join(EXAMPLES, "base.sheet")
BASE_TEXT = b"T base\nT resource\nT file\nR base.file 0 file,resource makelist\nE base 00 file\n"

BUILT = all(building.at_hand(ROOT, building.program(ROOT, call)) for call in CALLS)
SHOWS = BUILT and building.at_hand(ROOT, building.program(ROOT, "show"))
LINKED = (BUILT and building.at_hand(ROOT, building.library(ROOT))
          and any(map(shutil.which, ("cc", "gcc", "clang"))))
NOT_BUILT = "the programs are not built, or older than their sources; run bin/schedule and bin/order once"
NOT_SHOWN = "the program show is not built, or older than its sources; run bin/show -w 2 < /dev/null"
NOT_LINKED = "the library is not built, or older than its sources; run bin/schedule --size examples/base.sheet"
built = unittest.skipUnless(BUILT, NOT_BUILT)
shows = unittest.skipUnless(SHOWS, NOT_SHOWN)
linked = unittest.skipUnless(LINKED, NOT_LINKED)


def run(call, *args, root=ROOT, given=b"", **more):
    """Status, standard output and standard error of a program."""
    more = {"stdout": subprocess.PIPE, "stderr": subprocess.PIPE, **more}
    if "stdin" not in more:
        more["input"] = given
    done = subprocess.run([os.path.join(root, "bin", call), *args], check=False, timeout=120, **more)
    return done.returncode, done.stdout, (done.stderr or b"").decode()


def shell(line, *args, root=ROOT, **more):
    """The same of a line of the shell, in which $schedule, $order and $compare are the programs, $1 the first
    argument."""
    names = "".join(f"{call}={shlex.quote(os.path.join(root, 'bin', call))}; " for call in (*CALLS, "compare"))
    done = subprocess.run(["sh", "-c", names + line, "sh", *args], capture_output=True, check=False,
                          timeout=120, **more)
    return done.returncode, done.stdout, done.stderr.decode()


def shown(call, sheet, rows=model.SHOWN_ROWS):
    """What the program of a call prints under a row limit, by the model."""
    answer = getattr(model, call)(sheet, bytes(65536), bytes(6 * rows), rows)
    return "".join(line + "\n" for line in model.printed(sheet, answer, call == "schedule")).encode()


def listed_sheets():
    """The sheets of the listed cases, by name."""
    return {name: case_texts.sheet_in(case)
            for name, case in [*case_texts.DOCUMENT.items(), *case_texts.CORNERS.items()]}


def at_terminal(words, **more):
    """Status of a program whose standard files are a terminal, and what it shows there."""
    ours, theirs = pty.openpty()
    with subprocess.Popen(words, stdin=theirs, stdout=theirs, stderr=theirs, **more) as process:
        os.close(theirs)
        out = b""
        while True:
            try:
                part = os.read(ours, 65536)
            except OSError:
                break
            if not part:
                break
            out += part
    os.close(ours)
    return process.returncode, out.decode().replace("\r\n", "\n")


class Folder(unittest.TestCase):
    """Tests in a folder of their own."""

    def setUp(self):
        above = tempfile.mkdtemp()
        self.addCleanup(shutil.rmtree, above)
        os.chmod(above, 0o755)
        self.folder = os.path.join(above, "a folder")
        os.mkdir(self.folder)

    def path(self, *names):
        """A path in the folder."""
        return os.path.join(self.folder, *names)

    def write(self, name, data):
        """A file in the folder, and the folders above it."""
        path = self.path(name)
        os.makedirs(os.path.dirname(path), exist_ok=True)
        with open(path, "wb") as out:
            out.write(data)
        return path

    def read(self, name):
        """The bytes of a file in the folder."""
        with open(self.path(name), "rb") as source:
            return source.read()

    def trouble(self, done, text, out=b""):
        """Status 2, one line, nothing printed but what is said."""
        self.assertEqual(done, (2, out, text + "\n"))


# --------------------------------------------------------------- answers

@built
class Answers(Folder):
    """What is printed, and the statuses."""

    def test_accepted(self):
        self.assertEqual(run("schedule", BASE), (0, BASE_TEXT, ""))
        self.assertEqual(run("order", BASE), (0, b"T base\nT resource\nT file\n", ""))

    def test_standard_input(self):
        with open(BASE, "rb") as source:
            sheet = source.read()
        for args in ((), ("-",), ("--",), ("--", "-")):
            self.assertEqual(run("schedule", *args, given=sheet), (0, BASE_TEXT, ""), args)
        with open(BASE, "rb") as source:
            self.assertEqual(run("schedule", stdin=source), (0, BASE_TEXT, ""))

    def test_refused(self):
        for text, rows in [("domain a : b\ndomain b : a", b"refused 8\nD 2 b a -\nD 2 a b -\n"),
                           ("domain a : self", b"refused 8\nD 1 a self -\n")]:
            for call in CALLS:
                self.assertEqual(run(call, given=sheetlib.sheet_of(text)), (1, rows, ""))
        self.assertEqual(run("schedule", given=sheetlib.sheet_of("domain a\n associate f")),
                         (1, b"refused 9\nD 4 a f f\n", ""))
        self.assertEqual(run("schedule"), (1, b"refused 3\n", ""))
        self.assertEqual(run("schedule", given=bytes(40961)), (1, b"refused 1\n", ""))

    def test_endless(self):
        """No more is read than shows that the sheet is too long."""
        self.assertEqual(run("schedule", "/dev/zero"), (1, b"refused 1\n", ""))
        self.assertEqual(shell("yes | $schedule"), (1, b"refused 1\n", ""))

    def test_no_types(self):
        self.assertEqual(run("schedule", given=sheetlib.sheet_of("")), (0, b"", ""))

    def test_files(self):
        """Several files: a line before each answer, and the worst status."""
        loop = self.write("loop.sheet", sheetlib.sheet_of("domain a : a"))
        gone = self.path("gone.sheet")
        status, out, error = run("schedule", BASE, loop)
        self.assertEqual((status, error), (1, ""))
        self.assertEqual(out, f"== {BASE}\n".encode() + BASE_TEXT
                         + f"== {loop}\nrefused 8\nD 2 a a -\n".encode())
        status, out, error = run("order", loop, gone, "-", given=sheetlib.sheet_of("domain c"))
        self.assertEqual((status, error), (2, f"order: {gone}: no such file or directory\n"))
        self.assertEqual(out, f"== {loop}\nrefused 8\nD 2 a a -\n== -\nT c\n".encode())
        self.assertEqual(run("schedule", BASE, BASE)[0], 0)

    def test_thousands(self):
        status, out, error = run("schedule", *["base.sheet"] * 3000, cwd=EXAMPLES)
        self.assertEqual((status, error), (0, ""))
        self.assertEqual(out, (b"== base.sheet\n" + BASE_TEXT) * 3000)

    def test_side_by_side(self):
        """Several processes, as xargs starts them; each answer stays whole."""
        names = [self.write(f"{at}.sheet", sheetlib.sheet_of("domain a" + " : a" * (at % 2)))
                 for at in range(60)]
        with open(self.path("answers"), "wb") as out:
            done = subprocess.run(["xargs", "-0", "-P", "4", "-n", "9", os.path.join(ROOT, "bin", "schedule"),
                                   "--json"], input="\0".join(names).encode(), stdout=out, check=False)
        values = [json.loads(line) for line in self.read("answers").splitlines()]
        self.assertEqual(done.returncode, 123)
        self.assertEqual(sorted(value["file"] for value in values), sorted(names))
        self.assertEqual(sum(value["status"] for value in values), 30)

    def test_names(self):
        """Names that look like options, that are no text, that hold a line feed."""
        shutil.copy(BASE, self.path("--json"))
        shutil.copy(BASE, self.path("-x"))
        self.assertEqual(run("schedule", "--", "--json", cwd=self.folder), (0, BASE_TEXT, ""))
        self.assertEqual(run("schedule", "--", "-x", cwd=self.folder), (0, BASE_TEXT, ""))
        self.trouble(run("schedule", "a\nb\x1b", cwd=self.folder),
                     r"schedule: a\nb\x1b: no such file or directory")
        odd = os.path.join(os.fsencode(self.folder), b"\xff.sheet")
        shutil.copy(BASE, odd)
        self.assertEqual(run("schedule", odd, BASE)[1][:len(odd) + 4], b"== " + odd + b"\n")
        value = json.loads(run("schedule", "--json", odd)[1])
        self.assertEqual(os.fsencode(value["file"]), odd)

    def test_places(self):
        """From any folder, by a link, by a link to a link, by the path of the shell."""
        os.symlink(os.path.join(ROOT, "bin", "schedule"), self.path("one"))
        os.symlink("one", self.path("two"))
        for name in ("one", "two"):
            done = subprocess.run([self.path(name), BASE], cwd="/", capture_output=True, check=False)
            self.assertEqual((done.returncode, done.stdout, done.stderr), (0, BASE_TEXT, b""))
        path = os.path.join(ROOT, "bin") + os.pathsep + os.environ["PATH"]
        self.assertEqual(run("schedule", "base.sheet", cwd=EXAMPLES), (0, BASE_TEXT, ""))
        done = subprocess.run(["order", "base.sheet"], cwd=EXAMPLES, capture_output=True, check=False,
                              env={**os.environ, "PATH": path})
        self.assertEqual((done.returncode, done.stderr), (0, b""))

    def test_cases(self):
        """Each listed case, through a process for each sheet and through one for all, as the model has it; under the
        limit of the programs, the least and the largest."""
        for call, rows in itertools.product(CALLS, (model.SHOWN_ROWS, 1, model.MOST_ROWS)):
            each = proved.Each(building.program(ROOT, call).path, str(rows))
            batch = building.program(ROOT, "batch")
            many = proved.Many(batch.path, call, each, rows) if building.at_hand(ROOT, batch) else each
            for sheet in listed_sheets().values():
                text = shown(call, sheet, rows)
                self.assertEqual(each.text(sheet), text)
                self.assertEqual(many.text(sheet), text)
                self.assertEqual(printed.refused(text), getattr(model, call)(sheet, bytes(65536), bytes(1536)).number != 0)
            if many is not each:
                many.process.stdin.close()
                many.process.stdout.close()
                self.assertEqual(many.process.wait(), 0)


@built
class RowLimits(Folder):
    """--rows N: as many rows as the limit, one less, one more, of 8 and of 9."""

    LIMITS = (1, 2, 63, 64, 65, 255, 256)

    def sheets(self, limit):
        """Sheets with about so many rows, each with its call."""
        for beside in (-1, 0, 1):
            for make, calls in ((large.rows_of_eight, CALLS), (large.rows_of_nine, ("schedule",))):
                sheet = sheetlib.encode(make(limit + beside))
                yield from ((call, sheet) for call in calls)

    def test_printed(self):
        for limit in self.LIMITS:
            for call, sheet in self.sheets(limit):
                text = shown(call, sheet, limit)
                status = int(text.startswith(b"refused"))
                self.assertEqual(run(call, "--rows", str(limit), given=sheet), (status, text, ""), limit)
                self.assertEqual(run(call, given=sheet)[1], shown(call, sheet), limit)

    def test_several(self):
        """Through one process for all: the same bytes."""
        for limit in self.LIMITS:
            for call in CALLS:
                sheets = [sheet for own, sheet in self.sheets(limit) if own == call]
                names = [self.write(f"{at}.sheet", sheet) for at, sheet in enumerate(sheets)]
                want = b"".join(f"== {name}\n".encode() + shown(call, sheet, limit) for name, sheet in zip(names, sheets))
                self.assertEqual(run(call, "--rows", str(limit), *names)[1:], (want, ""))

    def test_json(self):
        for limit in self.LIMITS:
            for call, sheet in self.sheets(limit):
                value = json.loads(run(call, "--json", "--rows", str(limit), given=sheet)[1])
                self.assertEqual("".join(line + "\n" for line in printed_lines(value)).encode(), shown(call, sheet, limit))

    def test_compare(self):
        """The rows of a sheet that is refused, in the columns and in the object."""
        many = self.write("many", sheetlib.encode(large.rows_of_nine(70)))
        good = self.write("good", sheetlib.sheet_of("domain a"))
        for args, rows, more in ((), 64, True), (("--rows", "69"), 69, True), (("--rows", "70"), 70, False):
            status, out, _ = run("compare", *args, many, good)
            self.assertEqual((status, out.count(b"\nD 4 "), b"\nmore" in out), (1, rows, more))
            value = json.loads(run("compare", "--json", *args, many, good)[1])
            self.assertEqual((len(value["refusals"][0]["rows"]), value["refusals"][0]["more"]), (rows, more))

    @linked
    def test_packed(self):
        """With packed bytes too a refusal is printed under the limit."""
        sheet = self.write("a.sheet", sheetlib.encode(large.rows_of_nine(70)))
        for limit in (1, 70):
            text = shown("schedule", sheetlib.encode(large.rows_of_nine(70)), limit)
            for args in (["--size"], ["--packed", self.path("out")]):
                self.assertEqual(run("schedule", *args, "--rows", str(limit), sheet), (1, text, ""))

    def ask(self, call, *arguments, given=b""):
        """Status, standard output and standard error of the proved program itself."""
        done = subprocess.run([building.program(ROOT, call).path, *arguments], input=given, capture_output=True, check=False)
        return done.returncode, done.stdout, done.stderr.decode()

    def test_argument(self):
        """The proved programs take the limit as their argument, and hand it to the call as it is."""
        sheet, long = sheetlib.encode(large.rows_of_eight(70)), bytes(40961)
        for call in CALLS:
            self.assertEqual(self.ask(call, given=sheet), (0, shown(call, sheet), ""))
            for rows in (1, 64, 69, 70, 256):
                self.assertEqual(self.ask(call, str(rows), given=sheet), (0, shown(call, sheet, rows), ""))
            for rows in ("0", "257", "65600", "4294967295", "4294967360", str((1 << 64) - 1)):
                self.assertEqual(self.ask(call, rows, given=sheet), (0, b"refused 17\n", ""), rows)
                self.assertEqual(self.ask(call, rows, given=long), (0, b"refused 1\n", ""), rows)
            for arguments in ([""], ["x"], ["1.5"], ["-1"], ["0x40"], ["1 "], [str(1 << 64)], ["1", "2"]):
                said = f"{call}: the argument is no limit of rows\n"
                self.assertEqual(self.ask(call, *arguments, given=sheet), (2, b"", said), arguments)


@built
class Troubles(Folder):
    """What cannot be read or written."""

    def test_no_file(self):
        self.trouble(run("schedule", "gone.sheet"), "schedule: gone.sheet: no such file or directory")
        self.trouble(run("order", ""), "order: '': no such file or directory")
        self.trouble(run("order", "base.sheet/x", cwd=EXAMPLES), "order: base.sheet/x: not a directory")

    def test_folder(self):
        os.mkdir(self.path("pool.sheet"))
        self.trouble(run("schedule", "pool.sheet", cwd=self.folder), "schedule: pool.sheet: is a directory")
        self.trouble(shell("exec $order < .", cwd=self.folder), "order: standard input: is a directory")

    def test_unreadable(self):
        self.trouble(run("schedule", "/proc/self/mem"), "schedule: /proc/self/mem: input/output error")
        path = self.write("a.sheet", b"")
        os.chmod(path, 0)
        nobody = {"env": {"PATH": "/usr/bin:/bin"}}
        if os.getuid() == 0:
            nobody.update(user=65534, group=65534, extra_groups=[])
        try:
            subprocess.run(["python3", "-c", f"open({os.path.join(HERE, 'program.py')!r})"], check=True,
                           stderr=subprocess.DEVNULL, **nobody)
        except (OSError, subprocess.CalledProcessError):
            self.skipTest("another user cannot be taken on, or cannot read the repository or run python3")
        self.trouble(run("schedule", path, **nobody), f"schedule: {path}: permission denied")

    def test_closed_input(self):
        self.trouble(shell("exec $schedule <&-"), "schedule: standard input: is closed")
        self.trouble(shell("exec $order - <&-"), "order: standard input: is closed")
        self.assertEqual(shell('exec $schedule "$1" <&-', BASE), (0, BASE_TEXT, ""))

    def test_full(self):
        for args in ((BASE,), ("--json", BASE), ("--help",), ("--version",), (BASE, BASE)):
            done = shell('exec $schedule "$@" > /dev/full', *args)
            self.trouble(done, "schedule: standard output: no space left on device")

    def test_closed_output(self):
        for args in ((BASE,), ("--json", BASE), ("--help",)):
            done = shell('exec $schedule "$@" >&-', *args)
            self.trouble(done, "schedule: standard output: is closed")
        self.assertEqual(shell('exec $schedule "$1" 2>&-', BASE), (0, BASE_TEXT, ""))
        self.assertEqual(shell("exec $schedule gone 2>&-"), (2, b"", ""))

    def test_closed_all(self):
        """No file that is opened takes the place of a closed one."""
        for line in ('$schedule "$1" <&- >&- 2>&-', '$schedule "$1" <&- >&-'):
            sheet = self.write("a.sheet", sheetlib.sheet_of("domain a"))
            self.assertEqual(shell(line, sheet)[:2], (2, b""))
            self.assertEqual(self.read("a.sheet"), sheetlib.sheet_of("domain a"))

    def test_broken_pipe(self):
        """Nobody reads: an end without a word, as of other programs."""
        ours, theirs = os.pipe()
        os.close(ours)
        status, _, error = run("schedule", BASE, stdout=theirs)
        os.close(theirs)
        self.assertEqual((status, error), (-signal.SIGPIPE, ""))

    def test_empty_pipe(self):
        self.assertEqual(shell(": | $schedule"), (1, b"refused 3\n", ""))


# ------------------------------------------------------ words, JSON, bytes

class Tables(unittest.TestCase):
    """The table of numbers and kinds."""

    def test_complete(self):
        self.assertEqual(list(refusals.OF_SHEETS), [*range(1, 11), 17])
        self.assertEqual(list(refusals.REFUSALS), [*range(1, 13), *range(14, 18)])
        self.assertEqual(list(refusals.KINDS), list(range(1, 7)))

    def test_limits(self):
        for number, limit in ((1, model.SHEET_LIMIT), (10, model.LISTING_SIZE), (17, model.MOST_ROWS)):
            self.assertIn(f"{limit:,}", refusals.meaning_of(number))
        self.assertEqual((refusals.MOST_ROWS, refusals.SHOWN_ROWS), (model.MOST_ROWS, model.SHOWN_ROWS))
        self.assertEqual(refusals.more_than(64), "there are more rows than the 64 listed; --rows lists up to 256")
        self.assertEqual(refusals.more_than(256), "there are more rows than the 256 listed")
        self.assertTrue(refusals.meaning_of(4).startswith("a value that is not allowed"))

    def test_header(self):
        """The numbers are those of the C header."""
        with open(os.path.join(ROOT, "include", "gidzelma.h"), encoding="utf-8") as source:
            text = source.read()
        for number in refusals.REFUSALS:
            self.assertRegex(text, rf"GIDZELMA_\w+ = {number}\b")

    def test_rows(self):
        said = {(1, "a", "self", None): "inherits self: `a` inherits `self`, which no type may",
                (2, "a", "a", None): "cycle: `a` inherits itself",
                (3, "a", "b.c", None): "undeclared parent: `a` inherits `b.c`, which is not declared",
                (4, "a", "d.f", "f"): "unknown class: `a.f` is of the class `d.f`, which is not declared",
                (5, "a.b", "f", "f"):
                    "class that is no resource: `a.b.f` is of the class `f`, which is no resource",
                (6, "a", None, "f"): "duplicate: `a.f` is there already, declared or made alike",
                (7, "a", None, None): "a kind that the table of rows does not have"}
        for row, words in said.items():
            self.assertEqual(refusals.meaning_of_row(*row), words)


@built
class Words(Folder):
    """--explain, and what a person is told at a terminal."""

    LOOP = ("refused 8: the types have no order\n"
            "D 2 b a -: cycle: `b` inherits `a`, and `a` inherits `b`, itself or through others\n"
            "D 2 a b -: cycle: `a` inherits `b`, and `b` inherits `a`, itself or through others\n")

    def test_explain(self):
        loop = sheetlib.sheet_of("domain a : b\ndomain b : a")
        self.assertEqual(run("schedule", "--explain", given=loop),
                         (1, b"refused 8\nD 2 b a -\nD 2 a b -\n" + self.LOOP.encode(), ""))
        self.assertEqual(run("schedule", "--explain", BASE), (0, BASE_TEXT, ""))
        many = sheetlib.sheet_of(case_texts.rows(8))
        for args, rows in ((), 64), (("--rows", "256"), 256), (("--rows", "1"), 1):
            lines = run("schedule", "--explain", *args, given=many)[1].decode().splitlines()
            self.assertEqual((len(lines), lines[-1]), (2 * (rows + 2), f"more: {refusals.more_than(rows)}"))
        all_of_them = sheetlib.sheet_of(case_texts.rows(7))
        self.assertNotIn(b"more", run("schedule", "--explain", "--rows", "256", given=all_of_them)[1])

    def test_each_number(self):
        """Each refusal that a program can give, in words."""
        for number, sheet in {1: bytes(40961), 3: b"", 4: b"\x20", 7: sheetlib.sheet_of("") + b"\0",
                              5: sheetlib.sheet_of("words! self resource"),
                              6: sheetlib.sheet_of("domain a\ndomain a"),
                              10: sheetlib.encode(large.MAPS["crowd"]())}.items():
            out = run("schedule", "--explain", given=sheet)[1].decode()
            self.assertTrue(out.startswith(f"refused {number}\nrefused {number}: "
                                           f"{refusals.meaning_of(number)}\n"), out)

    def test_text(self):
        """A text where a sheet is asked for."""
        out = run("schedule", "--explain", os.path.join(EXAMPLES, "base.txt"))[1].decode()
        self.assertIn("tools/sheet", out.splitlines()[-1])
        self.assertNotIn("tools/sheet", run("schedule", "--explain", given=b"\x20\x01")[1].decode())

    def test_terminal(self):
        """At a terminal the words follow a refusal; elsewhere nothing is added."""
        path = self.write("loop.sheet", sheetlib.sheet_of("domain a : b\ndomain b : a"))
        words = [os.path.join(ROOT, "bin", "schedule")]
        status, shown = at_terminal(words + [path])
        self.assertEqual((status, shown), (1, "refused 8\nD 2 b a -\nD 2 a b -\n" + self.LOOP))
        self.assertEqual(at_terminal(words + [BASE]), (0, BASE_TEXT.decode()))
        self.assertEqual(run("schedule", path), (1, b"refused 8\nD 2 b a -\nD 2 a b -\n", ""))
        status, shown = at_terminal(words)
        self.assertEqual(status, 2)
        self.assertIn("standard input is a terminal", shown)


def printed_lines(value):
    """What the program prints, from the object of --json."""
    def mark(given):
        return given["mark"] + (f":{given['tag']}" if "tag" in given else "")

    def joined(values):
        return ",".join(values) or "-"

    if "refusal" in value:
        rows = [f"D {row['kind']} {row['subject']} {row['other'] or '-'} {row['word'] or '-'}"
                for row in value["refusal"]["rows"]]
        return [f"refused {value['refusal']['number']}"] + rows + ["more"] * value["refusal"]["more"]
    out = [f"T {name}" for name in value["names"]]
    for item in value.get("items", []):
        if item["item"] == "resource":
            out.append(f"R {item['type']}.{item['word']} {item['virtual']:d} {joined(item['parents'])} "
                       f"{joined(map(mark, item['marks']))}")
        else:
            out.append(f"E {item['type']} {item['virtual']:d}{item['trait']:d} {item['word']}")
    return out


@built
class Json(Folder):
    """--json."""

    def test_accepted(self):
        status, out, error = run("schedule", "--json", "base.sheet", cwd=EXAMPLES)
        self.assertEqual((status, error, out.count(b"\n")), (0, "", 1))
        self.assertEqual(json.loads(out), {
            "file": "base.sheet", "call": "schedule", "status": 0, "names": ["base", "resource", "file"],
            "items": [{"item": "resource", "type": "base", "word": "file", "virtual": False,
                       "parents": ["file", "resource"], "marks": [{"mark": "makelist"}]},
                      {"item": "extension", "type": "base", "word": "file", "virtual": False,
                       "trait": False}]})
        self.assertEqual(json.loads(run("order", "--json", "base.sheet", cwd=EXAMPLES)[1]), {
            "file": "base.sheet", "call": "order", "status": 0, "names": ["base", "resource", "file"]})

    def test_refused(self):
        value = json.loads(run("schedule", "--json", given=sheetlib.sheet_of("domain a\n associate d.f"))[1])
        self.assertEqual(value, {
            "file": "-", "call": "schedule", "status": 1,
            "refusal": {"number": 9, "meaning": "what a type associates cannot be made", "more": False,
                        "rows": [{"kind": 4, "subject": "a", "other": "d.f", "word": "f",
                                  "meaning": "unknown class: `a.f` is of the class `d.f`, which is not "
                                             "declared"}]}})

    def test_trouble(self):
        """Each file has its line, also one that cannot be read."""
        status, out, error = run("schedule", "--json", "gone", BASE)
        values = [json.loads(line) for line in out.splitlines()]
        self.assertEqual((status, error), (2, "schedule: gone: no such file or directory\n"))
        self.assertEqual([value["status"] for value in values], [2, 0])
        self.assertEqual(values[0]["trouble"], "no such file or directory")

    def test_every_field(self):
        """The object of each listed case has all that is printed, and gives it back."""
        names = [self.write(name + ".sheet", sheet) for name, sheet in listed_sheets().items()]
        for call in CALLS:
            text = run(call, *names)[1].decode()
            values = [json.loads(line) for line in run(call, "--json", *names)[1].splitlines()]
            self.assertEqual([value["file"] for value in values], names)
            self.assertEqual([value["status"] for value in values],
                             [int("refusal" in value) for value in values])
            lines = [line for value in values for line in [f"== {value['file']}"] + printed_lines(value)]
            self.assertEqual("".join(line + "\n" for line in lines), text)

    @linked
    def test_size(self):
        value = json.loads(run("schedule", "--json", "--size", BASE)[1])
        self.assertEqual((value["size"], value["W"]), (16, 4))
        self.assertNotIn("size", json.loads(run("schedule", "--json", "--size", given=b"")[1]))
        crowd = sheetlib.encode(large.MAPS["crowd"]())
        status, out, _ = run("schedule", "--json", "--size", given=crowd)
        self.assertEqual((status, json.loads(out)["refusal"]["number"], json.loads(out)["size"]),
                         (1, 10, 239675))


@linked
class Packed(Folder):
    """--packed and --size."""

    def test_bytes(self):
        """The bytes of the listed cases and of the largest schedule are the model's."""
        library = gidzelma.load(building.shared_object(ROOT, self.fail))
        for sheet in [sheetlib.encode(large.MAPS["crowd"]()), *listed_sheets().values()]:
            for call in CALLS:
                answer = getattr(model, call)(sheet, bytes(1 << 18), bytes(1536))
                packed = answer.listing[:answer.size]
                try:
                    self.assertEqual((library.packed(call, sheet), 0), (packed, answer.number))
                except gidzelma.Refused as refused:
                    self.assertEqual((refused.number, b""), (answer.number, packed))

    def test_file(self):
        for call, data in (("schedule", "0600020080008000109014080280001"), ("order", "060002008")):
            place = self.path("out." + call)
            self.assertEqual(run(call, "--packed", place, BASE), (0, b"", ""))
            self.assertEqual(self.read("out." + call), bytes.fromhex(data + "0"))
            self.assertEqual(run(call, "--packed", "-", BASE), (0, bytes.fromhex(data + "0"), ""))
        mask = os.umask(0)
        os.umask(mask)
        self.assertEqual(stat.S_IMODE(os.stat(place).st_mode), 0o666 & ~mask)
        self.assertEqual(sorted(os.listdir(self.folder)), ["out.order", "out.schedule"])

    def test_folder(self):
        shutil.copy(BASE, self.path("pool.a.sheet"))
        shutil.copy(BASE, self.path("b"))
        os.mkdir(self.path("out"))
        done = run("schedule", "--packed", "out", "pool.a.sheet", "b", cwd=self.folder)
        self.assertEqual(done, (0, b"", ""))
        self.assertEqual(sorted(os.listdir(self.path("out"))), ["b.schedule", "pool.a.schedule"])
        done = run("order", "--packed", "out/", "b", cwd=self.folder)
        self.assertEqual((done, os.path.exists(self.path("out", "b.order"))), ((0, b"", ""), True))

    def test_refused(self):
        """A refusal writes no file, and leaves one that is there."""
        loop = self.write("loop.sheet", sheetlib.sheet_of("domain a : a"))
        place = self.path("out")
        said = b"refused 8\nD 2 a a -\n"
        self.assertEqual(run("schedule", "--packed", place, loop), (1, said, ""))
        self.assertFalse(os.path.exists(place))
        self.write("out", b"before")
        self.assertEqual(run("schedule", "--packed", place, loop), (1, said, ""))
        self.assertEqual(self.read("out"), b"before")
        self.assertEqual(run("schedule", "--packed", "-", loop), (1, b"", said.decode()))
        done = run("schedule", "--packed", "-", "--explain", loop)
        self.assertEqual(done[:2], (1, b""))
        self.assertIn("refused 8: the types have no order\n", done[2])

    def test_size(self):
        self.assertEqual(run("schedule", "--size", BASE), (0, b"size 16 W 4\n", ""))
        self.assertEqual(run("order", "--size", BASE), (0, b"size 5 W 4\n", ""))
        self.assertEqual(run("schedule", "--size", given=sheetlib.sheet_of("")), (0, b"size 3 W 2\n", ""))
        crowd = sheetlib.encode(large.MAPS["crowd"]())
        self.assertEqual(run("schedule", given=crowd), (1, b"refused 10\n", ""))
        self.assertEqual(run("schedule", "--size", given=crowd), (0, b"size 239675 W 67\n", ""))
        status, out, _ = run("schedule", "--size", BASE, "-", given=b"")
        self.assertEqual((status, out), (1, f"== {BASE}\nsize 16 W 4\n== -\nrefused 3\n".encode()))
        place = self.path("out")
        self.assertEqual(run("schedule", "--size", "--packed", place, BASE), (0, b"size 16 W 4\n", ""))
        self.assertEqual(len(self.read("out")), 16)

    def test_troubles(self):
        full = "no space left on device"
        self.trouble(run("schedule", "--packed", "/dev/full", BASE), f"schedule: /dev/full: {full}")
        self.trouble(shell('exec $schedule --packed - "$1" > /dev/full', BASE),
                     f"schedule: standard output: {full}")
        place = self.path("no", "out")
        self.trouble(run("schedule", "--packed", place, BASE), f"schedule: {place}: no such file or directory")
        self.assertEqual(shell('exec $schedule --packed "$1" "$2" >&-', self.path("out"), BASE), (0, b"", ""))
        self.assertEqual(len(self.read("out")), 16)

    def test_special_files(self):
        """What is no plain file is written to, and a link stays a link."""
        self.assertEqual(run("order", "--packed", "/dev/stdout", BASE), (0, bytes.fromhex("0600020080"), ""))
        self.assertEqual(run("order", "--packed", "/dev/null", BASE), (0, b"", ""))
        self.write("plain", b"before")
        os.symlink("plain", self.path("link"))
        self.assertEqual(run("order", "--packed", self.path("link"), BASE), (0, b"", ""))
        self.assertEqual((os.path.islink(self.path("link")), self.read("plain").hex()), (True, "0600020080"))

    def test_over_sheet(self):
        sheet = self.write("a.sheet", sheetlib.sheet_of("domain a"))
        os.symlink("a.sheet", self.path("link"))
        self.trouble(run("schedule", "--packed", self.path("link"), sheet),
                     f"schedule: --packed would write over the sheet {sheet}")
        self.assertEqual(self.read("a.sheet"), sheetlib.sheet_of("domain a"))


class Options(Folder):
    """Options that are not known, or make no sense together; --help and --version."""

    def test_refused(self):
        os.mkdir(self.path("folder"))
        for args, text in [
                (["--frob"], "unrecognized arguments: --frob; --help has the options"),
                (["-j"], "unrecognized arguments: -j; --help has the options"),
                (["--js"], "unrecognized arguments: --js; --help has the options"),
                (["--a\nb"], r"unrecognized arguments: --a\nb; --help has the options"),
                (["--packed"], "argument --packed: expected one argument; --help has the options"),
                (["--packed="], "--packed is given nothing"),
                (["--packed", "a", "--packed", "b", "x"], "--packed is given twice"),
                (["--json", "--explain", "x"], "--explain does nothing with --json, which has the words"),
                (["--json", "--packed", "a", "x"], "--packed and --json do not go together"),
                (["--size", "--packed", "-", "x"],
                 "--size and --packed - would both write to standard output"),
                (["-", "-"], "standard input is given twice"),
                (["--rows", "0", "x"], "--rows 0: the limit is 1 to 256 rows"),
                (["--rows", "257", "x"], "--rows 257: the limit is 1 to 256 rows"),
                (["--rows=-1", "x"], "--rows -1: the limit is 1 to 256 rows"),
                (["--rows", str(1 << 70), "x"], f"--rows {1 << 70}: the limit is 1 to 256 rows"),
                (["--rows", "x", "x"], "argument --rows: invalid int value: 'x'; --help has the options"),
                (["--rows"], "argument --rows: expected one argument; --help has the options"),
                (["--rows", "1", "--rows", "2", "x"], "--rows is given twice"),
                (["--packed", "-", "x", "y"],
                 "--packed - takes one sheet; for several --packed needs a folder"),
                (["--packed", "a", "x", "y"], "--packed a: is no folder, as several sheets need"),
                (["--packed", "a/", "x"], "--packed a/: is no folder"),
                (["--packed", "folder", "-"],
                 "--packed folder: in a folder the sheet of standard input has no name"),
                (["--packed", "folder", "x/a.sheet", "y/a"],
                 "x/a.sheet and y/a would both go to folder/a.schedule")]:
            self.trouble(run("schedule", *args, cwd=self.folder), f"schedule: {text}")

    def test_help(self):
        for call in CALLS:
            for args in (["-h"], ["--help"], ["gone", "--help"], ["--json", "--explain", "-h"]):
                status, out, error = run(call, *args)
                self.assertEqual((status, error), (0, ""))
                self.assertTrue(out.decode().startswith(f"Usage: {call} "))
            for part in ["--packed FILE", "--size", "--rows N", "1 to 256, 64 if", "--json", "--explain", "--version",
                         "Status: 0 accepted", "10  the schedule is longer", "17  the row limit"]:
                self.assertIn(part, out.decode())
            self.assertLess(max(map(len, out.decode().splitlines())), 100)

    def test_version(self):
        status, out, error = run("schedule", "--version", cwd="/")
        lines = out.decode().splitlines()
        self.assertEqual((status, error, len(lines)), (0, "", 3))
        self.assertEqual([line.split()[0] for line in lines], ["schedule", "commit", "toolchain"])
        if os.path.exists(os.path.join(ROOT, "VERSION")):
            with open(os.path.join(ROOT, "VERSION"), encoding="utf-8") as source:
                self.assertEqual(lines[0], f"schedule {source.read().strip()}")


# ------------------------------------------------------------ packed schedules

FOREIGN = b"T 0\nT 1.3\nE 1.3 01 2\nR 0.2 1 2,1.3.2 makelist,derive:0,derive:255\nR 1.3.4 0 0,0 -\nE 4 10 0\n"


def packed_by_model(sheet):
    """The packed schedule of an accepted sheet, None of another; and its lines."""
    answer = model.schedule(sheet, bytes(1 << 18), bytes(1536))
    lines = "".join(line + "\n" for line in model.printed(sheet, answer, True)).encode()
    return (None if answer.number else answer.listing[:answer.size]), lines


def packed_lines(text, width):
    """The packed schedule of lines with word numbers."""
    problems = Problems()
    out = schedule_text.packed(schedule_text.parse_text(text.decode(), schedule_text.Words(width), problems))
    assert not problems.found, problems.told("lines", ("error",))
    return out


@shows
class Show(Folder):
    """bin/show: what is printed, and the statuses."""

    PACKED = bytes.fromhex("06000200800080001090140802800010")
    NUMBERS = b"T 0\nT 2\nT 1\nR 0.1 0 1,2 makelist\nE 0 00 1\n"

    def packed(self, data=PACKED):
        """A file with a packed schedule."""
        return self.write("a.schedule", data)

    def test_words(self):
        self.assertEqual(run("show", BASE, self.packed()), (0, BASE_TEXT, ""))
        self.assertEqual(run("show", "--", BASE, self.packed()), (0, BASE_TEXT, ""))

    def test_numbers(self):
        path = self.packed()
        for args in (["-w", "4", path], [path, "-w", "4"], ["-w4", path], ["-w", "200", path]):
            self.assertEqual(run("show", *args), (0, self.NUMBERS, ""))

    def test_standard_input(self):
        """Of the two files one may be standard input."""
        self.assertEqual(run("show", BASE, "-", given=self.PACKED), (0, BASE_TEXT, ""))
        with open(BASE, "rb") as source:
            self.assertEqual(run("show", "-", self.packed(), stdin=source), (0, BASE_TEXT, ""))
        for args in ([], ["-"]):
            self.assertEqual(run("show", "-w", "4", *args, given=self.PACKED), (0, self.NUMBERS, ""))

    def test_examples(self):
        """Each example that is accepted: what bin/schedule prints, and the packed bytes that stand beside it."""
        count = 0
        for folder, _, names in os.walk(EXAMPLES):
            for path in [os.path.join(folder, name) for name in names if name.endswith(".sheet")]:
                with open(path, "rb") as source:
                    packed, lines = packed_by_model(source.read())
                if packed is not None:
                    count += 1
                    self.assertEqual(run("schedule", path), (0, lines, ""))
                    self.assertEqual(run("show", path, "-", given=packed), (0, lines, ""), path)
        self.assertGreater(count, 1)
        self.assertEqual(run("show", BASE, os.path.join(EXAMPLES, "base.schedule")), (0, BASE_TEXT, ""))

    def test_cases(self):
        """Each listed case that is accepted, in words and in numbers, by the proved program itself."""
        program = proved.Each(building.program(ROOT, "show").path)
        for sheet in listed_sheets().values():
            packed, lines = packed_by_model(sheet)
            if packed is not None:
                words = schedule_text.Words(len(model.sheet_words(sheet)))
                numbers = schedule_text.to_text(schedule_text.unpack(packed, words), words).encode()
                self.assertEqual(program.text(showing.asked(None, sheet, packed)), lines)
                self.assertEqual(program.text(showing.asked(words.count, None, packed)), numbers)

    def test_largest(self):
        """The largest schedule found, which bin/schedule does not print; and one with the most records a byte."""
        crowd = sheetlib.encode(large.MAPS["crowd"]())
        packed, lines = packed_by_model(crowd)
        self.assertEqual(len(packed), 239675)
        self.assertEqual(run("show", self.write("crowd.sheet", crowd), self.packed(packed)), (0, lines, ""))
        for count in (65, 66, 1046, 1047):  # about 4,096 and 65,536 bytes
            text = b"R 0.1 0 0,1 " + b",".join([b"makelist"] * 448) + b"\n"
            packed = packed_lines(text * count, 2)
            self.assertEqual(run("show", "-w", "2", "-", given=packed), (0, text * count, ""), count)

    def test_foreign(self):
        """A schedule that is not ours: items in any order, of types that are not listed."""
        self.assertEqual(run("show", "-w", "5", "-", given=packed_lines(FOREIGN, 5)), (0, FOREIGN, ""))

    def test_refused(self):
        for width, data, number in [
                (4, self.PACKED[:-1], 11), (4, self.PACKED[:4], 11), (4, b"", 11), (4, self.PACKED + b"\0", 12),
                (4, self.PACKED[:-1] + b"\x11", 12), (2, self.PACKED, 12), (3, self.PACKED, 0), (4, b"\xff" * 16, 12),
                (4, bytes.fromhex("0600020080"), 11), (0, self.PACKED, 12), (1, b"", 12), (201, b"", 12),
                (70000, self.PACKED, 12), (1 << 70, self.PACKED, 12), (2, bytes(3), 0), (2, bytes(4), 12)]:
            status, out, error = run("show", "-w", str(width), "-", given=data)
            self.assertEqual((status, error), (int(number > 0), ""), (width, data))
            if number:
                self.assertEqual(out, b"refused %d\n" % number, (width, data))
        other = self.write("other.sheet", sheetlib.sheet_of("domain a"))
        self.assertEqual(run("show", other, self.packed(packed_lines(b"T 3", 4))), (1, b"refused 12\n", ""))

    def test_cuts(self):
        """Every cut passes the end."""
        program = proved.Each(building.program(ROOT, "show").path)
        packed = packed_lines(FOREIGN, 5)
        for size in range(len(packed)):
            self.assertEqual(program.text(showing.asked(5, None, packed[:size])), b"refused 11\n")

    def test_explain(self):
        status, out, error = run("show", "-w", "2", "--explain", self.packed())
        self.assertEqual((status, error), (1, ""))
        self.assertEqual(out.decode(), f"refused 12\nrefused 12: {refusals.meaning_of(12)}\n")
        other = self.write("other.sheet", sheetlib.sheet_of("domain a"))
        out = run("show", "--explain", other, self.packed(packed_lines(b"T 3", 4)))[1].decode()
        self.assertTrue(out.splitlines()[-1].startswith("the sheet may be another one"), out)
        out = run("show", "--explain", "-w", "4", "-", given=b"T base\n")[1].decode()
        self.assertIn("tools/schedule", out.splitlines()[-1])
        words = [os.path.join(ROOT, "bin", "show"), "-w", "2", self.packed()]
        self.assertEqual(at_terminal(words), (1, f"refused 12\nrefused 12: {refusals.meaning_of(12)}\n"))

    def test_json(self):
        path = self.packed()
        value = json.loads(run("show", "--json", BASE, path)[1])
        other = json.loads(run("schedule", "--json", BASE)[1])
        self.assertEqual(value, {**other, "file": path, "call": "show"})
        self.assertEqual(printed_lines(json.loads(run("show", "--json", "-w", "4", path)[1])),
                         self.NUMBERS.decode().splitlines())
        status, out, _ = run("show", "--json", "-w", "2", path)
        self.assertEqual((status, json.loads(out)), (1, {
            "file": path, "call": "show", "status": 1,
            "refusal": {"number": 12, "meaning": refusals.meaning_of(12), "rows": [], "more": False}}))
        status, out, error = run("show", "--json", "gone", path)
        self.assertEqual((status, error), (2, "show: gone: no such file or directory\n"))
        self.assertEqual(json.loads(out), {"file": path, "call": "show", "status": 2,
                                           "trouble": "gone: no such file or directory"})

    def test_sheet_refused(self):
        """A sheet that cannot be read has no words; one without an order has them."""
        path = self.packed(bytes(3))
        for sheet, said in [(b"", f"3: {refusals.meaning_of(3)}"), (b"\x20\x01", f"4: {refusals.meaning_of(4)}"),
                            (bytes(40961), f"1: {refusals.meaning_of(1)}"),
                            (b"domain a\n", f"4: {printed.TEXT_AS_SHEET}")]:
            name = self.write("a.sheet", sheet)
            self.trouble(run("show", name, path),
                         f"show: {name}: its words are needed, and the sheet is refused with {said}")
        loop = self.write("loop.sheet", sheetlib.sheet_of("domain a : a"))
        self.assertEqual(run("show", loop, self.packed(packed_lines(b"T 0", 3))), (0, b"T a\n", ""))

    def test_troubles(self):
        path, long = self.packed(), self.write("long", bytes((1 << 18) + 1))
        needed = "a sheet and a schedule are needed, or -w W and a schedule; --help has more"
        for args, said in [
                ([], needed), ([BASE], needed), ([BASE, path, path], needed),
                (["-w", "4", path, path],
                 "-w W takes the place of the sheet: one file, the schedule, is taken beside it"),
                (["-w", "x", path], "argument -w: invalid int value: 'x'; --help has the options"),
                (["-w", "4", "-w", "5", path], "-w is given twice"), (["-w=-1", path], "-w -1: is no number of words"),
                (["--json", "--explain", BASE, path], "--explain does nothing with --json, which has the words"),
                (["-", "-"], "standard input is given twice"), (["--packed", "a"], None),
                ([BASE, "gone"], "gone: no such file or directory"), (["gone", path], "gone: no such file or directory"),
                ([BASE, self.folder], f"{self.folder}: is a directory"),
                (["-w", "4", long], f"{long}: longer than 262,144 bytes, which the program takes")]:
            status, out, error = run("show", *args)
            self.assertEqual((status, out), (2, b""), args)
            self.assertTrue(error.startswith("show: ") and error.count("\n") == 1, error)
            if said:
                self.assertEqual(error, f"show: {said}\n")
        done = subprocess.run(["sh", "-c", '"$@" > /dev/full', "sh", os.path.join(ROOT, "bin", "show"), BASE, path],
                              capture_output=True, check=False)
        self.assertEqual((done.returncode, done.stderr), (2, b"show: standard output: no space left on device\n"))
        status, shown = at_terminal([os.path.join(ROOT, "bin", "show"), "-w", "4"])
        self.assertEqual((status, "is a terminal" in shown), (2, True))

    @linked
    def test_written(self):
        """What bin/schedule --packed writes is shown as bin/schedule prints it."""
        sheet, path = os.path.join(EXAMPLES, "pool.sheet"), self.path("p.bin")
        self.assertEqual(run("schedule", "--packed", path, sheet), (0, b"", ""))
        self.assertEqual(run("show", sheet, path), run("schedule", sheet))
        width = run("schedule", "--size", sheet)[1].split()[3].decode()
        self.assertEqual(run("show", "-w", width, path)[0], 0)
        self.assertEqual(run("order", "--packed", path, sheet), (0, b"", ""))
        self.assertEqual(run("show", sheet, path), (1, b"refused 11\n", ""))


class ShowOptions(Folder):
    """--help and --version of bin/show."""

    def test_help(self):
        status, out, error = run("show", "gone", "--help")
        self.assertEqual((status, error), (0, ""))
        self.assertTrue(out.decode().startswith("Usage: show "))
        numbers = [f"{number}  {said}" for number, (said, _) in refusals.OF_SCHEDULES.items()]
        for part in ["-w W", "--json", "--explain", "Status: 0 printed", "262,144", *numbers]:
            self.assertIn(part, out.decode())
        self.assertLess(max(map(len, out.decode().splitlines())), 100)

    def test_version(self):
        self.assertEqual(run("show", "--version")[1].split()[0], b"show")


# ---------------------------------------------------------------- side by side

def common_length(a, b):
    """The length of a longest common subsequence, by the table of all beginnings."""
    row = [0] * (len(b) + 1)
    for one in a:
        before, row = row, [0]
        for at, other in enumerate(b):
            row.append(before[at] + 1 if one == other else max(before[at + 1], row[at]))
    return row[-1]


class Rows(unittest.TestCase):
    """Which lines of two schedules stand in one row, and the rows in two columns."""

    def marked(self, a, b):
        """The rows as texts: A's line, the mark, B's line."""
        return [f"{row.a or ''} {row.mark} {row.b or ''}".strip() for row in side_by_side.rows_of(a, b)]

    def test_equal(self):
        lines = BASE_TEXT.decode().splitlines()
        self.assertEqual(self.marked(lines, lines), [f"{line} = {line}" for line in lines])
        self.assertEqual(self.marked([], []), [])

    def test_one_side(self):
        a, b = ["T a", "T b", "E a 00 f"], ["T b", "T c", "E a 00 f", "E c 00 f"]
        self.assertEqual(self.marked(a, b), ["T a <", "T b = T b", "> T c", "E a 00 f = E a 00 f", "> E c 00 f"])
        self.assertEqual(self.marked(a, []), [f"{line} <" for line in a])
        self.assertEqual(self.marked([], b), [f"> {line}" for line in b])

    def test_changed(self):
        """Lines of one form and name: R lines by their name, E lines by type and word."""
        a = ["R a.f 0 f,resource -", "E a 00 f", "R b.f 0 f,resource -", "E b 00 f"]
        b = ["R a.f 1 f,resource -", "E a 10 f", "R b.g 0 f,resource -", "E b 00 g"]
        self.assertEqual(self.marked(a, b), [f"{a[0]} | {b[0]}", f"{a[1]} | {b[1]}", f"{a[2]} <", f"{a[3]} <",
                                             f"> {b[2]}", f"> {b[3]}"])
        # Of several with one name an equal one is taken first; what is left keeps its order.
        a, b = [f"R a.f 0 {name},resource -" for name in ("x", "y")], ["R a.f 0 y,resource -", "R a.f 1 z,resource -"]
        self.assertEqual(self.marked(a, b), [f"{a[0]} <", f"{a[1]} = {b[0]}", f"> {b[1]}"])

    def test_parents(self):
        """Of several resources of one name those with the same parents go together."""
        a = ["R a.f 0 x,resource -", "R a.f 0 y,resource -", "E a 00 f"]
        b = ["R a.f 0 y,resource makelist", "R a.f 0 z,resource -", "E a 00 f"]
        self.assertEqual(self.marked(a, b), [f"{a[0]} <", f"{a[1]} | {b[0]}", f"> {b[1]}", f"{a[2]} = {b[2]}"])

    def test_parts(self):
        """Types stand above items, also where neither has a line in common."""
        self.assertEqual(self.marked(["T a", "E a 00 f"], ["T b", "E b 00 f"]), ["T a <", "> T b", "E a 00 f <", "> E b 00 f"])

    def test_moved(self):
        """A type at another place has two rows."""
        self.assertEqual(self.marked(["T a", "T b", "T c"], ["T b", "T c", "T a"]),
                         ["T a <", "T b = T b", "T c = T c", "> T a"])

    def test_repeated(self):
        """Lines that stand several times, as in a schedule that is not ours."""
        self.assertEqual(self.marked(["E a 00 f"] * 3, ["E a 00 f"] * 2), ["E a 00 f = E a 00 f"] * 2 + ["E a 00 f <"])

    def test_refused(self):
        """The lines of a refusal have rows of their own, above those of a schedule."""
        a, b = ["refused 8", "D 2 a a -", "more"], ["T a"]
        self.assertEqual(self.marked(a, b), [f"{line} <" for line in a] + ["> T a"])
        self.assertEqual(self.marked(b, a), [f"> {line}" for line in a] + ["T a <"])
        self.assertEqual(self.marked(a, a), [f"{line} <" for line in a] + [f"> {line}" for line in a])

    def test_longest(self):
        """As many equal lines in one row as can be; down a column stand the lines of its schedule."""
        rng = random.Random(5)
        for _ in range(300):
            a, b = ([f"R a.{name} {rng.randrange(2)} f,resource -" for name in rng.sample("fghijkl", rng.randrange(8))]
                    for _ in range(2))
            rows = side_by_side.rows_of(a, b)
            self.assertEqual(sum(row.mark == side_by_side.SAME for row in rows), common_length(a, b), (a, b))
            self.assertEqual(([row.a for row in rows if row.a], [row.b for row in rows if row.b]), (a, b))
            for row in rows:
                mark = ">" if row.a is None else "<" if row.b is None else "=" if row.a == row.b else "|"
                self.assertEqual(row.mark, mark)

    def test_columns(self):
        rows = side_by_side.rows_of(["T a", "E a 00 f"], ["T a", "E a 00 g"])
        self.assertEqual(list(side_by_side.laid_out(rows)), ["T a        T a", "E a 00 f <", "         > E a 00 g"])
        rows = side_by_side.rows_of([], ["T a"])
        self.assertEqual(list(side_by_side.laid_out(rows)), [" > T a"])
        self.assertEqual(list(side_by_side.laid_out([])), [])

    def test_folded(self):
        """No letter of a line is lost, and no piece is too wide."""
        line = "R a.f 0 one,two," + "x" * 40 + ",resource makelist,derive:1"
        for width in range(8, len(line) + 2):
            pieces = side_by_side.folded(line, width)
            self.assertLessEqual(max(map(len, pieces)), width)
            self.assertEqual(pieces[0] + "".join(piece.removeprefix("  ") for piece in pieces[1:]), line)
        self.assertEqual(side_by_side.folded(line, 20), ["R a.f 0 one,two,", "  " + "x" * 18, "  " + "x" * 18, "  xxxx,resource ",
                                                         "  makelist,derive:1"])
        self.assertEqual(side_by_side.folded(line, len(line)), [line])

    def test_widths(self):
        """What one column does not need is the other's."""
        rows = side_by_side.rows_of(["E a 00 f", "R a.f 0 one,two,three,resource -"], ["E a 00 f"])
        self.assertEqual(list(side_by_side.laid_out(rows, 43)), [
            "E a 00 f                           E a 00 f", "R a.f 0 one,two,three,resource - <"])
        self.assertEqual(list(side_by_side.laid_out(rows, 32)), [
            "E a 00 f                E a 00 f", "R a.f 0 one,two,      <", "  three,resource -"])
        for most in range(20, 60):
            lines = list(side_by_side.laid_out(side_by_side.rows_of(["T " + "a" * 31], ["T " + "b" * 31]), most))
            self.assertLessEqual(max(map(len, lines)), most)

    def test_largest(self):
        """Schedules of 12,288 lines that have every second one in common, and the most repeats, take no time."""
        lines = [f"R a.f{at} 0 f,resource -" for at in range(12288)]
        other = [line.replace("-", "makelist") if at % 2 else line for at, line in enumerate(lines)]
        began = time.monotonic()
        marks = [row.mark for row in side_by_side.rows_of(lines, other)]
        self.assertEqual(marks, ["=", "|"] * 6144)
        side_by_side.rows_of(lines, lines[::-1])
        side_by_side.rows_of(lines[:1] * 65535, lines[:1] * 65534)
        self.assertLess(time.monotonic() - began, 10)


POOL, NEXT, RELISTED = (os.path.join(EXAMPLES, f"pool{name}.sheet") for name in ("", "-next", "-relisted"))


@built
class Compare(Folder):
    """bin/compare: the schedules of two sheets."""

    A = "domain base\n associate file\nresource file : resource\nresource resource"
    B = "domain base virtual\n associate file\ndomain next : base\nresource file : resource\nresource resource"
    ROWS = [("T base", " ", "T base"), ("T resource", " ", "T resource"), ("T file", " ", "T file"), ("", ">", "T next"),
            ("R base.file 0 file,resource -", " ", "R base.file 0 file,resource -"),
            ("E base 00 file", "|", "E base 10 file"),
            ("", ">", "R next.file 0 base.file,resource -"), ("", ">", "E next 00 file")]

    def setUp(self):
        super().setUp()
        self.a, self.b = self.sheet("a", self.A), self.sheet("b", self.B)

    def sheet(self, name, text):
        """The name of a sheet in the folder, which is made from a text."""
        self.write(name, sheetlib.sheet_of(text))
        return name

    def compare(self, *args, **more):
        """Runs the program in the folder."""
        return run("compare", *args, **{"cwd": self.folder, **more})

    def printed(self, rows, names=("a", "b")):
        """What is printed for rows."""
        rows = [(f"== {names[0]}", " ", f"== {names[1]}"), *rows]
        width = max(len(a) for a, _, _ in rows)
        return "".join(f"{a:{width}} {mark} {b}".rstrip() + "\n" for a, mark, b in rows).encode()

    def test_same(self):
        rows = [(line, " ", line) for line in BASE_TEXT.decode().splitlines()]
        self.assertEqual(self.compare("base.sheet", "base.sheet", cwd=EXAMPLES),
                         (0, self.printed(rows, ["base.sheet"] * 2), ""))
        none = self.sheet("none", "")
        self.assertEqual(self.compare(none, none), (0, self.printed([], [none] * 2), ""))

    def test_different(self):
        self.assertEqual(self.compare("a", "b"), (1, self.printed(self.ROWS), ""))
        turned = [(b, {"<": ">", ">": "<"}.get(mark, mark), a) for a, mark, b in self.ROWS]
        self.assertEqual(self.compare("b", "a"), (1, self.printed(turned, "ba"), ""))
        marked = [row for row in self.ROWS if row[1] != " "]
        self.assertEqual(self.compare("--differences", "a", "b"), (1, self.printed(marked), ""))
        self.assertEqual(self.compare("--differences", "a", "a"), (0, b"", ""))

    def test_relisted(self):
        """Records and parents in any order give the same schedule."""
        self.assertEqual(run("compare", "--differences", POOL, RELISTED), (0, b"", ""))
        self.assertEqual(run("compare", "-q", POOL, NEXT), (1, b"", ""))
        sheets = []
        for path in (POOL, RELISTED):
            with open(path, "rb") as source:
                sheets.append(source.read())
        self.assertEqual(*map(packed_by_model, sheets))
        for seed in range(5):
            other = changed.relisted(random.Random(seed), sheetlib.decode(sheets[0]))
            path = self.write("relisted", sheetlib.encode(other))
            self.assertEqual(run("compare", "-q", POOL, path), (0, b"", ""))

    def test_other_words(self):
        """The lines decide: a word that no line has changes word numbers alone."""
        more = self.sheet("more", "words a_word\n" + self.A)
        self.assertNotEqual(*(packed_by_model(self.read(name))[0] for name in ("a", more)))
        self.assertEqual(self.compare("--differences", "a", more), (0, b"", ""))

    def test_example(self):
        """The stored comparison of the pool controller with its next model."""
        with open(os.path.join(EXAMPLES, "pool.compare.txt"), "rb") as source:
            stored = source.read()
        self.assertEqual(run("compare", "--differences", "examples/pool.sheet", "examples/pool-next.sheet", cwd=ROOT),
                         (1, stored, ""))

    def test_cases(self):
        """What is printed for each listed case, beside itself and beside the next: down a column stand its lines, and
        no row has a mark exactly if a schedule stands beside the same."""
        program = proved.Each(building.program(ROOT, "schedule").path, str(model.SHOWN_ROWS))
        texts = [program.text(sheet).decode() for sheet in listed_sheets().values()]
        for one, other in zip(texts, texts[1:] + texts[:1]):
            for a, b in ((one, one), (one, other)):
                rows = side_by_side.rows_of(a.splitlines(), b.splitlines())
                self.assertEqual("".join(f"{row.a}\n" for row in rows if row.a), a)
                self.assertEqual("".join(f"{row.b}\n" for row in rows if row.b), b)
                self.assertEqual(all(row.mark == side_by_side.SAME for row in rows), a == b and not a.startswith("refused"))

    def test_refused(self):
        """A sheet without a schedule: status 1, whatever the other is."""
        loop, said = self.sheet("loop", "domain a : a"), "there is no schedule to compare: refused"
        line = f"compare: loop: {said} 8: the types have no order\n"
        refusal = [("refused 8", "<", ""), ("D 2 a a -", "<", "")]
        rows = [("", ">", line) for _, _, line in self.ROWS if line]
        self.assertEqual(self.compare(loop, "b"), (1, self.printed(refusal + rows, (loop, "b")), line))
        again = [("", ">", "refused 8"), ("", ">", "D 2 a a -")]
        self.assertEqual(self.compare("-", loop, given=self.read(loop)),
                         (1, self.printed(refusal + again, ("-", loop)), line.replace("loop:", "standard input:") + line))
        self.assertEqual(self.compare("--quiet", "a", loop), (1, b"", line))
        text = self.write("text", b"domain a\n")
        self.assertEqual(self.compare("-q", "a", text)[2], f"compare: {text}: {said} 4: {printed.TEXT_AS_SHEET}\n")

    def test_too_long(self):
        """What bin/schedule does not print: where to go is said."""
        self.write("crowd", sheetlib.encode(large.MAPS["crowd"]()))
        status, out, error = self.compare("crowd", "a")
        self.assertEqual((status, out.splitlines()[1]), (1, b"refused 10 <"))
        self.assertEqual(error, f"compare: crowd: there is no schedule to compare: refused 10: {refusals.meaning_of(10)}; "
                                "bin/schedule --packed writes it, and --packed compares what it has written\n")

    def test_standard_input(self):
        for args in (["a", "-"], ["--", "a", "-"]):
            self.assertEqual(self.compare(*args, given=self.read("b")), (1, self.printed(self.ROWS, "a-"), ""))
        self.assertEqual(self.compare("-", "b", given=self.read("a")), (1, self.printed(self.ROWS, "-b"), ""))
        with open(self.path("a"), "rb") as source:
            self.assertEqual(self.compare("-q", "-", "a", stdin=source), (0, b"", ""))

    def test_quiet(self):
        for option in ("-q", "--quiet"):
            self.assertEqual(self.compare(option, "a", "a"), (0, b"", ""))
            self.assertEqual(self.compare(option, "a", "b"), (1, b"", ""))

    def test_json(self):
        status, out, error = self.compare("--json", "a", "b")
        rows = [{"mark": mark.replace(" ", "="), "a": a or None, "b": b or None} for a, mark, b in self.ROWS]
        head = {"files": ["a", "b"], "call": "compare"}
        self.assertEqual((status, error, out.count(b"\n")), (1, "", 1))
        self.assertEqual(json.loads(out), {**head, "status": 1, "same": False, "rows": rows})
        self.assertEqual(json.loads(self.compare("--json", "--differences", "a", "b")[1])["rows"],
                         [row for row in rows if row["mark"] != "="])
        value = json.loads(self.compare("--json", "a", "a")[1])
        self.assertEqual((value["status"], value["same"], "refusals" in value), (0, True, False))
        self.sheet("loop", "domain a : a")
        value = json.loads(self.compare("--json", "a", "loop")[1])
        other = json.loads(self.compare("--json", "loop", "loop")[1])
        refusal = json.loads(run("schedule", "--json", "loop", cwd=self.folder)[1])["refusal"]
        self.assertEqual((value["status"], value["same"], value["refusals"]), (1, False, [None, refusal]))
        self.assertEqual((other["status"], other["same"], other["refusals"]), (1, False, [refusal, refusal]))
        status, out, error = self.compare("--json", "gone", "a")
        self.assertEqual((status, error), (2, "compare: gone: no such file or directory\n"))
        self.assertEqual(json.loads(out), {"files": ["gone", "a"], "call": "compare", "status": 2,
                                           "trouble": "gone: no such file or directory"})

    def test_width(self):
        """Folded rows have no more columns than that, and all that is printed without."""
        whole = self.compare("a", "b")[1]
        self.assertEqual(self.compare("--width", "200", "a", "b")[1], whole)
        for width in (20, 33, 64):
            status, out, _ = self.compare("--width", str(width), "a", "b")
            self.assertEqual((status, max(map(len, out.splitlines())) <= width), (1, True))
            self.assertEqual(sorted(b"".join(out.split())), sorted(b"".join(whole.split())))

    def test_terminal(self):
        """A terminal's width is taken; the last line says what was found."""
        words = [os.path.join(ROOT, "bin", "compare")]
        status, shown = at_terminal(words + ["a", "b"], cwd=self.folder, env={**os.environ, "COLUMNS": "40"})
        *rows, last = shown.splitlines()
        self.assertEqual((status, max(map(len, rows)), last), (1, 40, "4 of 8 rows differ"))
        status, shown = at_terminal(words + ["--differences", "a", "a"], cwd=self.folder)
        self.assertEqual((status, shown), (0, "the schedules are the same\n"))
        self.assertEqual(at_terminal(words + ["-q", "a", "b"], cwd=self.folder), (1, ""))
        value = at_terminal(words + ["--json", "a", "b"], cwd=self.folder)[1]
        self.assertEqual(json.loads(value)["status"], 1)

    def test_names(self):
        """Names that look like options, that are no text, that hold a line feed; by a link, from another folder."""
        self.sheet("-q", self.A)
        self.assertEqual(self.compare("--", "-q", "a"),
                         (0, self.printed([(a, " ", a) for a in packed_by_model(self.read("a"))[1].decode().splitlines()],
                                          ("-q", "a")), ""))
        odd = os.path.join(os.fsencode(self.folder), b"\xff\n")
        shutil.copy(self.path("a"), odd)
        self.assertTrue(self.compare(odd, "a")[1].startswith(b"== " + os.fsencode(self.folder) + b"/\xff\\n   == a\nT base"))
        os.symlink(os.path.join(ROOT, "bin", "compare"), self.path("link"))
        done = subprocess.run([self.path("link"), self.path("a"), self.path("b"), "-q"], cwd="/", check=False)
        self.assertEqual(done.returncode, 1)

    def test_outputs(self):
        """Outputs that are full or closed, or that nobody reads."""
        for end, said in (("> /dev/full", "no space left on device"), (">&-", "is closed")):
            line = 'exec $compare "$@" ' + end
            for args in (["a", "b"], ["--json", "a", "b"], ["--help"]):
                self.trouble(shell(line, *args, cwd=self.folder), f"compare: standard output: {said}")
            self.assertEqual(shell(line, "-q", "a", "b", cwd=self.folder), (1, b"", ""))
        self.assertEqual(shell("exec $compare a b 2>&-", cwd=self.folder), (1, self.printed(self.ROWS), ""))
        self.trouble(shell("exec $compare a - <&-", cwd=self.folder), "compare: standard input: is closed")
        ours, theirs = os.pipe()
        os.close(ours)
        status, _, error = self.compare("a", "b", stdout=theirs)
        os.close(theirs)
        self.assertEqual((status, error), (-signal.SIGPIPE, ""))


@shows
class ComparePacked(Folder):
    """bin/compare --packed: two packed schedules."""

    PACKED = Show.PACKED
    NUMBERS = Show.NUMBERS.decode().splitlines()

    def setUp(self):
        super().setUp()
        self.sheet = shutil.copy(BASE, self.path("base.sheet"))
        self.write("a", self.PACKED)
        self.write("b", packed_lines(b"T 0\nT 2\nT 1\nR 0.1 0 1,2 -\nE 0 00 1\n", 4))

    def rows(self, *args, **more):
        """Status, and the rows of --json."""
        status, out, _ = run("compare", "--packed", "--json", *args, **{"cwd": self.folder, **more})
        return status, [(row["a"], row["mark"], row["b"]) for row in json.loads(out)["rows"]]

    def test_one_sheet(self):
        lines = BASE_TEXT.decode().splitlines()
        rows = [(line, "=", line) for line in lines]
        self.assertEqual(self.rows("base.sheet", "a", "a"), (0, rows))
        rows[3] = (lines[3], "|", "R base.file 0 file,resource -")
        self.assertEqual(self.rows("base.sheet", "a", "b"), (1, rows))

    def test_numbers(self):
        rows = [(line, "=", line) for line in self.NUMBERS]
        self.assertEqual(self.rows("-w", "4", "a", "a"), (0, rows))
        rows[3] = (self.NUMBERS[3], "|", "R 0.1 0 1,2 -")
        self.assertEqual(self.rows("a", "b", "-w4"), (1, rows))
        status, out, error = run("compare", "--packed", "-w", "4", "--differences", "a", "b", cwd=self.folder)
        rows = b"== a                   == b\nR 0.1 0 1,2 makelist | R 0.1 0 1,2 -\n"
        self.assertEqual((status, out, error), (1, rows, ""))

    def test_two_sheets(self):
        """Each in its own words: other word numbers, and the same lines."""
        with open(os.path.join(EXAMPLES, "base.txt"), encoding="ascii") as source:
            sheet = sheetlib.sheet_of("words a_word\n" + source.read())
        self.write("more.sheet", sheet)
        self.write("c", packed_by_model(sheet)[0])
        self.assertNotEqual(self.read("c"), self.PACKED)
        self.assertEqual(self.rows("base.sheet", "a", "more.sheet", "c")[0], 0)
        self.assertEqual(self.rows("base.sheet", "b", "more.sheet", "c")[0], 1)
        self.assertEqual(self.rows("-w", "5", "a", "c")[0], 1)

    def test_standard_input(self):
        """Any one of the files."""
        for args in (["base.sheet", "a", "a"], ["base.sheet", "a", "base.sheet", "a"], ["-w", "4", "a", "a"]):
            for at, name in enumerate(args):
                if name in ("a", "base.sheet"):
                    given = [*args[:at], "-", *args[at + 1:]]
                    self.assertEqual(run("compare", "-q", "--packed", *given, cwd=self.folder, given=self.read(name)),
                                     (0, b"", ""), given)

    def test_refused(self):
        """Damaged bytes, as bin/show refuses them."""
        for data, number in ((self.PACKED[:-1], 11), (b"", 11), (self.PACKED + b"\0", 12), (b"\xff\0" * 8, 12)):
            self.write("c", data)
            status, out, error = run("compare", "--packed", "-w", "4", "a", "c", cwd=self.folder)
            self.assertEqual((status, out.splitlines()[1].split()), (1, [b">", b"refused", b"%d" % number]))
            self.assertEqual(error, f"compare: c: there is no schedule to compare: refused {number}: "
                                    f"{refusals.meaning_of(number)}\n")
            status, out, error = run("compare", "--packed", "--json", "base.sheet", "c", "c", cwd=self.folder)
            value = json.loads(out)
            self.assertEqual((status, value["same"], error.count("\n")), (1, False, 2))
            self.assertEqual([refusal["number"] for refusal in value["refusals"]], [number] * 2)
        self.write("c", BASE_TEXT)
        self.assertIn(showing.TEXT_AS_SCHEDULE, run("compare", "--packed", "-q", "base.sheet", "a", "c", cwd=self.folder)[2])

    def test_sheet_refused(self):
        """Words are needed."""
        self.write("c", b"")
        for args in (["c", "a", "b"], ["base.sheet", "a", "c", "b"]):
            self.trouble(run("compare", "--packed", *args, cwd=self.folder),
                         f"compare: c: its words are needed, and the sheet is refused with 3: {refusals.meaning_of(3)}")

    def test_troubles(self):
        self.write("long", bytes((1 << 18) + 1))
        for args, said in [(["base.sheet", "a", "gone"], "gone: no such file or directory"),
                           (["gone", "a", "b"], "gone: no such file or directory"),
                           (["", "a", "b"], "'': no such file or directory"),
                           (["-w", "4", "a", "."], ".: is a directory"),
                           (["-w", "4", "a", "long"], "long: longer than 262,144 bytes, which the program takes")]:
            self.trouble(run("compare", "--packed", *args, cwd=self.folder), f"compare: {said}")

    def test_largest(self):
        """The largest schedule found, of 12,288 lines, beside one in which every thousandth differs: some seconds."""
        crowd = sheetlib.encode(large.MAPS["crowd"]())
        answer, width = model.schedule(crowd, bytes(1 << 18), bytes(1536)), len(model.sheet_words(crowd))
        self.write("a", answer.listing[:answer.size])
        lines = run("show", "-w", str(width), self.path("a"))[1].decode().splitlines()
        for at in range(64, len(lines), 1000):
            lines[at] = lines[at].replace(" 0 ", " 1 ").replace(" 00 ", " 11 ")
        self.write("b", packed_lines("\n".join(lines).encode(), width))
        began = time.monotonic()
        for words in ([self.write("crowd.sheet", crowd)], ["-w", str(width)]):
            status, out, error = run("compare", "--packed", *words, "a", "b", cwd=self.folder)
            self.assertEqual((status, error, out.count(b"\n")), (1, "", 1 + len(lines)))
            self.assertEqual(out.count(b" | "), len(range(64, len(lines), 1000)))
        self.assertLess(time.monotonic() - began, 10)
        self.assertEqual(run("compare", "--packed", "-q", "-w", str(width), "a", "a", cwd=self.folder), (0, b"", ""))


class CompareOptions(Folder):
    """Options of bin/compare that are not known, or make no sense together; --help and --version."""

    def test_refused(self):
        packed = "--packed needs a sheet and two schedules, or two of each, or -w W and two schedules; --help has more"
        beside = "-w W takes the place of sheets: two files, the schedules, are taken beside it"
        for args, said in [
                ([], "two sheets are needed; --help has more"), (["a"], "two sheets are needed; --help has more"),
                (["a", "b", "c"], "two sheets are needed; --help has more"), (["-", "-"], "standard input is given twice"),
                (["--packed", "a", "b"], packed), (["--packed", *"abcde"], packed), (["--packed", "-w", "4", "a"], beside),
                (["--packed", "-w", "4", *"abc"], beside), (["-w", "4", "a", "b"], "-w is for packed schedules, with --packed"),
                (["--packed", "-w=-1", "a", "b"], "-w -1: is no number of words"),
                (["--packed", "-w", "4", "-w", "4", "a", "b"], "-w is given twice"),
                (["--width", "19", "a", "b"], "--width 19: at least 20 columns are needed"),
                (["--width", "x", "a", "b"], "argument --width: invalid int value: 'x'; --help has the options"),
                (["--width", "80", "--width", "80", "a", "b"], "--width is given twice"),
                (["--json", "--width", "80", "a", "b"], "--width does nothing with --json, which has no columns"),
                (["-q", "--json", "a", "b"], "--json does nothing with --quiet, which prints nothing"),
                (["-q", "--differences", "a", "b"], "--differences does nothing with --quiet, which prints nothing"),
                (["-q", "--width", "80", "a", "b"], "--width does nothing with --quiet, which prints nothing"),
                (["-q", "--rows", "80", "a", "b"], "--rows does nothing with --quiet, which prints nothing"),
                (["--rows", "0", "a", "b"], "--rows 0: the limit is 1 to 256 rows"),
                (["--rows", "257", "a", "b"], "--rows 257: the limit is 1 to 256 rows"),
                (["--rows", "2", "--packed", "a", "b", "c"],
                 "--rows does nothing with --packed: a packed schedule has no rows of a diagnosis"),
                (["--brief", "a", "b"], "unrecognized arguments: --brief; --help has the options"),
                (["gone", BASE], "gone: no such file or directory"), ([BASE, "gone"], "gone: no such file or directory"),
                ([BASE, "."], ".: is a directory")]:
            self.trouble(run("compare", *args, cwd=self.folder), f"compare: {said}")

    def test_help(self):
        for args in (["-h"], ["gone", "--help"]):
            status, out, error = run("compare", *args)
            self.assertEqual((status, error), (0, ""))
            self.assertTrue(out.decode().startswith("Usage: compare "))
        numbers = [f"{number:2}  {refusals.said_of(number)}" for number in (*range(1, 13), 17)]
        for part in ["--packed", "-w W", "--differences", "-q, --quiet", "--width N", "at least 20", "--rows N", "--json",
                     "Status: 0 the schedules are the same", *numbers]:
            self.assertIn(part, out.decode())
        self.assertLess(max(map(len, out.decode().splitlines())), 100)

    def test_version(self):
        self.assertEqual(run("compare", "--version")[1].split()[0], b"compare")


class Examples(unittest.TestCase):
    """The answers that stand beside the sheets in examples/: NAME.CALL.txt is what the program prints,
    NAME.CALL.json the object, NAME.CALL the packed bytes."""

    def stored(self, ending):
        """Name, call and bytes of each stored answer of a form."""
        for name in sorted(os.listdir(EXAMPLES)):
            stem, extension = os.path.splitext(name)
            for call in CALLS:
                path = os.path.join(EXAMPLES, f"{stem}.{call}{ending}")
                if extension == ".sheet" and os.path.exists(path):
                    with open(path, "rb") as source:
                        yield "examples/" + name, call, source.read()

    def sheet(self, name):
        """The bytes of a sheet."""
        with open(os.path.join(ROOT, name), "rb") as source:
            return source.read()

    def test_model(self):
        """By the model."""
        self.assertTrue(list(self.stored(".txt")))
        for name, call, text in self.stored(".txt"):
            self.assertEqual(shown(call, self.sheet(name)), text, name)
        for name, call, packed in self.stored(""):
            answer = getattr(model, call)(self.sheet(name), bytes(1 << 18), bytes(1536))
            self.assertEqual((answer.number, answer.listing[:answer.size]), (0, packed), name)

    @built
    def test_programs(self):
        for ending, options in ((".txt", []), (".json", ["--json"])):
            for name, call, text in self.stored(ending):
                status = int(text.startswith(b"refused") or b'"refusal"' in text)
                self.assertEqual(run(call, *options, name, cwd=ROOT), (status, text, ""), name)

    @linked
    def test_packed(self):
        for name, call, packed in self.stored(""):
            self.assertEqual(run(call, "--packed", "-", name, cwd=ROOT), (0, packed, ""), name)


# ------------------------------------------------------------- building

# A stand-in for rt, run in a crate's folder. Like rt it takes a program with its stamp for built, whether it is there or not.
# What it is to do stands in files beside it: `fails`, `waits`, and `program`, which becomes the program.
RT = r"""#!/bin/sh
own=$(dirname "$0")
[ "$1" = version ] && { echo version >> "$own/runs"; echo "stand-in kit"; exit 0; }
name=$(basename "$PWD")
echo "$1 $name" >> "$own/runs"
mkdir -p out
if [ -e "$own/waits" ]; then sleep "$(cat "$own/waits")" & echo $! > "$own/sleeper"; wait; fi
if [ -e "$own/fails" ]; then
    echo "rt: chose --jobs 2 for low"; echo "src/lib.rt:1:1: error"; echo "logic=not-proved"
    echo "rt: the library low did not build, so nothing above it was checked"
    rm -f "out/$name.stamp"; exit 1
fi
sum=$(cat ../../crates.txt ../low/src/* src/* | cksum)
if [ "$1" = run ] && [ -e "out/$name.stamp" ] && [ "$(cat "out/$name.stamp")" = "$sum" ]; then
    echo "rt: nothing has changed since the last proved build, by out/$name.stamp, so nothing is checked now"
    exit 0
fi
echo "rt: chose --jobs 2 for low"; echo "logic=proved functions=1"
echo "rt: chose --jobs 2 for $name"; echo "logic=proved functions=2"
if [ "$1" = lib ]; then
    echo "no archive" > out/libexports.a
else
    cp "$own/program" "out/$name" && echo "$sum" > "out/$name.stamp"
    echo "rt: running out/$name; to give it other input, run that file yourself"
fi
"""
PROGRAM = "#!/bin/sh\ncat > /dev/null\necho T stand_in\n"
ANSWER = b"T stand_in\n"


class Building(Folder):
    """A program that is missing or older than its sources, in a copy with a stand-in for rt."""

    def setUp(self):
        super().setUp()
        shutil.copytree(os.path.join(ROOT, "bin"), self.path("bin"))
        os.mkdir(self.path("tools"))
        for name in os.listdir(HERE):
            if name == "start" or name.endswith(".py") and not name.startswith("test"):
                shutil.copy(os.path.join(HERE, name), self.path("tools"))
        self.write("crates.txt", b"# crates\nlow:\nother:\nschedule: low\norder: low\nexports staticlib: low\n")
        for name in ("low/src/lib.rt", "low/must-fail/a.edit", "low/specs/Lib.antt", "other/src/lib.rt",
                     "schedule/src/main.rt", "order/src/main.rt", "exports/src/lib.rt"):
            self.write("crates/" + name, b"fn\n")
        self.write("kit/program", PROGRAM.encode())
        os.chmod(self.path("kit", "program"), 0o755)
        self.write("kit/rt", RT.encode())
        os.chmod(self.path("kit", "rt"), 0o755)
        self.env = {**os.environ, "PATH": self.path("kit") + os.pathsep + os.environ["PATH"]}
        self.age()

    def age(self):
        """Makes all sources older than anything that is made now."""
        for folder, _, names in os.walk(self.path("crates")):
            for path in [folder] + [os.path.join(folder, name) for name in names]:
                os.utime(path, (1, 1))
        os.utime(self.path("crates.txt"), (1, 1))

    def ask(self, *args, call="schedule", **more):
        """Runs a program of the copy."""
        return run(call, *args, root=self.folder, **{"env": self.env, **more})

    def runs(self):
        """What rt was asked since the last time."""
        try:
            return self.read("kit/runs").decode().splitlines()
        except FileNotFoundError:
            return []
        finally:
            self.write("kit/runs", b"")

    def settled(self):
        """Builds the program, and checks that the next run does not."""
        self.assertEqual(self.ask()[:2], (0, ANSWER))
        self.runs()
        self.assertEqual((self.ask(), self.runs()), ((0, ANSWER, ""), []))

    def test_missing(self):
        status, out, error = self.ask()
        self.assertEqual((status, out, self.runs()), (0, ANSWER, ["run schedule"]))
        lines = error.splitlines()
        self.assertEqual(lines[0], "schedule: the program is not built: rt proves and builds it; "
                                   "from nothing that takes some ten minutes")
        self.assertEqual(lines[1:3], ["[1/2] low proved", "[2/2] schedule proved"])
        self.assertRegex(lines[3], r"^schedule: the program is up to date, after \d+ s$")
        self.assertEqual((self.ask(), self.runs()), ((0, ANSWER, ""), []))
        self.assertEqual(self.ask(call="order")[:2], (0, ANSWER))
        self.assertEqual(self.runs(), ["run order"])

    def test_explain(self):
        """bin/explain has the same program, built where it is missing or older than its sources."""
        line = b"T stand_in <- round 0, no parents (standard input:1)\n"
        for said in ("the program is not built", "crates/low/src/lib.rt is newer than the program"):
            status, out, error = self.ask("-", call="explain", given=b"domain stand_in")
            self.assertEqual((status, out.split(b"\n", 1)[1], self.runs()), (0, line, ["run schedule"]))
            self.assertTrue(error.startswith(f"explain: {said}: rt proves"), error)
            self.assertEqual("[1/2] low proved\n" in error, said == "the program is not built")
            os.utime(self.path("crates/low/src/lib.rt"))
        self.trouble(self.ask("gone", call="explain"), "explain: gone: no such file or directory")
        lines = self.write("lines", ANSWER)
        self.assertEqual(self.ask("--lines", lines, "-", call="explain", given=b"domain stand_in")[::2], (0, ""))
        self.assertEqual(self.runs(), [])
        self.write("kit/fails", b"")
        status, out, error = self.ask("-", call="explain", given=b"domain stand_in")
        self.assertEqual((status, out, error.splitlines()[-1].partition(";")[0]),
                         (2, b"", "explain: low is not proved"))

    def test_compare(self):
        """bin/compare has the programs of bin/schedule and bin/show, built where they are missing; files come first."""
        path = self.write("a", b"")
        self.trouble(self.ask(path, "gone", call="compare"), "compare: gone: no such file or directory")
        self.assertEqual(self.runs(), [])
        self.write("crates.txt", self.read("crates.txt") + b"show: low\n")
        self.write("crates/show/src/main.rt", b"fn\n")
        self.age()
        for args, crate in ([path, path], "schedule"), (["--packed", "-w", "2", path, path], "show"):
            status, out, error = self.ask("--json", *args, call="compare")
            self.assertEqual((status, json.loads(out)["rows"]), (0, [{"mark": "=", "a": "T stand_in", "b": "T stand_in"}]))
            self.assertTrue(error.startswith("compare: the program is not built: rt proves"), error)
            self.assertEqual(self.runs(), [f"run {crate}"])
            self.assertEqual((self.ask("-q", *args, call="compare"), self.runs()), ((0, b"", ""), []))
        os.utime(self.path("crates/low/src/lib.rt"))
        self.write("kit/fails", b"")
        status, out, error = self.ask(path, path, call="compare")
        self.assertEqual((status, out, error.splitlines()[-1].partition(";")[0]),
                         (2, b"", "compare: low is not proved"))

    def test_tariff(self):
        """bin/tariff has the program charge, built where it is missing; files and errors in the rates come first."""
        rates, schedule = self.write("rates", b"line 0 1"), self.write("a", b"")
        self.trouble(self.ask(rates, "-w", "2", "gone", call="tariff"), "tariff: gone: no such file or directory")
        self.assertEqual(self.ask("-", "-w", "2", schedule, call="tariff", given=b"line")[:2], (2, b""))
        self.assertEqual(self.runs(), [])
        self.write("crates.txt", self.read("crates.txt") + b"charge: low\n")
        self.write("crates/charge/src/main.rt", b"fn\n")
        self.write("kit/program", PROGRAM.replace("T stand_in", "total 1.50").encode())
        self.age()
        status, out, error = self.ask(rates, "-w", "2", schedule, call="tariff")
        self.assertEqual((status, out, self.runs()), (0, b"total 1.50\n", ["run charge"]))
        self.assertTrue(error.startswith("tariff: the program is not built: rt proves"), error)
        self.assertEqual((self.ask(rates, "-w", "2", schedule, call="tariff"), self.runs()), ((0, b"total 1.50\n", ""), []))
        self.write("target/bin/charge", b"#!/bin/sh\ncat > /dev/null\n")
        self.trouble(self.ask(rates, "-w", "2", schedule, call="tariff"), f"tariff: {schedule}: the program gave no answer")

    def test_newer(self):
        """Each source that is newer, also one that is gone; rt is asked once for each change."""
        self.settled()
        changes = {"crates/low/src/lib.rt": lambda path: os.utime(path),
                   "crates/schedule/src/main.rt": lambda path: self.write(path, b"fn main\n"),
                   "crates/low/specs": lambda path: os.remove(os.path.join(path, "Lib.antt")),
                   "crates.txt": lambda path: os.utime(path)}
        for name, change in changes.items():
            change(self.path(name))
            status, out, error = self.ask()
            self.assertEqual((status, out, self.runs()), (0, ANSWER, ["run schedule"]), name)
            self.assertIn(f"schedule: {name} is newer than the program: rt proves what has changed\n", error)
            time.sleep(0.05)
            self.settled()

    def test_not_newer(self):
        """What the program is not made from; and links, which rt does not follow."""
        self.settled()
        os.utime(self.path("crates/low/must-fail/a.edit"))
        os.utime(self.path("crates/other/src/lib.rt"))
        when = os.stat(self.path("crates/low/src")).st_mtime
        os.symlink("nowhere", self.path("crates/low/src/.#lib.rt"))
        os.utime(self.path("crates/low/src"), (when, when))
        self.assertEqual((self.ask(), self.runs()), ((0, ANSWER, ""), []))

    def test_gone(self):
        """The program is gone or empty, and its stamp is kept."""
        self.settled()
        for change in (os.remove, lambda path: open(path, "wb").close(), lambda path: os.chmod(path, 0o644)):
            change(self.path("target/bin/schedule"))
            self.assertEqual((self.ask()[:2], self.runs()), ((0, ANSWER), ["run schedule"]))
        self.settled()

    def test_not_ended(self):
        """rt linked the program, and did not come to its end: what lies in its folder is not taken."""
        self.settled()
        for name in ("target/bin/schedule", "crates/schedule/out/schedule.stamp"):
            os.remove(self.path(name))
        self.write("crates/schedule/out/schedule", b"#!/bin/sh\necho no answer\n")
        status, out, error = self.ask()
        self.assertEqual((status, out, self.runs()), (0, ANSWER, ["run schedule"]))
        self.assertIn("the program is not built", error)

    def test_failure(self):
        """The log is named, and no older program answers."""
        self.settled()
        os.utime(self.path("crates/low/src/lib.rt"))
        self.write("kit/fails", b"")
        for _ in range(2):
            status, out, error = self.ask()
            self.assertEqual((status, out), (2, b""))
            log = self.path("target/log/schedule.build")
            self.assertEqual(error.splitlines()[-1], f"schedule: low is not proved; {log} has "
                                                     "what rt said")
            self.assertIn(b"error", self.read(log))
        os.remove(self.path("kit/fails"))
        self.settled()

    def test_no_rt(self):
        env = {**self.env, "PATH": self.few("sh", "dirname", "readlink", python3=sys.executable)}
        text = "and rt, the toolchain that builds it, is not on the path"
        self.trouble(self.ask(env=env), f"schedule: the program is not built, {text}")
        self.settled()
        os.utime(self.path("crates/low/src/lib.rt"))
        self.trouble(self.ask(env=env),
                     f"schedule: crates/low/src/lib.rt is newer than the program, {text}")
        self.assertIn("toolchain unknown", self.ask("--version", env=env)[1].decode())

    def few(self, *names, **paths):
        """A folder with links to a few commands."""
        os.mkdir(self.path("few"))
        for name, path in [(name, shutil.which(name)) for name in names] + list(paths.items()):
            os.symlink(path, self.path("few", name))
        return self.path("few")

    def test_no_python(self):
        env = {**self.env, "PATH": self.few("sh", "dirname", "readlink")}
        self.trouble(self.ask(env=env), "schedule: python3 is not on the path")

    def test_files_first(self):
        """A file that cannot be read is told before anything is built."""
        self.trouble(self.ask("gone"), "schedule: gone: no such file or directory")
        self.assertEqual(self.runs(), [])

    def test_version(self):
        self.write("VERSION", b"1.2.3\n")
        lines = self.ask("--version")[1].decode().splitlines()
        self.assertEqual(lines, ["schedule 1.2.3", "commit unknown", "toolchain stand-in kit"])

    def test_several(self):
        """A process for each sheet where `batch` is not at hand."""
        files = [self.write("a", b""), self.write("b", b"")]
        out = b"".join(b"== " + name.encode() + b"\n" + ANSWER for name in files)
        self.assertEqual(self.ask(*files)[:2], (0, out))
        self.assertEqual(self.runs(), ["run schedule"])

    def test_terminal(self):
        """One line that is rewritten."""
        status, shown = at_terminal([self.path("bin/schedule"), "-"], env=self.env,
                                    preexec_fn=lambda: os.dup2(os.open(os.devnull, os.O_RDONLY), 0))
        self.assertEqual(status, 0)
        self.assertIn("\r\033[K[1/2] low proved\r\033[K[2/2] schedule proved\r\033[K", shown)
        self.assertTrue(shown.endswith("T stand_in\n"))

    def test_two_at_once(self):
        """Two runs build once."""
        self.write("kit/waits", b"1")
        words = [self.path("bin/schedule"), "-"]
        both = [subprocess.Popen(words, env=self.env, stdin=subprocess.DEVNULL, stdout=subprocess.PIPE,
                                 stderr=subprocess.PIPE) for _ in range(2)]
        ended = [(process.communicate(timeout=60), process.returncode) for process in both]
        self.assertEqual([(out, status) for (out, _), status in ended], [(ANSWER, 0)] * 2)
        self.assertEqual(self.runs(), ["run schedule"])
        self.assertEqual(sum(b"waiting" in error for (_, error), _ in ended), 1)

    def test_interrupt(self):
        """What rt has started ends with the program."""
        for number in (signal.SIGINT, signal.SIGTERM):
            self.write("kit/waits", b"60")
            with subprocess.Popen([self.path("bin/schedule"), "-"], env=self.env,
                                  stdin=subprocess.DEVNULL, stderr=subprocess.DEVNULL) as process:
                sleeper = self.wait_for("kit/sleeper")
                process.send_signal(number)
                self.assertEqual(process.wait(timeout=30), -number)
            for _ in range(100):
                if not os.path.exists(f"/proc/{sleeper}") or self.zombie(sleeper):
                    break
                time.sleep(0.05)
            else:
                self.fail("what rt had started runs on")
            os.remove(self.path("kit/sleeper"))

    def wait_for(self, name):
        """The number in a file, once it is there."""
        for _ in range(200):
            if os.path.exists(self.path(name)) and self.read(name):
                return int(self.read(name))
            time.sleep(0.05)
        self.fail(f"{name} did not come")

    @staticmethod
    def zombie(number):
        """Whether a process has ended and was not yet taken notice of."""
        with open(f"/proc/{number}/stat", encoding="ascii") as source:
            return source.read().rsplit(")", 1)[1].split()[0] == "Z"

    def test_bad_program(self):
        """A program that ends badly is trouble, and no answer."""
        for text, said in [("kill -SEGV $$", "the program ended with signal 11"),
                           ("exit 3", "the program ended with status 3"),
                           ("printf 'T a'", "the program's answer is cut short")]:
            self.write("kit/program", f"#!/bin/sh\n{text}\n".encode())
            self.write("crates/schedule/src/main.rt", text.encode())
            status, out, error = self.ask()
            self.assertEqual((status, out), (2, b""))
            self.assertEqual(error.splitlines()[-1], f"schedule: standard input: {said}")
        self.write("target/bin/schedule", b"\x7fELF, but no program")
        self.assertEqual(self.ask()[2], "schedule: standard input: the program cannot be run: "
                                        "exec format error\n")

    def test_fault(self):
        """A fault of the programs themselves is no refusal."""
        self.settled()
        with open(self.path("tools/printed.py"), "a", encoding="utf-8") as out:
            out.write("def refused(text):\n    raise KeyError('x')\n")
        status, _, error = self.ask()
        self.assertEqual(status, 2)
        self.assertRegex(error, r"^schedule: a fault in printed.py, line \d+: KeyError\('x'\)\n$")

    def test_library(self):
        """The library is built when it is asked for; without a compiler that is said."""
        self.settled()
        status, out, error = self.ask("--size", env={**self.env, "CC": "no-such-compiler"})
        self.assertEqual((status, out, self.runs()), (2, b"", ["lib exports"]))
        self.assertIn("schedule: the library is not built", error)
        self.assertEqual(error.splitlines()[-1], "schedule: the library has to be linked by a C compiler, "
                                                 "and there is none (no-such-compiler)")
        self.trouble(self.ask("--packed", self.path("out"), env={**self.env, "CC": "false"}),
                     f"schedule: false cannot link the library; "
                     f"{self.path('target/log/libgidzelma.link')} has what it said")
        self.assertEqual(self.runs(), [])

    def test_archive(self):
        """Without sources nothing is built, and the programs stand in libexec/."""
        os.remove(self.path("crates.txt"))
        self.trouble(self.ask(), f"schedule: {self.path('libexec/schedule')} is missing, and there are no "
                                 "sources to build it from")
        os.mkdir(self.path("libexec"))
        shutil.copy(self.path("kit/program"), self.path("libexec/schedule"))
        self.assertEqual((self.ask(), self.runs()), ((0, ANSWER, ""), []))
        self.assertEqual(self.ask("-", "kit/program", cwd=self.folder)[:2],
                         (0, b"== -\n" + ANSWER + b"== kit/program\n" + ANSWER))


if __name__ == "__main__":
    for word in [NOT_BUILT] * (not BUILT) + [NOT_SHOWN] * (not SHOWS) + [NOT_LINKED] * (not LINKED):
        print(f"some tests are skipped: {word}", file=sys.stderr)
    unittest.main()
