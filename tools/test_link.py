#!/usr/bin/env python3
"""Tests of what people link: the header, the library, its wrappers for Rust and Python, and the archive
that tools/dist makes. Run: python3 tools/test_link.py

Those that need the library, the programs, a compiler, cargo or pkg-config are skipped, with a word, where
these are missing or older than their sources.
"""

import hashlib
import os
import re
import shutil
import struct
import subprocess
import sys
import tarfile
import tempfile
import threading
import unittest

HERE = os.path.dirname(os.path.abspath(__file__))
ROOT = os.path.dirname(HERE)
sys.path.insert(0, HERE)

import building
import gidzelma
import model
import model_conversion
import model_tariff
import program
import refusals
import sheetlib
import test_programs as programs
from maps import large, tariffs
from test_programs import BASE, BASE_TEXT, CALLS, Folder

HEADER = os.path.join(ROOT, "include", "gidzelma.h")
ARCHIVE = building.library(ROOT).path
STRICT = ["-Wall", "-Wextra", "-Wpedantic", "-Werror"]
LARGEST = 1 << 18  # above the longest schedule that was found
PACKED = bytes.fromhex("06000200800080001090140802800010")
PROGRAMS = ("schedule", "order", "batch", "show", "charge")  # of the archive
EXPORTED = ["gidzelma_" + name for name in ("order", "read_schedule", "schedule", "tariff", "write_schedule")]

C_COMPILERS = [name for name in ("gcc", "clang") if shutil.which(name)]
CXX_COMPILERS = [name for name in ("g++", "clang++") if shutil.which(name)]
LINKED = building.at_hand(ROOT, building.library(ROOT)) and bool(C_COMPILERS)
BUILT = LINKED and all(building.at_hand(ROOT, building.program(ROOT, name))
                       for name in PROGRAMS)
NOT_LINKED = "the library is not built, or older than its sources (tools/build exports), or cc is missing"
NOT_BUILT = "the programs are not built, or older than their sources (tools/build schedule order batch show charge)"
NO_CARGO = "cargo is missing"
NO_PKG_CONFIG = "pkg-config is missing"
linked = unittest.skipUnless(LINKED, NOT_LINKED)
built = unittest.skipUnless(BUILT, NOT_BUILT)
with_cargo = unittest.skipUnless(shutil.which("cargo"), NO_CARGO)
with_pkg_config = unittest.skipUnless(shutil.which("pkg-config"), NO_PKG_CONFIG)


def text_of(*names):
    """The text of a file of the repository."""
    with open(os.path.join(ROOT, *names), encoding="utf-8") as source:
        return source.read()


def ran(words, **more):
    """Status, standard output and standard error of a command."""
    done = subprocess.run(words, stdin=subprocess.DEVNULL, capture_output=True, check=False, timeout=600,
                          **more)
    return done.returncode, done.stdout, done.stderr.decode(errors="replace")


def sheets():
    """The listed cases, and maps at the limits."""
    return {**programs.listed_sheets(),
            **{name: sheetlib.encode(make()) for name, make in large.MAPS.items()}}


def model_of(call, sheet, listing=LARGEST, rows=model.SHOWN_ROWS):
    """The model's answer under a row limit."""
    return getattr(model, call)(sheet, bytes(listing), bytes(6 * rows), rows)


def constants():
    """The constants of the header, by name."""
    text = text_of("include", "gidzelma.h")
    found = re.findall(r"^#define GIDZELMA_(\w+) (\d+)", text, re.M)
    found += re.findall(r"^    GIDZELMA_(\w+) = (\d+)", text, re.M)
    return {name: int(value) for name, value in found}


class Version(unittest.TestCase):
    """One number, in the file VERSION; where it has to be repeated it is the same."""

    def test_same(self):
        version = text_of("VERSION").strip()
        self.assertRegex(version, r"^\d+\.\d+\.\d+$")
        self.assertEqual(program.number_of_version(), version)
        for name in ("Cargo.toml", "Cargo.lock"):
            found = re.findall(r'^name = "gidzelma"\nversion = "(.*)"$', text_of("rust", name), re.M)
            self.assertEqual(found, [version], name)
        self.assertIn(f'#define GIDZELMA_VERSION "{version}"\n', text_of("include", "gidzelma.h"))
        self.assertIn(f"\n## [{version}]", text_of("CHANGELOG.md"))
        self.assertIn(f"gidzelma-{version}-x86_64-linux", text_of("docs", "LINKING.md"))


# ------------------------------------------------------------------------ C

# Each constant is an integer constant expression, rows have no gaps, and the header may come twice.
USES = """
#include "gidzelma.h"
#include "gidzelma.h"
%s
typedef char row_size[sizeof(struct gidzelma_row) == GIDZELMA_ROW_LEN ? 1 : -1];
typedef char slice_size[sizeof(struct gidzelma_row[GIDZELMA_ROWS_MAX]) == GIDZELMA_DIAGNOSIS_LEN(GIDZELMA_ROWS_MAX) ? 1 : -1];
typedef char least_slice[GIDZELMA_DIAGNOSIS_LEN(1) + GIDZELMA_DIAGNOSIS_LEN(1 + 1) == 18 ? 1 : -1];
uint32_t use(enum gidzelma_number number, enum gidzelma_kind kind, const char *version);
uint32_t use(enum gidzelma_number number, enum gidzelma_kind kind, const char *version)
{
    uint8_t sheet[1] = {0}, listing[1] = {0}, records[GIDZELMA_RECORDS_LEN(sizeof listing)] = {0};
    struct gidzelma_row rows[GIDZELMA_ROWS_MAX];
    uint32_t parts[GIDZELMA_PARTS_LEN];
    int32_t tariff[GIDZELMA_TARIFF_ROW_LEN] = {GIDZELMA_SORT_VIRTUAL, GIDZELMA_PARENTS_MIN, -GIDZELMA_RATE_MAX};
    int64_t total;
    if (number == GIDZELMA_ACCEPTED && kind == GIDZELMA_KIND_CYCLE && version[0] == GIDZELMA_VERSION[0])
        return gidzelma_order(sheet, 1, GIDZELMA_ROWS_SHOWN, listing, 1, (uint8_t *)rows, sizeof rows, parts, 3);
    if (number == GIDZELMA_SCHEDULE_PAST_END)
        return gidzelma_read_schedule(GIDZELMA_WORDS_MAX, listing, 1, records, sizeof records, parts, 3);
    if (number == GIDZELMA_SCHEDULE_NOT_ALLOWED)
        return gidzelma_write_schedule(GIDZELMA_WORDS_MIN, records, sizeof records, listing, 1, parts, 3);
    if (number == GIDZELMA_TARIFF_NOT_ALLOWED)
        return gidzelma_tariff(tariff, GIDZELMA_TARIFF_ROW_LEN, GIDZELMA_WORDS_MIN, listing, 1, &total);
    return gidzelma_schedule(sheet, 1, GIDZELMA_ROWS_MAX, listing, 1, (uint8_t *)rows, sizeof rows, parts, 3);
}
"""


class Header(Folder):
    """include/gidzelma.h."""

    def compiles(self, compilers, standards, name):
        """A file that uses all of the header, by each compiler and standard."""
        sizes = "".join(f"typedef char c_{at}[GIDZELMA_{constant} == {value} ? 1 : -1];\n"
                        for at, (constant, value) in enumerate(constants().items()))
        path = self.write(name, (USES % sizes).encode())
        for compiler in compilers:
            for standard in standards:
                done = ran([compiler, f"-std={standard}", *STRICT, "-I", os.path.dirname(HEADER),
                            "-fsyntax-only", path])
                self.assertEqual(done, (0, b"", ""), f"{compiler} {standard}")

    @unittest.skipUnless(C_COMPILERS, "gcc and clang are missing")
    def test_c(self):
        self.compiles(C_COMPILERS, ("c99", "c11", "gnu17"), "use.c")

    @unittest.skipUnless(CXX_COMPILERS, "g++ and clang++ are missing")
    def test_cxx(self):
        self.compiles(CXX_COMPILERS, ("c++98", "c++11", "c++17"), "use.cc")

    def test_values(self):
        """The numbers, kinds and lengths are those of the tools, of the page and of the wrappers."""
        values = constants()
        numbers = [value for name, value in values.items()
                   if re.search(rf"^    GIDZELMA_{name} = ", text_of("include", "gidzelma.h"), re.M)]
        self.assertEqual(numbers, [0, *refusals.REFUSALS, 255, *refusals.KINDS])
        row = model.row_bytes(model.Row(2, (0,), (1,), None))
        self.assertEqual((values["SHEET_MAX"], values["ROW_LEN"]), (model.SHEET_LIMIT, len(row)))
        self.assertEqual((values["ROWS_MAX"], values["ROWS_SHOWN"]), (model.MOST_ROWS, model.SHOWN_ROWS))
        page = text_of("docs", "FORMAT.md")
        for name in ("SHEET_MAX", "ROWS_MAX", "ORDER_MAX", "SCHEDULE_MAX", "SCHEDULE_FOUND"):
            self.assertRegex(page, rf"\b{values[name]:,}\b", name)
        self.assertEqual((values["WORDS_MIN"], values["WORDS_MAX"]), model_conversion.WORDS)
        self.assertEqual((values["RECORD_LEN"], values["RECORDS_PER_BYTE"]), (model_conversion.RECORD, 8 * 2))
        self.assertEqual((values["TARIFF_ROW_LEN"], values["TARIFF_MAX"]), (model_tariff.ROW, model_tariff.MOST_NUMBERS))
        self.assertEqual((-values["RATE_MAX"], values["RATE_MAX"]), model_tariff.RATES)
        self.assertEqual([values[f"SORT_{name}"] for name in ("REAL", "VIRTUAL", "LINE")], list(model_tariff.PARENTS))
        self.assertEqual((values["PARENTS_MIN"], values["PARENTS_MAX"]), model_tariff.PARENTS[model_tariff.REAL])
        for name in ("ROW_LEN", "ROWS_MAX", "ROWS_SHOWN", "ABSENT", "STACK_LEN", "LISTING_TOO_SHORT", "RECORDS_PER_BYTE"):
            self.assertEqual(getattr(gidzelma, name), values[name], name)
        self.assertEqual([gidzelma.diagnosis_len(rows) for rows in (1, 64, 256)], [6, 384, 1536])
        rust = text_of("rust", "src", "lib.rs")
        for name in ("SHEET_MAX", "ROW_LEN", "ROWS_MAX", "ROWS_SHOWN", "ORDER_MAX", "SCHEDULE_MAX", "RECORD_LEN",
                     "RECORDS_PER_BYTE", "TARIFF_ROW_LEN", "TARIFF_MAX"):
            self.assertIn(f"pub const {name}: usize = {values[name]:_};", rust)
        self.assertIn(f"pub const RATE_MAX: i32 = {values['RATE_MAX']:_};", rust)

    def test_words(self):
        """The words of the Rust are those of the tools' table."""
        text = text_of("rust", "src", "refusal.rs")
        for number, (said, _) in refusals.REFUSALS.items():
            name = re.search(rf"Refusal::(\w+) => {number},", text).group(1)
            self.assertIn(f'Refusal::{name} => "{said}",', text)
        text = text_of("rust", "src", "rows.rs")
        for number, (said, _) in refusals.KINDS.items():
            name = re.search(rf"Kind::(\w+) => {number},", text).group(1)
            self.assertIn(f'Kind::{name} => "{said}",', text)


@linked
class Linked(Folder):
    """Programs in C over the static library."""

    def build(self, name, *options, compiler=None):
        """Compiles a file of the repository with the static library."""
        out = self.path(os.path.basename(name)[:-2])
        done = ran([compiler or C_COMPILERS[0], "-O2", *options, "-I", os.path.dirname(HEADER),
                    os.path.join(ROOT, name), ARCHIVE, "-o", out])
        self.assertEqual(done, (0, b"", ""))
        return out

    def test_example(self):
        """examples/schedule.c writes the model's bytes, or says its number and as many rows."""
        for compiler in C_COMPILERS:
            example = self.build("examples/schedule.c", "-std=c99", *STRICT, compiler=compiler)
            self.assertEqual(ran([example, BASE]), (0, PACKED, ""))
        for name, sheet in sheets().items():
            status, out, error = ran([example, self.write("a.sheet", sheet)])
            answer = model_of("schedule", sheet)
            self.assertEqual((status, out), (int(answer.number > 0), answer.listing[:answer.size]), name)
            if answer.number:
                lines = error.splitlines()
                self.assertEqual(lines[0], f"refused {answer.number}", name)
                self.assertEqual(len(lines), 1 + answer.rowcount + answer.flag, name)
        self.assertEqual(ran([example, self.path("gone")])[:2], (2, b""))
        self.assertEqual(ran([example])[:2], (2, b""))

    def test_records(self):
        """examples/records.c prints the model's records, or says its number."""
        for compiler in C_COMPILERS:
            example = self.build("examples/records.c", "-std=c99", *STRICT, compiler=compiler)
            self.assertEqual(ran([example, "4", os.path.join(ROOT, "examples", "base.schedule")]),
                             (0, b"3 0 0 2 0 1 0 2 0 0 0 1 0 2 1 1 1 2 1 0 1 0 0 0 0 1\n", ""))
        for w, schedule in ((4, b""), (4, PACKED[:-1]), (4, PACKED + b"\0"), (2, PACKED), (201, PACKED), (2, bytes(3))):
            status, out, error = ran([example, str(w), self.write("a.schedule", schedule)])
            answer = model.read_schedule(w, schedule, bytes(16 * len(schedule)))
            self.assertEqual((status, error), (1, f"refused {answer.number}\n") if answer.number else (0, ""))
            self.assertEqual(out, b"" if answer.number else b"0 0\n")
        self.assertEqual(ran([example, "4", self.path("gone")])[:2], (2, b""))
        self.assertEqual(ran([example])[:2], (2, b""))

    def test_tariff(self):
        """examples/tariff.c prints the model's sum, or says its number."""
        schedule = os.path.join(ROOT, "examples", "base.schedule")
        for compiler in C_COMPILERS:
            example = self.build("examples/tariff.c", "-std=c99", *STRICT, compiler=compiler)
            self.assertEqual(ran([example, "4", schedule, *"0 2 1250 2 0 100".split()]), (0, b"total 13.50\n", ""))
        for numbers in ([], [2, 0, -5], [2, 0, -105], [0], [0, 2, 1, 0, 2, 2], [0, 2, 100000], 34 * [2, 0, 1]):
            for w in (4, 0):
                status, out, error = ran([example, str(w), schedule, *map(str, numbers)])
                answer = model.tariff(numbers, w, PACKED)
                said = model.total_printed(answer)
                self.assertEqual((status, out.decode(), error), (1, "", said) if answer.number else (0, said, ""))
        for args in ([], ["4"], ["4", self.path("gone")], ["4", schedule, "x"], ["4", schedule, str(1 << 31)]):
            self.assertEqual(ran([example, *args])[:2], (2, b""))

    def test_symbols(self):
        """The library asks for nothing but memcpy and memset, and gives the calls alone."""
        if not shutil.which("nm"):
            self.skipTest("nm is missing")
        lines = ran(["nm", "-g", ARCHIVE])[1].decode().splitlines()
        pairs = sorted(tuple(line.split()[-2:]) for line in lines if line and not line.endswith(":"))
        self.assertEqual(pairs, [*(("T", name) for name in EXPORTED), ("U", "memcpy"), ("U", "memset")])

    def test_stack(self):
        """No more stack than the header and the pages say, and half of what they advise."""
        said, other, least = (float(re.search(what + r" ([\d.]+) MB", text_of("include", "gidzelma.h")).group(1))
                              for what in ("took up to", "and", "less than"))
        for name in ("docs/LINKING.md", "rust/src/lib.rs"):
            self.assertIn(f"up to {said} MB", text_of(name))
            self.assertIn(f"and {other} MB", text_of(name))
            self.assertIn(f"less than {least} MB", text_of(name))
        ring = "\n".join(f"domain t{at:02} : t{(at + 1) % 64:02}" for at in range(64))
        tried = [sheetlib.sheet_of(ring), *(sheetlib.encode(make()) for make in large.MAPS.values())]
        for call in ("schedule", "order"):
            stack = self.build("bench/stack.c", f"-DCALL=gidzelma_{call}", "-pthread")
            for sheet in tried:
                number, used = self.used([stack], sheet)
                self.assertLessEqual(used, 1e6 * (said if number == 9 else other))
                self.assertLessEqual(2 * used, constants()["STACK_LEN"])
        sheet = sheetlib.encode(large.MAPS["crowd"]())
        answer, w = model_of("schedule", sheet), len(model.sheet_words(sheet))
        packed = answer.listing[:answer.size]
        records = model.records_of(*model_conversion.Going(w, model_conversion.Packed(packed),
                                                           model_conversion.Records(bytes(1 << 20))).schedule())
        for call, right in (("read_schedule", packed), ("write_schedule", records)):
            stack = self.build("bench/stack.c", f"-DCALL=gidzelma_{call}", "-DCONVERSION", "-pthread")
            for given, want in ((right, 0), (right[:-2], 11), (right + b"\0", 12), (b"", 11), (b"\xff" * 9, 12)):
                number, used = self.used([stack, str(w)], given)
                self.assertEqual(number, want)
                self.assertLess(used, 1e6 * least)
        stack = self.build("bench/stack.c", "-DCALL=gidzelma_tariff", "-DTARIFF", "-pthread")
        numbers = tariffs.numbers(tariffs.full(tariffs.odd))
        for tariff, given, want in ((numbers, packed, 0), (numbers, packed[:-2], 11), (numbers, packed + b"\0", 12),
                                    ([], packed, 0), (numbers[:-1], packed, 15), (2 * numbers[:6], packed, 16)):
            path = self.write("tariff", struct.pack(f"={len(tariff)}i", *tariff))
            number, used = self.used([stack, str(w), path], given)
            self.assertEqual(number, want)
            self.assertLess(used, 1e6 * least)

    def used(self, words, given):
        """The number, and the bytes of stack, that bench/stack.c finds."""
        done = subprocess.run(words, input=given, stdout=subprocess.PIPE, check=True)
        return map(int, re.search(rb"number (\d+), (\d+) bytes of stack", done.stdout).groups())


# ------------------------------------------------------------------- Python

@linked
class Python(unittest.TestCase):
    """tools/gidzelma.py."""

    @classmethod
    def setUpClass(cls):
        cls.library = gidzelma.load(building.shared_object(ROOT, lambda text: None))

    def test_answers(self):
        """The bytes, numbers and rows of the listed cases and of large maps are the model's."""
        for name, sheet in sheets().items():
            for call in CALLS:
                want = model_of(call, sheet)
                try:
                    got = getattr(self.library, call)(sheet)
                    self.assertEqual((0, got), (want.number, want.listing[:want.size]), name)
                except gidzelma.Refused as refused:
                    self.assertEqual((refused.number, len(refused.rows), refused.more),
                                     (want.number, want.rowcount, bool(want.flag)), name)
                    self.assertEqual(refused.rows, gidzelma.rows_of(want.diagnosis, want.rowcount))

    def test_lent(self):
        """Every length of the listing, and diagnosis slices around the needed length; all else stays."""
        with open(BASE, "rb") as source:
            sheet = source.read()
        loop = sheetlib.sheet_of("domain a : b\ndomain b : a")
        for call in CALLS:
            for given in (sheet, loop, b"", b"\x20"):
                for rows in (64, 1, 256):
                    needed = 6 * rows
                    for listing, diagnosis in [*((at, needed) for at in range(20)), (9, 0), (9, needed - 1), (9, needed + 1)]:
                        self.check_lent(call, given, rows, listing, diagnosis)

    def check_lent(self, call, given, rows, listing, diagnosis):
        """A call on slices of so many bytes, beside the model."""
        lent = bytearray(b"\xa5" * listing), bytearray(b"\x5a" * diagnosis)
        want = getattr(model, call)(given, *map(bytes, lent), rows)
        got = self.library.lend(call, given, *lent, rows)
        self.assertEqual(got, (want.number, want.size, want.rowcount, want.flag))
        self.assertEqual(lent, (want.listing, want.diagnosis))
        if rows == gidzelma.ROWS_SHOWN:
            self.assertEqual(self.library.lend(call, given, *lent), got)

    def test_limits(self):
        """As many rows as the limit, one less, one more, of 8 and of 9, and limits that are not allowed, up to the largest
        number of C; slices around six bytes a row."""
        for rows in (1, 2, 63, 64, 65, 255, 256):
            for beside in (-1, 0, 1):
                for make in (large.rows_of_eight, large.rows_of_nine):
                    sheet = sheetlib.encode(make(rows + beside))
                    for call in CALLS:
                        for diagnosis in (6 * rows - 1, 6 * rows, 6 * rows + 1, 1600):
                            self.check_lent(call, sheet, rows, 9, diagnosis)
        for rows in (0, 257, 65536, 65600, 0x2aaaaaab, (1 << 32) - 1):
            for given in (sheet, b"", bytes(40961)):
                for call in CALLS:
                    for diagnosis in (0, 2, 1535, 1536, 1542):
                        self.check_lent(call, given, rows, 9, diagnosis)

    def test_checked(self):
        """A limit that is not allowed is an error of the caller's before the call is made."""
        loop, many = sheetlib.sheet_of("domain a : b\ndomain b : a"), sheetlib.encode(large.rows_of_eight(70))
        for rows in (-1, 0, 257, 1 << 32, (1 << 32) + 64):
            for call in CALLS:
                with self.assertRaisesRegex(ValueError, f"a row limit of {rows}: it is 1 to 256"):
                    getattr(self.library, call)(loop, rows)
        for rows in (-1, 1 << 32, (1 << 32) + 64):
            with self.assertRaisesRegex(OverflowError, "no number of 32 bits"):
                self.library.lend("order", loop, bytearray(9), bytearray(1536), rows)
        for rows, count, more in ((1, 1, True), (64, 64, True), (69, 69, True), (70, 70, False), (256, 70, False)):
            with self.assertRaises(gidzelma.Refused) as caught:
                self.library.schedule(many, rows=rows)
            self.assertEqual((len(caught.exception.rows), caught.exception.more), (count, more))

    def test_refused(self):
        with self.assertRaises(gidzelma.Refused) as caught:
            self.library.schedule(sheetlib.sheet_of("domain a\n associate d.f"))
        self.assertEqual(str(caught.exception), "refused 9: what a type associates cannot be made")
        self.assertEqual(caught.exception.rows, [(4, (0,), (1, 2), 2)])
        self.assertEqual(gidzelma.rows_of(b"\x06\1\2\xff\xff\3", 1), [(6, (1, 2), None, 3)])

    def test_kinds_of_bytes(self):
        with open(BASE, "rb") as source:
            sheet = source.read()
        for form in (bytes, bytearray, memoryview):
            self.assertEqual(self.library.schedule(form(sheet)), PACKED)

    def test_threads(self):
        """Several threads at the same time, with the stack that is advised."""
        crowd = sheetlib.encode(large.MAPS["crowd"]())
        want, got = self.library.schedule(crowd), []
        before = threading.stack_size(gidzelma.STACK_LEN)
        try:
            threads = [threading.Thread(target=lambda: got.append(self.library.schedule(crowd)))
                       for _ in range(4)]
            for thread in threads:
                thread.start()
            for thread in threads:
                thread.join()
        finally:
            threading.stack_size(before)
        self.assertEqual((len(want), got), (239675, [want] * 4))

    def test_places(self):
        """GIDZELMA_LIB_DIR names the folder; what is no library is an OSError."""
        folder = os.path.dirname(self.library.path)
        code = "import gidzelma; print(gidzelma.load().path)"
        env = {**os.environ, "PYTHONPATH": HERE, "GIDZELMA_LIB_DIR": folder}
        done = ran([sys.executable, "-c", code], env=env, cwd="/")
        self.assertEqual(done, (0, os.path.join(folder, "libgidzelma.so").encode() + b"\n", ""))
        done = ran([sys.executable, "-c", code], env={**env, "GIDZELMA_LIB_DIR": "/gone"})
        self.assertIn("OSError", done[2])
        for path in ("/gone", HEADER, "libc.so.6"):
            with self.assertRaises(OSError):
                gidzelma.load(path)


# --------------------------------------------------------------------- Rust

@linked
@with_cargo
class Rust(Folder):
    """The package rust/."""

    def cargo(self, *words, folder=os.path.join(ROOT, "rust"), **env):
        """Runs cargo, without a network."""
        return ran(["cargo", words[0], "--offline", "--quiet", *words[1:]], cwd=folder,
                   env={**os.environ, **env})

    def test_tests(self):
        """Its tests, and the examples of its pages."""
        for words in (("test",), ("test", "--doc")):
            status, out, error = self.cargo(*words)
            self.assertEqual(status, 0, out.decode() + error)
            self.assertRegex(out.decode(), r"test result: ok\. [1-9]")

    def test_warnings(self):
        """No warning, also of its pages."""
        flags = {"RUSTFLAGS": "-D warnings", "RUSTDOCFLAGS": "-D warnings",
                 "CARGO_TARGET_DIR": self.path("cargo")}
        for words in (("build", "--all-targets"), ("doc", "--no-deps")):
            self.assertEqual(self.cargo(*words, **flags)[::2], (0, ""))

    def test_lines(self):
        """What the example prints from its iterators is what the model prints, for each listed case and
        for large maps."""
        names = {self.write(f"{name}.sheet", sheet): sheet for name, sheet in sheets().items()}
        status, out, error = self.cargo("run", "--example", "lines", "--", *names)
        want = ""
        for name, sheet in names.items():
            lines = model.printed(sheet, model_of("schedule", sheet), True)
            want += "".join(line + "\n" for line in [f"== {name}", *lines])
        self.assertEqual((status, error), (1, ""))
        self.assertEqual(out.decode().split("== "), want.split("== "))

    def test_show(self):
        """What the example prints from records is what the model prints, for each accepted case."""
        for name, sheet in sheets().items():
            answer = model_of("schedule", sheet)
            if answer.number == 0:
                files = self.write("a.sheet", sheet), self.write("a.schedule", answer.listing[:answer.size])
                lines = "".join(line + "\n" for line in model.printed(sheet, answer, True))
                self.assertEqual(self.cargo("run", "--example", "show", "--", *files), (0, lines.encode(), ""), name)
        short = self.write("short", PACKED[:-1])
        self.assertEqual(self.cargo("run", "--example", "show", "--", BASE, short), (1, b"refused 11\n", ""))
        self.assertEqual(self.cargo("run", "--example", "show", "--", BASE, self.path("gone"))[0], 2)

    def test_tariff(self):
        """What the example prints beside each line adds up to the sum; lines and sum are the stored ones."""
        files = [os.path.join(ROOT, "examples", name) for name in ("pool.sheet", "pool.schedule")]
        rows = ["real:2:1250", "real:3:475", "real:4:200", "virtual:2:-120", "line:0:85"]
        status, out, error = self.cargo("run", "--example", "tariff", "--", *files, *rows)
        self.assertEqual((status, error), (0, ""))
        *lines, total = (line.split(" ", 1) for line in out.decode().splitlines())
        items = [line for line in text_of("examples", "pool.schedule.txt").splitlines() if not line.startswith("T ")]
        self.assertEqual([line for _, line in lines], items)
        self.assertEqual(" ".join(total) + "\n", text_of("examples", "pool.total.txt"))
        self.assertEqual(sum(int(amount.replace(".", "")) for amount, _ in lines), int(total[1].replace(".", "")))
        self.assertEqual(self.cargo("run", "--example", "tariff", "--", *files, "line:1:1"), (1, b"refused 15\n", ""))
        self.assertEqual(self.cargo("run", "--example", "tariff", "--", *files, "line:1")[0], 2)

    def test_library(self):
        """GIDZELMA_LIB_DIR: a folder without the library, and one that has it under its own name."""
        more = {"CARGO_TARGET_DIR": self.path("cargo"), "GIDZELMA_LIB_DIR": self.path("lib")}
        os.mkdir(self.path("lib"))
        status, _, error = self.cargo("build", **more)
        self.assertEqual(status, 101)
        self.assertIn(f"{self.path('lib')} has no libgidzelma.a and no libexports.a", error)
        shutil.copy(ARCHIVE, self.path("lib", "libgidzelma.a"))
        done = self.cargo("run", "--example", "lines", "--", BASE, **more)
        self.assertEqual(done, (0, BASE_TEXT, ""))

    def test_package(self):
        text = text_of("rust", "Cargo.toml")
        self.assertIn('\nlicense = "MIT"\n', text)
        self.assertNotIn("dependencies", text)


# --------------------------------------------------------------- the archive

def copy_of_repository(folder):
    """What tools/dist takes, in another folder, without git; the crates are left out."""
    for name in ("bin", "docs", "examples", "include", "tools"):
        shutil.copytree(os.path.join(ROOT, name), os.path.join(folder, name),
                        ignore=shutil.ignore_patterns("__pycache__"))
    shutil.copytree(os.path.join(ROOT, "rust"), os.path.join(folder, "rust"),
                    ignore=shutil.ignore_patterns("target"))
    for name in ("crates.txt", "LICENSE", "NOTICE", "VERSION", "CHANGELOG.md", ".gitignore"):
        shutil.copy(os.path.join(ROOT, name), folder)
    for name in ("target/staticlib/libexports.a", *(f"target/bin/{crate}" for crate in PROGRAMS)):
        os.makedirs(os.path.join(folder, os.path.dirname(name)), exist_ok=True)
        shutil.copy(os.path.join(ROOT, name), os.path.join(folder, name))


def dist(root, out, *args, **more):
    """Makes an archive of what is built; the status and what is said."""
    status, _, error = ran([os.path.join(root, "tools", "dist"), "--as-built", "--out-dir", out, *args], **more)
    return status, error


@built
class Archive(Folder):
    """An archive from tools/dist, unpacked."""

    NAME = "gidzelma-" + text_of("VERSION").strip() + "-x86_64-linux"

    @classmethod
    def setUpClass(cls):
        cls.place = tempfile.mkdtemp()
        cls.addClassCleanup(shutil.rmtree, cls.place)
        cls.made = dist(ROOT, cls.place, "--dirty")
        cls.tar = os.path.join(cls.place, cls.NAME + ".tar.gz")
        if cls.made[0] == 0:
            subprocess.run(["tar", "xzf", cls.tar, "-C", cls.place], check=True)
        cls.top = os.path.join(cls.place, cls.NAME)

    def setUp(self):
        super().setUp()
        self.assertEqual(self.made, (0, ""))

    def run_program(self, call, *args, **more):
        """A program of the archive, on a path without rt."""
        env = {"PATH": "/usr/bin:/bin:" + os.path.dirname(sys.executable)}
        return ran([os.path.join(self.top, "bin", call), *args], **{"env": env, **more})

    def test_programs(self):
        examples = os.path.join(self.top, "examples")
        self.assertEqual(self.run_program("schedule", "base.sheet", cwd=examples), (0, BASE_TEXT, ""))
        self.assertEqual(self.run_program("order", "base.sheet", cwd=examples),
                         (0, b"T base\nT resource\nT file\n", ""))
        self.assertEqual(self.run_program("show", "base.sheet", "base.schedule", cwd=examples), (0, BASE_TEXT, ""))
        self.assertEqual(self.run_program("schedule", "--size", BASE), (0, b"size 16 W 4\n", ""))
        self.assertEqual(self.run_program("schedule", "--packed", "-", BASE), (0, PACKED, ""))
        self.assertEqual(self.run_program("schedule", *["base.sheet"] * 50, cwd=examples),
                         (0, (b"== base.sheet\n" + BASE_TEXT) * 50, ""))
        loop = self.write("loop.sheet", sheetlib.sheet_of("domain a : a"))
        self.assertEqual(self.run_program("order", loop), (1, b"refused 8\nD 2 a a -\n", ""))
        os.symlink(os.path.join(self.top, "bin", "schedule"), self.path("link"))
        self.assertEqual(ran([self.path("link"), BASE]), (0, BASE_TEXT, ""))
        for name in os.listdir(os.path.join(self.top, "bin")):
            self.assertEqual(self.run_program(name, "--help")[::2], (0, ""), name)

    def test_compare(self):
        """The schedules of sheets, and packed ones."""
        stored = text_of("examples", "pool.compare.txt").encode()
        self.assertEqual(self.run_program("compare", "--differences", "examples/pool.sheet", "examples/pool-next.sheet",
                                          cwd=self.top), (1, stored, ""))
        examples = os.path.join(self.top, "examples")
        self.assertEqual(self.run_program("compare", "-q", "pool.sheet", "pool-relisted.sheet", cwd=examples), (0, b"", ""))
        for words in (["base.sheet"], ["-w", "4"]):
            self.assertEqual(self.run_program("compare", "-q", "--packed", *words, *["base.schedule"] * 2, cwd=examples),
                             (0, b"", ""))

    def test_tariff(self):
        """A total, and a text with an error."""
        words = [os.path.join("examples", name) for name in ("rates.txt", "pool.sheet", "pool.schedule")]
        self.assertEqual(self.run_program("tariff", *words, cwd=self.top),
                         (0, text_of("examples", "pool.total.txt").encode(), ""))
        path = self.write("rates", b"line 1 1")
        self.assertEqual(self.run_program("tariff", path, *words[1:], cwd=self.top),
                         (2, b"", f"{path}:1:6: error: `1` is no number of parents for `line`: 0\n"
                                  f"tariff: {path}: 1 error, nothing is charged\n"))

    def test_sheet(self):
        """A sheet from a text, and from Cascade's syntax."""
        examples = os.path.join(self.top, "examples")
        for name in ("base.txt", "pool.txt", "pool.cas"):
            status, out, error = ran([os.path.join(self.top, "tools", "sheet"), "-o", self.path("out"), name],
                                     cwd=examples)
            self.assertEqual((status, out, "error" in error), (0, b"", False), name)
            with open(os.path.join(examples, name.split(".")[0] + ".sheet"), "rb") as source:
                self.assertEqual(self.read("out"), source.read(), name)

    def test_schedule(self):
        """A packed schedule as lines, and back."""
        examples, tool = os.path.join(self.top, "examples"), os.path.join(self.top, "tools", "schedule")
        done = ran([tool, "--text", "--sheet", "base.sheet", "base.schedule", "-o", self.path("lines")], cwd=examples)
        self.assertEqual((done, self.read("lines")), ((0, b"", ""), BASE_TEXT))
        self.assertEqual(ran([tool, "--pack", "--sheet", "base.sheet", self.path("lines")], cwd=examples), (0, PACKED, ""))

    def test_explain(self):
        """The program of libexec/ is asked; the page has its parts."""
        path = os.path.join("examples", "pool.txt")
        self.assertEqual(self.run_program("explain", path, cwd=self.top),
                         (0, text_of("examples", "pool.why.txt").encode(), ""))
        self.assertEqual(self.run_program("explain", "--html", self.path("page.html"), path, cwd=self.top),
                         (0, b"", ""))
        self.assertIn(b"</html>", self.read("page.html"))
        self.assertEqual(self.run_program("explain", "--dot", path, cwd=self.top)[::2], (0, ""))

    def test_version(self):
        """Version, commit and toolchain are those that it was made with."""
        with open(os.path.join(self.top, "PROVENANCE"), encoding="utf-8") as source:
            known = dict(line.rstrip("\n").split(": ", 1) for line in source)
        self.assertEqual(list(known), ["name", "version", "commit", "date", "toolchain", "compiler", "built",
                                       "gate"])
        self.assertEqual((known["gate"], known["version"], known["built"]),
                         ("not given", program.number_of_version(), "as it stood in target/"))
        self.assertRegex(known["date"], r"^\d{4}-\d\d-\d\dT\d\d:\d\d:\d\dZ$")
        status, out, _ = self.run_program("schedule", "--version")
        self.assertEqual((status, out.decode().splitlines()),
                         (0, [f"schedule {known['version']}", f"commit {known['commit']}",
                              f"toolchain {known['toolchain']}"]))

    def test_sums(self):
        """Each file has its sum."""
        listed = {}
        with open(os.path.join(self.top, "SHA256SUMS"), encoding="utf-8") as source:
            for line in source:
                digest, name = line.rstrip("\n").split("  ")
                listed[name] = digest
        found = {}
        for folder, _, names in os.walk(self.top):
            for path in (os.path.join(folder, name) for name in names):
                if not os.path.islink(path) and "__pycache__" not in path:
                    with open(path, "rb") as source:
                        found[os.path.relpath(path, self.top)] = hashlib.sha256(source.read()).hexdigest()
        del found["SHA256SUMS"]
        self.assertEqual(listed, found)
        with open(self.tar, "rb") as source, open(self.tar + ".sha256", encoding="utf-8") as told:
            self.assertEqual(told.read(), f"{hashlib.sha256(source.read()).hexdigest()}  {self.NAME}.tar.gz\n")

    def test_entries(self):
        """Sorted; nothing tells who made it, when, or where."""
        with tarfile.open(self.tar) as tar:
            entries = tar.getmembers()
            names = [entry.name for entry in entries]
            self.assertEqual(names, sorted(names))
            self.assertTrue(all(name.split("/")[0] == self.NAME for name in names))
            self.assertEqual({(e.uid, e.gid, e.uname, e.gname) for e in entries}, {(0, 0, "", "")})
            self.assertEqual(len({entry.mtime for entry in entries}), 1)
            self.assertLessEqual({entry.mode for entry in entries}, {0o644, 0o755, 0o777})
            for entry in entries:
                data = tar.extractfile(entry).read() if entry.isfile() else b""
                for place in (ROOT, os.path.expanduser("~") + os.sep):
                    self.assertNotIn(place.encode(), data, entry.name)

    def test_links(self):
        """Every file that its pages name by a link is there."""
        for page in ("README.md", "docs/LINKING.md", "docs/PROGRAMS.md", "docs/SHEETS.md", "docs/CASCADE.md"):
            with open(os.path.join(self.top, page), encoding="utf-8") as source:
                for link in re.findall(r"\]\(([^)#:]+)\)", source.read()):
                    place = os.path.join(self.top, os.path.dirname(page), link)
                    self.assertTrue(os.path.exists(place), f"{page}: {link}")

    def pkg_config(self, *words):
        """What pkg-config says of the archive."""
        env = {**os.environ, "PKG_CONFIG_PATH": os.path.join(self.top, "lib", "pkgconfig")}
        status, out, error = ran(["pkg-config", *words, "gidzelma"], env=env)
        self.assertEqual((status, error), (0, ""))
        return out.decode().split()

    @with_pkg_config
    def test_c(self):
        """A program in C over the shared object, and one over the archive, both moved elsewhere."""
        self.assertEqual(self.pkg_config("--modversion"), [program.number_of_version()])
        source = os.path.join(self.top, "examples", "schedule.c")
        start = [C_COMPILERS[0], "-std=c99", *STRICT, source]
        flags = self.pkg_config("--cflags", "--libs")
        self.assertEqual(ran([*start, *flags, "-o", self.path("shared")]), (0, b"", ""))
        env = {**os.environ, "LD_LIBRARY_PATH": os.path.join(self.top, "lib")}
        self.assertEqual(ran([self.path("shared"), BASE], env=env), (0, PACKED, ""))
        self.assertNotEqual(ran([self.path("shared"), BASE])[0], 0)
        [folder] = self.pkg_config("--variable=libdir")
        done = ran([*start, *self.pkg_config("--cflags"), os.path.join(folder, "libgidzelma.a"),
                    "-o", self.path("static")])
        self.assertEqual(done, (0, b"", ""))
        self.assertEqual(ran([self.path("static"), BASE]), (0, PACKED, ""))

    def test_shared_object(self):
        """It has its name, gives the calls alone, and has no stack that can be run."""
        if not shutil.which("readelf") or not shutil.which("nm"):
            self.skipTest("readelf or nm is missing")
        path = os.path.join(self.top, "lib", "libgidzelma.so")
        soname = "libgidzelma.so." + ".".join(program.number_of_version().split(".")[:2])
        self.assertIn(f"[{soname}]", ran(["readelf", "-d", path])[1].decode())
        self.assertTrue(os.path.exists(os.path.join(self.top, "lib", soname)))
        names = {line.split()[-1] for line in ran(["nm", "-D", "--defined-only", path])[1].decode().splitlines()}
        self.assertEqual(names, set(EXPORTED))
        stack = [line for line in ran(["readelf", "-lW", path])[1].decode().splitlines() if "GNU_STACK" in line]
        self.assertRegex(stack[0], r" RW +0x")

    def test_python(self):
        code = "import gidzelma, sys; print(gidzelma.load().schedule(open(sys.argv[1], 'rb').read()).hex())"
        env = {**os.environ, "PYTHONPATH": os.path.join(self.top, "tools")}
        self.assertEqual(ran([sys.executable, "-B", "-c", code, BASE], env=env),
                         (0, PACKED.hex().encode() + b"\n", ""))

    @with_cargo
    def test_rust(self):
        """The package of the archive finds the library of the archive, for a package that depends on it."""
        self.write("user/Cargo.toml", f'[package]\nname = "user"\nversion = "0.0.0"\nedition = "2021"\n\n'
                   f'[dependencies]\ngidzelma = {{ path = "{self.top}/rust" }}\n'.encode())
        self.write("user/src/main.rs", b"""
fn main() -> Result<(), Box<dyn std::error::Error>> {
    let sheet = std::fs::read(std::env::args().nth(1).unwrap())?;
    println!("{:02x?}", gidzelma::schedule_vec(&sheet)?);
    Ok(())
}
""")
        env = {key: value for key, value in os.environ.items() if key != "GIDZELMA_LIB_DIR"}
        status, out, error = ran(["cargo", "run", "--offline", "--quiet", "--", BASE],
                                 cwd=self.path("user"), env=env)
        self.assertEqual((status, error), (0, ""))
        self.assertEqual(bytes.fromhex(re.sub(r"[^0-9a-f]", "", out.decode())), PACKED)
        status, out, error = ran(["cargo", "test", "--offline", "--quiet"],
                                 cwd=os.path.join(self.top, "rust"),
                                 env={**env, "CARGO_TARGET_DIR": self.path("cargo")})
        self.assertEqual(status, 0, out.decode() + error)


@built
class Making(Folder):
    """How tools/dist makes an archive, in a copy."""

    def setUp(self):
        super().setUp()
        self.copy = self.path("copy")
        os.mkdir(self.copy)
        copy_of_repository(self.copy)

    def made(self, *args, root=None, **more):
        """An archive's bytes and the lines of its PROVENANCE."""
        self.assertEqual(dist(root or self.copy, self.path("out"), *args, **more), (0, ""))
        path = self.path("out", Archive.NAME + ".tar.gz")
        with tarfile.open(path) as tar:
            page = tar.extractfile(Archive.NAME + "/PROVENANCE").read().decode()
        with open(path, "rb") as source:
            return source.read(), page.splitlines()

    def test_reproducible(self):
        """The same bytes from another folder, another day, another user's surroundings."""
        first, page = self.made()
        self.assertIn("commit: unknown", page)
        other = self.path("another", "deeper", "copy")
        os.makedirs(other)
        copy_of_repository(other)
        env = {**os.environ, "TZ": "Asia/Tokyo", "HOME": "/nowhere", "USER": "somebody", "LANG": "C",
               "LC_ALL": "C"}
        second, _ = self.made(root=other, env=env, umask=0o077, cwd="/")
        self.assertEqual(hashlib.sha256(first).hexdigest(), hashlib.sha256(second).hexdigest())
        third, page = self.made(env={**os.environ, "SOURCE_DATE_EPOCH": "86400"})
        self.assertIn("date: 1970-01-02T00:00:00Z", page)
        self.assertNotEqual(first, third)

    def test_gate(self):
        """The last line of a gate that passed; any other is refused."""
        log = self.write("gate.log", "rt: ok\n412 passed, 0 failed\n\n".encode())
        self.assertIn("gate: 412 passed, 0 failed", self.made("--gate", log)[1])
        for text, said in (("411 passed, 1 failed\n", "the gate did not pass: 411 passed, 1 failed"),
                           ("0 passed, 0 failed\n", "the gate did not pass: 0 passed, 0 failed"),
                           ("412 passed, 0 failed\nrt: interrupted\n",
                            "its last line is not that of a gate: N passed, M failed"),
                           ("", "its last line is not that of a gate: N passed, M failed")):
            self.write("gate.log", text.encode())
            self.assertEqual(dist(self.copy, self.path("none"), "--gate", log), (1, f"dist: {log}: {said}\n"))
        self.assertEqual(dist(self.copy, self.path("none"), "--gate", self.path("gone")),
                         (1, f"dist: {self.path('gone')}: no such file or directory\n"))
        self.assertFalse(os.path.exists(self.path("none")))

    def git(self, *words):
        """Runs git in the copy."""
        names = {"GIT_" + who + "_" + what: value for who in ("AUTHOR", "COMMITTER")
                 for what, value in (("NAME", "a"), ("EMAIL", "a@b"), ("DATE", "2026-01-02T03:04:05Z"))}
        done = ran(["git", *words], cwd=self.copy, env={**os.environ, **names})
        self.assertEqual(done[0], 0, done[2])
        return done[1].decode().strip()

    def test_commit(self):
        """The commit and its date; what is not committed is refused, or said."""
        if not shutil.which("git"):
            self.skipTest("git is missing")
        for words in (("init", "-q"), ("add", "-A"), ("commit", "-q", "-m", "All")):
            self.git(*words)
        commit = self.git("rev-parse", "HEAD")
        _, page = self.made()
        self.assertIn(f"commit: {commit}", page)
        self.assertIn("date: 2026-01-02T03:04:05Z", page)
        self.write("copy/examples/more.txt", b"")
        status, error = dist(self.copy, self.path("none"))
        self.assertEqual((status, error), (1, "dist: there are changes that are not committed (git status has "
                                              "them; --dirty goes on)\n"))
        self.assertIn(f"commit: {commit}, with changes that are not committed", self.made("--dirty")[1])

    def test_asks_rt(self):
        """Without --as-built rt is asked for each part, whatever its time; if it fails nothing is written."""
        self.write("kit/rt", b"#!/bin/sh\nname=${PWD##*/}\n[ \"$1\" = version ] && { echo version >> \"${0%/*}/runs\"; echo a kit; exit 0; }\n"
                             b"echo \"$1 $name\" >> \"${0%/*}/runs\"\nmkdir -p out\n"
                             b"if [ $1 = lib ]; then cp ../../target/staticlib/libexports.a out; else cp ../../target/bin/$name out; fi\n"
                             b"echo rt: chose --jobs 2 for low\necho logic=proved functions=1\nexit $(cat \"${0%/*}/status\")\n")
        os.chmod(self.path("kit", "rt"), 0o755)
        for name in (*PROGRAMS, "exports"):
            os.makedirs(os.path.join(self.copy, "crates", name))
        env = {**os.environ, "PATH": self.path("kit") + os.pathsep + os.environ["PATH"]}
        words = [os.path.join(self.copy, "tools", "dist"), "--out-dir", self.path("out")]
        self.write("kit/status", b"1")
        status, _, error = ran(words, env=env)
        self.assertEqual((status, os.path.exists(self.path("out"))), (1, False))
        self.assertIn("schedule.build has what rt said", error)
        self.write("kit/status", b"0")
        self.write("kit/runs", b"")
        status, _, error = ran(words, env=env)
        self.assertEqual((status, self.read("kit/runs").decode().splitlines()),
                         (0, [*(f"run {name}" for name in PROGRAMS), "lib exports", "version"]))
        self.assertIn("dist: exports for the archive: rt proves what has changed\n", error)
        with tarfile.open(self.path("out", Archive.NAME + ".tar.gz")) as tar:
            page = tar.extractfile(Archive.NAME + "/PROVENANCE").read().decode()
        self.assertIn("toolchain: a kit\n", page)
        self.assertIn("built: by rt, from these sources\n", page)

    def test_not_built(self):
        """Where the library is gone and there is no rt, that is said."""
        os.remove(os.path.join(self.copy, "target", "staticlib", "libexports.a"))
        os.mkdir(self.path("few"))
        os.symlink(sys.executable, self.path("few", "python3"))
        status, error = dist(self.copy, self.path("none"), env={**os.environ, "PATH": self.path("few")
                                                                + ":/usr/bin:/bin"})
        self.assertEqual(status, 1)
        self.assertEqual(error, "dist: the library is not built, and rt, the toolchain that builds it, is "
                                "not on the path\n")


# ------------------------------------------------- tables, pages, the repository

class Tables(Folder):
    """fuzz/run and bench/run write under target/ unless they are asked to."""

    @linked
    @unittest.skipUnless(shutil.which("cc"), "cc is missing")
    def test_fuzz(self):
        """A short run in a copy; with --write the rows of the page change, and nothing else of it."""
        copy = self.path("copy")
        os.mkdir(copy)
        copy_of_repository(copy)
        shutil.copytree(os.path.join(ROOT, "fuzz"), os.path.join(copy, "fuzz"))
        page = os.path.join(copy, "fuzz", "README.md")
        before = text_of("fuzz", "README.md")
        words = [os.path.join(copy, "fuzz", "run"), "--sheets", "40", "--valgrind", "0"]
        status, out, error = ran(words)
        self.assertEqual((status, error), (0, ""))
        self.assertTrue(out.decode().endswith("written: target/fuzz/order.md\n"))
        with open(os.path.join(copy, "target", "fuzz", "order.md"), encoding="utf-8") as source:
            row = source.read().splitlines()[-1]
        self.assertRegex(row, r"^\| order, canaries and guard pages \| 815 \|.*\| 0 \|$")
        with open(page, encoding="utf-8") as source:
            self.assertEqual(source.read(), before)
        self.assertEqual(ran([*words, "--write"])[0], 0)
        with open(page, encoding="utf-8") as source:
            after = source.read()
        changed = [(old, new) for old, new in zip(before.split("\n"), after.split("\n")) if old != new]
        self.assertEqual([new for _, new in changed], [row])
        self.assertTrue(changed[0][0].startswith("| order, canaries and guard pages |"))

    def test_bench(self):
        """Without the oracle it says what to run, and writes nothing."""
        copy = self.path("copy")
        for name in ("bench", "tools"):
            shutil.copytree(os.path.join(ROOT, name), os.path.join(copy, name),
                            ignore=shutil.ignore_patterns("target", "__pycache__"))
        status, out, error = ran([os.path.join(copy, "bench", "run"), "--no-callgrind"])
        self.assertEqual((status, out), (1, b""))
        self.assertIn("run tools/build exports", error)
        self.assertFalse(os.path.exists(os.path.join(copy, "target")))


class Pages(unittest.TestCase):
    """The pages of the repository that are for those who link or change it."""

    NAMES = ("CONTRIBUTING.md", "CHANGELOG.md", "docs/LINKING.md", "docs/ARCHIVE.md", "docs/PROGRAMS.md",
             "docs/SHEETS.md", "docs/CASCADE.md", "bench/README.md", "fuzz/README.md")

    def test_links(self):
        for name in self.NAMES:
            for link in re.findall(r"\]\(([^)#:]+)\)", text_of(name)):
                place = os.path.join(ROOT, os.path.dirname(name), link)
                self.assertTrue(os.path.exists(place), f"{name}: {link}")

    def test_paths(self):
        """Every file that CONTRIBUTING.md names is there."""
        for path in re.findall(r"`((?:crates|tools|docs|bench|fuzz|oracle|rust|bin|include|\.ci)/[\w./-]*)",
                               text_of("CONTRIBUTING.md")):
            self.assertTrue(os.path.exists(os.path.join(ROOT, path)), path)

    def test_licences(self):
        """Our own licence, and that of the Rust."""
        own, notice = text_of("LICENSE"), text_of("NOTICE")
        self.assertTrue(own.startswith("MIT License\n\nCopyright (c) 2026 Gidzelma maintainers\n"))
        self.assertIn("Copyright (c) Microsoft Corporation.", notice)
        self.assertIn("LICENSE", notice)


if __name__ == "__main__":
    for word in [NOT_LINKED] * (not LINKED) + [NOT_BUILT] * (not BUILT):
        print(f"some tests are skipped: {word}", file=sys.stderr)
    unittest.main()
