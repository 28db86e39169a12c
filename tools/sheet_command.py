"""Turns a readable text of a type map, or Cascade's own syntax (*.cas), into a
sheet, or a sheet into the text.

    tools/sheet pool.txt -o pool.sheet
    tools/sheet pool.cas -o pool.sheet
    tools/sheet --check *.txt
    tools/sheet --decode pool.sheet

A text is checked, and what is wrong is told with its place, all of it in one
run: FILE:LINE:COLUMN: error: what. Errors are what makes a sheet unreadable (3
to 7) and what the schedule call is sure to refuse (8, 9); a sheet is written
only where there are none. Warnings stop nothing. docs/SHEETS.md lists both,
docs/CASCADE.md has Cascade's syntax as it is taken. Neither text is proved.
Statuses: 0 done, 1 errors in what was read, 2 trouble with a file or an option.
"""

import os

import cascade_text
import map_files
import sheet_text
import sheetlib
from building import write_error
from places import Problems, counted
from program import (ACCEPTED, REFUSED, STDIN, STDOUT, Once, Parser, Trouble, called, each, read_whole, run, shown, write_file)
from sheet_checks import check

DAMAGE = ("truncate", "append", "flip")


def options(name):
    """The options of the command."""
    out = Parser(name, description=__doc__, epilog=sheet_text.__doc__)
    out.add_argument("files", nargs="*", metavar="FILE", help="a text; standard input for `-`, or if absent")
    out.add_argument("-o", metavar="FILE", dest="out", action=Once, help="write to FILE, not to standard output")
    out.add_argument("--out-dir", metavar="DIR", action=Once, help="write each NAME.txt or NAME.cas to DIR/NAME.sheet")
    out.add_argument("--check", action="store_true", help="write nothing, only check")
    out.add_argument("--allow-refused", action="store_true",
                     help="write the sheet although the call will refuse it by 8 or 9: these errors become warnings")
    out.add_argument("--strict", action="store_true", help="warnings are errors")
    out.add_argument("-q", "--quiet", action="store_true", help="print errors alone")
    out.add_argument("--join", action="store_true", help="the files are parts of one map")
    out.add_argument("--cascade", action="store_true",
                     help="the text is in Cascade's syntax, whatever its name; with --decode: print that syntax")
    out.add_argument("--decode", action="store_true", help="the files are sheets: print their text")
    out.add_argument("--hex", action="store_true", help="print the bytes in hexadecimal")
    out.add_argument("--raw", action="store_true",
                     help="for damaged sheets: check only that fields fit their widths, with --decode only that "
                          "fields end and fill do")
    out.add_argument("--truncate", metavar="N", type=int, action=Once, help="keep only the first N bytes")
    out.add_argument("--append", metavar="HEX", type=bytes.fromhex, action=Once,
                     help="append these bytes (after --truncate)")
    out.add_argument("--flip", metavar="BIT", type=int, action="append",
                     help="invert this bit, 0 being the first (after --append); may be repeated")
    return out


# What does nothing beside what, and is refused.
APART = {
    "decode": ["hex", "check", "allow_refused", "join", *DAMAGE],
    "raw": ["allow_refused", "strict", "quiet", "check"],
    "check": ["out", "out_dir", "hex", *DAMAGE],
    "out_dir": ["out", "hex", "join"],
}


def settle(args):
    """Refuses options that would do nothing."""
    given = {name for name, value in vars(args).items() if not (value is None or value is False or value == [])}
    for name, others in APART.items():
        for other in others:
            if name in given and other in given:
                raise Trouble(f"{spelled(name)} and {spelled(other)} don't go together")
    for name in ("strict", "quiet"):
        if args.decode and not args.cascade and name in given:
            raise Trouble(f"{spelled(name)} does nothing with --decode, which has no warnings")
    args.files = args.files or ["-"]
    if args.raw and (args.cascade or any(name.endswith(".cas") for name in args.files)):
        raise Trouble("--raw is for the readable text, not for Cascade's syntax")
    if args.join and len(args.files) < 2:
        raise Trouble("--join takes several files")
    if len(args.files) > 1 and not (args.out_dir or args.check or args.join):
        raise Trouble("several files need --out-dir, --check or --join")
    if args.out_dir and "-" in args.files:
        raise Trouble(f"{STDIN} has no name for --out-dir")


def spelled(name):
    """An option as it is typed."""
    return "-o" if name == "out" else "--" + name.replace("_", "-")


def targets(args):
    """Where each file goes: a list of pairs, the files and the path."""
    if args.join:
        return [(args.files, args.out)]
    if not args.out_dir:
        return [([name], args.out) for name in args.files]
    suffix = ".sheet" if not args.decode else ".cas" if args.cascade else ".txt"
    out, taken = [], {}
    for name in args.files:
        path = os.path.join(args.out_dir, os.path.splitext(os.path.basename(name))[0] + suffix)
        if path in taken:
            raise Trouble(f"{taken[path]} and {name} would both be written to {path}")
        taken[path] = name
        out.append(([name], path))
    try:
        os.makedirs(args.out_dir, exist_ok=True)
    except OSError:
        raise Trouble("is no directory that can be written", shown(args.out_dir)) from None
    return out


def damage(data, args):
    """The bytes cut, lengthened and changed as the options say."""
    if args.truncate is not None:
        if not 0 <= args.truncate <= len(data):
            raise Trouble(f"--truncate {args.truncate}: the sheet has {len(data)} bytes")
        data = data[:args.truncate]
    data = bytearray(data + (args.append or b""))
    for bit in args.flip or []:
        if not 0 <= bit < 8 * len(data):
            raise Trouble(f"--flip {bit}: the sheet has {8 * len(data)} bits")
        data[bit // 8] ^= 128 >> bit % 8
    return bytes(data)


class Work:
    """One text or sheet, from its bytes to what is written."""

    def __init__(self, names, args):
        self.args, self.names, self.called = args, names, called(names[0])
        self.problems = Problems(args.allow_refused)

    def result(self):
        """What is to be written, None where there are errors."""
        files = [(name, read_whole(name)) for name in self.names]
        try:
            if self.args.decode:
                out = self.decoded(files[0][1])
            else:
                out = self.encoded(files)
        except sheetlib.SheetError as error:
            self.problems.error(error.place, error.text)
            out = None
        return None if self.problems.of("error") else out

    def decoded(self, data):
        """The text of a sheet."""
        args = self.args
        type_map = sheetlib.decode(data) if args.raw else map_files.read_sheet(data, self.problems)
        if type_map is None:
            return None
        text = cascade_text.to_cascade(type_map, self.problems) if args.cascade else sheet_text.to_text(type_map)
        return text.encode("latin-1")

    def encoded(self, files):
        """The sheet of a text."""
        type_map = map_files.read_texts(files, self.problems, self.args.cascade)
        if not self.args.raw:
            check(type_map, self.problems)
        if self.args.strict:
            self.problems.found = [problem._replace(severity="error") if problem.severity == "warning" else problem
                                   for problem in self.problems.found]
        if self.problems.of("error"):
            return None
        out = sheetlib.encode(type_map)
        if self.args.check:
            words, extensions = len(type_map.word_list()), len(type_map.extensions)
            return (f"{self.called}: {counted(len(type_map.types), 'type')}, {counted(words, 'word')}, "
                    f"{counted(extensions, 'extension')}, {counted(len(out), 'byte')}\n").encode()
        out = damage(out, self.args)
        return out.hex(" ").encode() + b"\n" if self.args.hex else out

    def run(self, path, say):
        """Writes the result; the status."""
        out = self.result()
        severities = ("error",) if self.args.quiet else ("error", "warning", "note")
        write_error(self.problems.told(self.called, severities))
        if out is None:
            counts = [counted(len(self.problems.of(severity)), severity) for severity in ("error", "warning")
                      if self.problems.of(severity)]
            say(f"{self.called}: {', '.join(counts)}, nothing written")
            return REFUSED
        binary = not (self.args.decode or self.args.hex or self.args.check)
        if path is None and binary and os.isatty(1):
            raise Trouble("is a terminal: -o FILE or --hex", STDOUT)
        write_file(path or "-", out)
        return ACCEPTED


def main(name, arguments, say):
    """The whole command."""
    args = options(name).parse(arguments)
    settle(args)
    return each(targets(args), lambda target: Work(target[0], args).run(target[1], say), say)


if __name__ == "__main__":
    run(main)
