"""The program bin/compare: the schedules of two sheets side by side, or two packed schedules.

The lines come from the proved programs: `schedule` reads a sheet, `show` a packed schedule, as bin/show has it.
What is made here is which of them stand in one row, the status, and the JSON.
"""

import os
import shutil
from collections import namedtuple
from itertools import islice

import printed
import proved
import refusals
import showing
import side_by_side
from building import write_error
from places import counted
from program import (ACCEPTED, REFUSED, Once, Parser, Trouble, about, at_terminal, called, put_json, put_out, read_all, run,
                     shown, trouble_in_json)
from side_by_side import SAME, Row

LEAST = 20  # columns of a row: two of 8, and the mark with its blanks
BLOCK = 1000  # lines that are written at a time

USAGE = """\
Usage: compare [OPTION...] SHEET_A SHEET_B
       compare [OPTION...] --packed SHEET SCHEDULE_A SCHEDULE_B
       compare [OPTION...] --packed SHEET_A SCHEDULE_A SHEET_B SCHEDULE_B
       compare [OPTION...] --packed -w W SCHEDULE_A SCHEDULE_B

Shows the access schedules of two sheets side by side, A on the left: the lines that
bin/schedule prints. With --packed they are packed schedules, and the lines those that
bin/show prints: both in the words of one sheet, each in the words of its own, or with
-w in word numbers. One of the files may be -, which stands for standard input.

  --packed        the schedules are packed, as bin/schedule --packed writes them
  -w W            with --packed: the number of words, in the place of sheets
  --differences   only the rows that are marked
  -q, --quiet     print nothing: the status tells
  --width N       fold lines, so that a row has up to N columns, at least {least}; on a
                  terminal its width is taken, elsewhere lines are as long as they are
  --rows N        of a sheet that is refused with 8 or 9, list up to N rows of the diagnosis:
                  1 to {most}, {rows} if it is left out
  --json          print the rows as a JSON object on a line
  -h, --help      print this
  --version       print version, commit and toolchain
  --              what follows is no option

Between the two lines of a row stands
                  nothing: both schedules have the line
  |               the lines have one form and name, and differ in other fields: R lines
                  by NAME, E lines by TYPE and WORD
  <, >            the line stands there in A only, in B only; a type that has another
                  place in the order has both
The items of a schedule have a fixed order; of the lines that both have, as many stand in
one row as can without one changing its place. What is folded goes on below, indented.

Status: 0 the schedules are the same, 1 they are not, 2 trouble (said on standard error).
The lines decide: the same are those that have the same lines in the same order. Packed
bytes hold word numbers, so that those of two sheets may differ where the lines do not.
One that is refused is the same as no other, not even as one that is refused alike: its
refusal stands above the lines, the status is 1, and standard error says which it is.

The programs are proved and built where they are missing or older than their sources;
that needs rt, the toolchain. docs/PROGRAMS.md has more, and the form of the JSON.

{numbers}"""

ALIKE = "the schedules are the same"
NONE = "there is no schedule to compare"
LONGER = "; bin/schedule --packed writes it, and --packed compares what it has written"

Side = namedtuple("Side", "name data text")  # a schedule: its file, the bytes, what the proved program prints


def usage():
    """The text of --help."""
    numbers = ["Refusals:"] + [f"  {number:2}  {said}" for number, (said, _)
                               in sorted({**refusals.OF_SHEETS, **refusals.OF_SCHEDULES}.items())]
    return USAGE.format(least=LEAST, most=refusals.MOST_ROWS, rows=refusals.SHOWN_ROWS, numbers="\n".join(numbers) + "\n")


# -------------------------------------------------------- what is asked

def options(name):
    """The options of the program."""
    out = Parser(name, usage())
    out.add_argument("files", nargs="*")
    for option in ("--packed", "--differences", "--json"):
        out.add_argument(option, action="store_true")
    out.add_argument("-q", "--quiet", action="store_true")
    out.add_argument("-w", type=int, dest="words", action=showing.Width)
    out.add_argument("--width", type=int, action=Once)
    out.add_argument("--rows", type=int, action=proved.RowLimit)
    return out


def check(args):
    """What makes no sense is refused before anything is done."""
    for option, given in (("--json", args.json), ("--differences", args.differences), ("--width", args.width is not None),
                          ("--rows", args.rows is not None)):
        if args.quiet and given:
            raise Trouble(f"{option} does nothing with --quiet, which prints nothing")
    if args.json and args.width is not None:
        raise Trouble("--width does nothing with --json, which has no columns")
    if args.width is not None and args.width < LEAST:
        raise Trouble(f"--width {args.width}: at least {LEAST} columns are needed")
    if args.rows is not None and args.packed:
        raise Trouble("--rows does nothing with --packed: a packed schedule has no rows of a diagnosis")
    if args.words is not None and not args.packed:
        raise Trouble("-w is for packed schedules, with --packed")


def pairs_of(args):
    """The files of A and of B, each with the sheet whose words it has, None where there is none."""
    files, count = args.files, len(args.files)
    if not args.packed:
        if count != 2:
            raise Trouble("two sheets are needed; --help has more")
    elif args.words is not None:
        if count != 2:
            raise Trouble("-w W takes the place of sheets: two files, the schedules, are taken beside it")
    elif count in (3, 4):
        return [(files[0], files[1]), (files[-2] if count == 4 else files[0], files[-1])]
    else:
        raise Trouble("--packed needs a sheet and two schedules, or two of each, or -w W and two schedules; --help has more")
    return [(None, name) for name in files]


# ------------------------------------------------------- the two schedules

def of_sheets(names, rows, say):
    """The schedules of two sheets, under a row limit. Both are read before anything is built."""
    sheets = [read_all(name, proved.LONGEST) for name in names]
    answers, out = proved.Answers("schedule", rows, False, say), []
    for name, sheet in zip(names, sheets):
        with about(name):
            out.append(Side(name, sheet, answers.text(sheet)))
    return out


def of_packed(pairs, words, say):
    """Two packed schedules. A sheet that both have is read once, since it may be standard input."""
    sheets = {name: showing.read_sheet(name) for name in dict.fromkeys(sheet for sheet, _ in pairs)}
    schedules = [showing.read_schedule(name) for _, name in pairs]
    program = showing.ready(say)
    return [Side(pair[1], data, showing.text_of(program, pair, words, sheets[pair[0]], data))
            for pair, data in zip(pairs, schedules)]


def tell_refused(sides, packed, say):
    """Says of each that is refused that there is nothing to compare, and why."""
    for side in sides:
        if printed.refused(side.text):
            why = printed.why(side.text, side.data, showing.TEXT_AS_SCHEDULE if packed else printed.TEXT_AS_SHEET)
            longer = LONGER if printed.number_of(side.text) == 10 else ""
            say(f"{called(side.name)}: {NONE}: refused {why}{longer}")


# ------------------------------------------------------------- what is printed

def columns(args):
    """How many columns a row may have, None where that does not matter."""
    if args.width is None and os.isatty(1):
        return max(LEAST, shutil.get_terminal_size().columns)
    return args.width


def put_rows(args, sides, rows):
    """The rows in two columns, each headed by its file as bin/schedule heads the answers for several."""
    if args.differences and not rows:
        return
    heading = Row(SAME, *(f"== {shown(side.name)}" for side in sides))
    lines = side_by_side.laid_out([heading, *rows], columns(args))
    while part := list(islice(lines, BLOCK)):
        put_out(os.fsencode("".join(f"{line}\n" for line in part)))


def put_object(head, status, sides, rows):
    """The rows as an object, and the refusals if there is one."""
    value = {**head, "status": status, "same": status == ACCEPTED}
    found = [printed.parsed("schedule", side.text)["refusal"] if printed.refused(side.text) else None for side in sides]
    if any(found):
        value["refusals"] = found
    put_json({**value, "rows": [row._asdict() for row in rows]})


def compare(args, pairs, head, say):
    """Shows both; the status."""
    sides = of_packed(pairs, args.words, say) if args.packed else of_sheets(args.files, proved.limit_of(args), say)
    refused = any(printed.refused(side.text) for side in sides)
    status = REFUSED if refused or sides[0].text != sides[1].text else ACCEPTED
    if not args.quiet:
        rows = side_by_side.rows_of(*(side.text.decode("ascii").splitlines() for side in sides))
        marked = [row for row in rows if row.mark != SAME]
        asked = marked if args.differences else rows
        if args.json:
            put_object(head, status, sides, asked)
        else:
            put_rows(args, sides, asked)
            if at_terminal() and not refused:
                write_error(f"{len(marked)} of {counted(len(rows), 'row')} differ\n" if marked else f"{ALIKE}\n")
    tell_refused(sides, args.packed, say)
    return status


def main(name, arguments, say):
    """The program."""
    args = options(name).parse(arguments)
    check(args)
    pairs = pairs_of(args)
    head = {"files": [file for _, file in pairs], "call": name}
    with trouble_in_json(args.json, head):
        return compare(args, pairs, head, say)


if __name__ == "__main__":
    run(main)
