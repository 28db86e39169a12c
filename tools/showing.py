"""The program bin/show: a packed schedule in lines, as the proved call reads it.

What is printed comes from the proved program `show`, which is handed the sheet or W, and the schedule. What
is made here is the status, the JSON, which is read from that text, and the words beside a refusal.
"""

import os

import building
import printed
import proved
import refusals
from building import write_error
from program import (ACCEPTED, REFUSED, ROOT, STDIN, Once, Parser, Trouble, about, at_terminal, called, put_json, put_out,
                     read_all, run, trouble_in_json)

LONGEST = 1 << 18  # bytes of a schedule that the program takes; the longest found has 239,675
MOST_WIDTH = 65535  # handed over in the place of a W that is larger: both are refused

USAGE = """\
Usage: show [OPTION...] SHEET SCHEDULE
       show [OPTION...] -w W SCHEDULE

Prints the lines of a packed schedule, in the words of the sheet that it was made for, or
why it cannot be read. With -w there is no sheet, and words are printed as their numbers:
W is how many words the sheet has, as bin/schedule --size prints it. A file that is - stands
for standard input, and so does a SCHEDULE that is left out behind -w.

  -w W            the number of words, in the place of a sheet
  --explain       after a refusal, say in words what its number means
                  (on a terminal that is said anyway, on standard error)
  --json          print the answer as a JSON object on a line
  -h, --help      print this
  --version       print version, commit and toolchain
  --              what follows is no option

A schedule is printed as bin/schedule prints it
  T NAME                                the types in their order
  R NAME VIRTUAL PARENTS MARKS          a synthesized resource; VIRTUAL is 0 or 1, lists
                                        are joined by commas, - if empty
  E TYPE FLAGS WORD                     an extension line; FLAGS are VIRTUAL and whether
                                        TYPE is a trait, together
A refusal is printed as
  refused NUMBER                        11 or 12, see below

Status: 0 printed, 1 refused, 2 trouble (said on standard error). A sheet that cannot be
read is trouble, since its words are needed; so is a schedule of more than {longest:,} bytes.

bin/schedule --packed FILE writes packed schedules; tools/schedule makes them from lines, and
says at which bit one is refused. The program is proved and built where it is missing or
older than its sources; that needs rt, the toolchain. docs/PROGRAMS.md has more.

{numbers}"""

TEXT_AS_SCHEDULE = "the file is a text and no packed schedule; tools/schedule packs lines such as these"
OTHER_SHEET = "the sheet may be another one than that of the schedule: its W is used, and its words are printed"


def usage():
    """The text of --help."""
    numbers = ["Refusals:"] + [f"  {number:2}  {said}" for number, (said, _) in refusals.OF_SCHEDULES.items()]
    return USAGE.format(longest=LONGEST, numbers="\n".join(numbers) + "\n")


class Width(Once):
    """-w W."""

    def __call__(self, parser, namespace, values, option_string=None):
        super().__call__(parser, namespace, values, option_string)
        if values < 0:
            raise Trouble(f"{option_string} {values}: is no number of words")


def options(name):
    """The options of the program."""
    out = Parser(name, usage())
    out.add_argument("files", nargs="*")
    out.add_argument("-w", type=int, dest="width", action=Width)
    for option in ("--explain", "--json"):
        out.add_argument(option, action="store_true")
    return out


def files_of(args):
    """The sheet, None where there is -w, and the schedule."""
    if args.json and args.explain:
        raise Trouble("--explain does nothing with --json, which has the words")
    if args.width is None:
        if len(args.files) != 2:
            raise Trouble("a sheet and a schedule are needed, or -w W and a schedule; --help has more")
        return args.files
    if len(args.files) > 1:
        raise Trouble("-w W takes the place of the sheet: one file, the schedule, is taken beside it")
    if not args.files and os.isatty(0):
        raise Trouble(f"no file is given, and {STDIN} is a terminal; show --help says more")
    return None, (args.files or ["-"])[0]


def asked(width, sheet, schedule):
    """What the program reads: 0 and W, or 1 and the length of the sheet and the sheet; then the schedule."""
    if sheet is None:
        return b"\0" + min(width, MOST_WIDTH).to_bytes(3, "big") + schedule
    return b"\1" + len(sheet).to_bytes(3, "big") + sheet + schedule


def read_sheet(name):
    """The bytes of a sheet; None where there is none."""
    return None if name is None else read_all(name, proved.LONGEST)


def read_schedule(name):
    """The bytes of a schedule that the program takes."""
    out = read_all(name, LONGEST + 1)
    if len(out) > LONGEST:
        raise Trouble(f"longer than {LONGEST:,} bytes, which the program takes", called(name))
    return out


def ready(say):
    """The proved program, up to date."""
    return proved.Each(building.ready(ROOT, building.program(ROOT, "show"), say))


def text_of(program, names, width, sheet, schedule):
    """What the proved program prints for a schedule; a sheet that it refuses is trouble. The names are those of
    the sheet and of the schedule."""
    with about(names[1]):
        text = program.text(asked(width, sheet, schedule))
    if printed.refused(text) and printed.number_of(text) not in refusals.OF_SCHEDULES:
        raise Trouble(f"its words are needed, and the sheet is refused with {printed.why(text, sheet)}", called(names[0]))
    return text


def explained(text, schedule, has_sheet):
    """A refusal in words."""
    out = printed.explained(text, schedule, TEXT_AS_SCHEDULE)
    return out + f"{OTHER_SHEET}\n".encode() if has_sheet else out


def told(args, text, named, parsed, explained):
    """Prints what a program has answered, and after a refusal what that means where it is asked for; the status."""
    status = REFUSED if printed.refused(text) else ACCEPTED
    if args.json:
        put_json({**named, "status": status, **parsed(text)})
        return status
    put_out(text)
    if status == REFUSED:
        words = explained(text)
        if args.explain:
            put_out(words)
        elif at_terminal():
            write_error(words.decode())
    return status


def show(args, names, say):
    """Prints the lines or the refusal; the status."""
    sheet, schedule = read_sheet(names[0]), read_schedule(names[1])
    text = text_of(ready(say), names, args.width, sheet, schedule)
    return told(args, text, {"file": names[1], "call": "show"}, lambda text: printed.parsed("show", text),
                lambda text: explained(text, schedule, names[0] is not None))


def main(name, arguments, say):
    """The program."""
    args = options(name).parse(arguments)
    names = files_of(args)
    with trouble_in_json(args.json, {"file": names[1], "call": "show"}):
        return show(args, names, say)


if __name__ == "__main__":
    run(main)
