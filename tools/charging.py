"""The program bin/tariff: what a tariff charges for the items of a packed schedule.

The sum comes from the proved program `charge`, which is handed the numbers of the tariff, W and the schedule.
What is made here is the numbers of a readable text, the W of a sheet, the status, the JSON, and the words beside
a refusal.
"""

import struct
from collections import namedtuple

import building
import map_files
import printed
import proved
import refusals
import showing
import tariff_text
from building import write_error
from places import Problems, counted
from program import ROOT, STDIN, Once, Parser, Trouble, about, called, read_all, read_whole, run, trouble_in_json

MOST_NUMBERS = 65535  # of a tariff that the program takes; over 99 are refused
NUMBER = 4  # bytes

USAGE = """\
Usage: tariff [OPTION...] RATES SHEET SCHEDULE
       tariff [OPTION...] RATES -w W SCHEDULE
       tariff [OPTION...] --numbers FILE SHEET SCHEDULE
       tariff [OPTION...] --numbers FILE -w W SCHEDULE

Prints what a tariff charges for the items of a packed schedule, or why there is no sum.
RATES is a text of the tariff, see below. Of the sheet that the schedule was made for only
W is used, how many words it has, as bin/schedule --size prints it. One of the files may be
-, which stands for standard input.

  -w W            the number of words, in the place of a sheet
  --numbers FILE  the tariff as numbers of 32 bits, in the place of RATES: four bytes each,
                  the least significant first, signed; three numbers a row, which are a sort
                  (0 real, 1 virtual, 2 line), a number of parents and a rate in hundredths
  --raw           for tariffs that are refused: check of the numbers in RATES only that
                  they fit 32 bits; a sort may be a number
  --explain       after a refusal, say in words what its number means
                  (on a terminal that is said anyway, on standard error)
  --json          print the answer as a JSON object on a line
  -h, --help      print this
  --version       print version, commit and toolchain
  --              what follows is no option

A row of RATES is one of
  real NUMBER RATE        RATE for each resource that is not virtual and has at least NUMBER
                          parents, 2 to 17
  virtual NUMBER RATE     for each virtual resource, likewise
  line 0 RATE             for each extension line
RATE is -999.99 to 999.99, as 12.50, 3 or -0.05; a credit is negative. An item is charged by
every row that it reaches. Each sort and NUMBER stands once, in any order; # begins a comment.

The answer is printed as
  total AMOUNT            the sum, with two digits behind the point: total -0.05
  refused NUMBER          11, 12 or 14 to 16, see below

Status: 0 a total, 1 refused, 2 trouble (said on standard error). Errors in RATES are
trouble, each told with its place: FILE:LINE:COLUMN: error: what. So is a sheet that
cannot be read, and a schedule of more than {longest:,} bytes.

The program is proved and built where it is missing or older than its sources; that needs
rt, the toolchain. docs/PROGRAMS.md has more, and the form of the JSON.

{numbers}"""

NEEDED = ("a text of rates, a sheet and a schedule are needed; --numbers FILE takes the place of the first, -w W that "
          "of the second; --help has more")
BYTES_AS_TEXT = "--numbers takes a tariff of bytes"
TEXT_AS_NUMBERS = "the file is a text and no list of numbers; without --numbers it is read as a text of rates"
OTHER_SHEET = "the sheet may be another one than that of the schedule: its W is used"

Files = namedtuple("Files", "tariff sheet schedule")  # the sheet is None where there is -w


def usage():
    """The text of --help."""
    numbers = ["Refusals:"] + [f"  {number:2}  {said}" for number, (said, _)
                               in {**refusals.OF_SCHEDULES, **refusals.OF_TARIFFS}.items()]
    return USAGE.format(longest=showing.LONGEST, numbers="\n".join(numbers) + "\n")


# -------------------------------------------------------- what is asked

def options(name):
    """The options of the program."""
    out = Parser(name, usage())
    out.add_argument("files", nargs="*")
    out.add_argument("-w", type=int, dest="width", action=showing.Width)
    out.add_argument("--numbers", action=Once)
    for option in ("--raw", "--explain", "--json"):
        out.add_argument(option, action="store_true")
    return out


def files_of(args):
    """The three files; what makes no sense is refused before anything is done."""
    if args.json and args.explain:
        raise Trouble("--explain does nothing with --json, which has the words")
    if args.raw and args.numbers is not None:
        raise Trouble("--raw does nothing with --numbers, which takes any numbers")
    files = args.files if args.numbers is None else [args.numbers, *args.files]
    if len(files) != (3 if args.width is None else 2):
        raise Trouble(NEEDED)
    if files.count("-") > 1:
        raise Trouble(f"{STDIN} is given twice")
    return Files(*files) if args.width is None else Files(files[0], None, files[1])


def numbers_in(name):
    """The bytes of a tariff's numbers."""
    out = read_all(name, NUMBER * MOST_NUMBERS + 1)
    if len(out) > NUMBER * MOST_NUMBERS:
        raise Trouble(f"more than {MOST_NUMBERS:,} numbers, which the program takes", called(name))
    if len(out) % NUMBER:
        raise Trouble(f"{counted(len(out), 'byte')}, and a number has {NUMBER}", called(name))
    return out


def rates_in(name, raw):
    """The same of a text of rates. What is wrong in it is told, each with its place."""
    problems, numbers = Problems(), []
    text = map_files.text_in(name, read_whole(name), problems, BYTES_AS_TEXT)
    if text is not None:
        numbers = tariff_text.parse_text(text, problems, called(name), raw)
    if problems.found:
        write_error(problems.told(called(name), ("error",)))
        raise Trouble(f"{counted(len(problems.found), 'error')}, nothing is charged", called(name))
    if len(numbers) > MOST_NUMBERS:
        raise Trouble(f"more than {MOST_NUMBERS:,} numbers, which the program takes", called(name))
    return struct.pack(f"<{len(numbers)}i", *numbers)


def width_in(name):
    """W of a sheet: 8 bits behind the first 4. A file that is no sheet is told, since it would give some W."""
    data, problems = read_all(name, proved.LONGEST), Problems()
    if map_files.read_sheet(data, problems) is None:
        why = printed.TEXT_AS_SHEET if printed.is_text(data) else problems.found[0].text
        raise Trouble(f"its W is needed, and the sheet cannot be read: {why}", called(name))
    return (data[0] << 8 | data[1]) >> 4 & 255


def asked(tariff, width, schedule):
    """What the program reads: how many numbers, the numbers, W, the schedule."""
    count = (len(tariff) // NUMBER).to_bytes(2, "big")
    return count + tariff + min(width, showing.MOST_WIDTH).to_bytes(3, "big") + schedule


# ------------------------------------------------------------- what is printed

def explained(text, files, tariff, schedule):
    """A refusal in words."""
    if printed.number_of(text) in refusals.OF_TARIFFS:
        return printed.explained(text, tariff, TEXT_AS_NUMBERS)
    out = printed.explained(text, schedule, showing.TEXT_AS_SCHEDULE)
    return out + f"{OTHER_SHEET}\n".encode() if files.sheet is not None else out


def parsed(text):
    """What the program printed, as a value for JSON."""
    if printed.refused(text):
        return printed.parsed("tariff", text)
    amount = text.decode("ascii").split()[1]
    return {"total": amount, "hundredths": int(amount.replace(".", ""))}


def charge(args, files, say):
    """Prints the sum or the refusal; the status. All files are read before anything is built."""
    tariff = rates_in(files.tariff, args.raw) if args.numbers is None else numbers_in(files.tariff)
    width = args.width if files.sheet is None else width_in(files.sheet)
    schedule = showing.read_schedule(files.schedule)
    program = proved.Each(building.ready(ROOT, building.program(ROOT, "charge"), say))
    with about(files.schedule):
        text = program.text(asked(tariff, width, schedule))
        if not text.startswith((b"total ", b"refused ")):
            raise Trouble("the program gave no answer")
    numbers = tariff if args.numbers is not None else b""
    return showing.told(args, text, {"file": files.schedule, "call": "tariff"}, parsed,
                        lambda text: explained(text, files, numbers, schedule))


def main(name, arguments, say):
    """The program."""
    args = options(name).parse(arguments)
    files = files_of(args)
    with trouble_in_json(args.json, {"file": files.schedule, "call": "tariff"}):
        return charge(args, files, say)


if __name__ == "__main__":
    run(main)
