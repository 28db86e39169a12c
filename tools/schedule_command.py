"""Turns a packed schedule into a readable text, or a text into a packed schedule.

    tools/schedule --text -w 4 base.schedule
    tools/schedule --text --sheet base.sheet base.schedule
    tools/schedule --pack -w 4 lines.txt -o base.schedule
    tools/schedule --pack --sheet base.sheet lines.txt --hex

A text is checked, and what is wrong is told with its place: FILE:LINE:COLUMN:
error: what. Of bytes that are no schedule the bit is told at which reading ends,
and the refusal. This is not proved, and shares nothing with the proved programs:
bin/show prints a schedule as these read it. Statuses: 0 done, 1 errors in what
was read, 2 trouble with a file or an option.
"""

import os

import map_files
import schedule_text
from building import write_error
from model_packing import sheet_words
from places import Problems, counted
from program import ACCEPTED, REFUSED, STDOUT, Once, Parser, Trouble, called, read_whole, run, write_file
from sheet_records import SheetError


def options(name):
    """The options of the command."""
    out = Parser(name, description=__doc__, epilog=schedule_text.__doc__)
    out.add_argument("files", nargs="*", metavar="FILE", help="what is read; standard input for `-`, or if absent")
    form = out.add_mutually_exclusive_group(required=True)
    form.add_argument("--text", action="store_true", help="the file is packed: print its text")
    form.add_argument("--pack", action="store_true", help="the file is a text: write it packed")
    words = out.add_mutually_exclusive_group(required=True)
    words.add_argument("-w", metavar="W", type=int, dest="width", action=Once, help="words are numbers below W")
    words.add_argument("--sheet", metavar="SHEET", action=Once, help="words are those of this sheet")
    out.add_argument("-o", metavar="FILE", dest="out", action=Once, help="write to FILE, not to standard output")
    out.add_argument("--hex", action="store_true", help="with --pack: print the bytes in hexadecimal")
    out.add_argument("--records", action="store_true", help="the bytes are records, two for each field, and not packed")
    out.add_argument("--raw", action="store_true",
                     help="for schedules that are refused: check only that fields fit their widths, with --text only "
                          "that fields end and fill do")
    return out


def words_of(args):
    """The words that are asked for."""
    if args.sheet is None:
        return schedule_text.Words(args.width)
    problems, data = Problems(), read_whole(args.sheet)
    if map_files.read_sheet(data, problems) is None:
        raise Trouble(f"the sheet cannot be read: {problems.found[0].text}", called(args.sheet))
    listed = sheet_words(data)
    return schedule_text.Words(len(listed), listed)


def converted(name, args, problems):
    """The text or the bytes of a file, None where there are errors."""
    words, data = words_of(args), read_whole(name)
    try:
        if args.text:
            schedule = schedule_text.unpack(data, words, args.raw, args.records)
            return schedule_text.to_text(schedule, words).encode("latin-1")
        text = map_files.text_in(name, data, problems)
        if text is None:
            return None
        schedule = schedule_text.parse_text(text, words, problems, called(name), args.raw)
    except SheetError as error:
        problems.error(None, f"refused with {error.number}: {error.text}")
    if problems.of("error"):
        return None
    out = schedule_text.packed(schedule, args.records)
    return out.hex(" ").encode() + b"\n" if args.hex else out


def main(name, arguments, say):
    """The whole command."""
    args = options(name).parse(arguments)
    if args.text and args.hex:
        raise Trouble("--hex does nothing with --text")
    if len(args.files) > 1:
        raise Trouble("one file is taken")
    file, problems = (args.files or ["-"])[0], Problems()
    if file == "-" and args.sheet == "-":
        raise Trouble("standard input is given twice")
    out = converted(file, args, problems)
    if out is None:
        write_error(problems.told(called(file), ("error",)))
        say(f"{called(file)}: {counted(len(problems.of('error')), 'error')}, nothing written")
        return REFUSED
    if args.out is None and args.pack and not args.hex and os.isatty(1):
        raise Trouble("is a terminal: -o FILE or --hex", STDOUT)
    write_file(args.out or "-", out)
    return ACCEPTED


if __name__ == "__main__":
    run(main)
