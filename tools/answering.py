"""The programs bin/schedule and bin/order: the answers of the proved calls, for sheets in files.

What is printed comes from the proved programs, which read a sheet and print text; the packed bytes and
their number come from the proved calls by the exports. What is made here is the status, the JSON, which
is read from that text, and the words beside a refusal.
"""

import os

import printed
import proved
import refusals
from building import write_error
from program import (ACCEPTED, REFUSED, STDIN, TROUBLE, NoOutput, Once, Parser, Trouble, about, at_terminal, each, put_json,
                     put_out, read_all, run, shown, write_file)

USAGE = """\
Usage: {call} [OPTION...] [FILE...]

Prints {what} of each sheet, or why there is none. A FILE that is -, or
none at all, stands for standard input. With several files a line == FILE stands
before each answer.

  --explain       after a refusal, say in words what its number and its rows mean
                  (on a terminal that is said anyway, on standard error)
  --json          print each answer as a JSON object on a line of its own
  --size          print the size of the packed {call} in bytes and W, the number of
                  words of the sheet: size 16 W 4
  --packed FILE   write the packed {call} to FILE and print nothing; - is standard
                  output; where FILE is a folder, pool.sheet gives FILE/pool.{call}
  --rows N        list up to N rows after 8 and 9: 1 to {most}, {rows} if it is left out
  -h, --help      print this
  --version       print version, commit and toolchain
  --              what follows is no option

{lines}
A refusal is printed as
  refused NUMBER                        1 to 10, see below
  D KIND SUBJECT OTHER WORD             rows after 8 and 9; - for what is absent
  more                                  if there are more rows than --rows lists

Status: 0 accepted, 1 refused, 2 trouble (said on standard error); the worst of all files.
--size and --packed lend a listing of the size that is needed, the printed answer one
of 65,536 bytes; so refusal 10 is of the printed answer only. For the rows no fewer bytes
are lent than their limit needs, so that 2 and 17 are answers of the exported calls alone.

The program is proved and built where it is missing or older than its sources; that
needs rt, the toolchain. --size and --packed need a C compiler, which links the library.
docs/PROGRAMS.md has more, and the form of the JSON.

{numbers}"""

WHAT = {"schedule": "the access schedule", "order": "the order of the types"}
LINES = {"schedule": """\
An accepted sheet is printed as
  T NAME                                the types in their order
  R NAME VIRTUAL PARENTS MARKS          a synthesized resource; VIRTUAL is 0 or 1, lists
                                        are joined by commas, - if empty
  E TYPE FLAGS WORD                     an extension line; FLAGS are VIRTUAL and whether
                                        TYPE is a trait, together
""", "order": """\
An accepted sheet is printed as
  T NAME                                the types in their order
"""}


def usage(call):
    """The text of --help."""
    numbers = ["Refusals:"] + [f"  {number:2}  {said}" for number, (said, _) in refusals.OF_SHEETS.items()]
    numbers += ["Kinds of rows:"] + [f"  {kind:2}  {name}" for kind, (name, _) in refusals.KINDS.items()]
    return USAGE.format(call=call, what=WHAT[call], lines=LINES[call], most=refusals.MOST_ROWS, rows=refusals.SHOWN_ROWS,
                        numbers="\n".join(numbers) + "\n")


# -------------------------------------------------------- what is asked

class Asked:
    """One run: its options, and what is done with each file."""

    def __init__(self, call, args, say):
        self.call, self.files = call, args.files or ["-"]
        self.json, self.size, self.explain, self.packed = args.json, args.size, args.explain, args.packed
        self.several = len(self.files) > 1
        self.check()
        self.answers = proved.Answers(call, proved.limit_of(args), self.several, say)

    def check(self):
        """What makes no sense is refused before anything is done."""
        if self.json and self.explain:
            raise Trouble("--explain does nothing with --json, which has the words")
        if self.json and self.packed:
            raise Trouble("--packed and --json do not go together")
        if self.packed == "-" and self.size:
            raise Trouble("--size and --packed - would both write to standard output")
        if self.packed and self.packed != "-":
            self.check_places()
        if self.packed == "-" and self.several:
            raise Trouble("--packed - takes one sheet; for several --packed needs a folder")

    def check_places(self):
        """No two sheets go to one file, and none to where a sheet stands."""
        if (self.several or self.packed.endswith(os.sep)) and not os.path.isdir(self.packed):
            need = ", as several sheets need" if self.several else ""
            raise Trouble(f"--packed {shown(self.packed)}: is no folder{need}")
        places = {}
        for name in self.files:
            place = self.place(name)
            if place in places:
                raise Trouble(f"{shown(places[place])} and {shown(name)} would both go to {shown(place)}")
            if os.path.exists(place) and os.path.exists(name) and os.path.samefile(place, name):
                raise Trouble(f"--packed would write over the sheet {shown(name)}")
            places[place] = name

    def place(self, name):
        """The file for the packed bytes of a sheet."""
        if self.packed == "-" or not os.path.isdir(self.packed):
            return self.packed
        if name == "-":
            raise Trouble(f"--packed {shown(self.packed)}: in a folder the sheet of {STDIN} has no name")
        return os.path.join(self.packed, os.path.splitext(os.path.basename(name))[0] + "." + self.call)

    # ---- one file

    def answer(self, name):
        """Answers one file; the status."""
        sheet = read_all(name, proved.LONGEST)
        if self.json:
            return self.answer_json(name, sheet)
        number = None
        if self.size or self.packed:
            number, packed = self.answers.packed(sheet)
            if number == 0:
                return self.hand_out(name, sheet, packed)
        text = self.answers.text(sheet)
        if number and not text.startswith(b"refused %d\n" % number):
            raise Trouble(f"the library says refused {number}, and the program does not")
        self.print_text(name, text)
        if not printed.refused(text):
            return ACCEPTED
        self.tell_refusal(text, sheet)
        return REFUSED

    def heading(self, name):
        """What stands before the answer of a file."""
        return b"== " + os.fsencode(name) + b"\n" if self.several else b""

    def print_text(self, name, text):
        """The program's own bytes; where the packed ones go to standard output, a refusal does not."""
        if self.packed == "-":
            write_error(text.decode())
        else:
            put_out(self.heading(name) + text)

    def tell_refusal(self, text, sheet):
        """A refusal in words, where that is asked or a person reads."""
        if self.explain and self.packed != "-":
            put_out(printed.explained(text, sheet))
        elif self.explain or at_terminal():
            write_error(printed.explained(text, sheet).decode())

    def hand_out(self, name, sheet, packed):
        """The packed bytes, their number and W."""
        if self.packed:
            write_file(self.place(name), packed)
        if self.size:
            put_out(self.heading(name) + f"size {len(packed)} W {words_of(sheet)}\n".encode())
        return ACCEPTED

    def answer_json(self, name, sheet):
        """The answer as an object. With --size it has the size, also the one that 10 answers."""
        text = self.answers.text(sheet)
        status = REFUSED if printed.refused(text) else ACCEPTED
        value = {"status": status, **printed.parsed(self.call, text)}
        if self.size:
            number, packed = self.answers.packed(sheet)
            if number == 0:
                value.update(size=len(packed), W=words_of(sheet))
        self.put_json(name, value)
        return status

    def put_json(self, name, value):
        """An object, led by the file and the call."""
        put_json({"file": name, "call": self.call, **value})

    def answer_told(self, name):
        """Answers one file; with --json trouble too is an object."""
        try:
            with about(name):
                return self.answer(name)
        except NoOutput:
            raise
        except Trouble as trouble:
            if self.json:
                self.put_json(name, {"status": TROUBLE, "trouble": trouble.why})
            raise


def words_of(sheet):
    """W, the number of words of a readable sheet: the 8 bits behind the version."""
    return (sheet[0] & 15) << 4 | sheet[1] >> 4


def options(call):
    """The options of the program of a call."""
    out = Parser(call, usage(call))
    out.add_argument("files", nargs="*")
    for name in ("--explain", "--json", "--size"):
        out.add_argument(name, action="store_true")
    out.add_argument("--packed", action=Once)
    out.add_argument("--rows", type=int, action=proved.RowLimit)
    return out


def main(call, arguments, say):
    """The program of a call."""
    args = options(call).parse(arguments)
    if not args.files and os.isatty(0):
        raise Trouble(f"no file is given, and {STDIN} is a terminal; {call} --help says more")
    asked = Asked(call, args, say)
    return each(asked.files, asked.answer_told, say)


if __name__ == "__main__":
    run(main)
