"""Why each line of an access schedule stands there.

    bin/explain pool.txt                    a readable text, Cascade's syntax (*.cas) or a sheet
    bin/explain --dot pool.txt | dot -Tsvg  the types by rounds
    bin/explain --html page.html pool.txt   one page for a browser, without the network

The lines are those that the proved program `schedule` prints for the map's
sheet, in its order; it is built where it is missing or older than its sources.
What follows ` <- ` and the lines below are added here: the associates that give
a line, with their places, and what gives each parent, class, mark and flag.
That part, and the way from a text to its sheet, are not proved. Statuses: 0
accepted, 1 refused or errors in the text, 2 trouble.
"""

import re

import explain_dot
import explain_page
import map_files
import proved
import refusals
import sheetlib
from building import write_error
from map_lines import MapView
from places import Problems
from program import (ACCEPTED, REFUSED, STDIN, Once, Parser, Trouble, about, called, each, put_out, read_whole, run,
                     write_file)
from reasons import Reasons, Why, why_refused
from sheet_checks import check

NUMBERED = re.compile("^refused with [0-9]+: ")
HEAD = "# The lines are the proved program's; what follows ` <- `, and what stands below a line, is not proved."


class Explained:
    """A map, what the program says of it, and why."""

    def __init__(self, name, args, ask):
        self.name, self.called, self.problems = name, called(name), Problems()
        self.args, self.ask, self.view, self.whys = args, ask, None, []
        data = read_whole(name)
        self.syntax = map_files.syntax_of(name, data, args.cascade)
        self.source = data if self.syntax != map_files.SHEET else None
        sheet = self.read(data)
        lines = None if sheet is None else self.lines(sheet)
        refused = bool(lines) and lines[0].startswith("refused")
        if lines is not None and (refused or self.view):
            self.explain(lines)
        self.accepted = lines is not None and not refused

    def read(self, data):
        """The sheet; None where the text makes none. The map is looked at where it can be read."""
        if self.syntax == map_files.SHEET:
            type_map = map_files.read_sheet(data, self.problems)
            if type_map is not None:
                text = sheetlib.to_text(type_map)
                self.source, type_map = text.encode("latin-1"), sheetlib.parse_text(text)
                self.view = MapView(type_map)
                check(type_map, self.problems)
            return data
        type_map = map_files.read_texts([(self.name, data)], self.problems, self.args.cascade)
        broken = bool(self.problems.of("error"))
        check(type_map, self.problems)
        if broken:
            return None
        if not any(problem.number == 0 for problem in self.problems.of("error")):
            self.view = MapView(type_map)
        try:
            return sheetlib.encode(type_map)
        except sheetlib.SheetError:
            return None

    def lines(self, sheet):
        """What the program prints, or what --lines has instead."""
        with about(self.name):
            text = self.ask(sheet) if self.args.lines is None else read_whole(self.args.lines)
        return text.decode("latin-1").splitlines()

    def place_text(self, place):
        """A place as the reasons show it: the line in the file, or in the text that --decode prints."""
        if place is None:
            return ""
        return place.short() if place.file else f"{place.short()} of its text"

    def explain(self, lines):
        """The reasons of every line."""
        reasons = Reasons(self.view, self.place_text) if self.view else None
        for line in lines:
            if line.startswith("refused "):
                why = Why(line, because=[why_refused(int(line[8:]), self.view), *self.hard_errors()])
            elif line == "more":
                why = Why(line, because=[f"more rows than the {len(lines) - 2} written"])
            else:
                why = reasons.why(line) if reasons else None
            if why is None:
                raise Trouble(f"no reason found for the line `{line}`; the lines are not those of this map", self.called)
            why.places = list(dict.fromkeys(place for place in why.places if place is not None))
            self.whys.append(why)

    def hard_errors(self):
        """What makes the sheet unreadable, with the places."""
        return [f"{problem.place}: {problem.text}" if problem.place else NUMBERED.sub("", problem.text)
                for problem in self.problems.sorted() if problem.severity == "error" and not problem.number]

    def text(self):
        """All lines with their reasons."""
        return "".join(line + "\n" for why in self.whys for line in why.told())


def options(name):
    """The options of the command."""
    out = Parser(name, description=__doc__)
    out.add_argument("files", nargs="*", metavar="MAP", help="a text, a policy (*.cas) or a sheet; `-` for standard input")
    out.add_argument("--cascade", action="store_true", help="the text is in Cascade's syntax, whatever its name")
    out.add_argument("--rows", metavar="N", type=int, action=proved.RowLimit,
                     help=f"of a map that is refused with 8 or 9, show up to N rows: 1 to {refusals.MOST_ROWS}, "
                          f"{refusals.SHOWN_ROWS} if it is left out")
    form = out.add_mutually_exclusive_group()
    form.add_argument("--dot", action="store_true", help="print the types by rounds as a graph for Graphviz")
    form.add_argument("--html", metavar="FILE", action=Once,
                      help="write one self-contained page to FILE, `-` for standard output")
    out.add_argument("--lines", metavar="FILE", action=Once,
                     help="take the lines from FILE, which the program has printed, and do not ask it")
    return out


def show(explained, args):
    """What is asked for, of one map."""
    if args.html:
        write_file(args.html, explain_page.page(explained).encode("utf-8", "xmlcharrefreplace"))
    elif args.dot:
        put_out(explain_dot.graph(explained).encode("utf-8", "surrogateescape"))
    else:
        head = f"== {explained.called}\n" if len(args.files) > 1 else ""
        first, args.head = args.head, ""
        put_out((first + head + explained.text()).encode("utf-8", "surrogateescape"))


def explain(name, args, ask, say):
    """Explains one map; the status."""
    explained = Explained(name, args, ask)
    if not explained.whys and explained.view is None:
        write_error(explained.problems.told(explained.called, ("error",)))
        say(f"{explained.called}: the text makes no sheet")
        return REFUSED
    show(explained, args)
    return ACCEPTED if explained.accepted else REFUSED


def main(program, arguments, say):
    """The whole command."""
    args = options(program).parse(arguments)
    if not args.files:
        raise Trouble("which map? --help has the options")
    if len(args.files) > 1 and (args.html or args.dot or args.lines):
        raise Trouble("--dot, --html and --lines take one map")
    if args.lines == "-" and args.files == ["-"]:
        raise Trouble(f"{STDIN} is given twice")
    if args.lines is not None and args.rows is not None:
        raise Trouble("--rows does nothing with --lines, which has the rows")
    args.head = HEAD + "\n"
    answers = proved.Answers("schedule", proved.limit_of(args), len(args.files) > 1, say)
    return each(args.files, lambda name: explain(name, args, answers.text, say), say)


if __name__ == "__main__":
    run(main)
