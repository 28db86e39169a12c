"""The readable text of a tariff.

The text is read line by line, a row on each. `#` at a line's start or after
white space begins a comment; blank lines are ignored.

    real 3 12.50        12.50 for each resource that is not virtual and has at
                        least 3 parents
    virtual 2 -0.05     a credit for each virtual resource, likewise
    line 0 1.00         for each extension line

The number of parents is 2 to 17, for `line` 0. A rate is -999.99 to 999.99, with
one or two digits behind the point, or without it. Each sort and number stands
once, so that there are up to 33 rows; their order means nothing.

For tariffs that are refused (--raw): a sort may be a number, as in `3 2 1.00`,
and of all numbers only that they fit 32 bits is checked, a rate in hundredths.
"""

import re

from model_tariff import LINE, MOST_NUMBERS, PARENTS, RATES, REAL, ROW, VIRTUAL, amount, within
from places import Place, first_at, nearest, place_of, quoted
from sheet_text import tokens_in

SORTS = {"real": REAL, "virtual": VIRTUAL, "line": LINE}
BEGINNINGS = "`real`, `virtual` or `line`"
MOST_ROWS = MOST_NUMBERS // ROW
FIT = (-1 << 31, (1 << 31) - 1)  # numbers of 32 bits
NUMBER = re.compile(r"[+-]?[0-9]{1,12}")
RATE = re.compile(r"([+-]?)([0-9]{1,12})(?:\.([0-9]{1,2}))?")


def number(token):
    """The whole number that a token is, or None."""
    return int(token) if NUMBER.fullmatch(token) else None


def hundredths(token):
    """The hundredths of a rate, or None."""
    found = RATE.fullmatch(token)
    if not found:
        return None
    sign, whole, part = found.groups(default="")
    return (-1 if sign == "-" else 1) * int(whole + part.ljust(2, "0"))


class TariffReader:
    """Reads a text; what is wrong in it goes to `problems`, and the rest is read all the same."""

    def __init__(self, file, problems, raw):
        self.file, self.problems, self.raw = file, problems, raw
        self.rows, self.places = [], {}  # the places by sort and number of parents

    def read(self, text):
        """The numbers of the tariff."""
        for line, text_line in enumerate(text.split("\n"), 1):
            tokens = tokens_in(text_line, Place(self.file, line, 1))
            if tokens:
                self.read_row(tokens[0], tokens[1:])
        return [value for row in self.rows for value in row]

    def error(self, token, text):
        """Notes what is wrong at a token."""
        self.problems.error(place_of(token), text)

    def read_row(self, first, rest):
        """A row, told by its sort."""
        sort = self.sort(first)
        if sort is None:
            self.error(first, f"{quoted(first)} begins no row of a tariff: {BEGINNINGS}{nearest(first, SORTS)}")
        elif len(rest) != ROW - 1:
            self.error(first, f"`{first}` takes a number of parents and a rate")
        else:
            self.add(first, (sort, self.parents(first, rest[0]), self.rate(rest[1])))

    def sort(self, token):
        """The number of a sort, or None."""
        found = number(token) if self.raw and token not in SORTS else SORTS.get(token)
        return found if found is not None and within(FIT, found) else None

    def parents(self, first, token):
        """A number of parents."""
        least, most = FIT if self.raw else PARENTS[SORTS[first]]
        found = number(token)
        if found is None or not least <= found <= most:
            allowed = f"{least} to {most}" if least < most else least
            self.error(token, f"{quoted(token)} is no number of parents for `{first}`: {allowed}")
        return found

    def rate(self, token):
        """A rate, in hundredths."""
        limits = FIT if self.raw else RATES
        found = hundredths(token)
        if found is None or not within(limits, found):
            self.error(token, f"{quoted(token)} is no rate: {amount(limits[0])} to {amount(limits[1])}, "
                              "written as 12.50, 3 or -0.05")
        return found

    def add(self, first, row):
        """One more row; the first that is too many is told, and each whose sort and number stand above."""
        self.rows.append(row)
        if self.raw:
            return
        if len(self.rows) == MOST_ROWS + 1:
            self.error(first, f"rows: at most {MOST_ROWS}")
        here = place_of(first)
        before = self.places.setdefault(row[:2], here)
        if before != here and row[1] is not None:
            self.error(first, f"`{first} {row[1]}` stands twice{first_at(before, here)}")


def parse_text(text, problems, file="", raw=False):
    """The numbers of the tariff that a text describes; what is wrong in it goes to `problems`."""
    return TariffReader(file, problems, raw).read(text)
