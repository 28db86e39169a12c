"""Two schedules side by side: which of their lines stand in one row, and the rows in two columns.

Refusals, types and items are aligned apart, in this order. Of the types, and of the items, as many equal lines
stand in one row as can without one changing its place: a longest common subsequence, where of lines that stand
several times the first goes with the first. Between two such rows lines of one form and name stand in one row,
likewise, R lines with the same parents before others; what is left has a row of its own, first that of A. The lines
of a refusal always have.
"""

from bisect import bisect_left
from collections import Counter, namedtuple
from itertools import zip_longest

SAME, CHANGED, ONLY_A, ONLY_B = "=", "|", "<", ">"
Row = namedtuple("Row", "mark a b")  # None in the place of a line that is not there
REFUSAL, TYPES, ITEMS = "rDm", "T", "RE"  # the letters that lines begin with
GAP = 3  # columns between the two: the mark, and a blank on both sides
INDENT = "  "  # of what is folded; no line of a schedule begins with a blank


# ------------------------------------------------------------ which go together

def whole(line):
    """A line by all its fields."""
    return line


def with_parents(line):
    """A line by what it is of and, an R line, by its parents: they tell the resources of one name apart."""
    parts = line.split(" ")
    return (*form_and_name(line), parts[3]) if parts[0] == "R" else form_and_name(line)


def form_and_name(line):
    """A line by what it is of: an E line by its type and its word."""
    parts = line.split(" ")
    return (parts[0], parts[1], parts[3]) if parts[0] == "E" else (parts[0], parts[1])


def numbered(lines, key):
    """The key of each line, and how many before it have the same."""
    seen = Counter()
    for line in lines:
        own = key(line)
        yield own, seen[own]
        seen[own] += 1


def ascending(pairs):
    """As many of the pairs as can be whose second numbers ascend, in their order."""
    least, ends, before = [], [], []  # of each length the least second number at its end, and whose that is
    for at, (_, second) in enumerate(pairs):
        length = bisect_left(least, second)
        before.append(ends[length - 1] if length else None)
        least[length:length + 1], ends[length:length + 1] = [second], [at]
    out, at = [], ends[-1] if ends else None
    while at is not None:
        out.append(pairs[at])
        at = before[at]
    return out[::-1]


def paired(a, b, key):
    """The places of lines that go together, ascending on both sides."""
    places = {own: at for at, own in enumerate(numbered(b, key))}
    return ascending([(at, places[own]) for at, own in enumerate(numbered(a, key)) if own in places])


def aligned(a, b, keys):
    """The rows of two lists of lines: those that go together by the first key, and between them by the next."""
    if not (a and b and keys):
        return [Row(ONLY_A, line, None) for line in a] + [Row(ONLY_B, None, line) for line in b]
    out, after_a, after_b = [], 0, 0
    for at_a, at_b in [*paired(a, b, keys[0]), (len(a), len(b))]:
        out += aligned(a[after_a:at_a], b[after_b:at_b], keys[1:])
        if at_a < len(a):
            out.append(Row(SAME if a[at_a] == b[at_b] else CHANGED, a[at_a], b[at_b]))
        after_a, after_b = at_a + 1, at_b + 1
    return out


def rows_of(a, b):
    """The rows of what a program prints for two schedules, each given as its lines. No row has a mark but SAME
    exactly if the lines are the same and are no refusal."""
    out = []
    for part, keys in ((REFUSAL, ()), (TYPES, (whole,)), (ITEMS, (whole, with_parents, form_and_name))):
        out += aligned(*([line for line in lines if line[0] in part] for lines in (a, b)), keys)
    return out


# ------------------------------------------------------------------ two columns

def folded(line, width):
    """A line in pieces of up to so many columns, parted behind a comma or a blank where there is one."""
    out, lead = [], ""
    while len(lead) + len(line) > width:
        room = width - len(lead)
        at = max(line.rfind(",", 0, room), line.rfind(" ", 0, room)) + 1 or room
        out.append(lead + line[:at])
        line, lead = line[at:], INDENT
    return out + [lead + line]


def widths(rows, most):
    """The widths of both columns: as wide as their longest lines, or, where that is more than `most`, half of it
    each, and what one does not need the other's."""
    a, b = (max((len(line) for line in lines if line is not None), default=0)
            for lines in ((row.a for row in rows), (row.b for row in rows)))
    if most is None or a + GAP + b <= most:
        return a, b
    a = min(a, max((most - GAP) // 2, most - GAP - b))
    return a, most - GAP - a


def laid_out(rows, most=None):
    """Each line of the two columns, of up to `most` columns altogether."""
    width_a, width_b = widths(rows, most)
    for mark, a, b in rows:
        mark = " " if mark == SAME else mark
        for left, right in zip_longest(folded(a or "", width_a), folded(b or "", width_b), fillvalue=""):
            yield f"{left:{width_a}} {mark} {right}".rstrip()
            mark = " "
