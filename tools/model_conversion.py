"""The model's two calls between a packed schedule and its records, written from document 02's S-1.

Both go through the fields of a schedule, from the bytes that are given and over those that are lent, and
come to names and items as the other parts of the model have them. What is written is made of these: the
records one by one, the schedule by model_packing.py. The bytes that were given must then come out too.
"""

from collections import namedtuple

from model_lines import Line, Making
from model_packing import pack
from model_reading import Refused

WORDS, TYPES, PARENTS, PARENT_WORDS, MARKS = (2, 200), (0, 64), (2, 17), (1, 3), (0, 448)
PAST_END, NOT_ALLOWED = 11, 12
RECORD = 2  # bytes

# A call's answer: its number, the bytes written, and the lent slice after it.
Converted = namedtuple("Converted", "number size output")


class Packed:
    """The fields of a packed schedule, or room for them: each has its own width in bits."""

    def __init__(self, data):
        self.data, self.at = data, 0

    def has(self, width):
        """Whether the next field ends before the bytes do."""
        return self.at + width <= 8 * len(self.data)

    def take(self, width):
        """The next field."""
        first, end = self.at // 8, (self.at + width + 7) // 8
        self.at += width
        return int.from_bytes(self.data[first:end], "big") >> 8 * end - self.at & (1 << width) - 1

    def goes_on(self):
        """Whether more follows than the zero bits that fill the last byte."""
        rest = 8 * len(self.data) - self.at
        return rest >= 8 or self.take(rest) != 0


class Records:
    """The same as records: two bytes each, the high one first, whatever the width."""

    def __init__(self, data):
        self.data, self.at = data, 0

    def has(self, _width):
        """Whether the next record ends before the bytes do."""
        return self.at + RECORD <= len(self.data)

    def take(self, _width):
        """The next record."""
        self.at += RECORD
        return int.from_bytes(self.data[self.at - RECORD:self.at], "big")

    def goes_on(self):
        """Whether anything follows."""
        return self.at < len(self.data)


class Going:
    """Through all fields of a schedule of W words; the first that cannot be taken refuses it."""

    def __init__(self, w, given, lent):
        self.w, self.given, self.lent = w, given, lent

    def field(self, width, low, high):
        """A field and its value: both ends come before what is allowed."""
        if not self.given.has(width) or not self.lent.has(width):
            raise Refused(PAST_END)
        value = self.given.take(width)
        self.lent.take(width)
        if not low <= value <= high:
            raise Refused(NOT_ALLOWED)
        return value

    def flag(self):
        """0 or 1."""
        return self.field(1, 0, 1)

    def word(self):
        """A word by its number."""
        return self.field(8, 0, self.w - 1)

    def name(self):
        """A name of one word or two."""
        first = self.word()
        return (first, self.word()) if self.flag() else (first,)

    def parent(self):
        """A parent of a resource: how many words, and the words."""
        return tuple([self.word() for _ in range(self.field(2, *PARENT_WORDS))])

    def mark(self):
        """A mark: makelist, or a derive's tag."""
        return self.field(8, 0, 255) if self.flag() else None

    def line(self):
        """An extension line."""
        name, is_virtual, is_trait = self.name(), self.flag(), self.flag()
        return Line(name, self.word(), is_virtual, is_trait)

    def making(self):
        """A synthesized resource."""
        name, word, is_virtual = self.name(), self.word(), self.flag()
        parents = tuple([self.parent() for _ in range(self.field(5, *PARENTS))])
        return Making(name, word, is_virtual, parents, tuple([self.mark() for _ in range(self.field(9, *MARKS))]))

    def schedule(self):
        """Names and items, behind which nothing may follow."""
        names = [self.name() for _ in range(self.field(7, *TYPES))]
        items = [self.line() if self.flag() else self.making() for _ in range(self.field(16, 0, 65535))]
        if self.given.goes_on():
            raise Refused(NOT_ALLOWED)
        return names, items


def name_values(name):
    """The fields of a name."""
    return [name[0], len(name) - 1, *name[1:]]


def item_values(item):
    """The fields of an item."""
    if isinstance(item, Line):
        return [1, *name_values(item.name), item.is_virtual, item.is_trait, item.word]
    out = [0, *name_values(item.name), item.word, item.is_virtual, len(item.parents)]
    for parent in item.parents:
        out += [len(parent), *parent]
    out.append(len(item.marks))
    for mark in item.marks:
        out += [0] if mark is None else [1, mark]
    return out


def records_of(names, items):
    """The records of a schedule."""
    values = [len(names), *(value for name in names for value in name_values(name)),
              len(items), *(value for item in items for value in item_values(item))]
    return b"".join([value.to_bytes(RECORD, "big") for value in values])


def converted(w, given, lent, output, written, source):
    """What a call answers: `written` makes its bytes of names and items, `source` those it was given."""
    output = bytes(output)
    try:
        if not WORDS[0] <= w <= WORDS[1]:
            raise Refused(NOT_ALLOWED)
        names, items = Going(w, given, lent).schedule()
    except Refused as refusal:
        return Converted(refusal.number, 0, output)
    assert source(names, items) == given.data, "what was given is that of these names and items"
    out = written(names, items)
    return Converted(0, len(out), out + output[len(out):])


def read_schedule(w, schedule, records):
    """The reading call: a packed schedule, and lent bytes for its records."""
    return converted(w, Packed(bytes(schedule)), Records(records), records, records_of, pack)


def write_schedule(w, records, schedule):
    """The writing call: records, and lent bytes for the packed schedule."""
    return converted(w, Records(bytes(records)), Packed(schedule), schedule, pack, records_of)
