"""The readable text of a packed schedule: the lines that the programs print.

    T NAME                          the types, in their order; before all items
    R NAME VIRTUAL PARENTS MARKS    a synthesized resource: the type's name, a dot
                                    and the word; 0 or 1; lists joined by commas,
                                    `-` if empty; a mark is `makelist` or `derive:7`
    E TYPE FLAGS WORD               an extension line; virtual and trait, two digits

A word is its number, `T 0.1`, or with a sheet the sheet's own word. `#` at a
line's start or after white space begins a comment; blank lines are ignored.

For schedules that are refused (--raw): only the widths of the fields are
checked; `@N` stands for the word number N beside the words of a sheet, and `.`
for a parent without words.
"""

from collections import namedtuple

from model_conversion import MARKS, PARENTS, PARENT_WORDS, TYPES, WORDS, records_of
from model_lines import Line, Making
from model_packing import pack
from places import Place, counted, name_from, place_of, quoted, word_at
from sheet_text import number, tokens_in
from sheetlib import Reader, SheetError

# The refusals of a schedule, by those of a sheet that are alike: past the end, not allowed, what follows.
REFUSALS = {3: 11, 4: 12, 7: 12}
# What each line has behind its first token: how many tokens, and which.
TAKES = {"T": (1, "a name"), "R": (4, "a name, virtual (0 or 1), parents and marks"),
         "E": (3, "a type, two flags and a word")}

Schedule = namedtuple("Schedule", "names items")

# The least and the most of each, as document 02 has them, and as the fields' widths allow.
Limits = namedtuple("Limits", "names items words parents parent_words marks")
ALLOWED = Limits(TYPES, (0, 65535), (0, 0), PARENTS, PARENT_WORDS, MARKS)
WIDE = Limits((0, 127), (0, 65535), (0, 255), (0, 31), (0, 3), (0, 511))


def limits_of(words, raw):
    """The limits for so many words."""
    return WIDE if raw else ALLOWED._replace(words=(0, words.count - 1))


class Words:
    """The words of a schedule: so many, by their numbers or as a sheet has them."""

    def __init__(self, count, listed=None):
        self.count, self.listed = count, listed

    def check(self):
        """W, which is tested before anything else."""
        if not WORDS[0] <= self.count <= WORDS[1]:
            raise SheetError(f"W is {self.count}, allowed are {WORDS[0]} to {WORDS[1]}", number=12)

    def show(self, word):
        """A word as the text has it."""
        if self.listed is None:
            return str(word)
        return self.listed[word] if word < self.count else f"@{word}"

    def find(self, token, raw):
        """The number of a word, or None."""
        if self.listed is None:
            return number(token)
        if raw and token.startswith("@"):
            return number(token[1:])
        return self.listed.index(token) if token in self.listed else None


# -------------------------------------------------------------------- bytes

class RecordReader(Reader):
    """Reads fields from records, two bytes each; a value that is too wide for its field is not allowed."""

    def take(self, width, what="a field", low=0, high=None):
        """The next field."""
        return super().take(16, what, low, (1 << width) - 1 if high is None else high)


class Unpacking:
    """The schedule of packed bytes or of records, field by field, each with its limits."""

    def __init__(self, source, limits):
        self.source, self.limits = source, limits
        names = [self.name(f"type {at + 1}") for at in range(self.count(7, "types", self.limits.names))]
        items = [self.item(f"item {at + 1}") for at in range(self.count(16, "items", self.limits.items))]
        self.source.end("items")
        self.schedule = Schedule(names, items)

    def count(self, width, what, limits):
        """How many follow."""
        return self.source.take(width, what + ": count", *limits)

    def flag(self, what):
        """A field of one bit."""
        return self.source.take(1, what)

    def word(self, what):
        """A word field."""
        return self.source.take(8, what + ": word", *self.limits.words)

    def name(self, what):
        """A name of one or two words."""
        first = self.word(what)
        return (first, self.word(what)) if self.flag(what + ": second word") else (first,)

    def item(self, what):
        """An item, by its lead bit."""
        if self.flag(what + ": lead bit"):
            name, flags = self.name(what), (self.flag(what + ": virtual"), self.flag(what + ": trait"))
            return Line(name, self.word(what), *flags)
        name, word, flag = self.name(what), self.word(what), self.flag(what + ": virtual")
        parents = [self.parent(f"{what}: parent {at + 1}")
                   for at in range(self.count(5, what + ": parents", self.limits.parents))]
        marks = [self.mark(f"{what}: mark {at + 1}")
                 for at in range(self.count(9, what + ": marks", self.limits.marks))]
        return Making(name, word, flag, tuple(parents), tuple(marks))

    def parent(self, what):
        """A parent of a resource."""
        return tuple(self.word(what) for _ in range(self.count(2, what + ": words", self.limits.parent_words)))

    def mark(self, what):
        """A mark: None for makelist, else the tag of a derive."""
        return self.source.take(8, what + ": tag") if self.flag(what) else None


def unpack(data, words, raw=False, records=False):
    """The schedule of packed bytes, or of records; SheetError with 11 or 12 where there is none. With `raw`
    only ends and fill are tested."""
    if not raw:
        words.check()
    try:
        return Unpacking((RecordReader if records else Reader)(data, not raw), limits_of(words, raw)).schedule
    except SheetError as error:
        raise SheetError(error.text, number=REFUSALS[error.number]) from None


def packed(schedule, records=False):
    """The bytes of a schedule, or of its records."""
    return records_of(*schedule) if records else pack(*schedule)


# ------------------------------------------------------------------ showing

def show_item(item, show):
    """The line of an item."""
    if isinstance(item, Line):
        return f"E {show(item.name)} {item.is_virtual}{item.is_trait} {show((item.word,))}"
    parents = ",".join(show(parent) for parent in item.parents) or "-"
    marks = ",".join("makelist" if mark is None else f"derive:{mark}" for mark in item.marks) or "-"
    return f"R {show(item.name + (item.word,))} {item.is_virtual} {parents} {marks}"


def to_text(schedule, words):
    """The text of a schedule."""
    def show(name):
        return ".".join(words.show(word) for word in name) or "."
    lines = [f"T {show(name)}" for name in schedule.names]
    return "".join(line + "\n" for line in lines + [show_item(item, show) for item in schedule.items])


# ------------------------------------------------------------------ reading

class ScheduleReader:
    """Reads a text; what is wrong in it goes to `problems`, and the rest is read all the same."""

    def __init__(self, file, words, problems, raw):
        self.file, self.words, self.problems, self.raw = file, words, problems, raw
        self.limits = limits_of(words, raw)
        self.names, self.items = [], []

    def read(self, text):
        """The schedule of the text."""
        for line, text_line in enumerate(text.split("\n"), 1):
            tokens = tokens_in(text_line, Place(self.file, line, 1))
            if tokens:
                self.read_line(tokens[0], tokens[1:])
        return Schedule(self.names, self.items)

    def error(self, token, text):
        """Notes what is wrong at a token."""
        self.problems.error(place_of(token), text)

    def read_line(self, first, rest):
        """One line, told by its first token."""
        if first not in TAKES:
            self.error(first, f"{quoted(first)} begins no line of a schedule: T, R or E")
        elif len(rest) != TAKES[first][0]:
            self.error(first, f"`{first}` takes {TAKES[first][1]}")
        elif first == "T":
            self.read_type(first, rest[0])
        else:
            self.add(self.items, self.resource(*rest) if first == "R" else self.line(*rest), first, self.limits.items[1])

    def read_type(self, first, token):
        """A type; behind an item it would change its place."""
        if self.items:
            self.error(first, "a type behind an item; the types stand first")
        self.add(self.names, self.name(token, 1, 2), first, self.limits.names[1])

    def add(self, lines, value, first, most):
        """One more type or item; the first that is too many is told."""
        lines.append(value)
        if len(lines) == most + 1:
            self.error(first, f"{'types' if lines is self.names else 'items'}: at most {most:,}")

    def resource(self, name, flag, parents, marks):
        """A synthesized resource."""
        *words, word = self.name(name, 2, 3) or [None]
        found = [self.parent(entry) for entry in entries(parents)]
        self.within(parents, len(found), self.limits.parents, "parent")
        listed = [self.mark(entry) for entry in entries(marks)]
        self.within(marks, len(listed), self.limits.marks, "mark")
        return Making(tuple(words), word, self.flags(flag, 1)[0], tuple(found), tuple(listed))

    def line(self, name, flags, word):
        """An extension line."""
        (number_of_word,) = self.name(word, 1, 1) or [None]
        return Line(self.name(name, 1, 2), number_of_word, *self.flags(flags, 2))

    def within(self, token, count, limits, what):
        """Tells of a list that is too short or too long."""
        least, most = limits
        if count < least:
            self.error(token, f"{counted(count, what)}, at least {least}")
        elif count > most:
            self.error(token, f"{counted(count, what)}, at most {most}")

    def flags(self, token, count):
        """So many digits, each 0 or 1."""
        if len(token) != count or set(token) - set("01"):
            self.error(token, f"{quoted(token)} is not {'0 or 1' if count == 1 else 'two digits, each 0 or 1'}")
            return [0] * count
        return [int(digit) for digit in token]

    def name(self, token, least, most):
        """The numbers of a name's words; None where it is no name."""
        words = name_from(token, token.place)
        if not least <= len(words) <= most or "" in words:
            what = f"a name of {least} or {most} words" if most > 1 else "a word"
            self.error(token, f"{quoted(token)} is not {what}")
            return None
        return tuple(self.word(word) for word in words)

    def word(self, token):
        """The number of a word."""
        found = self.words.find(token, self.raw)
        if found is None:
            self.error(token, f"{quoted(token)} is not the number of a word" if self.words.listed is None
                       else f"the sheet has no word {quoted(token)}")
        elif not self.limits.words[0] <= found <= self.limits.words[1]:
            self.error(token, f"the word {found}, allowed are {self.limits.words[0]} to {self.limits.words[1]}")
        return found

    def parent(self, token):
        """A parent of a resource."""
        if self.raw and token == ".":
            return ()
        words = name_from(token, token.place)
        if len(words) > 3 or "" in words:
            self.error(token, f"{quoted(token)} is not a name of 1 to 3 words")
            return ()
        return tuple(self.word(word) for word in words)

    def mark(self, token):
        """A mark of a resource."""
        name, colon, tag = token.partition(":")
        value = number(tag) if colon else None
        if token == "makelist":
            return None
        if name != "derive" or value is None or value > 255:
            self.error(token, f"{quoted(token)} is no mark: `makelist` or `derive:` and a tag of 0 to 255")
        return value


def entries(token):
    """The entries of a list, each with its place; `-` has none."""
    if token == "-":
        return []
    out, place = [], token.place
    for part in token.split(","):
        out.append(word_at(part, place))
        place = place._replace(column=place.column + len(part) + 1)
    return out


def parse_text(text, words, problems, file="", raw=False):
    """The schedule that a text describes; what is wrong in it goes to `problems`."""
    if not raw:
        words.check()
    return ScheduleReader(file, words, problems, raw).read(text)
