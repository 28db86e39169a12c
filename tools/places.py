"""Places in a text, words and names that know theirs, and what a check finds there."""

import functools
from typing import NamedTuple

SHOWN = 100  # problems of one file


class Place(NamedTuple):
    """A place in a file; the first line and the first column are 1."""
    file: str
    line: int
    column: int

    def __str__(self):
        return f"{self.file}:{self.line}:{self.column}" if self.file else self.short()

    def short(self):
        """The file and the line alone; a text that is in no file has lines only."""
        return f"{self.file}:{self.line}" if self.file else f"line {self.line}"


class Word(str):
    """A word with its place; it compares by its bytes alone."""
    place = None


class Name(tuple):
    """A name, one or two words, with its place; it compares by its words alone."""
    place = None


def word_at(text, place):
    """A word that stands at a place."""
    out = Word(text)
    out.place = place
    return out


def name_at(words, place):
    """A name that stands at a place."""
    out = Name(words)
    out.place = place
    return out


def name_from(text, place):
    """The name whose words a text joins by dots, each word at its place."""
    words = []
    for part in text.split("."):
        words.append(word_at(part, place))
        place = place._replace(column=place.column + len(part) + 1)
    return name_at(words, words[0].place)


def place_of(value):
    """The place of a word, a name or a record, None if it has none."""
    return getattr(value, "place", None)


def characters(text):
    """How many characters of UTF-8 a text of bytes has."""
    return len(text) if text.isascii() else len(text.encode("latin-1", "replace").decode("utf-8", "replace"))


def shown(text):
    """Characters that stand for bytes, readable: as UTF-8 where they are, controls escaped."""
    out = text.encode("latin-1", "replace").decode("utf-8", "backslashreplace")
    return "".join(c if c.isprintable() else f"\\x{ord(c):02x}" for c in out)


def quoted(text):
    """The text between the marks that messages use, shortened where it is long."""
    out = shown(text)
    return f"`{out if len(out) <= 40 else out[:37] + '...'}`"


def first_at(place, here):
    """' (first at line 27)', with the file where it is another."""
    if not place:
        return ""
    return f" (first at line {place.line})" if here and here.file == place.file else f" (first at {place.short()})"


def counted(number, what, plural=None):
    """A number with its noun."""
    return f"{number:,} {what if number == 1 else plural or what + 's'}"


def steps(one, other, most):
    """How many letters have to be put in, left out, changed or exchanged with the next to make one text of the
    other; where it is more than `most`, some number above that."""
    same = next((at for at, pair in enumerate(zip(one, other)) if pair[0] != pair[1]), min(len(one), len(other)))
    one, other = one[same:], other[same:]
    if not one or not other or not most:
        return max(len(one), len(other))
    ways = [(one[1:], other), (one, other[1:]), (one[1:], other[1:])]
    if one[:2] == other[1::-1]:
        ways.append((one[2:], other[2:]))
    return 1 + min(steps(*way, most - 1) for way in ways)


@functools.lru_cache(4096)
def nearest_of(text, known):
    """The known text that is fewest steps away, at most two and a third of the letters; or None."""
    most = min(2, len(text) // 3)
    near = [(steps(text, other, most), other) for other in known if abs(len(other) - len(text)) <= most]
    found = min((pair for pair in near if pair[0] <= most), default=None)
    return found and found[1]


def nearest(text, known):
    """', did you mean `x`' where a known name is near, else nothing."""
    found = nearest_of(text, tuple(known))
    return f", did you mean {quoted(found)}" if found else ""


class Known:
    """Names that may be meant by another; for the first hundred that are asked for, more are not printed."""

    def __init__(self, names):
        self.names, self.left = tuple(names), 100

    def nearest(self, text):
        """As `nearest`."""
        self.left -= 1
        return nearest(text, self.names) if self.left >= 0 else ""


class Problem(NamedTuple):
    """What a check found; `number` is the refusal by 8 or 9 that it leads to, 0 for none."""
    place: Place
    severity: str
    text: str
    number: int = 0

    def __str__(self):
        return f"{self.place}: {self.severity}: {self.text}" if self.place else f"{self.severity}: {self.text}"


class Problems:
    """What was found in one text or in several."""

    def __init__(self, allow_refused=False):
        self.found, self.known, self.allow_refused = [], set(), allow_refused

    def add(self, problem):
        """Adds a problem unless the same is there already."""
        if problem not in self.known:
            self.known.add(problem)
            self.found.append(problem)

    def error(self, place, text):
        """The text makes no sheet that can be read."""
        self.add(Problem(place, "error", text))

    def refusal(self, place, number, text):
        """The sheet can be read, and the call will refuse it by 8 or 9."""
        self.add(Problem(place, "warning" if self.allow_refused else "error", text, number))

    def warning(self, place, text):
        """Nothing is refused."""
        self.add(Problem(place, "warning", text))

    def note(self, place, text):
        """What was left out."""
        self.add(Problem(place, "note", text))

    def of(self, severity):
        """The problems of one severity."""
        return [problem for problem in self.found if problem.severity == severity]

    def told(self, called, severities):
        """The lines that tell of those of some severities, at most a hundred."""
        found = [problem for problem in self.sorted() if problem.severity in severities]
        lines = [str(problem) if problem.place else f"{called}: {problem}" for problem in found[:SHOWN]]
        if len(found) > SHOWN:
            lines.append(f"{called}: and {len(found) - SHOWN:,} more")
        return "".join(line + "\n" for line in lines)

    def sorted(self):
        """All of them, by file in the order met, then by place; those without a place last."""
        files = {problem.place.file: at for at, problem in reversed(list(enumerate(self.found))) if problem.place}

        def key(problem):
            place = problem.place
            return (files[place.file], place.line, place.column) if place else (len(self.found), 0, 0)
        return sorted(self.found, key=key)
