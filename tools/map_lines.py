"""What gives each line of a map: its ancestors, their associates, classes and marks.

The lines are those of document 01 ('The schedule'), from the proper ancestors
alone, over the records as the tools read them, so that every part keeps its
place in the text. This is not proved: it says why a line stands there, and the
proved programs say that it does.
"""

from typing import NamedTuple

from sheet_records import ASSOCIATE, RESOURCE, spelling
from sheet_text import show_name


class Giver(NamedTuple):
    """One resource of an associate, nested or not, and the type whose annotation it is in."""
    owner: object
    annotation: object
    word: str
    dom: object

    @property
    def nested(self):
        """Whether the annotation is a NestAssociate, which makes nothing for its own type."""
        return self.annotation.kind != ASSOCIATE

    @property
    def class_name(self):
        """`r`, or `dom.r`."""
        return (self.word,) if self.dom is None else (self.dom, self.word)

    @property
    def place(self):
        """Where the resource stands in the text."""
        first = self.word if self.dom is None else self.dom
        return getattr(first, "place", None) or self.annotation.place or self.owner.place


class Line(NamedTuple):
    """A synthesized resource, or an extension line (`is_resource` false), and what gives it."""
    owner: object
    word: str
    is_resource: bool
    is_virtual: bool
    parents: tuple
    marks: tuple
    givers: tuple
    classes: tuple
    passing: tuple       # the direct parents P of an inherited resource, for each P.r
    inherited: bool

    def made(self):
        """The fields by which two makings of a type and a word are identical."""
        return self.is_virtual, self.parents, self.marks

    def printed(self):
        """The line as the schedule program prints it."""
        name = show_name(self.owner.name)
        if not self.is_resource:
            return f"E {name} {int(self.owner.is_virtual)}{int(self.owner.is_trait)} {self.word}"
        parents = ",".join(show_name(parent) for parent in self.parents)
        marks = ",".join(printed_mark(mark) for mark in self.marks) or "-"
        return f"R {name}.{self.word} {int(self.is_virtual)} {parents} {marks}"


def printed_mark(mark):
    """A mark as the schedule program prints it."""
    return "makelist" if mark is None else f"derive:{mark}"


class MapView:
    """A map looked at from its types; of types declared twice the first counts."""

    def __init__(self, type_map):
        self.map, self.types, self.extensions, self.above, self.gives = type_map, {}, {}, {}, {}
        for record in type_map.types:
            self.types.setdefault(record.name, record)
        for extension in type_map.extensions:
            self.extensions.setdefault((extension.name, extension.word), extension)
        for record in self.types.values():
            self.above[record.name] = self.ancestors(record)
            self.gives[record.name] = self.given(record)

    def parents(self, record):
        """The declared parents of a type, each once."""
        return [self.types[name] for name in dict.fromkeys(record.parents) if name in self.types]

    def ancestors(self, record):
        """The names of the proper ancestors of a type."""
        out, left = set(), [record]
        while left:
            for parent in self.parents(left.pop()):
                if parent.name not in out:
                    out.add(parent.name)
                    left.append(parent)
        return out

    def given(self, record):
        """The words that a type associates, each with its givers."""
        out = {}
        for ann in record.annotations:
            for word, dom in ann.resources if ann.associates() else ():
                out.setdefault(word, []).append(Giver(record, ann, word, dom))
        return out

    def inherited(self, record, word):
        """What the ancestors of a type give for a word, by ancestor name."""
        return [giver for name in sorted(self.above[record.name], key=spelling)
                for giver in self.gives[name].get(word, ())]

    def words(self, record):
        """The words with a making for a type, ascending."""
        out = {word for name in self.above[record.name] for word in self.gives[name]}
        out.update(word for word, givers in self.gives[record.name].items() if not all(g.nested for g in givers))
        return sorted(out)

    def passes(self, name, word):
        """Whether a type associates the word or has an ancestor that does."""
        return word in self.gives[name] or any(word in self.gives[other] for other in self.above[name])

    def line(self, record, word, givers, inherited):
        """A synthesized resource; classes that are not declared are left out of its flag and marks."""
        doms = {giver.dom for giver in givers}
        classes = tuple([(word,)] * (None in doms) + [(dom, word) for dom in sorted(doms - {None})])
        passing = tuple(parent for parent in sorted(set(record.parents), key=spelling)
                        if inherited and parent in self.types and self.passes(parent, word))
        extension = self.extensions.get((record.name, word))
        first = tuple((*parent, word) for parent in passing) if inherited else classes
        found = [self.types[name] for name in classes if name in self.types]
        return Line(record, word, True, record.is_virtual and all(c.is_virtual for c in found),
                    first + (("resource",),) + tuple(tuple(p) for p in (extension.parents if extension else ())),
                    tuple(mark for c in found for mark in c.marks), tuple(givers), classes, passing, inherited)

    def makings(self, record, word):
        """The resources made for a type and a word: the own ones by class name, then the inherited one."""
        own = [giver for giver in self.gives[record.name].get(word, ()) if not giver.nested]
        out = [self.line(record, word, [giver], False) for giver in sorted(own, key=lambda g: spelling(g.class_name))]
        above = self.inherited(record, word)
        return out + [self.line(record, word, above, True)] if above else out

    def lines(self):
        """All lines, in the order in which the programs print them."""
        for name in sorted(self.types, key=spelling):
            record = self.types[name]
            for word in self.words(record):
                made = self.makings(record, word)
                yield from made
                givers = tuple(giver for line in made for giver in line.givers)
                yield Line(record, word, False, record.is_virtual, (), (), givers, (), (), False)

    def is_resource(self, name):
        """Whether a name is that of a declared resource."""
        return name in self.types and self.types[name].variant == RESOURCE

    def rounds(self):
        """The round of each type that an order reaches; of a map without an order some are missing."""
        out, left = {}, dict(self.types)
        for number in range(len(self.types)):
            ready = [name for name, record in left.items() if all(parent in out for parent in record.parents)]
            for name in ready:
                out[name] = number
                del left[name]
        return out
