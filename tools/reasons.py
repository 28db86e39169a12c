"""Why each printed line stands there: what the schedule program printed, with its reasons.

A line of the program is looked up among the lines that map_lines.py finds; a
line without a reason is a fault of this tool and told as such. A row of a
refusal is explained from the names in it.
"""

from dataclasses import dataclass, field

from map_checks import Order, cycle_text, undeclared
from map_lines import printed_mark
from places import Known, counted, place_of, quoted
from refusals import said_of
from sheet_records import OTHER, RESOURCE, VARIANTS
from sheet_text import show_name

LISTING = 65536


@dataclass
class Why:
    """A printed line, what gives it, and what gives each of its parts."""
    line: str
    owner: str = ""
    because: list = field(default_factory=list)
    parts: list = field(default_factory=list)
    types: list = field(default_factory=list)    # names of the types that it comes from
    places: list = field(default_factory=list)   # where in the texts that is said

    def told(self):
        """The line with its reasons, and below it those of its parts."""
        out = [self.line + (" <- " + "; ".join(self.because) if self.because else "")]
        return out + ["    " + part for part in self.parts]


class Reasons:
    """The reasons of all lines of one map."""

    def __init__(self, view, place_text):
        self.view, self.place_text = view, place_text
        self.rounds = view.rounds()
        self.lines = {line.printed(): line for line in view.lines()}
        self.order = None
        self.resources = Known(show_name(name) for name in view.types if view.is_resource(name))

    def at(self, place):
        """' (pool.txt:16)', or nothing."""
        text = self.place_text(place)
        return f" ({text})" if text else ""

    def why(self, line):
        """The reasons of a printed line."""
        kind = line[:1]
        if kind == "T":
            return self.why_type(line)
        if kind == "D":
            return self.why_row(line)
        found = self.lines.get(line)
        if found is None:
            return None
        return self.why_resource(line, found) if found.is_resource else self.why_extension(line, found)

    # Accepted maps

    def why_type(self, line):
        """The round of a type."""
        name = tuple(line[2:].split("."))
        record = self.view.types.get(name)
        if record is None or name not in self.rounds:
            return None
        number = self.rounds[name]
        above = [parent for parent in dict.fromkeys(record.parents) if self.rounds.get(parent) == number - 1]
        listed = ", ".join(show_name(parent) for parent in above)
        text = f"round {number}, under {listed} of round {number - 1}" if above else "round 0, no parents"
        return Why(line, show_name(name), [text + self.at(record.place)], types=[show_name(p) for p in above],
                   places=[record.place] + [place_of(p) for p in record.parents if p in above])

    def giving(self, givers):
        """What gives a line: each resource of each associate."""
        out = []
        for giver in givers:
            verb = "nests" if giver.nested else "associates"
            out.append(f"{show_name(giver.owner.name)} {verb} {show_name(giver.class_name)}{self.at(giver.place)}")
        return out

    def way(self, record, name):
        """The types from one up to an ancestor, over the fewest parents."""
        came, left = {record.name: None}, [record]
        for step in left:
            for parent in self.view.parents(step):
                if parent.name not in came:
                    came[parent.name] = step.name
                    left.append(parent)
        out = [name]
        while came[out[-1]] is not None:
            out.append(came[out[-1]])
        return out[::-1]

    def why_resource(self, line, found):
        """A synthesized resource."""
        out = Why(line, show_name(found.owner.name), self.giving(found.givers))
        out.places = [giver.place for giver in found.givers]
        if found.inherited:
            self.add_ways(out, found)
        for name in () if found.inherited else found.classes:
            out.parts.append(f"parent {show_name(name)} <- the class")
        for parent in found.passing:
            place = next((place_of(p) for p in found.owner.parents if p == parent), None)
            out.parts.append(f"parent {show_name(parent)}.{found.word} <- {show_name(found.owner.name)} inherits "
                             f"{show_name(parent)}{self.at(place)}")
            out.places.append(place)
        out.parts.append("parent resource <- every resource made has it")
        extension = self.view.extensions.get((found.owner.name, found.word))
        for parent in extension.parents if extension else ():
            out.parts.append(f"parent {show_name(parent)} <- extend {show_name(found.owner.name)} {found.word}"
                             f"{self.at(extension.place)}")
            out.places.append(place_of(parent) or extension.place)
        self.add_classes(out, found)
        return out

    def add_ways(self, out, found):
        """The ways up to the ancestors that give an inherited line."""
        ancestors = dict.fromkeys(giver.owner.name for giver in found.givers)
        for name in ancestors:
            way = self.way(found.owner, name)
            out.types += [show_name(step) for step in way if show_name(step) not in out.types]
            if len(way) > 2:
                out.parts.append(f"ancestor {show_name(name)} <- "
                                 + ", ".join(f"{show_name(one)} inherits {show_name(other)}"
                                             for one, other in zip(way, way[1:])))

    def add_classes(self, out, found):
        """The classes with their marks, and the virtual flag."""
        for name in found.classes:
            record = self.view.types[name]
            flags = "virtual " * record.is_virtual
            out.parts.append(f"class {show_name(name)} <- {flags}{VARIANTS[record.variant]}{self.at(record.place)}")
            out.places.append(record.place)
            for at, mark in enumerate(record.marks):
                out.parts.append(f"mark {printed_mark(mark)} <- class {show_name(name)}"
                                 f"{self.at(record.mark_place(at))}")
                out.places.append(record.mark_place(at))
        plain = [record for record in [found.owner, *(self.view.types[c] for c in found.classes)]
                 if not record.is_virtual]
        text = "the type and all its classes are" if not plain else f"{show_name(plain[0].name)} is not"
        out.parts.append(f"virtual {int(found.is_virtual)} <- {text}"
                         + (self.at(plain[0].place) if plain else ""))

    def why_extension(self, line, found):
        """An extension line."""
        owner = found.owner
        out = Why(line, show_name(owner.name), self.giving(found.givers))
        for giver in found.givers:
            if giver.owner is not owner:
                out.types += [show_name(step) for step in self.way(owner, giver.owner.name)
                              if show_name(step) not in out.types]
        out.places = [giver.place for giver in found.givers] + [owner.place]
        out.parts.append(f"virtual {int(owner.is_virtual)}, trait {int(owner.is_trait)} <- {show_name(owner.name)}"
                         f"{self.at(owner.place)}")
        return out

    # Rows of refusals

    def why_row(self, line):
        """A row: kind, subject, other name, word."""
        _, kind, subject, other, word = line.split(" ")
        record = self.view.types.get(tuple(subject.split(".")))
        if record is None:
            return None
        other = None if other == "-" else tuple(other.split("."))
        out = Why(line, subject, places=[record.place])
        tell = {"1": self.inherits_self, "2": self.in_cycle, "3": self.bad_parent,
                "4": self.bad_class, "5": self.bad_class, "6": self.duplicate}[kind]
        tell(out, record, other, word)
        out.places = [place for place in out.places if place is not None]
        return out

    def parent_place(self, record, parent):
        """Where a type names a parent."""
        return next((place_of(name) for name in record.parents if name == parent), None)

    def inherits(self, out, record, other):
        """'b inherits a (pool.txt:4)'."""
        place = self.parent_place(record, other)
        out.places.insert(0, place)
        return f"{show_name(record.name)} inherits {show_name(other)}{self.at(place or record.place)}"

    def inherits_self(self, out, record, other, _):
        """Kind 1."""
        out.because.append(self.inherits(out, record, other) + ", which no type does")

    def in_cycle(self, out, record, other, _):
        """Kind 2."""
        out.because.append(self.inherits(out, record, other))
        way = self.checks().cycle(self.view.types[other])
        out.because.append(cycle_text(way))
        out.types += [show_name(step.name) for step in way]

    def bad_parent(self, out, record, other, _):
        """Kind 3."""
        checks = self.checks()
        out.because.append(self.inherits(out, record, other))
        out.because.append("`self` is not declared" if other == ("self",)
                           else undeclared(other, checks.names, checks.aliases))

    def checks(self):
        """What the checks know of the order."""
        self.order = self.order or Order(self.view, None)
        return self.order

    def bad_class(self, out, record, other, word):
        """Kinds 4 and 5."""
        own = [giver for giver in self.view.gives[record.name].get(word, ()) if not giver.nested]
        givers = [giver for giver in own + self.view.inherited(record, word) if giver.class_name == other]
        out.because += self.giving(givers)
        out.places = [giver.place for giver in givers] + out.places
        out.types += [show_name(giver.owner.name) for giver in givers]
        found = self.view.types.get(other)
        if found is None:
            out.because.append(undeclared(other, self.resources, self.checks().aliases))
        elif found.variant != RESOURCE:
            called = "of the variant other" if found.variant == OTHER else f"a {VARIANTS[found.variant]}"
            out.because.append(f"{quoted(show_name(other))} is {called}, no resource{self.at(found.place)}")
            out.places.append(found.place)

    def duplicate(self, out, record, _, word):
        """Kind 6."""
        made = self.view.makings(record, word)
        givers = [giver for line in made for giver in line.givers]
        out.because += self.giving(givers)
        out.places = [giver.place for giver in givers] + out.places
        out.types += [show_name(giver.owner.name) for giver in givers]
        name = f"{show_name(record.name)}.{word}"
        declared = self.view.types.get((*record.name, word))
        if declared is not None:
            out.because.append(f"{quoted(name)} is declared{self.at(declared.place)}")
            out.places.append(declared.place)
        elif len({line.made() for line in made}) < len(made):
            out.because.append(f"two lines {quoted(name)} would be the same")
        else:
            out.because.append(f"two lines {quoted(name)} are the same without what a refused parent passes on")


def packed_size(view):
    """The bytes of the packed schedule (01, 'The schedule'), counted from the lines found here."""
    def name_bits(name):
        return 9 if len(name) == 1 else 17
    bits, lines = 7 + 16 + sum(name_bits(name) for name in view.types), 0
    for line in view.lines():
        lines += 1
        bits += 1 + name_bits(line.owner.name)
        if line.is_resource:
            bits += 23 + sum(2 + 8 * len(parent) for parent in line.parents)
            bits += sum(1 if mark is None else 9 for mark in line.marks)
        else:
            bits += 10
    return lines, (bits + 7) // 8


def why_refused(number, view):
    """A refusal in words."""
    if number == 10 and view is not None:
        lines, size = packed_size(view)
        return f"{counted(lines, 'line')} in {counted(size, 'byte')}, and the program lends a listing of {LISTING:,}"
    return said_of(number)
