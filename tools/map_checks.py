"""The checks of what a map says: an order (refusal 8), lines that can be made (9), and what is not likely meant.

Each is said once, where the text has it, and not for every type that it
refuses; still, a map has an error here exactly if the schedule call refuses it
with 8 or 9.
"""

from places import Known, place_of, quoted
from sheet_records import ALIAS, DERIVE, MAKE_LIST, VARIANTS
from sheet_text import show_name, show_word

ARTICLES = {"domain": "a domain", "resource": "a resource", "other": "of the variant other"}


def at(place):
    """A place in brackets, where it is known."""
    return f" ({place.short()})" if place else ""


# --------------------------------------------------------------- refusal 8

class Order:
    """What leaves a map without an order."""

    def __init__(self, view, problems):
        self.view, self.problems = view, problems
        self.names = Known(show_name(name) for name in view.types)
        self.aliases = {}
        for record in view.types.values():
            for ann in record.annotations:
                if ann.kind == ALIAS:
                    self.aliases.setdefault((ann.word,), record)

    def refusal(self, record, place, text):
        """A map that is refused with 8."""
        self.problems.refusal(place or record.place, 8, text if place else f"type {show_name(record.name)}: {text}")

    def check(self):
        """Parents that are `self` or not declared; cycles."""
        for record in self.view.map.types:
            for parent in record.parents:
                if parent == ("self",):
                    self.refusal(record, place_of(parent), "no type inherits `self`")
                elif parent not in self.view.types:
                    self.refusal(record, place_of(parent), undeclared(parent, self.names, self.aliases))
        done = set()
        for record in self.view.map.types:
            if record.name in self.view.above[record.name] and record.name not in done:
                way = self.cycle(record)
                done.update(step.name for step in way)
                done.update(name for name in self.view.above[record.name] if record.name in self.view.above[name])
                self.refusal(record, self.place_of_parent(way[0], way[1 % len(way)]), cycle_text(way))

    def cycle(self, record):
        """A shortest way from a type to itself, the types in turn, each the parent of the one before."""
        came, left = {}, [record]
        for step in left:
            for parent in self.view.parents(step):
                if parent is record:
                    way = [step]
                    while way[-1] is not record:
                        way.append(came[way[-1].name])
                    return way[::-1]
                if parent.name not in came:
                    came[parent.name] = step
                    left.append(parent)
        return [record]

    def place_of_parent(self, record, parent):
        """Where a type names a parent."""
        return next((place_of(name) for name in record.parents if name == parent.name), None)


def cycle_text(way):
    """A cycle in words."""
    names = [quoted(show_name(record.name)) for record in way]
    if len(names) == 1:
        return f"{names[0]} inherits itself"
    return "a cycle: " + ", ".join(f"{one} inherits {other}" for one, other in zip(names, names[1:] + names[:1]))


def undeclared(name, names, aliases):
    """What is said of a name that no type has."""
    if name == ("resource",):
        return "`resource` is not declared; a line `resource resource` declares it"
    if name in aliases:
        true = aliases[name]
        return (f"{quoted(show_name(name))} is not declared: it is an alias of {quoted(show_name(true.name))}"
                f"{at(true.place)}, and aliases are not resolved")
    return f"{quoted(show_name(name))} is not declared{names.nearest(show_name(name))}"


# --------------------------------------------------------------- refusal 9

class Lines:
    """What refuses a type in synthesis, said once for each resource of an associate."""

    def __init__(self, view, problems):
        self.view, self.problems = view, problems
        self.resources = Known(show_name(name) for name in view.types if view.is_resource(name))
        self.aliases = Order(view, problems).aliases
        self.again = set()   # (type, word) of a duplicate that is said already

    def refusal(self, owner, place, text):
        """A type that is refused in synthesis."""
        self.problems.refusal(place or owner.place, 9, text if place else f"type {show_name(owner.name)}: {text}")

    def check(self):
        """Classes, then lines that can't be made or would be made twice; within a cycle classes alone."""
        makes = set()
        for record in self.view.types.values():
            for word in self.view.words(record):
                made = self.view.makings(record, word)
                makes.update(id_of(giver) for line in made for giver in line.givers)
                if not self.cyclic(record):
                    self.check_declared(record, word, made)
                    self.check_identical(record, word, made)
        for record in self.view.types.values():
            for givers in self.view.gives[record.name].values():
                for giver in givers:
                    self.check_class(giver, id_of(giver) in makes)
                    self.check_again(giver)

    def cyclic(self, record):
        """Whether a type is its own ancestor."""
        return record.name in self.view.above[record.name]

    def check_class(self, giver, makes):
        """The class of a resource: declared, and a resource."""
        name = giver.class_name
        if name not in self.view.types:
            text = undeclared(name, self.resources, self.aliases)
        elif not self.view.is_resource(name):
            found = self.view.types[name]
            text = (f"{quoted(show_name(name))} is {ARTICLES.get(VARIANTS[found.variant], 'no resource')}"
                    f"{at(found.place)}, no resource")
        else:
            return
        if makes:
            self.refusal(giver.owner, giver.place, text)
        else:
            self.problems.warning(giver.place, text + f"; nothing inherits {quoted(show_name(giver.owner.name))}, "
                                                      "so that nothing is refused")

    def check_declared(self, record, word, made):
        """T.r must not be a declared type."""
        declared = self.view.types.get((*record.name, word))
        if declared is None:
            return
        self.again.add((record.name, word))
        own = [line for line in made if not line.inherited]
        name = quoted(show_name(declared.name))
        if own:
            self.refusal(record, own[0].givers[0].place, f"{name} can't be made: it is declared{at(declared.place)}")
        else:
            giver = made[0].givers[0]
            self.refusal(record, declared.place,
                         f"{name} is declared, and {quoted(show_name(giver.owner.name))} associates "
                         f"{quoted(word)}{at(giver.place)}, which would make it")

    def check_identical(self, record, word, made):
        """No two makings of a type and a word are identical."""
        first = {}
        for line in made:
            if line.made() in first and line.givers[0].annotation is not first[line.made()].givers[0].annotation:
                self.again.add((record.name, word))
                other, own = first[line.made()], line if not line.inherited else first[line.made()]
                why = (f"{quoted(show_name(own.classes[0]))} is associated twice by {quoted(show_name(record.name))}"
                       f"{at(other.givers[0].place)}" if not line.inherited else
                       f"{quoted(show_name(record.name))} has it from {quoted(show_name(line.passing[0]))} already")
                self.refusal(record, own.givers[0].place,
                             f"{why}: two lines {quoted(show_name(record.name) + '.' + word)} would be the same")
            first.setdefault(line.made(), line)

    def check_again(self, giver):
        """A word that an ancestor associates too: accepted, and two lines."""
        above = self.view.inherited(giver.owner, giver.word)
        if (giver.nested or not above or self.cyclic(giver.owner)
                or (giver.owner.name, giver.word) in self.again):
            return
        self.problems.warning(giver.place, f"{quoted(giver.word)} is associated again: "
                                           f"{quoted(show_name(above[0].owner.name))} associates it"
                                           f"{at(above[0].place)}; two lines are charged, and Cascade refuses it")


def id_of(giver):
    """A resource of an associate by the annotation that it stands in."""
    return id(giver.annotation), giver.word, giver.dom


# ---------------------------------------------------------------- warnings

class Doubtful:
    """What is accepted and not likely to be meant."""

    def __init__(self, view, problems):
        self.view, self.problems = view, problems
        self.names = Known(show_name(name) for name in view.types)
        self.made = {(name, word) for name, record in view.types.items() for word in view.words(record)}

    def check(self):
        """All of it."""
        for record in self.view.map.types:
            self.check_parents(record)
            self.check_marks(record)
        for extension in self.view.map.extensions:
            self.check_extension(extension)

    def check_parents(self, record):
        """A parent that is listed twice."""
        seen = set()
        for parent in record.parents:
            if parent in seen:
                self.problems.warning(place_of(parent) or record.place,
                                      f"{quoted(show_name(parent))} twice among the parents, which Cascade refuses")
            seen.add(parent)

    def check_marks(self, record):
        """An annotation that a mark goes with, without the mark."""
        for ann in record.annotations:
            if ann.kind == MAKE_LIST and None not in record.marks:
                self.problems.warning(ann.place or record.place,
                                      f"{quoted(show_name(record.name))} has `makelist` without `mark makelist`, "
                                      "so that no line bears it")
            if ann.kind == DERIVE and ann.tag not in record.marks:
                self.problems.warning(ann.place or record.place,
                                      f"{quoted(show_name(record.name))} has `derive {ann.tag}` without "
                                      f"`mark derive {ann.tag}`, so that no line bears it")

    def check_extension(self, extension):
        """An extension that changes nothing, or whose parents are no types."""
        name, whole = extension.name, f"{show_name(extension.name)}.{show_word(extension.word)}"
        if name not in self.view.types:
            self.problems.warning(extension.place, f"{quoted(show_name(name))} is not declared, so that its "
                                                   f"extension changes nothing{self.names.nearest(show_name(name))}")
        elif (name, extension.word) not in self.made:
            self.problems.warning(place_of(extension.word) or extension.place,
                                  f"no line {quoted(whole)} is made, so that its extension changes nothing")
        for parent in extension.parents:
            known = parent in self.view.types or (parent[:-1], parent[-1]) in self.made
            if not known and parent != ("resource",):
                self.problems.warning(place_of(parent) or extension.place,
                                      f"{quoted(show_name(parent))} is neither declared nor made, and is listed "
                                      f"as a parent all the same{self.names.nearest(show_name(parent))}")
