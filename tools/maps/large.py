"""Maps at the limits of document 01, on which the program is measured.

    largest      the largest readable sheet, 33,939 bytes; refused with 8, since
                 every type has parents
    ordered      the same but that its first type has no parents: 33,922 bytes
    acyclic      64 types, each with the 8 before it as parents
    ring         the same, the first two each other's parents
    undeclared   the same, the first with a parent that is no type
    chain        64 types, each the parent of the one before it in name order
    doubled      64 types, each listing the one before it twice, the first with two
                 Associates and eight Derives
    layers       the same eight types wide, each under all of the layer before it
    crowd        64 resources that associate each other's words, each under the eight
                 before it: the largest schedule found, 239,675 bytes
    lists        64 types with twelve Associates of fifteen words drawn from 196, each
                 under the eight before it: the longest inherited lists
"""

import random

from maps import loads
from maps.records import associate, record
from maps.shapes import crowd, eight_before, layer_before, numbered
from sheet_records import (ANNOTATIONS, ASSOCIATE, DERIVE, DOMAIN, EXTENSIONS, LISTED, MARKS, PARENTS, RESOURCE, TYPES,
                           Annotation, Extension, TypeMap, TypeRecord)

LONG = [f"{at:03}".rjust(31, "w") for at in range(198)]  # with `resource` and `self` 200 words


def nearest(at):
    """The eight numbers before this one, the first repeated where there are fewer."""
    near = [*eight_before(at)]
    return near + near[:1] * (PARENTS - len(near))


def largest(first_parents=PARENTS):
    """As many records of each kind, and as much in each, as a sheet may hold."""
    names = [(LONG[at], LONG[at + 100]) for at in range(TYPES)]
    out = TypeMap(words=sorted(LONG + ["resource", "self"]))
    for at, name in enumerate(names):
        parents = [names[above] for above in nearest(at)] if at else names[1:2] * first_parents
        own = TypeRecord(name, RESOURCE, True, True, parents, marks=[255] * MARKS)
        for a in range(ANNOTATIONS):
            resources = [(LONG[LISTED * a + r], LONG[at + a + 7 * r]) for r in range(LISTED)]
            own.annotations.append(Annotation(ASSOCIATE, resources))
        out.types.append(own)
    for at in range(EXTENSIONS):
        out.extensions.append(Extension(names[at], LONG[at + 64], names[at:at + PARENTS]))
    return out


def steep(first=()):
    """Types with the 8 before them as parents; those of the first are given."""
    out = TypeMap(numbered(range(TYPES), nearest))
    out.types[0].parents = list(first)
    return out


def chain():
    """Types each with the next one as parent."""
    return TypeMap(numbered(range(TYPES), lambda at: range(at + 1, min(at + 2, TYPES))))


def below(parents_of, roots):
    """62 types over the resources `file` and `unit`; the first `roots` associate both and have Derives."""
    own = [associate("file"), associate("unit")] + [Annotation(DERIVE, tag=tag) for tag in range(8)]
    return TypeMap([record("file", RESOURCE), record("unit", RESOURCE)]
                   + numbered(range(62), parents_of, lambda at: own if at < roots else []))


def doubled():
    """A chain in which every parent is listed twice."""
    return below(lambda at: [at - 1] * 2 if at else [], 1)


def layers():
    """Layers of eight types, each under all of the layer before it."""
    return below(lambda at: layer_before(at, 8), 8)


def lists():
    """Word sets that overlap in all ways, so that the dedup leaves as many entries as there are words."""
    draw = random.Random(2)
    words = [f"w{at:03}" for at in range(196)]
    return TypeMap([record(words[at], RESOURCE, [words[above] for above in eight_before(at)],
                           [associate(*draw.sample(words, LISTED)) for _ in range(ANNOTATIONS)], [1] * MARKS)
                    for at in range(TYPES)])


def largest_schedule():
    """Another map with the largest schedule found, 239,675 bytes: the marks of a resource differ."""
    return crowd(TYPES, eight_before, range(MARKS), ("d", "w00"))


def rows_of_eight(count):
    """Types of which each lists `self` up to eight times: so many rows of kind 1."""
    return TypeMap([record(f"t{at:02}", DOMAIN, ["self"] * min(PARENTS, count - PARENTS * at)) for at in range(-(-count // PARENTS))])


def rows_of_nine(count):
    """Types with twelve associates of undeclared classes each: so many rows of kind 4."""
    return TypeMap(numbered(range(-(-count // ANNOTATIONS)), lambda at: (), lambda at: [
        associate(f"u{n:02}") for n in range(min(ANNOTATIONS, count - ANNOTATIONS * at))]))


MAPS = {
    "largest": largest,
    "ordered": lambda: largest(0),
    "acyclic": steep,
    "ring": lambda: steep([("t01",)]),
    "undeclared": lambda: steep([("zz",)]),
    "chain": chain,
    "doubled": doubled,
    "layers": layers,
    "crowd": lambda: loads.largest(TYPES),
    "lists": lists,
}
