"""What families and large maps share: which types are whose parents, and crowds."""

from maps.records import associate, record
from sheet_records import DOMAIN, EXTENSIONS, LISTED, PARENTS, RESOURCE, Extension, TypeMap


def numbered(numbers, parents_of, own_of=lambda at: ()):
    """The domains tN of these numbers, each with the parents and the annotations of its number."""
    return [record(f"t{at:02}", DOMAIN, [f"t{above:02}" for above in parents_of(at)], own_of(at)) for at in numbers]


def eight_before(at):
    """The eight numbers before this one, or as many as there are."""
    return range(max(0, at - PARENTS), at)


def layer_before(at, width):
    """The numbers of the layer before that of this one, in layers of so many."""
    first = at - at % width
    return range(max(0, first - width), first)


def crowd(count, parents_of, tags=(7,) * 7, added=None):
    """Resources of two words that all associate each other's words: most lines for their number. The words of
    the last one are extended, by the name that is added or by itself."""
    names = [f"d.w{at:02}" for at in range(count)]
    own = [associate(*names[first:first + LISTED]) for first in range(0, count, LISTED)]
    out = [record(name, RESOURCE, [names[above] for above in parents_of(at)], own, tags) for at, name in enumerate(names)]
    last = out[-1].name
    extensions = [Extension(last, some.name[1], [added or last] * PARENTS) for some in out[:EXTENSIONS]] if count > 1 else []
    return TypeMap(out, extensions)
