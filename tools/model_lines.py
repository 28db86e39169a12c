"""The model's lines from the proper ancestors alone, as document 01 states them, and the types refused by 9."""

from collections import namedtuple

from model_reading import repeats
from sheet_records import ASSOCIATE, NEST_ASSOCIATE, RESOURCE

Making = namedtuple("Making", "name word is_virtual parents marks")
Line = namedtuple("Line", "name word is_virtual is_trait")


def class_names(word, doms):
    """The classes `r` and `dom.r`, in the order of doms (FORMAT 1.6, 4.2)."""
    return [(word,) if dom == 0 else (dom - 1, word)
            for dom in range(doms.bit_length()) if doms >> dom & 1]


def making(types, info, word, first_parents, classes):
    """T.r with its parents (FORMAT 4.5), virtual where T and its classes all are
    (FORMAT 4.6), with the marks of the classes (FORMAT 4.7)."""
    found = [types.types[c] for c in classes]
    parents = tuple(first_parents) + ((types.resource,),) + types.extensions.get((info.name, word), ())
    return Making(info.name, word, int(info.is_virtual and all(c.is_virtual for c in found)),
                  parents, tuple(mark for c in found for mark in c.marks))


def ancestors(types, names):
    """The proper ancestors of each type: its parents and theirs (FORMAT 3.1)."""
    out = {}
    for name in names:
        parents = set(types.types[name].parents)
        out[name] = parents.union(*(out[p] for p in parents))
    return out


def associated(info):
    """The words that a type associates, nested or not, each with its doms."""
    out = {}
    for kind, payload in info.annotations:
        if kind in (ASSOCIATE, NEST_ASSOCIATE):
            for word, doms in payload:
                out[word] = out.get(word, 0) | doms
    return out


def items_of(types, names):
    """The items by type name, word, own class name, then the inherited resource
    and the extension line; and the types refused in synthesis."""
    above, items, refused = ancestors(types, names), [], set()
    gives = {name: associated(info) for name, info in types.types.items()}
    for info in types.types.values():
        makings = {}  # word -> (own class names, inherited doms)
        for kind, payload in info.annotations:
            for word, doms in payload if kind == ASSOCIATE else ():
                makings.setdefault(word, ([], []))[0].extend(class_names(word, doms))
        for ancestor in above[info.name]:
            for word, doms in gives[ancestor].items():
                makings.setdefault(word, ([], []))[1].append(doms)
        for word in sorted(makings):
            own, inherited = makings[word]
            made = [([c], [c]) for c in sorted(own, key=types.spelling)]
            if inherited:
                passing = [p for p in sorted(set(info.parents), key=types.spelling)
                           if word in gives[p] or any(word in gives[a] for a in above[p])]
                doms = 0
                for row in inherited:
                    doms |= row
                made.append(([p + (word,) for p in passing], class_names(word, doms)))
            # T is refused by its classes, by a declared T.r, or by makings that
            # are identical (FORMAT 4.9).
            classes = {c for _, some in made for c in some}
            if (any(c not in types.types or types.types[c].variant != RESOURCE for c in classes)
                    or info.name + (word,) in types.types):
                refused.add(info.name)
                continue
            built = [making(types, info, word, first, some) for first, some in made]
            if repeats(built):
                refused.add(info.name)
            items += built
            items.append(Line(info.name, word, info.is_virtual, info.is_trait))
    return items, refused
