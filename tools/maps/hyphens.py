"""Maps of words with hyphens, in which names go otherwise by their spelling than word by word."""

import itertools
from dataclasses import replace

from maps.records import associate, record
from sheet_records import DOMAIN, RESOURCE, WORD_BYTES, Extension, TypeMap

NAMES = ["a", "a-b", "a.c", "a-b.c", "a-", "a0", "a_"]
DOMS = [None, "d", "d-b", "d-", "d0", "d_"]

# Words that share beginnings: behind a stem hyphens, what goes before and behind the dot, and all sorts of word bytes.
STEMS = ("a", "a", "a", "a-b", "b", "A", "0", "_", "self", "resource")
BYTES = "----09AZ_abz"
LENGTHS = (0, 1, 1, 1, 2, 2, 3, 4, 9, WORD_BYTES)


def random_word(rng):
    """A word of a stem and some bytes behind it."""
    return (rng.choice(STEMS) + "".join(rng.choices(BYTES, k=rng.choice(LENGTHS))))[:WORD_BYTES]


def respelled(rng, given):
    """The same map with other words, most of them with hyphens; `resource` and `self` stay."""
    fixed, taken = ("resource", "self"), {"resource", "self"}
    new = dict(zip(fixed, fixed))
    for word in dict.fromkeys([*given.each_word(), *given.extra]):
        while word not in new:
            drawn = random_word(rng)
            if drawn not in taken:
                new[word] = drawn
                taken.add(drawn)
    return spelled_by(given, new)


def spelled_by(given, new):
    """The same map, each word spelled as `new` has it; the word list is that of the words that are used."""
    def name(words):
        return tuple(new[word] for word in words)

    def names(some):
        return [name(words) for words in some]

    def annotation(ann):
        return replace(ann, word=new.get(ann.word), names=names(ann.names),
                       resources=[(new[word], dom if dom is None else new[dom]) for word, dom in ann.resources])

    types = [replace(own, name=name(own.name), parents=names(own.parents), annotations=list(map(annotation, own.annotations)))
             for own in given.types]
    extensions = [Extension(name(own.name), new[own.word], names(own.parents)) for own in given.extensions]
    return TypeMap(types, extensions, [new[word] for word in given.extra])


# ----------------------------------------------------- all small maps of a family

def subsets(some, most):
    """All subsets of at most so many."""
    for size in range(most + 1):
        yield from itertools.combinations(some, size)


def small_hyphen_orders():
    """Up to three types of these names, each with one parent of these names, declared or not, or none; and beside them
    a type of each name that lists `self`."""
    for names in subsets(NAMES, 3):
        for parents in itertools.product([(), *((name,) for name in NAMES)], repeat=len(names)):
            yield TypeMap([record(name, parents=some) for name, some in zip(names, parents)])
    for names in subsets(NAMES, len(NAMES)):
        yield TypeMap([record(name, parents=("self",)) for name in reversed(names)] + [record("z")])


def small_hyphen_parents():
    """A type under up to three of these names, which give `f` without a dom or with one; all classes are declared, or
    none of the words d-."""
    ways = [[], [associate("f")], [associate("d.f")], [associate("d-b.f")], [associate("d-.f")]]
    for names in subsets(NAMES, 3):
        for some in itertools.product(ways, repeat=len(names)):
            for doms in (("", "d.", "d-b.", "d-."), ("", "d.")):
                out = [record("t", parents=names)]
                out += [record(name, DOMAIN, (), own) for name, own in zip(reversed(names), reversed(some))]
                yield TypeMap(out + [record(dom + "f", RESOURCE, (), (), (at,)) for at, dom in enumerate(doms)])


def small_hyphen_resources():
    """A type with an own resource of `f` for each of some doms, and beside them one that it inherits from `p`."""
    for doms in subsets(DOMS, len(DOMS)):
        for above in DOMS:
            own = [associate("f" if dom is None else dom + ".f", f"w{at}") for at, dom in enumerate(doms)]
            out = [record("t", DOMAIN, ("p",), own), record("p", DOMAIN, (), [associate("f" if above is None else above + ".f")])]
            out += [record("f" if dom is None else dom + ".f", RESOURCE, (), (), (at,)) for at, dom in enumerate(DOMS)]
            yield TypeMap(out + [record(f"w{at}", RESOURCE) for at in range(len(doms))])
