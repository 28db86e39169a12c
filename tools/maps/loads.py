"""The maps to measure on, by family and number of types."""

import random

from maps.records import associate, record
from maps.shapes import crowd, eight_before, layer_before, numbered
from sheet_records import DOMAIN, RESOURCE, Extension, TypeMap, TypeRecord

CLASSES = ["file", "dir", "log", "conf", "socket", "pipe", "tmp", "lib", "device", "key", "lock",
           "cache", "data", "home", "mail", "queue", "run", "spool", "state", "unit"]


def resources(words):
    """`resource`, and a resource under it for each word."""
    return [record("resource", RESOURCE)] + [
        record(word, RESOURCE, ["resource"], (), [None], True) for word in words]


def ordinary(types, seed=0):
    """A policy as one writes it: a third resources, domains in a few levels, each with one or two
    parents and up to two associated words that no ancestor of it associates."""
    rng = random.Random(f"ordinary {types} {seed}")
    words = CLASSES[:max(1, types // 3)]
    out, has = resources(words), {}
    for at in range(types - len(out)):
        name = (f"t{at:02}",)
        earlier = list(has)[-12:]
        parents = rng.sample(earlier, min(len(earlier), rng.choice((0, 1, 1, 1, 2))))
        above = set().union(*(has[p] for p in parents))
        free = [w for w in words if w not in above]
        own = rng.sample(free, min(len(free), rng.choice((0, 1, 1, 2))))
        has[name] = above | set(own)
        out.append(TypeRecord(name, DOMAIN, rng.random() < 0.3, False, parents,
                              [associate(*own)] if own else []))
    rng.shuffle(out)
    some = next((t for t in out if t.annotations), None)
    extensions = [Extension(some.name, some.annotations[0].resources[0][0], [("resource",)])] if some else []
    return TypeMap(out, extensions)


class Draws:
    """The draws of S-13."""

    def __init__(self, seed):
        self.state = seed

    def draw(self, below):
        """A number below the given one."""
        self.state = self.state + 2654435769 & 0xFFFFFFFF
        return (self.state ^ self.state >> 15) % below


def s13(seed, domains=None):
    """The map of S-13. With a number of domains: so many, and parents drawn among the earlier ones
    only, so that there is an order."""
    draws = Draws(seed)
    count = draws.draw(56)
    acyclic = domains is not None
    if acyclic:
        count = domains
    out = [record("resource", RESOURCE)] + [record(f"r{n}", RESOURCE, ["resource"]) for n in range(8)]
    for at in range(count):
        own = record(f"t{at:02}")
        for _ in range(draws.draw(4)):
            among = at if acyclic else count
            drawn = draws.draw(max(among, 1))
            if among:
                own.parents.append((f"t{drawn:02}",))
        words = draws.draw(3)
        if words:
            first = draws.draw(8)
            own.annotations.append(associate(*(f"r{(first + n) % 8}" for n in range(words))))
        out.append(own)
    words = [f"r{n}" for n in range(8)] + ["resource", "self"] + [f"t{n:02}" for n in range(55)]
    return TypeMap(out, words=words)


def over_file(numbers, parents_of):
    """Types of these numbers beside the resource `file`, which those without parents associate."""
    return TypeMap(resources(["file"]) + numbered(
        numbers, parents_of, lambda at: [] if parents_of(at) else [associate("file")]))


def chained(types, times):
    """Each type under the one before it, listed so many times, against the order of names; the first associates."""
    return over_file(range(63, 65 - types, -1), lambda at: [at + 1] * times if at < 63 else [])


def chain(types):
    """A chain of types."""
    return chained(types, 1)


def doubled(types):
    """The same, each listing its parent twice."""
    return chained(types, 2)


def diamonds(types, width=4):
    """Layers of `width` types, each under all of the layer before; the first layer associates."""
    return over_file(range(types - 2), lambda at: layer_before(at, width))


def largest(types):
    """With 64 types the largest schedule found, 239,675 bytes: each under the eight before it."""
    return crowd(types, eight_before)


def star(types):
    """The same lines with one parent each: all under the first."""
    return crowd(types, lambda at: range(min(at, 1)))
