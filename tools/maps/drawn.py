"""Random maps of few names, with records of all kinds; refused by none of 3 to 7.

`wild` is the chance that a parent or a class is drawn among all names, also
undeclared ones, `self` and names that make a cycle or no resource.
"""

from maps.records import add
from sheet_records import (ALIAS, ASSOCIATE, DERIVE, INHERIT, MAKE_LIST, NEST_ASSOCIATE, NO_DERIVE, RESOURCE,
                           Annotation, Extension, TypeMap, TypeRecord)

DOMAINS = ["a", "b", "c", "d", "e", "p"]
WORDS = ["f", "g", "r"]
SMALL = DOMAINS + WORDS + ["self", "resource", "zz"]


def random_name(rng):
    """A name of one or two words, most often of one."""
    return (rng.choice(SMALL),) if rng.random() < 0.8 else (rng.choice(SMALL), rng.choice(WORDS))


def random_map(rng, types=8, wild=0.05):
    """A map of at most so many types."""
    names = random_names(rng, types, wild)
    records = []
    order = list(names)
    rng.shuffle(order)
    for at, name in enumerate(order):
        own = TypeRecord(name, names[name], rng.random() < 0.5, rng.random() < 0.3)
        for _ in range(rng.choice([0, 1, 1, 2, 2, 3])):
            if rng.random() < wild:
                own.parents.append(random_name(rng))
            elif at:
                own.parents.append(rng.choice(order[:at]))
        classes = order if rng.random() < wild else [n for n in order if names[n] == RESOURCE]
        for _ in range(rng.choice([0, 0, 1, 1, 2, 3])):
            add(own, random_annotation(rng, name, classes, wild))
        own.marks = [rng.choice([None, 1, 2]) for _ in range(rng.choice([0, 0, 1, 2]))]
        records.append(own)
    rng.shuffle(records)
    return TypeMap(records, random_extensions(rng))


def random_names(rng, types, wild):
    """At most so many names, each with its variant."""
    out = {}
    for _ in range(rng.randint(0, types)):
        draw = rng.random()
        if draw < 0.35:
            out[(rng.choice(WORDS + ["resource"]),)] = 1
        elif draw < 0.55:
            out[(rng.choice(DOMAINS), rng.choice(WORDS))] = rng.choice([0, 1, 1, 1])
        else:
            out[random_name(rng) if rng.random() < wild else (rng.choice(DOMAINS),)] = (
                rng.choice([0, 0, 0, 1, 2]))
    return out


def random_extensions(rng):
    """At most two extensions."""
    out, keys = [], set()
    for _ in range(rng.choice([0, 0, 1, 2])):
        key = random_name(rng), rng.choice(WORDS)
        if key not in keys:
            keys.add(key)
            out.append(Extension(*key, [random_name(rng) for _ in range(rng.randint(1, 3))]))
    return out


def random_annotation(rng, name, classes, wild):
    """An annotation for the type of this name, its classes mostly among those given."""
    kind = rng.choice([ASSOCIATE] * 5 + [NEST_ASSOCIATE] * 3
                      + [MAKE_LIST, ALIAS, INHERIT, DERIVE, NO_DERIVE])
    if kind == NEST_ASSOCIATE and len(name) == 2:
        kind = ASSOCIATE
    ann = Annotation(kind)
    if ann.associates():
        ann.resources = random_resources(rng, classes, wild)
    elif kind == ALIAS:
        ann.word = rng.choice(SMALL)
    elif kind == INHERIT:
        ann.names = [random_name(rng) for _ in range(rng.randint(0, 2))]
    elif kind == DERIVE:
        ann.tag = rng.randint(0, 2)
    return ann


def random_resources(rng, classes, wild):
    """At most three words, each with a dom or none."""
    out = {}
    for _ in range(rng.choice([0, 1, 1, 1, 2, 3])):
        if rng.random() < wild or not classes:
            some = random_name(rng) if rng.random() < wild else (rng.choice(WORDS),)
        else:
            some = rng.choice(classes)
        out[some[-1]] = some[0] if len(some) == 2 else None
    out = list(out.items())
    rng.shuffle(out)
    return out
