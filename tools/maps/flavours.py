"""Random maps by flavour: each makes one corner of document 01 likely; refused by none of 3 to 7."""

import itertools

from maps.records import add, class_name
from sheet_records import (ALIAS, ASSOCIATE, DERIVE, DOMAIN, EXTENSIONS, INHERIT, LISTED, MAKE_LIST, NEST_ASSOCIATE,
                           NO_DERIVE, OTHER, PARENTS, RESOURCE, TYPES, Annotation, Extension, TypeMap, TypeRecord)

# What a flavour changes: how many types and words, how often a thing happens.
PLAIN = {
    "types": (3, 9), "words": 3, "doms": 3, "parents": (0, 1, 1, 2, 2, 3), "annotations": (0, 1, 1, 2),
    "wide": (1, 1, 2, 3), "dom": 0.5, "nest": 0.15, "two": 0.1, "undeclared": 0.0, "no_resource": 0.0,
    "own_dom": 0.0, "repeat": 0.05, "self": 0.0, "missing": 0.0, "back": 0.0, "twin": 0.0, "clash": 0.0,
    "virtual": 0.5, "noise": 0.2, "extensions": (0, 0, 1, 2), "marks": (0, 0, 1, 2), "once": False,
    "chain": False, "loop": False,
}
FLAVOURS = {
    "plain": {},
    "diamonds": {"types": (5, 12), "parents": (1, 2, 2, 3), "annotations": (0, 0, 1, 1)},
    "several doms": {"types": (4, 10), "words": 2, "doms": 5, "dom": 0.8, "parents": (1, 2, 2, 3)},
    "nested": {"nest": 0.7, "own_dom": 0.5, "once": True, "annotations": (0, 1, 1)},
    "two words": {"two": 0.6},
    "clashes": {"two": 0.4, "clash": 0.3},
    "unknown classes": {"undeclared": 0.35, "parents": (1, 1, 2, 3), "annotations": (1, 1, 2, 3)},
    "no resources": {"no_resource": 0.4, "undeclared": 0.1, "annotations": (1, 1, 2, 3)},
    "twins": {"twin": 0.4, "own_dom": 0.3, "words": 2},
    "declared": {"own_dom": 0.5, "words": 2},
    "self": {"self": 0.15, "missing": 0.05},
    "cycles": {"back": 0.2, "missing": 0.05, "annotations": (0, 0, 1)},
    "wild": {"undeclared": 0.1, "no_resource": 0.1, "own_dom": 0.2, "twin": 0.1, "self": 0.01,
             "missing": 0.02, "back": 0.02, "clash": 0.2, "noise": 0.5, "repeat": 0.2},
    "wide": {"types": (10, 20), "words": 8, "doms": 6, "wide": (2, 4, 6, 8), "parents": (0, 1, 1, 2),
             "annotations": (0, 1, 2, 3)},
    "wide rows": {"types": (10, 20), "words": 8, "doms": 6, "wide": (2, 4, 6, 8), "undeclared": 0.2,
                  "no_resource": 0.1, "own_dom": 0.1, "twin": 0.1, "parents": (0, 1, 1, 2),
                  "annotations": (0, 1, 2, 3)},
    "tangles": {"types": (3, 6), "parents": (2, 3, 4, 5), "back": 0.9, "annotations": (0, 1)},
    "doubled": {"types": (8, 22), "parents": (2,), "chain": True, "noise": 0.5},
    "loops": {"types": (3, 10), "parents": (1, 2, 2), "chain": True, "loop": True, "missing": 0.02},
    "many rows": {"types": (20, 40), "words": 20, "doms": 10, "wide": (10, 15), "undeclared": 0.4,
                  "no_resource": 0.05, "parents": (0, 1, 1, 2), "annotations": (2, 4, 6)},
    "limits": {"types": (30, 64), "words": 30, "doms": 20, "wide": (5, 10, 15), "own_dom": 0.0,
               "parents": (0, 1, 1, 1, 1), "annotations": (0, 2, 6, 12), "marks": (0, 3, 7),
               "extensions": (8, 32), "two": 0.3},
}
FLAVOURS["long"] = {}  # made by `long_map`
# How often each is drawn. On `doubled` the Rust takes exponential time.
SHARES = ({name: 10 for name in FLAVOURS}
          | {"plain": 20, "diamonds": 25, "several doms": 25, "two words": 20, "nested": 15, "self": 6, "cycles": 6}
          | {"wide": 4, "wide rows": 4, "tangles": 4, "loops": 4, "doubled": 0.2,
             "many rows": 0.3, "limits": 0.1, "long": 0.1})
SLOW = ("doubled", "many rows", "limits", "long")

WORDS = ["f", "g", "h", "k"] + [f"w{n}" for n in range(60)]
DOMS = ["x", "y", "z", "B", "u_1"] + [f"d{n}" for n in range(60)]
LONG = "abcdefghijklmnopqrstuvwxyz01234"  # 31 bytes


def random_map(rng, flavour):
    """A map of a flavour."""
    return long_map(rng) if flavour == "long" else Drawing(rng, PLAIN | FLAVOURS[flavour]).map()


class Drawing:
    """The draws of one map; `p` says how often a thing happens."""

    def __init__(self, rng, p):
        self.rng, self.p = rng, p
        self.words, self.doms = WORDS[:p["words"]], DOMS[:p["doms"]]
        self.names = self.domain_names(rng.randint(*p["types"]))
        self.records, self.associated = [], set()

    def chance(self, what):
        """Whether a thing happens this time."""
        return self.rng.random() < self.p[what]

    def map(self):
        """The whole map."""
        rng, records = self.rng, self.records
        for at in range(len(self.names)):
            records.append(self.type_at(at))
        self.declare_classes()
        if rng.random() < 0.3 and len(records) < TYPES and not any(r.name == ("resource",) for r in records):
            records.append(TypeRecord(("resource",), RESOURCE))
        rng.shuffle(records)
        out = TypeMap(records, self.extensions())
        if rng.random() < 0.1:
            out.extra = [LONG]
        return out

    def domain_names(self, count):
        """Distinct names in an order that is not theirs."""
        rng = self.rng
        pool = [("abcdeijlpt"[n],) if n < 10 else (f"t{n}",) for n in range(count)]
        out = []
        for name in pool:
            if self.chance("two"):
                clash = self.chance("clash")
                name = (rng.choice(pool)[0], rng.choice(self.words if clash else ("m", "n", "o")))
            if name not in out:
                out.append(name)
        if self.p["self"] and rng.random() < 0.1:
            out.append(("self",))
        rng.shuffle(out)
        return out

    def type_at(self, at):
        """The type of the name at this place."""
        rng, parents = self.rng, self.parents(at)
        own = TypeRecord(self.names[at], rng.choice((DOMAIN, DOMAIN, DOMAIN, RESOURCE, OTHER)),
                         self.chance("virtual"), rng.random() < 0.3, parents)
        for _ in range(rng.choice(self.p["annotations"])):
            add(own, self.associate(own))
        if own.annotations and self.chance("twin"):
            add(own, self.twin(own))
        while self.chance("noise"):
            add(own, self.noise())
        own.marks = self.marks()
        return own

    def parents(self, at):
        """The parents of the type at this place."""
        out = [name for _ in range(self.rng.choice(self.p["parents"])) for name in self.parent(at)]
        if self.p["loop"] and at == 0:
            out = self.names[-1:]
        if out and self.chance("repeat"):
            out.append(self.rng.choice(out))
        return out[:PARENTS]

    def parent(self, at):
        """One parent as a list, empty if there is none to take."""
        rng, p, names = self.rng, self.p, self.names
        draw = rng.random()
        if draw < p["self"]:
            return [("self",)]
        if draw < p["self"] + p["missing"]:
            return [rng.choice([("zz",), ("a", "zz"), ("resource",)])]
        if self.chance("back"):
            return [rng.choice(names)]
        return [rng.choice(names[at - 1:at] if p["chain"] else names[:at])] if at else []

    def associate(self, own):
        """An Associate or NestAssociate with distinct words, its classes new to the type."""
        rng, p = self.rng, self.p
        made = {pair for ann in own.annotations if ann.kind == ASSOCIATE for pair in ann.resources}
        out = Annotation(NEST_ASSOCIATE if len(own.name) == 1 and self.chance("nest") else ASSOCIATE)
        free = [w for w in self.words if not p["once"] or w not in self.associated]
        for word in rng.sample(free, min(len(free), rng.choice(p["wide"]), LISTED)):
            dom = rng.choice(self.doms) if self.chance("dom") else None
            if self.chance("own_dom"):
                nested = out.kind == NEST_ASSOCIATE or rng.random() < 0.3
                dom = own.name[0] if nested else rng.choice(self.names)[0]
            if (word, dom) not in made:
                out.resources.append((word, dom))
                self.associated.add(word)
        return out

    def twin(self, own):
        """An associate that makes again what another of the type makes."""
        rng = self.rng
        pairs = [pair for ann in own.annotations if ann.kind == ASSOCIATE for pair in ann.resources]
        if rng.random() < 0.4 and own.parents:
            return Annotation(ASSOCIATE, [(rng.choice(self.words), rng.choice(own.parents)[0])])
        if not pairs:
            return Annotation(MAKE_LIST)
        first = rng.choice(pairs)
        rest = [w for w in self.words if w != first[0]]
        return Annotation(ASSOCIATE, [first] + [(rng.choice(rest), None)] * (rng.random() < 0.7))

    def noise(self):
        """An annotation that touches no line."""
        rng = self.rng
        kind = rng.choice([MAKE_LIST, ALIAS, INHERIT, DERIVE, NO_DERIVE, ASSOCIATE])
        return Annotation(kind, word=rng.choice(self.words) if kind == ALIAS else None,
                          names=[rng.choice(self.names)] if kind == INHERIT else [],
                          tag=rng.choice((0, 1, 2)) if kind == DERIVE else 0)

    def marks(self):
        """The marks of a type."""
        return [self.rng.choice((None, 0, 7, 255)) for _ in range(self.rng.choice(self.p["marks"]))]

    def declare_classes(self):
        """Declares the classes, mostly as resources; those left undeclared for want of room are dropped."""
        rng, p, records = self.rng, self.p, self.records
        declared = {own.name for own in records}
        classes = dict.fromkeys(class_name(*pair) for own in records for ann in own.annotations for pair in ann.resources)
        for name in classes:
            if name in declared or len(records) == TYPES or self.chance("undeclared"):
                continue
            variant = rng.choice((DOMAIN, OTHER)) if self.chance("no_resource") else RESOURCE
            parents = [rng.choice(self.names)] if rng.random() < 0.05 else []
            records.append(TypeRecord(name, variant, self.chance("virtual"), False, parents, [], self.marks()))
        if p["undeclared"] == 0:
            declared = {own.name for own in records}
            for own in records:
                keep_declared(own, declared)

    def extensions(self):
        """The extensions."""
        rng, names, out = self.rng, self.names, {}
        for _ in range(rng.choice(self.p["extensions"])):
            key = (rng.choice(names), rng.choice(self.words)) if rng.random() < 0.9 else (("zz",), self.words[0])
            out[key] = Extension(*key, [rng.choice(names + [("zz",), ("self",)])
                                        for _ in range(rng.choice((1, 1, 2, 8)))])
        return list(out.values())[:EXTENSIONS]


def keep_declared(own, declared):
    """Drops classes that are not declared."""
    given, own.annotations = own.annotations, []
    for ann in given:
        ann.resources = [pair for pair in ann.resources if class_name(*pair) in declared]
        add(own, ann)


def long_map(rng):
    """64 types that associate one another: schedules around 65,536 bytes."""
    words, doms = WORDS[:16], DOMS[:4]
    records, short = [], rng.choice((0.02, 0.08, 0.15))
    for dom, word in itertools.product(doms, words):
        own = TypeRecord((dom, word), RESOURCE, rng.random() < 0.5, rng.random() < 0.5)
        own.marks = [None if rng.random() < short else rng.choice((1, 2, 3)) for _ in range(7)]
        shifts = {w: rng.sample(doms, 4) for w in words}
        for left_out, turn in zip(rng.sample(words, 4), range(4)):
            own.annotations.append(Annotation(
                ASSOCIATE, [(w, shifts[w][turn]) for w in words if w != left_out]))
        if records and rng.random() < 0.04:
            own.parents = [rng.choice(records).name]
        records.append(own)
    rng.shuffle(records)
    return TypeMap(records)
