"""All small maps of a family."""

import itertools

from maps.hyphens import small_hyphen_orders, small_hyphen_parents, small_hyphen_resources
from maps.records import associate, name_of, nest, record
from sheet_records import DOMAIN, RESOURCE, Extension, TypeMap


def listings(names, longest):
    """All lists of names up to a length."""
    for size in range(longest + 1):
        yield from itertools.product(names, repeat=size)


def small_orders():
    """Three types, up to two parents each, `self` and an undeclared name among them."""
    for declared, names in (("a b c", "a b c self zz"), ("a b self", "a b self zz")):
        some = list(listings(names.split(), 2))
        for parents in itertools.product(some, repeat=3):
            yield TypeMap([record(n, parents=p) for n, p in zip(declared.split(), parents)])
    for count in range(3):
        for parents in itertools.product(list(listings(["a", "b", "self", "zz"], 3)), repeat=count):
            yield TypeMap([record(n, parents=p) for n, p in zip("ab", parents)])


def small_makings():
    """A parent and a child around one word: each way to associate and declare."""
    ways = [[], [associate("f")], [associate("p.f")], [associate("q.f")], [nest("p.f")],
            [nest("q.f")], [associate("f"), nest("p.f")], [associate("f"), associate("f", "g")]]
    for above, own in itertools.product(ways, repeat=2):
        for parents in ((), ("p",), ("p", "p")):
            for f, pf, qf in itertools.product((None, DOMAIN, RESOURCE), (None, RESOURCE),
                                               (None, RESOURCE)):
                for tf, strong in itertools.product((False, True), repeat=2):
                    out = [record("t", DOMAIN, parents, own, (), True),
                           record("p", DOMAIN, (), above, (), True), record("g", RESOURCE)]
                    if f is not None:
                        out.append(record("f", f, is_virtual=True))
                    if pf is not None:
                        out.append(record("p.f", pf, (), (), (None, 7) if strong else (), True))
                    if qf is not None:
                        out.append(record("q.f", qf, is_virtual=not strong))
                    if tf:
                        out.append(record("t.f", RESOURCE))
                    yield TypeMap(out)


def small_diamonds():
    """`d` under `b` and `c`, both under `a`: each way to associate two words."""
    ways = [[], [associate("f")], [associate("x.f")], [associate("f", "g")], [nest("x.f", "g")]]
    for some in itertools.product(ways, repeat=4):
        for parents in (("b", "c"), ("c", "b"), ("c", "a", "b")):
            for f, xf in ((RESOURCE, RESOURCE), (RESOURCE, None), (DOMAIN, RESOURCE), (None, None)):
                out = [record(n, DOMAIN, p, w) for n, p, w in
                       zip("abcd", ((), ("a",), ("a",), parents), some)]
                out.append(record("g", RESOURCE))
                if f is not None:
                    out.append(record("f", f))
                if xf is not None:
                    out.append(record("x.f", xf, marks=(3,)))
                yield TypeMap(out)


def small_parent_lists():
    """A type under one that gives `f`: its own resources of that word beside the inherited one, which can list the
    same parents. A capital letter, a digit, `_` and a dot are in the names, whose bytes decide."""
    looks = list(itertools.product(((), (None,), (7,)), (False, True)))
    for (parent, child), above in itertools.product((("p", "t"), ("Z", "_t"), ("z", "T0.b")),
                                                    (nest("q.f"), nest("f"), associate("f"))):
        passed = parent + ".f"
        ways = associate("f"), associate("q.f", "g"), associate(passed, "h")
        for own in itertools.chain.from_iterable(itertools.combinations(ways, size) for size in (1, 2, 3)):
            for look, other in itertools.product(looks, looks if ways[2] in own else looks[:1]):
                out = [record(child, DOMAIN, (parent,), own, (), True), record(parent, DOMAIN, (), (above,), (), True)]
                out += [record(name, RESOURCE, (), (), *look) for name in ("f", "q.f", "g", "h")]
                if ways[2] in own:
                    out.append(record(passed, RESOURCE, (), (), *other))
                for added in ([], [Extension(name_of(child), "f", [("q", "f")])]):
                    yield TypeMap(out, added)


EXHAUSTIVE = {"small orders": small_orders, "small makings": small_makings,
              "small diamonds": small_diamonds, "small parent lists": small_parent_lists,
              "small hyphen orders": small_hyphen_orders, "small hyphen parents": small_hyphen_parents,
              "small hyphen resources": small_hyphen_resources}
