"""Schedules that no sheet needs to have: by their fields, at the limits and past them, or drawn at random."""

import model
from maps.changed import damaged
from sheetlib import Writer

SORTS = ("few", "few", "many", "full")


def name(*words):
    """The fields of a name, each a width and a value."""
    return [(8, words[0]), (1, len(words) - 1), *((8, word) for word in words[1:])]


def parent(*words):
    """Those of a parent."""
    return [(2, len(words)), *((8, word) for word in words)]


def line(owner=(0,), word=0, virtual=0, trait=0):
    """Those of an extension line."""
    return [(1, 1), *name(*owner), (1, virtual), (1, trait), (8, word)]


def made(parents=((0,), (0,)), marks=(), owner=(0,), word=0, virtual=0):
    """Those of a resource; a mark is None, or a tag."""
    out = [(1, 0), *name(*owner), (8, word), (1, virtual), (5, len(parents))]
    out += [field for words in parents for field in parent(*words)]
    out.append((9, len(marks)))
    for mark in marks:
        out += [(1, 0)] if mark is None else [(1, 1), (8, mark)]
    return out


def whole(*items, names=()):
    """Those of a schedule."""
    out = [(7, len(names)), *(field for words in names for field in name(*words)), (16, len(items))]
    return out + [field for item in items for field in item]


def packed(fields):
    """The packed bytes of fields."""
    out = Writer()
    for width, value in fields:
        out.put(width, value)
    return out.data()


def recorded(fields):
    """Their records."""
    return b"".join(value.to_bytes(2, "big") for _, value in fields)


def fit(fields):
    """Whether every value fits its field."""
    return all(value < 1 << width for width, value in fields)


def limits():
    """Each limit and one past it: what it is, W, the fields, the number."""
    for count, number in ((0, 0), (63, 0), (64, 0), (65, 12), (127, 12), (128, 12)):
        yield f"{count} names", 2, whole(names=[(1,)] * count), number
    places = {"name": lambda n: whole(names=[(n,)]), "second": lambda n: whole(names=[(0, n)]),
              "last name": lambda n: whole(names=[(0,)] * 63 + [(0, n)]),
              "owner": lambda n: whole(made(owner=(n,))), "second of owner": lambda n: whole(made(owner=(0, n))),
              "word": lambda n: whole(made(word=n)), "parent": lambda n: whole(made(((0,), (n,)))),
              "second of parent": lambda n: whole(made(((0, n), (0,)))),
              "third of parent": lambda n: whole(made(((0,), (0, 0, n)))),
              "owner of line": lambda n: whole(line((n,))), "second of line": lambda n: whole(line((0, n))),
              "word of line": lambda n: whole(line(word=n))}
    for place, fields in places.items():
        for w in (2, 3, 100, 128, 199, 200):
            for word, number in ((w - 1, 0), (w, 12), (255, 12), (256, 12), (65535, 12)):
                yield f"{place} {word} of {w}", w, fields(word), number
    for count, number in ((0, 12), (1, 12), (2, 0), (3, 0), (16, 0), (17, 0), (18, 12), (31, 12), (32, 12)):
        yield f"{count} parents", 2, whole(made([(0,)] * count)), number
        yield f"{count} parents of three words", 2, whole(made([(1, 0, 1)] * count)), number
    for count, number in ((0, 12), (1, 0), (2, 0), (3, 0), (4, 12)):
        yield f"{count} words of a parent", 2, whole(made(((0,), (0,) * count))), number
        yield f"{count} words of the first parent", 2, whole(made(((1,) * count, (0,)))), number
    for count, number in ((0, 0), (1, 0), (447, 0), (448, 0), (449, 12), (511, 12), (512, 12)):
        yield f"{count} marks", 2, whole(made(marks=[None] * count)), number
        yield f"{count} tags", 2, whole(made(marks=[255] * count)), number
    for tag, number in ((0, 0), (255, 0), (256, 12), (65535, 12)):
        yield f"tag {tag}", 2, whole(made(marks=[None, tag])), number


def flags():
    """Each flag of a schedule as 2, 3 and 65,535, which only a record can hold."""
    fields = whole(made(marks=(None, 7), owner=(0, 1)), line(), names=[(0,), (1, 1)])
    for at, (width, _) in enumerate(fields):
        for value in (2, 3, 65535) if width == 1 else ():
            yield f"flag {value} at {at}", 2, [*fields[:at], (1, value), *fields[at + 1:]], 12


# -------------------------------------------------------------- random ones


def random_name(rng, w):
    """A name of one word or two."""
    return tuple(rng.randrange(w) for _ in range(rng.choice((1, 1, 2))))


def random_mark(rng):
    """Makelist, or a derive's tag."""
    return rng.choice((None, None, 0, 255, rng.randrange(256)))


def random_item(rng, w, sort):
    """An item of any type; `full` ones are at the limits of parents and marks."""
    name, word, is_virtual = random_name(rng, w), rng.randrange(w), rng.randrange(2)
    if rng.random() < 0.4:
        return model.Line(name, word, is_virtual, rng.randrange(2))
    parents = 17 if sort == "full" else rng.choice((2, 2, 3, 4, 17))
    marks = 448 if sort == "full" else rng.choice((0, 0, 1, 2, 7, 40))
    return model.Making(name, word, is_virtual,
                        tuple(tuple(rng.randrange(w) for _ in range(rng.randrange(1, 4))) for _ in range(parents)),
                        tuple(random_mark(rng) for _ in range(marks)))


def random_schedule(rng, w):
    """Names and items of a schedule of W words: names repeat, items stand in any order, of types that
    are not listed too."""
    sort = rng.choice(SORTS)
    names = [random_name(rng, w) for _ in range(rng.choice((0, 1, 3, 8, 63, 64)))]
    count = {"few": rng.randrange(5), "many": rng.randrange(60), "full": rng.randrange(1, 4)}[sort]
    return names, [random_item(rng, w, sort) for _ in range(count)]


def damaged_records(rng, records):
    """Records with a value changed, cut short or lengthened, or with any damage of bytes."""
    if len(records) < 2 or rng.random() < 0.4:
        return damaged(rng, records)
    out, at = bytearray(records), 2 * rng.randrange(len(records) // 2)
    value = rng.choice((0, 1, 2, 3, 17, 18, 64, 65, 200, 255, 256, 448, 449, 511, 512, 65535, rng.randrange(1 << 16)))
    out[at:at + 2] = value.to_bytes(2, "big")
    return bytes(out)
