"""Maps and sheets changed: the same listed otherwise, damaged, rebuilt against the rules."""

from dataclasses import replace

from sheet_records import ANNOTATIONS, EXTENSIONS, PARENTS, TYPES


def relisted(rng, given):
    """The same map with its records, and in each its parents, listed otherwise."""
    records = []
    for own in given.types:
        parents = sorted(set(own.parents))
        while parents and len(parents) < PARENTS and rng.random() < 0.3:
            parents.append(rng.choice(parents))
        rng.shuffle(parents)
        records.append(replace(own, parents=parents))
    rng.shuffle(records)
    return replace(given, types=records)


def flipped(sheet, *bits):
    """A sheet with these bits inverted, 0 being the first."""
    out = bytearray(sheet)
    for bit in bits:
        out[bit // 8] ^= 128 >> bit % 8
    return bytes(out)


def damaged(rng, sheet):
    """A sheet with bits changed, cut short or lengthened."""
    out = bytearray(sheet)
    way = rng.randrange(6)
    if way == 0:
        del out[rng.randrange(len(out) + 1):]
    elif way == 1:
        out += bytes(rng.choice((0, 0, 1, 255)) for _ in range(rng.choice((1, 1, 2, 9))))
    elif way == 2 and len(out) > 1:
        at = rng.randrange(len(out))
        out[at:at + 1] = bytes(rng.randrange(256) for _ in range(rng.randrange(3)))
    else:
        count = rng.choice((1, 1, 2, 5))
        out = flipped(out, *(rng.randrange(8 * len(out)) for _ in range(count if out else 0)))
    return bytes(out)


def rebuilt(rng, given):
    """A map damaged in one field: words, repeats, counts past the limits."""
    out = replace(given, types=list(given.types), extensions=list(given.extensions), words=None)
    way = rng.randrange(8)
    if way == 0:
        out.words = out.word_list()
        at = rng.randrange(len(out.words) - 1)
        out.words[at:at + 2] = reversed(out.words[at:at + 2])
    elif way == 1 and not {"self", "resource"} <= given.used_words():
        used = given.used_words()
        out.words = [w for w in out.word_list() if w not in ("self", "resource") or w in used]
    elif way == 2 and out.types and len(out.types) < TYPES:
        out.types.append(rng.choice(out.types))
    elif way == 3 and out.extensions and len(out.extensions) < EXTENSIONS:
        out.extensions.append(rng.choice(out.extensions))
    elif way == 4 and out.types:
        own = rng.choice(out.types)
        if own.annotations and len(own.annotations) < ANNOTATIONS:
            again = own.annotations + [rng.choice(own.annotations)]
            out.types[out.types.index(own)] = replace(own, annotations=again)
    elif way == 5 and out.types:
        at = rng.randrange(len(out.types))
        own = out.types[at]
        parents = rng.choice(([own.name] * 9, own.parents))
        out.types[at] = replace(own, variant=rng.choice((own.variant, 3)), parents=parents)
    elif way == 6:
        out.version = rng.randrange(16)
    else:
        out.extra = out.extra + [f"v{n}" for n in range(rng.choice((150, 190, 200, 230)))]
        out.extra = out.extra[:255 - len(out.used_words() | {"self", "resource"})]
    return out
