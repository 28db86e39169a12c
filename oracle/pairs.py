"""Pairs of annotations: in the text of tools/sheet, as the model has them, and as crates/pairs reads them."""

import collections
import random
import re

from sheet_records import ALIAS, ASSOCIATE, DERIVE, INHERIT, KINDS, NEST_ASSOCIATE


def words_in(line):
    """The words of a line, ascending."""
    return sorted(set(re.findall(r"[\w-]+", line)))


def annotation_of(text, words):
    """An annotation in the text of tools/sheet, as the model has it."""
    kind, *rest = text.split()
    number = KINDS.index(kind)
    if kind in ("associate", "nest"):
        doms = collections.defaultdict(int)
        for name in rest:
            *dom, word = name.split(".")
            doms[words.index(word)] |= 1 << words.index(dom[0]) + 1 if dom else 1
        return number, tuple(sorted(doms.items()))
    if kind == "alias":
        return number, words.index(rest[0])
    if kind == "inherit":
        return number, tuple(tuple(words.index(w) for w in name.split(".")) for name in rest)
    return number, int(rest[0]) if kind == "derive" else None


def annotation_text(annotation, words):
    """The text of an annotation, or `none`."""
    if annotation is None:
        return "none"
    number, payload = annotation
    kind = KINDS[number]
    if kind in ("associate", "nest"):
        out = [words[w] if dom == 0 else f"{words[dom - 1]}.{words[w]}"
               for w, doms in payload for dom in range(doms.bit_length()) if doms >> dom & 1]
    elif kind == "alias":
        out = [words[payload]]
    elif kind == "inherit":
        out = [".".join(words[w] for w in name) for name in payload]
    else:
        out = [str(payload)] if kind == "derive" else []
    return " ".join([kind] + out)


def numbers_of(annotation):
    """The numbers by which crates/pairs reads and prints an annotation: its kind, its
    tag, how many words it has, and each word with its dom set."""
    number, payload = annotation
    if number == INHERIT:
        payload = tuple((name[-1], 1 << name[0] + 1 if len(name) == 2 else 1) for name in payload)
    if isinstance(payload, tuple):
        return [number, 0, len(payload)] + [n for pair in payload for n in pair]
    return [number, payload or 0, 0]


def annotation_from(numbers):
    """The annotation that these numbers show."""
    number, tag, count, *rest = numbers
    pairs = tuple(zip(rest[::2], rest[1::2]))
    if number == INHERIT:
        return number, tuple((w,) if doms == 1 else (doms.bit_length() - 2, w) for w, doms in pairs)
    if number in (ASSOCIATE, NEST_ASSOCIATE):
        return number, pairs
    return number, tag if number in (ALIAS, DERIVE) else None


def pair_bytes(line):
    """A pair of annotations as crates/pairs reads it."""
    words, out = words_in(line), bytearray()
    for text in line.split("|"):
        kind, tag, count, *rest = numbers_of(annotation_of(text, words))
        out += bytes([kind, tag, count])
        for word, doms in zip(rest[::2], rest[1::2]):
            out += bytes([word]) + doms.to_bytes(2, "big")
    return bytes(out)


def pair_lines():
    """Pairs of annotations of every two kinds: equal, overlapping, disjoint, empty."""
    rng = random.Random(1)
    some = ["", "f", "d.f", "g", "f g", "d.f e.g", "f d.f", "d.f e.f", "f d.f e.f g", "h", "g h",
            "f.f", "e.h g k"]
    for _ in range(12):
        some.append(" ".join(sorted(rng.sample(["f", "d.f", "e.f", "g", "d.g", "h", "e.h"],
                                               rng.randrange(1, 7)))))
    operands = (["makelist", "noderive", "alias f", "alias g", "derive 1", "derive 2", "inherit",
                 "inherit a", "inherit a a", "inherit a b.c", "inherit b.c a"]
                + [f"associate {s}".strip() for s in some] + [f"nest {s}".strip() for s in some])
    return [f"{left} | {right}" for left in operands for right in operands]
