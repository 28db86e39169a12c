"""Smaller maps that still show the same."""

from dataclasses import replace

import sheetlib
from sheet_records import DOMAIN, OTHER, Annotation, TypeMap


def without(values):
    """The lists that lack one of the values."""
    for at in range(len(values)):
        yield values[:at] + values[at + 1:]


def smaller(given):
    """The maps one step smaller."""
    for types in without(given.types):
        yield TypeMap(types, given.extensions)
    for extensions in without(given.extensions):
        yield TypeMap(given.types, extensions)
    for at, own in enumerate(given.types):
        for less in smaller_types(own):
            yield TypeMap(given.types[:at] + [less] + given.types[at + 1:], given.extensions)
    if given.extra:
        yield TypeMap(given.types, given.extensions)


def smaller_types(own):
    """The types one step smaller."""
    for part in ("annotations", "parents", "marks"):
        for less in without(getattr(own, part)):
            yield replace(own, **{part: less})
    for at, ann in enumerate(own.annotations):
        for less in smaller_associates(ann):
            yield replace(own, annotations=own.annotations[:at] + [less] + own.annotations[at + 1:])
    if own.is_virtual:
        yield replace(own, is_virtual=False)
    if own.is_trait:
        yield replace(own, is_trait=False)
    if own.variant == OTHER:
        yield replace(own, variant=DOMAIN)


def smaller_associates(ann):
    """The associates with a word or a dom less."""
    for at, (word, dom) in enumerate(ann.resources):
        for rest in [[]] + [[(word, None)]] * (dom is not None):
            yield Annotation(ann.kind, ann.resources[:at] + rest + ann.resources[at + 1:])


def shrink(given, bad):
    """A smallest map on which `bad`, asked for many sheets at once, still holds."""
    while True:
        steps = list(smaller(given))
        for first in range(0, len(steps), 200):
            some = steps[first:first + 200]
            found = [m for m, b in zip(some, bad([sheetlib.encode(m) for m in some])) if b]
            if found:
                given = found[0]
                break
        else:
            return given
