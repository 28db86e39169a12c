"""The model's reading of a sheet: refusals 3 to 7, and the map with its words by number.

Bits and fields are read by sheetlib.py, which tells 3, 4 and 7. Words are numbers
in the sheet's list, so that they ascend as their bytes do. A name is a tuple of
words. Names compare by all bytes of their spelling and not as tuples do: a hyphen
goes before the dot, so that `a-b` precedes `a.c` (FORMAT 1.4). A dom set is a row
of bits: bit 0 for no dom, bit w + 1 for the word w.
"""

from collections import namedtuple

from sheetlib import ALIAS, ASSOCIATE, DERIVE, INHERIT, NEST_ASSOCIATE, SheetError, decode

# An annotation is (kind, payload): for the associates a tuple of (word, doms),
# for Alias a word, for Inherit a tuple of names, for Derive a tag, else None.
# A mark is None for makelist, else the tag of a derive.
TypeInfo = namedtuple("TypeInfo", "name variant is_virtual is_trait parents annotations marks")


class TypeMap(namedtuple("TypeMap", "words types extensions resource self_word")):
    """A map: `types` maps names to TypeInfo, in name order; `extensions` maps (name, word) to the parents."""

    def spelling(self, name):
        """The bytes of a name, by which names compare (FORMAT 1.4)."""
        return spelling_of(self.words, name)


def spelling_of(words, name):
    """A name's words joined by dots."""
    return ".".join(words[word] for word in name)


class Refused(Exception):
    """A sheet turned back; `rows` holds up to one row more than are written."""

    def __init__(self, number, rows=()):
        super().__init__(number)
        self.number, self.rows = number, list(rows)


def read_sheet(data):
    """The type map of a sheet; refusals 3 and 4, then 7, 5, 6."""
    try:
        given = decode(data, strict=True)
    except SheetError as error:
        raise Refused(error.number) from None
    words = given.words
    # 5: the words don't ascend, or lack `resource` or `self` (FORMAT 1.2).
    if any(a >= b for a, b in zip(words, words[1:])) or not {"resource", "self"} <= set(words):
        raise Refused(5)
    # 6: something stands twice (FORMAT 2.12).
    if (repeats(own.name for own in given.types) or repeats((added.name, added.word) for added in given.extensions)
            or any(repeats_annotations(own) for own in given.types)):
        raise Refused(6)
    return Numbering(words).map(given)


def repeats(values):
    """Whether one value stands twice."""
    values = list(values)
    return len(set(values)) < len(values)


def repeats_annotations(own):
    """Whether a type has a word twice in an associate, or equal annotations."""
    return (any(repeats(word for word, _ in ann.resources) for ann in own.annotations)
            or repeats(ann.equal_part() for ann in own.annotations))


class Numbering:
    """Turns the words of a map into their numbers."""

    def __init__(self, words):
        self.words, self.number = words, {word: at for at, word in enumerate(words)}

    def name(self, name):
        """A name."""
        return tuple([self.number[word] for word in name])

    def names(self, names):
        """Names in their order."""
        return tuple([self.name(name) for name in names])

    def annotation(self, ann):
        """An annotation; within an associate the words ascend."""
        payload = None
        if ann.associates():
            payload = tuple(sorted((self.number[word], 1 if dom is None else 1 << self.number[dom] + 1)
                                   for word, dom in ann.resources))
        elif ann.kind == ALIAS:
            payload = self.number[ann.word]
        elif ann.kind == INHERIT:
            payload = self.names(ann.names)
        elif ann.kind == DERIVE:
            payload = ann.tag
        return ann.kind, payload

    def type(self, own):
        """A type, its annotations by kind, associates by their word lists (FORMAT 8.7)."""
        annotations = sorted(map(self.annotation, own.annotations), key=lambda ann: (ann[0], words_of(ann)))
        return TypeInfo(self.name(own.name), own.variant, int(own.is_virtual), int(own.is_trait),
                        self.names(own.parents), annotations, tuple(own.marks))

    def map(self, given):
        """The whole map."""
        types = sorted(map(self.type, given.types), key=lambda info: spelling_of(self.words, info.name))
        extensions = {(self.name(added.name), self.number[added.word]): self.names(added.parents)
                      for added in given.extensions}
        return TypeMap(self.words, {info.name: info for info in types}, extensions,
                       self.number["resource"], self.number["self"])


def words_of(ann):
    """The words of an associate, none of another kind."""
    return [w for w, _ in ann[1]] if ann[0] in (ASSOCIATE, NEST_ASSOCIATE) else []
