"""The records of a sheet, as the tools hold them.

A word is a str, one character a byte; a word given by its number is an int. A
name is a tuple of one or two words. Words and names that were read from a text
know their place (places.py), which no comparison sees.
"""

from dataclasses import dataclass, field

VARIANTS = ["domain", "resource", "other", "variant3"]
DOMAIN, RESOURCE, OTHER = range(3)
KINDS = ["makelist", "associate", "nest", "alias", "inherit", "derive",
         "noderive", "kind7"]
MAKE_LIST, ASSOCIATE, NEST_ASSOCIATE, ALIAS, INHERIT, DERIVE, NO_DERIVE = range(7)

# The limits of document 01.
WORDS, WORD_BYTES, TYPES, EXTENSIONS = 200, 31, 64, 32
PARENTS, ANNOTATIONS, MARKS, LISTED, TAGS = 8, 12, 7, 15, 256
FIRST_CHARACTERS = frozenset("ABCDEFGHIJKLMNOPQRSTUVWXYZabcdefghijklmnopqrstuvwxyz0123456789_")
WORD_CHARACTERS = FIRST_CHARACTERS | {"-"}  # those behind the first


def characters_at(at):
    """What a word may have at a place, 0 being the first."""
    return WORD_CHARACTERS if at else FIRST_CHARACTERS


def spelling(name):
    """A name's words joined by dots: names compare by these bytes, of which a hyphen goes before the dot, and not
    word by word."""
    return ".".join(name)


class SheetError(Exception):
    """A text that makes no sheet, or bytes that hold none; `number` is the refusal, where it is known."""

    def __init__(self, text, place=None, number=0):
        super().__init__(text)
        self.text, self.place, self.number = text, place, number

    def __str__(self):
        return f"{self.place}: {self.text}" if self.place else self.text


@dataclass
class Annotation:
    """One annotation; the parts that its kind lacks keep their defaults."""
    kind: int
    resources: list = field(default_factory=list)  # pairs: word, dom or None
    word: object = None                            # of an alias
    names: list = field(default_factory=list)      # of an inherit
    tag: int = 0                                   # of a derive
    place: object = field(default=None, compare=False)

    def used_words(self):
        """The words that the annotation holds."""
        out = [w for pair in self.resources for w in pair if w is not None]
        out += [w for name in self.names for w in name]
        return out + [self.word] if self.kind == ALIAS else out

    def associates(self):
        """Whether it is one of the two associates."""
        return self.kind in (ASSOCIATE, NEST_ASSOCIATE)

    def equal_part(self):
        """What two annotations of a type share if refusal 6 calls them equal."""
        if self.associates():
            return self.kind, frozenset(word for word, _ in self.resources)
        return self.kind, self.word, tuple(self.names), self.tag


@dataclass
class TypeRecord:
    """One type; a mark is None for makelist, else the tag of a derive."""
    name: tuple
    variant: int = 0
    is_virtual: bool = False
    is_trait: bool = False
    parents: list = field(default_factory=list)
    annotations: list = field(default_factory=list)
    marks: list = field(default_factory=list)
    place: object = field(default=None, compare=False)
    mark_places: list = field(default_factory=list, compare=False)

    def mark_place(self, at):
        """The place of a mark, that of the type where it has none."""
        return self.mark_places[at] if at < len(self.mark_places) else self.place


@dataclass
class Extension:
    """The parents added to the resource of a type."""
    name: tuple
    word: object
    parents: list = field(default_factory=list)
    place: object = field(default=None, compare=False)


@dataclass
class TypeMap:
    """A whole sheet; `words` is None where the used words are to be listed."""
    types: list = field(default_factory=list)
    extensions: list = field(default_factory=list)
    extra: list = field(default_factory=list)
    words: list = None
    version: int = 1
    version_place: object = field(default=None, compare=False)
    words_place: object = field(default=None, compare=False)

    def each_word(self):
        """The words that the records use, in their order, with repeats."""
        for record in self.types:
            yield from record.name
            for parent in record.parents:
                yield from parent
            for ann in record.annotations:
                yield from ann.used_words()
        for extension in self.extensions:
            yield from extension.name
            yield extension.word
            for parent in extension.parents:
                yield from parent

    def used_words(self):
        """The set of the words that some record uses."""
        return {w for w in self.each_word() if isinstance(w, str)}

    def word_list(self):
        """The words of the sheet, in its order."""
        if self.words is not None:
            return self.words
        return sorted(self.used_words() | set(self.extra) | {"resource", "self"})
