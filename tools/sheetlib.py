"""Sheets of document 01: the bytes of a type map, and back.

sheet_records.py has the records, sheet_text.py the readable text; both are
brought in here, so that one import serves. Limits are not checked here, only
the widths of the fields: sheet_checks.py has the rules.
"""

from places import counted, place_of, quoted
from sheet_records import (ALIAS, ANNOTATIONS, ASSOCIATE, DERIVE, EXTENSIONS, INHERIT, KINDS, LISTED, MAKE_LIST,
                           NEST_ASSOCIATE, NO_DERIVE, OTHER, PARENTS, TYPES, VARIANTS, WORD_BYTES, WORDS, Annotation,
                           Extension, SheetError, TypeMap, TypeRecord, characters_at)
from sheet_text import parse_text, show_mark, show_name, show_word, to_text

__all__ = ["ALIAS", "ASSOCIATE", "DERIVE", "INHERIT", "KINDS", "MAKE_LIST", "NEST_ASSOCIATE", "NO_DERIVE", "VARIANTS",
           "Annotation", "Extension", "SheetError", "TypeMap", "TypeRecord", "Writer", "Reader",
           "decode", "encode", "parse_text", "sheet_of", "show_mark", "show_name", "text_of", "to_text"]


class Writer:
    """Fields packed most significant bit first."""

    def __init__(self):
        self.bits = []

    def put(self, width, value, what="field"):
        """Appends a field of the given width."""
        if not 0 <= value < 1 << width:
            raise SheetError(f"{what}: {value} does not fit {width} bits")
        self.bits.append(f"{int(value):0{width}b}")

    def data(self):
        """The bytes, zero bits filling the last one."""
        bits = "".join(self.bits)
        size = (len(bits) + 7) // 8
        return int(bits.ljust(8 * size, "0") or "0", 2).to_bytes(size, "big")


class Packing:
    """A type map put into a writer; what does not fit is an error with the place of its record."""

    def __init__(self, type_map):
        self.map, self.out, self.place = type_map, Writer(), None
        self.words = type_map.word_list()
        self.number = {word: at for at, word in reversed(list(enumerate(self.words)))}

    def put(self, width, value, what):
        """One field."""
        try:
            self.out.put(width, value, what)
        except SheetError as error:
            raise SheetError(error.text, self.place) from None

    def put_word(self, word, what):
        """A word by its number in the list."""
        if isinstance(word, str):
            if word not in self.number:
                raise SheetError(f"{what}: the word {quoted(word)} is not in the word list", self.place)
            word = self.number[word]
        self.put(8, word, what)

    def put_name(self, name, what):
        """A name: a word, a flag, and a second word if the flag is 1."""
        self.put_word(name[0], what)
        self.put(1, len(name) - 1, what)
        for word in name[1:]:
            self.put_word(word, what)

    def put_names(self, names, what):
        """A count and its names."""
        self.put(4, len(names), what + ": count")
        for name in names:
            self.put_name(name, what)

    def put_annotation(self, ann, what):
        """An annotation by its kind."""
        self.place = ann.place or self.place
        self.put(3, ann.kind, what)
        if ann.associates():
            self.put(4, len(ann.resources), what + ": count")
            for word, dom in ann.resources:
                self.put_word(word, what)
                self.put(1, dom is not None, what)
                if dom is not None:
                    self.put_word(dom, what)
        elif ann.kind == ALIAS:
            self.put_word(ann.word, what)
        elif ann.kind == INHERIT:
            self.put_names(ann.names, what)
        elif ann.kind == DERIVE:
            self.put(8, ann.tag, what + ": tag")

    def put_type(self, record):
        """A type's record."""
        self.place, what = record.place, f"type {show_name(record.name)}"
        self.put_name(record.name, what)
        self.put(2, record.variant, what)
        self.put(1, record.is_virtual, what)
        self.put(1, record.is_trait, what)
        self.put_names(record.parents, what + ": parents")
        self.put(4, len(record.annotations), what + ": annotations: count")
        for ann in record.annotations:
            self.put_annotation(ann, f"{what}: {KINDS[ann.kind]}")
        self.place = record.place
        self.put(3, len(record.marks), what + ": marks: count")
        for at, mark in enumerate(record.marks):
            self.place = record.mark_place(at)
            self.put(1, mark is not None, what)
            if mark is not None:
                self.put(8, mark, what + ": mark: tag")

    def put_extension(self, extension):
        """An extension's record."""
        self.place = extension.place
        what = f"extension {show_name(extension.name)} {show_word(extension.word)}"
        self.put_name(extension.name, what)
        self.put_word(extension.word, what)
        self.put_names(extension.parents, what + ": parents")

    def data(self):
        """The bytes of the whole sheet."""
        self.place = self.map.version_place
        self.put(4, self.map.version, "version")
        self.put(8, len(self.words), "words: count")
        for word in self.words:
            self.place = place_of(word)
            what = f"word {quoted(word)}"
            self.put(5, len(word), what + ": length")
            for character in word:
                self.put(8, ord(character), what)
        self.place = None
        self.put(7, len(self.map.types), "types: count")
        for record in self.map.types:
            self.put_type(record)
        self.place = None
        self.put(6, len(self.map.extensions), "extensions: count")
        for extension in self.map.extensions:
            self.put_extension(extension)
        return self.out.data()


def encode(type_map):
    """The bytes of a type map (01, 'The sheet, bit by bit')."""
    return Packing(type_map).data()


class Reader:
    """Fields read most significant bit first; with `strict`, values that 01 does not allow are errors."""

    def __init__(self, data, strict=False):
        self.number, self.size, self.at = int.from_bytes(data, "big"), 8 * len(data), 0
        self.strict = strict

    def take(self, width, what="a field", low=0, high=None):
        """The next field of the given width, which has to be from low to high."""
        first = self.at
        self.at += width
        if self.at > self.size:
            raise SheetError(f"bit {first}: the end comes within {what}", number=3)
        value = self.number >> self.size - self.at & (1 << width) - 1
        if self.strict and (value < low or (high is not None and value > high)):
            allowed = f"it has to be {low}" if low == high else f"allowed are {low} to {high}"
            raise SheetError(f"bit {first}: {what} is {value}, {allowed}", number=4)
        return value

    def end(self, what):
        """Nothing follows the last field but zero bits that fill the last byte."""
        rest = self.size - self.at
        if rest >= 8:
            raise SheetError(f"{counted(rest // 8, 'more byte')} after the {what}", number=7)
        if self.number & (1 << rest) - 1:
            raise SheetError("the fill of the last byte is not zero", number=7)


class Decoding:
    """The type map of a sheet, word numbers turned to words where they can be."""

    def __init__(self, data, strict):
        self.source = Reader(data, strict)
        self.take, self.strict = self.source.take, strict
        self.map = TypeMap(version=self.take(4, "version", 1, 1))
        self.map.words = [self.listed() for _ in range(self.take(8, "words: count", 2, WORDS))]
        # What each number stands for: a word at its first place, else the number itself.
        self.named = [word if self.map.words.index(word) == at else at for at, word in enumerate(self.map.words)]
        for at in range(self.take(7, "types: count", 0, TYPES)):
            self.map.types.append(self.record(f"type {at + 1}"))
        for at in range(self.take(6, "extensions: count", 0, EXTENSIONS)):
            what = f"extension {at + 1}"
            self.map.extensions.append(Extension(self.name(what), self.word(what),
                                                 self.names(what + ": parents", 1, PARENTS)))
        self.source.end("extensions")

    def listed(self):
        """A word of the list by its bytes."""
        out = ""
        for at in range(self.take(5, "a word's length", 1, WORD_BYTES)):
            byte = self.take(8, "a byte of a word")
            if self.strict and chr(byte) not in characters_at(at):
                where = "in a word" if at else "as the first of a word"
                raise SheetError(f"bit {self.source.at - 8}: the byte {byte:02x} is not allowed {where}", number=4)
            out += chr(byte)
        return out

    def word(self, what):
        """A word by its number."""
        at = self.take(8, what + ": word", 0, len(self.named) - 1)
        return self.named[at] if at < len(self.named) else at

    def name(self, what):
        """A name of one or two words."""
        first = self.word(what)
        return (first, self.word(what)) if self.take(1, what) else (first,)

    def names(self, what, low, high):
        """A count and its names."""
        return [self.name(what) for _ in range(self.take(4, what + ": count", low, high))]

    def resource(self, what):
        """A word and its dom, if it has one."""
        first = self.word(what)
        return first, self.word(what) if self.take(1, what) else None

    def annotation(self, record, what):
        """An annotation by its kind."""
        ann = Annotation(self.take(3, what + ": kind", 0, NO_DERIVE))
        if self.strict and ann.kind == NEST_ASSOCIATE and len(record.name) == 2:
            raise SheetError(f"bit {self.source.at - 3}: {what}: NestAssociate in a type of two words", number=4)
        if ann.associates():
            ann.resources = [self.resource(what) for _ in range(self.take(4, what + ": count"))]
        elif ann.kind == ALIAS:
            ann.word = self.word(what)
        elif ann.kind == INHERIT:
            ann.names = self.names(what, 0, LISTED)
        elif ann.kind == DERIVE:
            ann.tag = self.take(8, what)
        return ann

    def record(self, what):
        """A type's record."""
        name = self.name(what)
        what += f" {show_name(name)}"
        out = TypeRecord(name, self.take(2, what + ": variant", 0, OTHER), bool(self.take(1, what)),
                         bool(self.take(1, what)), self.names(what + ": parents", 0, PARENTS))
        for _ in range(self.take(4, what + ": annotations: count", 0, ANNOTATIONS)):
            out.annotations.append(self.annotation(out, what + ": annotation"))
        for _ in range(self.take(3, what + ": marks: count")):
            out.marks.append(self.take(8, what + ": mark") if self.take(1, what + ": mark") else None)
        return out


def decode(data, strict=False):
    """The type map of a sheet. With `strict`, what 3, 4 and 7 refuse is an error; else only 3 and 7."""
    return Decoding(data, strict).map


def sheet_of(text):
    """The bytes of the sheet that a text describes."""
    return encode(parse_text(text))


def text_of(data):
    """The text of a readable sheet."""
    return to_text(decode(data))
