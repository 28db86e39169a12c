"""The limits and rules of document 01, checked on the records of a map.

An error is what makes the sheet unreadable (3 to 7) or what the schedule call
is sure to refuse (8, 9; map_checks.py): a map without errors is accepted by it,
unless its schedule is longer than the listing (10). A warning is what is
accepted and still not likely to be meant.
"""

from map_checks import Doubtful, Lines, Order
from map_lines import MapView
from places import counted, first_at, place_of, quoted
from sheet_records import (ANNOTATIONS, DERIVE, EXTENSIONS, INHERIT, KINDS, LISTED, MARKS, NEST_ASSOCIATE, PARENTS,
                           TAGS, TYPES, WORD_BYTES, WORDS, characters_at)
from sheet_text import show_name, show_resource, show_word

ALLOWED = "A-Z, a-z, 0-9 and _ are, and - behind the first byte"


def check(type_map, problems):
    """Checks a whole map."""
    Readable(type_map, problems).check()
    if len(type_map.types) <= 8 * TYPES and all(isinstance(word, str) for word in type_map.each_word()):
        view = MapView(type_map)
        Order(view, problems).check()
        Lines(view, problems).check()
        Doubtful(view, problems).check()


class Readable:
    """What makes a sheet that can be read: the limits, and what may not stand twice."""

    def __init__(self, type_map, problems):
        self.map, self.problems = type_map, problems

    def error(self, place, what, text):
        """An error; where there is no place, its record is named."""
        self.problems.error(place, text if place else f"{what}: {text}")

    def check(self):
        """Refusals 3 to 7."""
        if self.map.version != 1:
            self.error(self.map.version_place, "version", f"version {self.map.version}, it has to be 1")
        self.check_words()
        self.check_word_list()
        self.check_types()
        self.check_extensions()

    def placed_words(self):
        """The words of the records and the further ones, each with its place."""
        def words(owner, some):
            return [(word, place_of(word) or place_of(owner)) for word in some]
        for record in self.map.types:
            for name in [record.name, *record.parents]:
                yield from words(name, name)
            for ann in record.annotations:
                yield from words(ann, ann.used_words())
        for extension in self.map.extensions:
            yield from words(extension, [*extension.name, extension.word])
            for name in extension.parents:
                yield from words(name, name)
        yield from words(None, self.map.extra)
        yield from words(None, self.map.words or [])

    def check_words(self):
        """The bytes and the length of each word, at its first place, and how many there are."""
        known, beyond = {"resource", "self"}, None
        for word, place in self.placed_words():
            if isinstance(word, int):
                self.error(place, "a word", f"`@{word}`: word numbers are for damaged sheets (--raw)")
            elif word not in known:
                known.add(word)
                self.check_word(word, place)
                if len(known) > WORDS and beyond is None:
                    beyond = place
        if len(known) > WORDS:
            self.error(beyond, "words", f"{len(known):,} words, at most {WORDS} (`resource` and `self` among them)")

    def check_word(self, word, place):
        """One word."""
        if not word:
            self.error(place, "a word", "a word without bytes is for damaged sheets (--raw)")
        for at_byte, character in enumerate(word):
            if character not in characters_at(at_byte):
                inside = place and place._replace(column=place.column + at_byte)
                hint = "; white space goes on both sides of `:`" if character == ":" else ""
                self.error(inside, f"word {quoted(word)}",
                           f"the byte {byte_shown(character)} in {quoted(word)} is not allowed, {ALLOWED}{hint}")
                break
        if len(word) > WORD_BYTES:
            self.error(place, "a word", f"{quoted(word)} has {len(word):,} bytes, at most {WORD_BYTES}")

    def check_word_list(self):
        """A list given by `words!`: refusal 5, and that it holds what is used."""
        words = self.map.words
        if words is None:
            return
        for before, word in zip(words, words[1:]):
            if before >= word:
                self.error(place_of(word), "words", f"{quoted(word)} does not come after {quoted(before)} by bytes")
        for word in ("resource", "self"):
            if word not in words:
                self.error(self.map.words_place, "words", f"the word list lacks `{word}`")
        listed = set(words)
        for word, place in self.placed_words():
            if isinstance(word, str) and word not in listed:
                self.error(place, "words", f"{quoted(word)} is not in the word list")

    def limit(self, entries, most, what, owner, places=None):
        """At most so many entries: the place of the first that is too many."""
        if len(entries) > most:
            place = places[most] if places else place_of(entries[most])
            self.error(place or place_of(owner), owner_text(owner), f"{counted(len(entries), what)}, at most {most}")

    def check_types(self):
        """The types and what each holds."""
        self.limit(self.map.types, TYPES, "type", None)
        first = {}
        for record in self.map.types:
            if record.name in first:
                self.error(record.place, "types", f"{quoted(show_name(record.name))} is declared twice"
                                                  f"{first_at(first[record.name].place, record.place)}")
            first.setdefault(record.name, record)
            if record.variant >= 3:
                self.error(record.place, owner_text(record), "the variant 3 is for damaged sheets (--raw)")
            self.limit(record.parents, PARENTS, "parent", record)
            self.limit(record.annotations, ANNOTATIONS, "annotation", record)
            self.limit(record.marks, MARKS, "mark", record, record.mark_places)
            for at_mark, mark in enumerate(record.marks):
                self.check_tag(mark, record.mark_place(at_mark), record)
            self.check_annotations(record)

    def check_tag(self, tag, place, record):
        """The tag of a derive."""
        if tag is not None and tag >= TAGS:
            self.error(place, owner_text(record), f"the tag {tag}, at most {TAGS - 1}")

    def check_annotations(self, record):
        """The annotations of one type."""
        first = {}
        for ann in record.annotations:
            self.check_annotation(record, ann)
            key = ann.equal_part()
            if key in first:
                self.error(ann.place, owner_text(record), f"two equal annotations: {equality(ann, first[key])}"
                                                          f"{first_at(first[key].place, ann.place)}")
            first.setdefault(key, ann)

    def check_annotation(self, record, ann):
        """One annotation."""
        what = f"{owner_text(record)}: {KINDS[ann.kind]}"
        if ann.kind > 6:
            self.error(ann.place, what, "the kind 7 is for damaged sheets (--raw)")
        elif ann.kind == NEST_ASSOCIATE and len(record.name) == 2:
            self.error(ann.place, what, f"{quoted(show_name(record.name))} has two words, so that nothing nests in it")
        elif ann.kind == DERIVE:
            self.check_tag(ann.tag, ann.place, record)
        if len(ann.resources) > LISTED:
            word, dom = ann.resources[LISTED]
            self.error(place_of(word if dom is None else dom) or ann.place, what,
                       f"{counted(len(ann.resources), 'word')} in one `{KINDS[ann.kind]}`, at most {LISTED}")
        if ann.kind == INHERIT:
            self.limit(ann.names, LISTED, "name", ann)
        seen = {}
        for word, dom in ann.resources:
            place = place_of(word if dom is None else dom) or ann.place
            if word in seen:
                self.error(place, what, f"{quoted(show_word(word))} twice in one `{KINDS[ann.kind]}`"
                                        + (f": as {quoted(seen[word])} and as {quoted(show_resource(word, dom))}"
                                           if seen[word] != show_resource(word, dom) else ""))
            seen.setdefault(word, show_resource(word, dom))

    def check_extensions(self):
        """The extensions."""
        self.limit(self.map.extensions, EXTENSIONS, "extension", None)
        first = {}
        for extension in self.map.extensions:
            key = extension.name, extension.word
            name = quoted(f"{show_name(extension.name)}.{show_word(extension.word)}")
            if key in first:
                self.error(extension.place, "extensions",
                           f"{name} is extended twice{first_at(first[key].place, extension.place)}")
            first.setdefault(key, extension)
            if not extension.parents:
                self.error(extension.place, owner_text(extension), "an extension has 1 to 8 parents, after ` : `")
            self.limit(extension.parents, PARENTS, "parent", extension)


def byte_shown(character):
    """A byte as itself, or by its number where it can't be shown."""
    return f"`{character}`" if 33 <= ord(character) < 127 else f"{ord(character):02x} (hexadecimal)"


def owner_text(owner):
    """How a record is called where it has no place."""
    if owner is None or not hasattr(owner, "name"):
        return "the sheet"
    if hasattr(owner, "variant"):
        return f"type {show_name(owner.name)}"
    return f"extension {show_name(owner.name)} {show_word(owner.word)}"


def equality(ann, other):
    """In what two annotations are equal."""
    if ann.associates() and ann.resources != other.resources:
        return f"two `{KINDS[ann.kind]}` of the same words"
    return f"`{KINDS[ann.kind]}`"
