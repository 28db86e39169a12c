"""The readable text of a type map.

The text is read line by line. `#` at a line's start or after white space
begins a comment; blank lines are ignored.

    version 1                 the version field (1 if absent)
    words zz extra            words that no record uses; the words used,
                              `resource` and `self` are listed by themselves,
                              sorted by bytes
    words! self resource      instead: exactly these words, in this order
    domain base virtual trait : p q.r self
                              a type: variant (domain, resource, other), name,
                              flags, and after `:` the parents, repeats kept
      makelist                its annotations, in the order given
      associate file net.file
      nest p.file
      alias w
      inherit a b.c
      derive 7
      noderive
      mark makelist           its marks, in the order given
      mark derive 7
    extend base file : p q    an extension: type name, resource word, parents

For damaged sheets (--raw): `@N` stands for the word number N, `""` for a word
without bytes, `variant3` for the variant 3 and `kind7` for the annotation kind
7; then only the widths of the fields are checked.
"""

import re

from places import Place, Problems, characters, name_at, name_from, nearest, place_of, quoted, word_at
from sheet_records import (ALIAS, ASSOCIATE, DERIVE, INHERIT, KINDS, NEST_ASSOCIATE, VARIANTS, Annotation,
                           Extension, SheetError, TypeMap, TypeRecord)

TOKEN = re.compile(r"[^ \t\r\f\v]+")
BEGINNINGS = ["version", "words", "words!", "extend", "mark", *VARIANTS[:3], *KINDS[:7]]


def number(token):
    """The number that a token is, or None."""
    return int(token) if token.isdecimal() and len(token) <= 12 else None


def tokens_in(text, place):
    """The tokens of a line before its comment, each with its place."""
    out, plain = [], text.isascii()
    for found in TOKEN.finditer(text):
        if found[0].startswith("#"):
            break
        width = found.start() if plain else characters(text[:found.start()])
        out.append(word_at(found[0], place._replace(column=width + 1)))
    return out


class TextReader:
    """Reads a text; what is wrong in it goes to `problems`, and the rest is read all the same."""

    def __init__(self, file, problems):
        self.file, self.problems = file, problems
        self.map, self.record = TypeMap(), None

    def read(self, text):
        """The type map of the text."""
        for line, text_line in enumerate(text.split("\n"), 1):
            tokens = tokens_in(text_line, Place(self.file, line, 1))
            if tokens:
                self.read_line(tokens[0], tokens[1:])
        return self.map

    def error(self, token, text):
        """Notes what is wrong at a token."""
        self.problems.error(place_of(token), text)

    def read_line(self, first, rest):
        """One line, told by its first token."""
        if first == "version":
            self.read_version(first, rest)
        elif first == "words":
            self.map.extra += [self.listed(token) for token in rest]
        elif first == "words!":
            self.map.words = (self.map.words or []) + [self.listed(token) for token in rest]
            self.map.words_place = self.map.words_place or place_of(first)
        elif first == "extend":
            self.read_extension(first, rest)
        elif first in VARIANTS:
            self.read_type(first, rest)
        elif first == "mark" or first in KINDS:
            self.read_part(first, rest)
        else:
            self.error(first, f"{quoted(first)} begins no line of a type map{nearest(first, BEGINNINGS)}")

    def read_version(self, first, rest):
        """The version field."""
        if len(rest) != 1 or number(rest[0]) is None:
            self.error(first, "`version` takes one number")
        else:
            self.map.version, self.map.version_place = number(rest[0]), place_of(rest[0])

    def read_type(self, first, rest):
        """A type's own line; where its name can't be read, its annotations are read and left out."""
        head, parents = split(rest)
        name = self.name(head[0]) if head else None
        if not head:
            self.error(first, f"`{first}` takes a name")
        self.record = TypeRecord(name, VARIANTS.index(first), place=place_of(name))
        for flag in head[1:]:
            if flag == "virtual":
                self.record.is_virtual = True
            elif flag == "trait":
                self.record.is_trait = True
            elif ":" in flag:
                self.error(flag, f"{quoted(flag)}: white space goes on both sides of `:`")
            else:
                self.error(flag, f"{quoted(flag)} is no flag; parents follow ` : `")
        self.record.parents = self.names(parents)
        if name is not None:
            self.map.types.append(self.record)

    def read_extension(self, first, rest):
        """An extension."""
        self.record = None
        head, parents = split(rest)
        if len(head) != 2:
            self.error(first, "`extend` takes a type name and a word")
            return
        name, word = self.name(head[0]), self.word(head[1])
        names = self.names(parents)
        if name is not None and word is not None:
            self.map.extensions.append(Extension(name, word, names, place_of(head[0])))

    def read_part(self, first, rest):
        """An annotation or a mark of the type above."""
        if self.record is None:
            self.error(first, f"`{first}` stands under no type")
        elif first == "mark":
            self.read_mark(first, rest)
        else:
            ann = self.annotation(first, rest)
            if ann is not None:
                self.record.annotations.append(ann)

    def read_mark(self, first, rest):
        """A mark."""
        if rest == ["makelist"]:
            mark = None
        elif rest[:1] == ["derive"]:
            mark = self.tag(rest[0], rest[1:])
            if mark is None:
                return
        else:
            self.error(first, "a mark is `makelist` or `derive TAG`")
            return
        self.record.marks.append(mark)
        self.record.mark_places.append(place_of(first))

    def annotation(self, first, rest):
        """An annotation, or None."""
        ann = Annotation(KINDS.index(first), place=place_of(first))
        if ann.kind in (ASSOCIATE, NEST_ASSOCIATE):
            names = self.names(rest)
            ann.resources = [(name[0], None) if len(name) == 1 else (name[1], name[0]) for name in names]
        elif ann.kind == ALIAS:
            ann.word = self.word(rest[0]) if len(rest) == 1 else None
            if len(rest) != 1:
                self.error(first, "`alias` takes one word")
            return ann if ann.word is not None else None
        elif ann.kind == INHERIT:
            ann.names = self.names(rest)
        elif ann.kind == DERIVE:
            ann.tag = self.tag(first, rest)
            return ann if ann.tag is not None else None
        elif rest:
            self.error(rest[0], f"`{first}` takes nothing")
        return ann

    def tag(self, first, rest):
        """The tag of a derive, or None."""
        if len(rest) == 1 and number(rest[0]) is not None:
            return number(rest[0])
        self.error(first, "`derive` takes one tag, a number")
        return None

    def listed(self, token):
        """An entry of the word list: any bytes, also such as no sheet allows."""
        return word_at("", token.place) if token == '""' else token

    def word(self, token):
        """A word, or None where the token is none."""
        if token == '""':
            return word_at("", token.place)
        if token.startswith("@") and number(token[1:]) is not None:
            return number(token[1:])
        if "." in token:
            self.error(token, f"{quoted(token)} is not a word")
            return None
        return token

    def name(self, token):
        """A name of one or two words, or None."""
        parts = token.split(".")
        if len(parts) > 2 or "" in parts:
            self.error(token, f"{quoted(token)} is not a name of one or two words")
            return None
        return name_at([self.word(word) for word in name_from(token, token.place)], token.place)

    def names(self, tokens):
        """The names among the tokens; what is none is an error and left out."""
        found = [self.name(token) for token in tokens]
        return [name for name in found if name is not None]


def split(tokens):
    """The tokens before `:` and those after it."""
    if ":" in tokens:
        at = tokens.index(":")
        return tokens[:at], tokens[at + 1:]
    return tokens, []


def parse_text(text, file=""):
    """The type map that a text describes, its limits not checked; an error is raised."""
    problems = Problems()
    out = TextReader(file, problems).read(text)
    for problem in problems.sorted():
        raise SheetError(problem.text, problem.place)
    return out


# ------------------------------------------------------------------ showing

def show_word(word):
    """A word as the text has it."""
    return f"@{word}" if isinstance(word, int) else word or '""'


def show_name(name):
    """A name as the text has it: its words joined by a dot."""
    return ".".join(show_word(word) for word in name)


def show_record(head, parents):
    """A line with its parents, if there are any."""
    return " ".join(head + ([":"] + [show_name(p) for p in parents] if parents else []))


def show_resource(word, dom):
    """A resource of an associate."""
    return show_name((word,) if dom is None else (dom, word))


def show_annotation(ann):
    """The line of an annotation."""
    out = [KINDS[ann.kind]]
    if ann.associates():
        out += [show_resource(word, dom) for word, dom in ann.resources]
    elif ann.kind == ALIAS:
        out.append(show_word(ann.word))
    elif ann.kind == INHERIT:
        out += [show_name(n) for n in ann.names]
    elif ann.kind == DERIVE:
        out.append(str(ann.tag))
    return " ".join(out)


def show_mark(mark):
    """A mark as the text has it."""
    return "makelist" if mark is None else f"derive {mark}"


def show_words(type_map):
    """The lines of the version and of the words that have to be told."""
    out = []
    if type_map.version != 1:
        out.append(f"version {type_map.version}")
    words = type_map.word_list()
    used = type_map.used_words() | {"resource", "self"}
    if words == sorted(set(words) | used):
        extra = [w for w in words if w not in used]
        if extra:
            out.append(" ".join(["words"] + [show_word(w) for w in extra]))
    else:
        out.append(" ".join(["words!"] + [show_word(w) for w in words]))
    return out


def to_text(type_map):
    """The text of a type map; `parse_text` reads it back to the same sheet."""
    out = show_words(type_map)
    for record in type_map.types:
        head = [VARIANTS[record.variant], show_name(record.name)]
        head += ["virtual"] * record.is_virtual + ["trait"] * record.is_trait
        out.append(show_record(head, record.parents))
        out += ["  " + show_annotation(ann) for ann in record.annotations]
        out += ["  mark " + show_mark(mark) for mark in record.marks]
    for extension in type_map.extensions:
        head = ["extend", show_name(extension.name), show_word(extension.word)]
        out.append(show_record(head, extension.parents))
    return "".join(line + "\n" for line in out)
