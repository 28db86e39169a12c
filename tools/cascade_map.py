"""The type map of a policy in Cascade's own syntax.

The meaning is that of the Rust's sources: `extend_type_map` for nested types,
`TypeVar::new` for the variant, `get_type_annotations` for annotations,
`create_synthetic_resource` for marks, `insert_extend_annotations` with the early
timing for extensions. docs/CASCADE.md says what is taken and what was not tried.
"""

from collections import Counter
from dataclasses import dataclass, field

from cascade import parse, skipped_text
from places import counted, first_at, name_at, name_from, nearest, place_of, quoted
from sheet_records import (ALIAS, ANNOTATIONS, ASSOCIATE, DERIVE, DOMAIN, INHERIT, LISTED, MAKE_LIST, NEST_ASSOCIATE,
                           NO_DERIVE, OTHER, RESOURCE, TAGS, Annotation, Extension, TypeMap, TypeRecord, spelling)
from sheet_text import number, show_name

LATE = "late annotation of an extension|late annotations of extensions"
KNOWN = ["makelist", "associate", "derive", "alias", "noderive", "inherit", "hint"]
# Cascade's built-in types, declared here where they are used: variant and parents.
BUILT_IN = {name: (OTHER, []) for name in ("module", "path", "string", "class", "perm", "context", "fs_type",
                                           "number", "ipaddr", "bool")}
BUILT_IN |= {name: (OTHER, [("fs_type",)]) for name in ("xattr", "task", "trans", "genfscon")}
BUILT_IN |= {"domain": (DOMAIN, []), "resource": (RESOURCE, []), "kernel_sid": (DOMAIN, []),
             "security_sid": (RESOURCE, []), "unlabeled_sid": (RESOURCE, [])}


def variant_of(keyword, name, parents):
    """The variant, as TypeVar::new finds it; the parser adds the keyword as a parent."""
    listed = set(parents) | ({(keyword,)} if keyword in ("domain", "resource") else set())
    if name in (("domain",), ("resource",)):
        return DOMAIN if name == ("domain",) else RESOURCE
    if ("resource",) in listed:
        return RESOURCE
    return DOMAIN if ("domain",) in listed else OTHER


@dataclass
class Extended:
    """What the extensions of one name bring: lists of parents, each once, and annotations."""
    name: object
    place: object
    parents: list = field(default_factory=list)
    annotations: list = field(default_factory=list)
    unlike: list = field(default_factory=list)  # pairs of Associates of the same words


class Tags:
    """Derive texts numbered by first appearance; `@derive(tag=7)` is the tag 7 itself."""

    def __init__(self, problems):
        self.problems, self.texts, self.numbered = problems, {}, None

    def tag(self, note):
        """The tag of a derive, or None."""
        text = " ".join(token.text for token in note.arguments)
        given = number(text[6:]) if text.startswith("tag = ") else None
        if given is not None and given >= TAGS:
            self.problems.error(note.place, f"the tag {given}, at most {TAGS - 1}")
            return None
        if self.numbered is None:
            self.numbered = given is not None
        if self.numbered != (given is not None):
            self.problems.error(note.place, "tags by number (`tag=`) and by text don't go together")
            return None
        if given is not None:
            return given
        if text not in self.texts and len(self.texts) == TAGS:
            self.problems.error(note.place, f"more than {TAGS} different texts of `@derive`")
            return None
        return self.texts.setdefault(text, len(self.texts))


class Builder:
    """Declarations of one file or several, put together to a map."""

    def __init__(self, problems):
        self.problems, self.tags = problems, Tags(problems)
        self.map, self.declared, self.extended, self.skipped = TypeMap(), {}, {}, Counter()

    # Types

    def add(self, declarations):
        """Adds the declarations of a file."""
        for declared in declarations:
            if len(declared.name) > 2:
                self.problems.error(declared.place, f"{quoted(show_name(declared.name))} has more than two words")
                continue
            if declared.is_extension:
                self.extend(declared.name, declared)
            else:
                self.declare(declared.name, declared)
            for inner in declared.nested:
                self.add_nested(declared, inner)

    def add_nested(self, outer, inner):
        """A type or an extension in the body of another."""
        if len(inner.name) != 1:
            self.problems.error(inner.place, f"a nested name is one word, {quoted(show_name(inner.name))} is not")
            return
        name = name_at([*outer.name, *inner.name], inner.place)
        if inner.is_extension:
            self.extend(name, inner)
        elif len(outer.name) == 2:
            self.problems.error(inner.place, f"{quoted(show_name(name))} has three words, and a type has at most two")
        else:
            self.declare(name, inner)
            nest = Annotation(NEST_ASSOCIATE, [(inner.name[0], outer.name[0])], place=inner.place)
            if outer.is_extension:
                self.extended[outer.name].annotations.append(nest)
            elif nest not in self.declared[outer.name].annotations:
                self.declared[outer.name].annotations.append(nest)

    def declare(self, name, declared):
        """The record of a declared type."""
        parents = self.names(declared.parents)
        record = TypeRecord(name, variant_of(declared.keyword, name, parents), declared.is_virtual,
                            declared.is_trait, parents, place=declared.place)
        if declared.keyword == "domain" and record.variant == RESOURCE:
            self.problems.warning(declared.place, f"the domain {quoted(show_name(name))} inherits `resource`, "
                                                  "so that Cascade takes it for a resource")
        for note in declared.notes:
            for ann in self.annotations(note):
                self.annotate(record, ann, note)
        self.declared.setdefault(name, record)
        self.map.types.append(record)

    def annotate(self, record, ann, note):
        """An annotation of a declared type, and its mark."""
        equal = any(other.equal_part() == ann.equal_part() for other in record.annotations)
        if equal and ann.kind in (MAKE_LIST, ASSOCIATE):
            self.problems.error(note.place, f"`@{note.name}` twice, which Cascade refuses")
        if not equal:
            record.annotations.append(ann)
        if ann.kind in (MAKE_LIST, DERIVE):
            record.marks.append(None if ann.kind == MAKE_LIST else ann.tag)
            record.mark_places.append(note.place)

    def names(self, names):
        """The names of one or two words among those written."""
        for name in names:
            if len(name) > 2:
                self.problems.error(place_of(name), f"{quoted(show_name(name))} has more than two words")
        return [name for name in names if len(name) <= 2]

    # Annotations

    def annotations(self, note):
        """What an annotation gives; an alias may give several."""
        name, arguments, place = note.name, note.arguments, note.place
        if name in ("makelist", "noderive"):
            if arguments:
                self.problems.warning(arguments[0].place, f"`@{name}` takes nothing, and this is not read")
            return [Annotation(MAKE_LIST if name == "makelist" else NO_DERIVE, place=place)]
        if name == "associate":
            return self.associate(note)
        if name == "alias":
            return self.aliases(note)
        if name == "derive":
            tag = self.tags.tag(note)
            return [] if tag is None else [Annotation(DERIVE, tag=tag, place=place)]
        if name == "inherit":
            return [Annotation(INHERIT, names=self.names(self.listed(within(arguments))), place=place)]
        if name == "hint":
            self.skipped["hint"] += 1
        else:
            self.problems.error(place_of(name), f"`@{name}` is no annotation of a type{nearest(name, KNOWN)}")
        return []

    def associate(self, note):
        """`@associate([a b.c])`."""
        tokens = note.arguments
        if within(tokens) is tokens:
            place = tokens[0].place if tokens else note.place
            self.problems.error(place, "`@associate` takes one list of resources in square brackets")
            return []
        names = self.names(self.listed(within(tokens)))
        if not names:
            self.problems.warning(note.place, "an empty list, which Cascade does not take")
        return [Annotation(ASSOCIATE, [(name[-1], name[0] if len(name) == 2 else None) for name in names],
                           place=note.place)]

    def aliases(self, note):
        """`@alias(a, b)`: one annotation for each."""
        out = []
        for name in self.listed(note.arguments):
            if len(name) == 1:
                out.append(Annotation(ALIAS, word=name[0], place=note.place))
            else:
                self.problems.error(place_of(name), f"an alias is one word, {quoted(show_name(name))} is not")
        return out

    def listed(self, tokens):
        """The names that tokens are, commas between them left out."""
        out = []
        for token in tokens:
            if token.kind == "name":
                out.append(name_from(token.text, token.place))
            elif token.text != ",":
                self.problems.error(token.place, f"expected a name, found {token.said()}")
        return out

    # Extensions

    def extend(self, name, declared):
        """An extension: its parents and Associates; what Cascade adds only after the synthesis is skipped."""
        found = self.extended.setdefault(name, Extended(name, declared.place))
        parents = self.names(declared.parents)
        if parents and parents not in found.parents:
            found.parents.append(parents)
        own = TypeRecord(name)  # what the declaration itself repeats
        for note in declared.notes:
            if note.name == "associate":
                for ann in self.associate(note):
                    self.annotate(own, ann, note)
                    self.extend_associate(found, ann)
            elif note.name == "makelist":
                self.annotate(own, Annotation(MAKE_LIST), note)
                self.skipped[LATE] += 1
            elif note.name == "inherit":
                self.problems.error(note.place, "`@inherit` on an extension can't be read; `inherits` adds parents")
            elif note.name in KNOWN:
                self.skipped[LATE] += 1
            else:
                self.annotations(note)

    def extend_associate(self, found, ann):
        """An Associate of an extension. Of two with the same words Rust's library decides which one counts, not
        alike in all its versions: where they differ, that is an error if the name is declared."""
        for other in found.annotations:
            if other.equal_part() == ann.equal_part():
                if set(other.resources) != set(ann.resources):
                    found.unlike.append((other, ann))
                return
        found.annotations.append(ann)

    def apply_extensions(self):
        """insert_extend_annotations, early; two-word names that no type has become extension records."""
        for name, found in self.extended.items():
            parents = [parent for some in sorted(found.parents, key=lambda some: list(map(spelling, some))) for parent in some]
            if name in self.declared:
                for other, ann in found.unlike:
                    self.problems.error(ann.place, f"another extension of {quoted(show_name(name))} associates the same "
                                                   f"words in a different way{first_at(other.place, ann.place)}")
                self.declared[name].parents.extend(parents)
                for ann in found.annotations:
                    self.add_annotation(self.declared[name], ann)
            elif len(name) == 1:
                known = [show_name(other) for other in self.declared]
                self.problems.warning(found.place, f"{quoted(show_name(name))} is not declared, so that its extension "
                                                   "changes nothing" + nearest(show_name(name), known))
            elif parents:
                self.map.extensions.append(Extension(name_at(name[:-1], place_of(name[0])), name[-1], parents,
                                                     found.place))
            else:
                self.skipped["extension without parents|extensions without parents"] += 1

    def add_annotation(self, record, ann):
        """An annotation that an extension adds, unless an equal one is there."""
        for other in record.annotations:
            if other.equal_part() == ann.equal_part():
                if set(other.resources) != set(ann.resources):
                    self.problems.warning(ann.place, f"{quoted(show_name(record.name))} associates the same words "
                                                     "already, so that Cascade drops this")
                return
        record.annotations.append(ann)

    # The whole

    def built_ins(self):
        """Declares the built-in types that are used and not declared."""
        for record in missing_built_ins(self.map):
            self.declared[record.name] = record
            self.map.types.append(record)

    def join_nests(self):
        """Where a type has too many annotations, those of its nested resources become one; the lines stay."""
        for record in self.map.types:
            nests = [ann for ann in record.annotations if ann.kind == NEST_ASSOCIATE]
            if len(record.annotations) <= ANNOTATIONS or len(nests) < 2:
                continue
            rest = [ann for ann in record.annotations if ann.kind != NEST_ASSOCIATE]
            pairs = [pair for ann in nests for pair in ann.resources]
            rest += [Annotation(NEST_ASSOCIATE, pairs[first:first + LISTED], place=nests[first].place)
                     for first in range(0, len(pairs), LISTED)]
            record.annotations = rest
            self.problems.note(record.place, f"the nested resources of {quoted(show_name(record.name))} are joined to "
                                             f"{counted(len(rest), 'annotation')}; the lines are the same")

    def finish(self):
        """The map of all that was added."""
        self.apply_extensions()
        self.join_nests()
        self.built_ins()
        return self.map


def within(tokens):
    """The tokens in a pair of square brackets; those given where there is none around them."""
    listed = len(tokens) >= 2 and tokens[0].text == "[" and tokens[-1].text == "]"
    return tokens[1:-1] if listed else tokens


def missing_built_ins(type_map):
    """Built-in types used as parents or classes and not declared; virtual, as Cascade has them, where they are
    classes; plain where they are only parents, which is 01's worked example."""
    parents, classes, known = {}, {}, {record.name for record in type_map.types}
    for record in type_map.types:
        for parent in record.parents:
            parents.setdefault(parent, parent)
        for ann in record.annotations:
            for word, dom in ann.resources:
                if dom is None:
                    classes.setdefault((word,), word)
    out, left = [], [*parents, *classes]
    for name in left:
        if name not in known and len(name) == 1 and name[0] in BUILT_IN:
            variant, above = BUILT_IN[name[0]]
            place = place_of(parents.get(name)) or place_of(classes.get(name))
            out.append(TypeRecord(name, variant, name in classes, parents=list(above), place=place))
            known.add(name)
            left += above
    return out


def read_policies(sources, problems):
    """The map of several files, each a name and its text."""
    builder = Builder(problems)
    for file, text in sources:
        declarations, skipped = parse(text, file, problems)
        builder.skipped.update(skipped)
        builder.add(declarations)
    out = builder.finish()
    if builder.skipped:
        problems.note(None, "skipped, as no part of a schedule: " + skipped_text(builder.skipped))
    return out
