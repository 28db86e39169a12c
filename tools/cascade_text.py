"""A type map printed in Cascade's own syntax.

Read back, the text gives the same lines. Where the sheet itself would differ
(a mark without its annotation, further words) there is a warning; what Cascade's
syntax has no way to say, and what would change the lines, is an error.
"""

from cascade_map import BUILT_IN, missing_built_ins, variant_of
from sheet_records import (ALIAS, ASSOCIATE, DERIVE, INHERIT, MAKE_LIST, NEST_ASSOCIATE, NO_DERIVE, VARIANTS,
                           TypeMap)
from sheet_text import show_name, show_resource, show_word

KEYWORDS = ["domain", "resource", "type"]


class Printer:
    """The declarations of a map, one after the other."""

    def __init__(self, type_map, problems):
        self.map, self.problems = type_map, problems
        self.types = {record.name: record for record in type_map.types}
        self.classes = {(word,) if dom is None else (dom, word) for record in type_map.types
                        for ann in record.annotations for word, dom in ann.resources}
        self.nested = {(dom, word) for record in type_map.types for ann in record.annotations
                       if ann.kind == NEST_ASSOCIATE and self.nests(record, ann) for word, dom in ann.resources}
        rest = TypeMap([record for record in type_map.types if (*record.name, "")[0] not in BUILT_IN])
        self.added = {record.name: record for record in missing_built_ins(rest)}

    def error(self, text):
        """What can't be said."""
        self.problems.error(None, f"Cascade's syntax can't say it: {text}")

    def text(self):
        """The whole text."""
        out = []
        for record in self.map.types:
            if record.name not in self.nested and not self.is_added(record):
                out.append(self.declaration(record))
        for name in self.added:
            if name not in self.types:
                self.error(f"`{name[0]}` is used and not declared, and Cascade has it built in")
        out += [line for extension in self.map.extensions for line in self.extension(extension)]
        extra = set(self.map.word_list()) - self.map.used_words() - {"resource", "self"}
        if extra:
            self.problems.warning(None, "words that no record uses are left out: " + " ".join(sorted(extra)))
        return "\n".join(out)

    def nests(self, record, ann):
        """Whether a NestAssociate is that of nested types: P.r in P, declared."""
        return all((dom,) == record.name and (dom, word) in self.types for word, dom in ann.resources)

    def is_added(self, record):
        """Whether reading declares this built-in type just so by itself; else it has to be printed."""
        if len(record.name) > 1 or record.name[0] not in BUILT_IN:
            return False
        if self.added.get(record.name) == record:
            return True
        self.problems.warning(None, f"`{record.name[0]}` is declared, which Cascade has built in and refuses")
        return False

    def declaration(self, record, indent=""):
        """A type with its annotations and what nests in it."""
        self.check(record)
        name = record.name if not indent else record.name[1:]
        if len(name) == 2:
            self.problems.warning(None, f"`{show_name(name)}` is declared at the top by a dotted name, "
                                        "which was not tried with Cascade")
        head = "trait " * record.is_trait or "virtual " * record.is_virtual
        head += f"{KEYWORDS[record.variant]} {show_name(name)}"
        if record.parents:
            head += " inherits " + ", ".join(show_name(parent) for parent in record.parents)
        out = [f"{indent}{line}" for line in self.annotations(record)]
        inner = [self.declaration(self.types[dom, word], indent + "    ") for ann in record.annotations
                 if ann.kind == NEST_ASSOCIATE and self.nests(record, ann) for word, dom in ann.resources]
        out.append(f"{indent}{head} {{" + ("" if inner else "}"))
        return "\n".join(out + inner + [indent + "}"] * bool(inner)) + "\n" * (not indent)

    def check(self, record):
        """What the declaration line can't say."""
        name = show_name(record.name)
        if record.is_trait and not record.is_virtual:
            self.error(f"`{name}` is a trait and not virtual")
        variant = variant_of(KEYWORDS[record.variant], record.name, record.parents)
        if variant != record.variant:
            text = f"`{name}` has the variant {VARIANTS[record.variant]}, and Cascade finds {VARIANTS[variant]}"
            if record.name in self.classes:
                self.error(text)
            else:
                self.problems.warning(None, text)

    def annotations(self, record):
        """The lines of the annotations; makelist and derive as the marks have them."""
        name, out = show_name(record.name), []
        given = [None if ann.kind == MAKE_LIST else ann.tag for ann in record.annotations
                 if ann.kind in (MAKE_LIST, DERIVE)]
        in_place = given == record.marks
        for ann in record.annotations:
            if ann.kind in (MAKE_LIST, DERIVE):
                mark = None if ann.kind == MAKE_LIST else ann.tag
                if in_place:
                    out.append(mark_line(mark))
                elif mark not in record.marks:
                    self.problems.warning(None, f"`{name}` has `{mark_line(mark)}` without its mark, it is left out")
            elif ann.kind == NEST_ASSOCIATE:
                if not self.nests(record, ann):
                    listed = " ".join(show_resource(word, dom) for word, dom in ann.resources)
                    self.error(f"`{name}` nests `{listed}`, and only declared types of its own nest in a type")
            else:
                out += self.other_line(name, ann)
        if not in_place:
            out += [mark_line(mark) for mark in record.marks]
            if record.marks.count(None) > 1:
                self.error(f"`{name}` has the mark makelist more than once")
            for mark in dict.fromkeys(record.marks):
                if mark not in given:
                    self.problems.warning(None, f"`{name}` has the mark of `{mark_line(mark)}` alone, "
                                                "and gets the annotation too")
        return out

    def other_line(self, name, ann):
        """The line of an annotation that has no mark, in a list; of an Associate without words none."""
        if ann.kind == ASSOCIATE and not ann.resources:
            self.problems.warning(None, f"`{name}` has an Associate without words, it is left out")
            return []
        if ann.kind == ASSOCIATE:
            return [f"@associate([{' '.join(show_resource(word, dom) for word, dom in ann.resources)}])"]
        if ann.kind == ALIAS:
            return [f"@alias({show_word(ann.word)})"]
        if ann.kind == INHERIT:
            return [f"@inherit([{' '.join(show_name(other) for other in ann.names)}])"]
        assert ann.kind == NO_DERIVE
        return ["@noderive"]

    def extension(self, extension):
        """The lines of an extension record."""
        name, word = show_name(extension.name), show_word(extension.word)
        if (*extension.name, extension.word) in self.types:
            self.problems.warning(None, f"the extension of `{name}.{word}`, which is a declared type, is left out")
            return []
        listed = ", ".join(show_name(parent) for parent in extension.parents)
        return [f"extend {name} {{", f"    extend {word} inherits {listed} {{}}", "}", ""]


def mark_line(mark):
    """The annotation that gives a mark."""
    return "@makelist" if mark is None else f"@derive(tag={mark})"


def to_cascade(type_map, problems):
    """The text of a map in Cascade's syntax; what can't be said goes to `problems`."""
    return Printer(type_map, problems).text()
