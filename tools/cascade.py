"""The declarations of a policy in Cascade's own syntax: lexer and parser.

docs/CASCADE.md has the syntax that is taken. What a type map does not need
(functions, statements, modules and so on) is skipped and counted; a declaration
that can't be read is an error with its place, and reading goes on behind it.
"""

import bisect
import re
from collections import Counter
from dataclasses import dataclass, field
from typing import NamedTuple

from places import Place, characters, counted, name_from, quoted, word_at

TYPE_KEYWORDS = ("domain", "resource", "type")
MODIFIERS = ("virtual", "trait")
BLOCKS = ("module", "machine", "collection")
DECLARATIONS = (*TYPE_KEYWORDS, *MODIFIERS, "extend", "fn", *BLOCKS)
OPENING, CLOSING = {"(": ")", "[": "]", "{": "}"}, ")]}"
LEXER = re.compile(r"""
    (?P<space> [ \t\r\n\f\v]+ )
  | (?P<comment> //[^\n]* | /\*.*?\*/ )
  | (?P<string> "[^"\n]*" )
  | (?P<name> [A-Za-z0-9_][A-Za-z0-9_-]* (?: \.[A-Za-z0-9_][A-Za-z0-9_-]* )* )
  | (?P<sign> [\x80-\xff]+ | . )
""", re.X | re.S)


class Token(NamedTuple):
    """A name, a string, a sign, or the end."""
    kind: str
    text: str
    place: Place
    leads: bool  # whether it is the first of its line

    def said(self):
        """How a message calls it."""
        return "the end of the file" if self.kind == "end" else quoted(self.text)


@dataclass
class Note:
    """An annotation as written: `@name(arguments)`."""
    name: str
    arguments: list
    place: Place


@dataclass
class Declared:
    """A declared type, or an extension of one, as written."""
    keyword: str
    name: object
    place: Place
    parents: list = field(default_factory=list)
    is_virtual: bool = False
    is_trait: bool = False
    is_extension: bool = False
    notes: list = field(default_factory=list)
    nested: list = field(default_factory=list)


class Wrong(Exception):
    """A declaration that can't be read; it is said already."""


class Lines:
    """The places of a text by their offset."""

    def __init__(self, text, file):
        self.text, self.file, self.plain = text, file, text.isascii()
        self.starts = [0] + [found.end() for found in re.finditer("\n", text)]

    def place(self, at):
        """The place of an offset; columns count characters of UTF-8."""
        line = bisect.bisect_right(self.starts, at)
        start = self.starts[line - 1]
        width = at - start if self.plain else characters(self.text[start:at])
        return Place(self.file, line, width + 1)


def lex(text, file, problems):
    """The tokens of a text, the end among them."""
    lines, out, at, last_line = Lines(text, file), [], 0, 0
    while at < len(text):
        found = LEXER.match(text, at)
        kind, piece, here = found.lastgroup, found[0], lines.place(at)
        opens_comment = kind == "sign" and text.startswith("/*", at)
        if opens_comment:
            problems.error(here, "the comment `/*` is not closed")
            break
        if kind == "sign" and piece == '"':
            problems.error(here, "the string is not closed on its line")
            end = text.find("\n", at)
            at = end if end >= 0 else len(text)
            continue
        at = found.end()
        if kind not in ("space", "comment"):
            out.append(Token(kind, piece, here, here.line != last_line))
            last_line = here.line
    out.append(Token("end", "", lines.place(len(text)), True))
    return out


class Parser:
    """Reads the declarations of one file."""

    def __init__(self, text, file, problems):
        self.problems, self.skipped, self.at = problems, Counter(), 0
        self.tokens = lex(text, file, problems)

    # The tokens

    @property
    def token(self):
        """The next token."""
        return self.tokens[self.at]

    def is_next(self, *texts):
        """Whether the next token is one of these."""
        return self.token.kind != "string" and self.token.text in texts

    def take(self):
        """The next token, which is passed unless it is the end."""
        token = self.token
        self.at += token.kind != "end"
        return token

    def wrong(self, place, text):
        """An error that ends a declaration."""
        self.problems.error(place, text)
        raise Wrong

    def expect(self, *texts):
        """Passes a token that has to be one of these."""
        if not self.is_next(*texts):
            listed = [f"`{text}`" for text in texts]
            self.missing(" or ".join([", ".join(listed[:-1]), listed[-1]] if listed[1:] else listed))
        return self.take()

    def missing(self, what):
        """Something else stands where this is expected."""
        stray = self.token.kind == "sign" and self.token.text not in "@(){}[],;:=*"
        hint = ": the bytes of a word are A-Z, a-z, 0-9 and _, and - behind the first" if stray else ""
        self.wrong(self.token.place, f"expected {what}, found {self.token.said()}{hint}")

    # What is read

    def policy(self):
        """All type declarations of the file."""
        out = []
        while self.token.kind != "end":
            if self.is_next("}"):
                self.problems.error(self.take().place, "`}` closes nothing")
            else:
                self.item(out, 0)
        return out

    def item(self, out, depth):
        """One declaration or statement; what is read goes to `out`."""
        first = self.at
        try:
            notes, modifiers = self.prefix()
            if self.is_next(*TYPE_KEYWORDS, "extend"):
                declared = self.declaration(notes, modifiers, depth)
                if declared is not None:
                    out.append(declared)
            elif self.is_next("fn"):
                self.function()
            elif self.is_next(*BLOCKS):
                self.block(self.take())
            elif modifiers:
                self.missing(f"a declaration after `{modifiers[-1].text}`")
            else:
                self.statement(notes)
        except Wrong:
            self.recover(first)

    def prefix(self):
        """Annotations and modifiers, in the order written."""
        notes, modifiers = [], []
        while True:
            if self.is_next("@"):
                notes.append(self.note())
            elif self.is_next(*MODIFIERS):
                modifiers.append(self.take())
            else:
                return notes, modifiers

    def note(self):
        """An annotation with the tokens between its brackets."""
        place = self.take().place
        if self.token.kind != "name":
            self.missing("the name of an annotation after `@`")
        name = self.take()
        arguments = self.bracketed() if self.is_next("(") else []
        return Note(word_at(name.text, name.place), arguments, place)

    def bracketed(self):
        """The tokens between a round bracket and the one that closes it."""
        first, out, depth = self.take(), [], 1
        while True:
            token = self.take()
            if token.kind == "end" or (token.kind == "sign" and token.text in "{};"):
                self.wrong(first.place, "the bracket `(` is not closed")
            depth += (token.text == "(") - (token.text == ")") if token.kind == "sign" else 0
            if depth == 0:
                return out
            out.append(token)

    def declaration(self, notes, modifiers, depth):
        """A type or an extension with its body; deeper than one nesting it is skipped."""
        keyword = self.take()
        extends = keyword.text == "extend"
        if extends and self.is_next(*TYPE_KEYWORDS) and self.tokens[self.at + 1].kind == "name":
            if self.tokens[self.at + 1].text != "inherits":
                keyword = self.take()
        out = Declared(keyword.text, self.name("a name"), keyword.place, is_extension=extends, notes=notes)
        out.place = out.name.place
        out.is_trait = any(modifier.text == "trait" for modifier in modifiers)
        out.is_virtual = bool(modifiers)
        if extends and modifiers:
            self.problems.warning(modifiers[0].place, f"`{modifiers[0].text}` on an extension changes nothing")
        if self.is_next("inherits"):
            self.take()
            out.parents.append(self.name("a parent"))
            while self.is_next(","):
                self.take()
                out.parents.append(self.name("a parent"))
        if depth == 2:
            self.skipped["deeper type"] += 1
            self.problems.warning(out.place, f"{quoted('.'.join(out.name))} is nested in a nested type, "
                                             "of which Cascade takes no notice")
            self.end_of_declaration()
            return None
        self.body(out, depth)
        return out

    def name(self, what):
        """A name of one word or several joined by dots."""
        if self.token.kind != "name":
            self.missing(what)
        token = self.take()
        return name_from(token.text, token.place)

    def body(self, out, depth):
        """What stands between the braces of a type."""
        expected = ["{", ";"] if out.parents else ["inherits", "{", ";"]
        if self.expect(*expected).text == ";":
            return
        opened = self.tokens[self.at - 1]
        while not self.is_next("}"):
            if self.token.kind == "end":
                self.wrong(opened.place, "the block `{` is not closed")
            self.item(out.nested, depth + 1)
        self.take()
        if self.is_next(";"):
            self.take()

    # What is skipped

    def function(self):
        """A function: its head, and a body or `;`."""
        self.take()
        self.name("the name of a function")
        if not self.is_next("("):
            self.expect("(")
        self.bracketed()
        self.skipped["function"] += 1
        self.end_of_declaration()

    def block(self, keyword):
        """A module, a machine or a collection."""
        self.name(f"the name of a {keyword.text}")
        self.skipped[keyword.text] += 1
        self.end_of_declaration()

    def end_of_declaration(self):
        """A block that is skipped, or `;`."""
        if not self.is_next("{"):
            self.expect("{", ";")
            return
        self.skip_braces()
        if self.is_next(";"):
            self.take()

    def skip_braces(self):
        """A block with all blocks in it; a type declared there can't be read."""
        first, depth = self.take(), 1
        while depth:
            token = self.take()
            if token.kind == "end":
                self.wrong(first.place, "the block `{` is not closed")
            if token.kind == "sign":
                depth += (token.text == "{") - (token.text == "}")
            elif token.text in (*TYPE_KEYWORDS, "extend") and self.token.kind == "name":
                behind = self.tokens[self.at + 1].text
                if behind in ("{", "inherits"):
                    self.problems.error(token.place, f"{quoted(self.token.text)} is declared where no type can be read")

    def statement(self, notes):
        """A statement: up to `;`, or up to the end of a block (`if`, `else`, `optional`)."""
        first, depth = self.token, []
        if self.is_next(";") and not notes:
            self.take()
            return
        while True:
            token = self.token
            if token.kind == "end" or (token.text == "}" and token.kind == "sign"):
                self.wrong(first.place, f"the statement {first.said()} is not ended by `;`")
            if not depth and token is not first and (self.is_next(*DECLARATIONS) or self.is_next("@")):
                self.wrong(first.place, f"the statement {first.said()} is not ended by `;`")
            if token.kind == "sign" and token.text == "{" and not depth:
                self.skip_braces()
                break
            self.take()
            if token.kind == "sign" and token.text in "([":
                depth.append(OPENING[token.text])
            elif token.kind == "sign" and depth and token.text == depth[-1]:
                depth.pop()
            elif token.kind == "sign" and token.text == ";":
                if depth:
                    self.wrong(first.place, f"the statement {first.said()} has a bracket that is not closed")
                break
        self.skipped["statement"] += first.text != "else"

    def recover(self, first):
        """After an error: behind the next `;` or block, or before what begins a declaration on a line of its own."""
        self.at = max(self.at, first + 1) if self.tokens[first].kind != "end" else first
        while self.token.kind != "end":
            if self.token.leads and (self.is_next("@", *DECLARATIONS)):
                return
            if self.is_next("}"):
                return
            if self.is_next("{"):
                self.skip_quietly()
                return
            if self.take().text == ";":
                return

    def skip_quietly(self):
        """A block behind an error, up to the end if it is not closed."""
        depth = 0
        while self.token.kind != "end":
            token = self.take()
            if token.kind == "sign":
                depth += (token.text == "{") - (token.text == "}")
            if not depth:
                return


def skipped_text(skipped):
    """What was skipped, in words."""
    return ", ".join(counted(number, *what.split("|")) for what, number in skipped.items())


def parse(text, file, problems):
    """The declarations of a policy, and counts of what was skipped."""
    parser = Parser(text, file, problems)
    return parser.policy(), parser.skipped
