"""The declarations of the repository's sources: which names a file has, and what each of them names.

A file of definitions or proofs (`.antt`) is parted into blocks: a signature
with its clauses, or a record or a data type with its fields or constructors.
A file of code (`.rt`) is parted into the head of each function (its signature
and its contract, without the body) and each struct, enum and constant.
"""

import os
import re
from dataclasses import dataclass, field

MODIFIERS = ("pub", "abbrev", "unfoldable", "opaque")
# A path of a `use`: the crate, and the file in its specs; `declared` stands before a name of the crate's code. What std has is not ours.
PATH = re.compile(r"\bRattle\.(?!std\b|core\b)(\w+)\.specs\.(declared\.)?(\w+)")
DELIMITERS = re.compile(r"[\s(){}\[\],;⌜⌝«»]+")


@dataclass
class Block:
    """A declaration: its own name first, then its fields or constructors; its lines of code, counted from 1."""
    names: list = field(default_factory=list)
    lines: list = field(default_factory=list)
    text: str = ""

    def add(self, number, line):
        """One line of code more."""
        self.lines.append(number)
        self.text += line + "\n"


@dataclass
class Source:
    """A file: what it brings in, by name, and its declarations."""
    path: str
    brought: dict = field(default_factory=dict)   # name -> (crate, file, name)
    aliases: dict = field(default_factory=dict)   # name -> (crate, file)
    blocks: list = field(default_factory=list)
    head: str = ""

    def names(self):
        """Every name that the file declares."""
        return {name for block in self.blocks for name in block.names}

    def block_of(self, name):
        """The declaration that a name stands in, or None."""
        for block in self.blocks:
            if name in block.names:
                return block
        return None

    def code_lines(self):
        """How many lines of code the file has."""
        return sum(len(block.lines) for block in self.blocks)


def read(path):
    """The source at a path."""
    with open(path, encoding="utf-8") as source:
        lines = source.read().split("\n")
    out = Source(path)
    out.head = head_of(lines, "//" if path.endswith(".rt") else "--")
    rest = take_uses(out, lines)
    (code_blocks if path.endswith(".rt") else antt_blocks)(out, rest)
    return out


def head_of(lines, mark):
    """The first sentence of the comment at the head of a file."""
    text = []
    for line in lines:
        if not line.startswith(mark):
            break
        text.append(line[len(mark):].strip())
    match = re.match(r"(.*?)\.(?:\s|$)", " ".join(text))
    return match.group(1) if match else " ".join(text)


# ---------------------------------------------------------------- uses

def take_uses(source, lines):
    """The lines of code that bring nothing in, each with its number; what the others bring in is noted."""
    rest, pending, mark = [], "", "//" if source.path.endswith(".rt") else "--"
    for number, line in enumerate(lines, 1):
        if pending or re.match(r"(ghost )?use ", line):
            pending += " " + line
            if "{" not in pending or "}" in pending:
                note_use(source, pending)
                pending = ""
        elif line.strip() and not line.strip().startswith(mark):
            rest.append((number, line))
    return rest


def note_use(source, text):
    """Notes what one `use` brings in of the repository's own crates."""
    path = PATH.search(text)
    if not path:
        return
    crate, declared, name = path.groups()
    place = "declared" if declared else name
    alias = re.search(r" as (\S+?);?\s*$", text)
    if alias:
        source.aliases[alias.group(1)] = (crate, place)
    names = re.search(r"\{(.*)\}", text)
    for brought in names.group(1).split(",") if names else []:
        source.brought[brought.strip()] = (crate, place, brought.strip())


# -------------------------------------------------- definitions and proofs

def signature(line):
    """The names that a line declares, and whether they are those of a record or a data type."""
    words = line.split()
    while words and words[0] in MODIFIERS:
        words = words[1:]
    if words[:1] == ["record"] or words[:1] == ["data"]:
        return [words[1]], True
    if ":" not in words or "=" in words[:words.index(":")]:
        return [], False
    return words[:words.index(":")], False


def antt_blocks(source, lines):
    """Parts a file of definitions or proofs into its declarations."""
    block, many, waiting = None, False, []
    for number, line in lines:
        if line.startswith((" ", "\t")):
            if block is None:
                continue
            if many:
                block.names += [n for n in signature(line)[0] if not n.startswith(("(", "{"))]
        elif re.match(r"(infix[lr]?|pub mod) ", line):
            waiting.append((number, line))
            continue
        elif line.startswith("module "):
            block, many = Block(), True
            source.blocks.append(block)
        else:
            names, is_type = signature(line)
            if names:
                block, many = Block(names), is_type
                source.blocks.append(block)
        if block is None:
            continue
        for at, text in waiting:
            block.add(at, text)
        waiting = []
        block.add(number, line)


# ------------------------------------------------------------------- code

def code_blocks(source, lines):
    """Parts a file of code into heads of functions, structs, enums and constants; an `impl` gives its functions the type's name too."""
    block, owner, closing = None, "", ""
    for number, line in lines:
        found = re.match(r"(\s*)(?:pub )?(?:extern \"C\" )?(fn|struct|enum|const) (\w+)", line)
        if found:
            _, form, name = found.groups()
            block = Block([f"{owner}::{name}" if owner and found.group(1) else name])
            source.blocks.append(block)
            closing = {"fn": "{", "const": ";"}.get(form, "}")
        elif re.match(r"impl\b", line):
            owner, block = re.match(r"impl(?:<.*?>)? (\w+)", line).group(1), None
            continue
        elif line.startswith("}"):
            owner = ""
        if block is None:
            continue
        if closing == "{" and line.strip() == "{":
            block = None
            continue
        block.add(number, line)
        if line.rstrip().endswith(closing) and not (closing == "}" and "{" in line and "}" not in line):
            block = None


def is_public(block):
    """Whether a declaration of code is for other crates, as a function."""
    return bool(re.match(r"\s*pub (extern \"C\" )?fn ", block.text))


# ----------------------------------------------------------- what is named

def words_of(text):
    """The words of code."""
    return {word for word in DELIMITERS.split(text) if word and not word.startswith(".")}


def named(source, block):
    """The places that a declaration names: pairs of a crate's file and a name, (None, name) for one of the same file."""
    out = set()
    own = {name.strip("◌"): name for name in source.names()}
    brought = {name.strip("◌"): place for name, place in source.brought.items()}
    for word in words_of(block.text):
        first = word.split(".")[0]
        path = PATH.match(word)
        if path:
            out.add(((path.group(1), path.group(3)), word.rsplit(".", 1)[-1]))
        elif first in source.aliases and "." in word:
            out.add((source.aliases[first], word.split(".")[1]))
        elif word in brought or first in brought:
            crate, place, name = brought[word if word in brought else first]
            out.add(((crate, place), name))
        elif word in own or first in own:
            out.add((None, own[word if word in own else first]))
    if "←" in block.text and ">>=" in brought:
        crate, place, name = brought[">>="]
        out.add(((crate, place), name))
    elif "←" in block.text and ">>=" in own:
        out.add((None, own[">>="]))
    return out


def path_of(root, place):
    """The file of a place: that of a crate's specs, or its code where a name is declared there."""
    crate, name = place
    if name == "declared":
        return os.path.join(root, "crates", crate, "src", "lib.rt")
    return os.path.join(root, "crates", crate, "specs", name + ".antt")
