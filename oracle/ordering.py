"""The Rust's lines in the order of request S-2, which the Rust, whose result is a set, does not have.

The order goes by the lines and the map alone: types by name; words; of one word the own resources by their parents,
the inherited one, the extension line. A line does not show whether its resource is own: a type under `p` can list
`p.f,resource` both for its own class `p.f` and for what it inherits. So every own resource is spelled out from the
map, and what is left of a type and a word is the inherited one.
"""

import collections
from typing import NamedTuple

from answers import shape
from sheet_records import ASSOCIATE
from sheetlib import show_name

OWN, INHERITED, EXTENSION = range(3)
UNFIT = "no order: "  # begins a line that no subject prints


class Item(NamedTuple):
    """A line behind what its place goes by, in this order. Names compare by the bytes of their spelling; the line
    itself decides only where a set does not fit its map."""
    type_name: bytes
    word: bytes
    sort: int
    parents: tuple
    line: str


def mark_text(mark):
    """A mark as it is printed."""
    return "makelist" if mark is None else f"derive:{mark}"


def own_line(own, word, found, added):
    """The own resource of a type for a word: its class, which is found, then `resource` and what is added to it."""
    parents = ",".join([show_name(found.name), "resource", *map(show_name, added)])
    marks = ",".join(map(mark_text, found.marks)) or "-"
    return f"R {show_name(own.name)}.{word} {int(own.is_virtual and found.is_virtual)} {parents} {marks}"


def own_lines(given):
    """The lines of all own resources of a map, whose classes are declared where it is accepted: one for each resource
    of each Associate."""
    types = {own.name: own for own in given.types}
    added = {(extension.name, extension.word): extension.parents for extension in given.extensions}
    out = set()
    for own in given.types:
        for word, dom in (pair for ann in own.annotations if ann.kind == ASSOCIATE for pair in ann.resources):
            found = types.get((word,) if dom is None else (dom, word))
            if found:
                out.add(own_line(own, word, found, added.get((own.name, word), ())))
    return out


def is_item(line):
    """Whether a line is that of a resource or an extension line."""
    return line[:2] in ("R ", "E ")


def item_of(line, own):
    """A line with its place, where these are the own ones."""
    kind, name, *rest = line.split()
    if kind == "E":
        return Item(name.encode(), rest[1].encode(), EXTENSION, (), line)
    type_name, _, word = name.rpartition(".")
    return Item(type_name.encode(), word.encode(), OWN if line in own else INHERITED,
                tuple(parent.encode() for parent in rest[1].split(",")), line)


def unfit(items, own):
    """What speaks against the set, in a line each: an own resource is missing, a line stands twice, or a type has
    two inherited resources or two extension lines of one word. Then S-2 gives no order."""
    missing = [f"{UNFIT}own, and missing: {line}" for line in sorted(own - {item.line for item in items})]
    places = [item if item.sort == OWN else item[:3] for item in items]
    taken = collections.Counter(places)
    return missing + [f"{UNFIT}not alone: {item.line}" for item, place in zip(items, places) if taken[place] > 1]


def in_order(lines, given):
    """The oracle's answer to the schedule call with its items in order; where they have none, with lines that say
    why, so that no subject agrees."""
    if shape(lines) != "accepted":
        return lines
    if given is None:
        return lines + [UNFIT + "the sheet is not read"]
    own = own_lines(given)
    items = sorted(item_of(line, own) for line in lines if is_item(line))
    return [line for line in lines if not is_item(line)] + [item.line for item in items] + unfit(items, own)


def corners(lines, given):
    """What the order of an accepted answer, which is in order, depends on."""
    own, out = own_lines(given), []
    items = [item_of(line, own) for line in lines if is_item(line)]
    resources = [item for item in items if item.sort != EXTENSION]
    if len({item[:2] + item[3:4] for item in resources}) < len(resources):
        out.append("an own and an inherited one with equal parents")
    if max(collections.Counter(item[:2] for item in items if item.sort == OWN).values(), default=0) > 1:
        out.append("two or more own ones of one word")
    by_name = list(dict.fromkeys(item.line.split()[1] for item in items if item.sort == EXTENSION))
    if by_name != [line[2:] for line in lines if line[:2] == "T " and line[2:] in by_name]:
        out.append("types that go otherwise by name than by round")
    return out
