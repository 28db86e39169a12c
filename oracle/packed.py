"""The oracle's lines as the answer of a call, with the bytes of both slices."""

import sys

import model
import replaying
import sheetlib
from ordering import UNFIT, in_order, is_item


def name_of(text, words):
    """The words of a name by number, none for `-`."""
    return () if text == "-" else tuple(words.index(word) for word in text.split("."))


def item_of(line, words):
    """An R or E line as the item that it shows."""
    kind, name, *rest = line.split()
    name = name_of(name, words)
    if kind == "E":
        flags, word = rest
        return model.Line(name, words.index(word), int(flags[0]), int(flags[1]))
    flag, parents, marks = rest
    return model.Making(
        name[:-1], name[-1], int(flag),
        tuple(name_of(parent, words) for parent in parents.split(",") if parent != "-"),
        tuple(None if mark == "makelist" else int(mark.split(":")[1]) for mark in marks.split(",") if mark != "-"))


def row_of(line, words):
    """A D line as the row that it shows."""
    _, kind, subject, other, word = line.split()
    return model.Row(int(kind), name_of(subject, words), name_of(other, words) or None, (name_of(word, words) + (None,))[0])


def items_of(lines, sheet, words):
    """The items of the oracle's lines, in order."""
    lines = in_order(lines, sheetlib.decode(sheet))
    if lines and lines[-1].startswith(UNFIT):
        sys.exit(f"fixed: {lines[-1]}, sheet {sheet.hex()}")
    return [item_of(line, words) for line in lines if is_item(line)]


def answer_of(lines, sheet, call):
    """The oracle's lines as a whole answer with its slices."""
    lent = bytes([replaying.LENT])
    if lines and lines[0].startswith("refused"):
        number = int(lines[0].split()[1])
        words = model.sheet_words(sheet) if len(lines) > 1 else []
        rows = b"".join(model.row_bytes(row_of(line, words)) for line in lines[1:] if line != "more")
        return model.Answer(number, 0, len(rows) // 6, int(lines[-1] == "more"), lent * 4,
                            rows + lent * (6 * model.MOST_ROWS - len(rows)))
    words = model.sheet_words(sheet)
    names = [name_of(line[2:], words) for line in lines if line[0] == "T"]
    packed = model.pack(names, items_of(lines, sheet, words) if call == "schedule" else None)
    return model.Answer(0, len(packed), 0, 0, packed + lent * 2, lent * (6 * model.MOST_ROWS))
