"""The model's schedules and rows as bytes, and what the programs print of them."""

from model_lines import Line
from sheetlib import Reader, Writer


class Bits(Writer):
    """Fields of a schedule."""

    def put_name(self, name):
        """A word, a flag, and a second word where there is one (FORMAT 2.5)."""
        self.put(8, name[0])
        self.put(1, len(name) - 1)
        for word in name[1:]:
            self.put(8, word)


def pack(names, items=None):
    """The packed schedule; of the order-only call, without items."""
    bits = Bits()
    bits.put(7, len(names))
    for name in names:
        bits.put_name(name)
    if items is not None:
        bits.put(16, len(items))
        for item in items:
            pack_item(bits, item)
    return bits.data()


def pack_item(bits, item):
    """One item, led by its bit."""
    if isinstance(item, Line):
        bits.put(1, 1)
        bits.put_name(item.name)
        bits.put(1, item.is_virtual)
        bits.put(1, item.is_trait)
        bits.put(8, item.word)
        return
    bits.put(1, 0)
    bits.put_name(item.name)
    bits.put(8, item.word)
    bits.put(1, item.is_virtual)
    bits.put(5, len(item.parents))
    for parent in item.parents:
        bits.put(2, len(parent))
        for word in parent:
            bits.put(8, word)
    bits.put(9, len(item.marks))
    for mark in item.marks:
        bits.put(1, mark is not None)
        if mark is not None:
            bits.put(8, mark)


def row_bytes(row):
    """The six bytes of a row; an absent word is 255 (FORMAT 8.1)."""
    def two(name):
        return (tuple(name or ()) + (255, 255))[:2]
    return bytes((row.kind,) + two(row.subject) + two(row.other)
                 + (255 if row.word is None else row.word,))


def sheet_words(sheet):
    """The words of a sheet that has been read."""
    take = Reader(sheet).take
    take(4)
    return ["".join(chr(take(8)) for _ in range(take(5))) for _ in range(take(8))]


def show(words, name):
    """A name's words joined by a dot, `-` if it is absent."""
    return ".".join(words[w] for w in name if w != 255) or "-"


def printed(sheet, result, with_items):
    """What the program prints, read from the answer and the slices."""
    if result.number:
        out = [f"refused {result.number}"]
        words = sheet_words(sheet) if result.rowcount else []
        for at in range(0, 6 * result.rowcount, 6):
            row = result.diagnosis[at:at + 6]
            out.append(" ".join(["D", str(row[0]), show(words, row[1:3]), show(words, row[3:5]),
                                 show(words, row[5:])]))
        return out + ["more"] * result.flag
    words, take = sheet_words(sheet), Reader(result.listing[:result.size]).take

    def name():
        first = take(8)
        return show(words, (first, take(8)) if take(1) else (first,))

    def listed(values):
        return ",".join(values) or "-"

    out = ["T " + name() for _ in range(take(7))]
    for _ in range(take(16) if with_items else 0):
        if take(1):
            out.append(f"E {name()} {take(1)}{take(1)} {words[take(8)]}")
            continue
        line = f"R {name()}.{words[take(8)]} {take(1)} "
        line += listed([show(words, [take(8) for _ in range(take(2))]) for _ in range(take(5))])
        marks = [f"derive:{take(8)}" if take(1) else "makelist" for _ in range(take(9))]
        out.append(f"{line} {listed(marks)}")
    return out
