#!/usr/bin/env python3
"""A model of document 01, written from its sentences and from the Rust, and of
the requests of document 02.

`schedule` and `order` give the answer and both slices after the call. The
lines are computed twice: by the synthesis as the Rust does it, and from the
proper ancestors alone as 01 states them; the two are asserted to agree.
`read_schedule` and `write_schedule` give the answer and the lent slice,
`tariff` the number and the sum.

model_reading.py, model_order.py, model_synthesis.py, model_lines.py,
model_packing.py, model_conversion.py and model_tariff.py have the parts, which
are brought in here, so that one import serves.
"""

import argparse
import sys
from collections import namedtuple

from model_conversion import Converted, read_schedule, records_of, write_schedule
from model_lines import Line, Making, items_of
from model_order import MOST_ROWS, SHOWN_ROWS, Row, organize_type_map, rounds
from model_packing import pack, printed, row_bytes, sheet_words
from model_reading import Refused, read_sheet, words_of
from model_synthesis import Inherited, Synthesis, dedup_inherited_annotations, difference, intersection
from model_tariff import Charged, tariff, total_printed

__all__ = ["LISTING_SIZE", "MOST_ROWS", "SHEET_LIMIT", "SHOWN_ROWS", "Answer", "Charged", "Converted", "Inherited", "Line",
           "Making", "Refused", "Row", "Synthesis", "answer", "dedup_inherited_annotations", "difference", "intersection",
           "items_of", "order", "organize_type_map", "pack", "printed", "read_schedule", "read_sheet", "records_of",
           "row_bytes", "schedule", "sheet_words", "tariff", "total_printed", "words_of", "write_schedule"]

SHEET_LIMIT, LISTING_SIZE = 40960, 65536
Answer = namedtuple("Answer", "number size rowcount flag listing diagnosis")


def synthesize(types, names, limit=MOST_ROWS):
    """The items of an accepted map, or refusal 9; both accounts have to agree."""
    done = Synthesis(types, names)
    items, refused = items_of(types, names)
    assert bool(done.rows) == bool(refused), "rows exist exactly if some type is refused"
    if refused:
        raise Refused(9, done.rows[:limit + 1])
    assert len(set(items)) == len(items), "each line once"
    assert set(items) == set(done.makings) | set(done.lines), "synthesis and ancestors agree"
    return items


def answer(sheet, listing, diagnosis, rows, with_items):
    """The answer of a call under a row limit: the first refusal that is due, or acceptance."""
    listing, diagnosis = bytes(listing), bytes(diagnosis)
    try:
        if len(sheet) > SHEET_LIMIT:
            raise Refused(1)
        if not 1 <= rows <= MOST_ROWS:
            raise Refused(17)
        if len(diagnosis) < 6 * rows:
            raise Refused(2)
        types = read_sheet(sheet)
        names = organize_type_map(types, rows)
        depth = rounds(types, names)
        assert names == sorted(names, key=lambda name: (depth[name], types.spelling(name))), "round, then name"
        packed = pack(names, synthesize(types, names, rows) if with_items else None)
    except Refused as refusal:
        written = b"".join(row_bytes(row) for row in refusal.rows[:rows])
        return Answer(refusal.number, 0, len(written) // 6, int(len(refusal.rows) > rows),
                      listing, written + diagnosis[len(written):])
    if len(packed) > len(listing):
        return Answer(10, len(packed), 0, 0, listing, diagnosis)
    return Answer(0, len(packed), 0, 0, packed + listing[len(packed):], diagnosis)


def schedule(sheet, listing, diagnosis, rows=MOST_ROWS):
    """The schedule call under a row limit: (number, size, rowcount, flag, listing, diagnosis)."""
    return answer(sheet, listing, diagnosis, rows, True)


def order(sheet, listing, diagnosis, rows=MOST_ROWS):
    """The order-only call, answering likewise; it makes no test 9 (FORMAT 7.3)."""
    return answer(sheet, listing, diagnosis, rows, False)


def main():
    parser = argparse.ArgumentParser(description=__doc__,
                                     formatter_class=argparse.RawDescriptionHelpFormatter)
    parser.add_argument("call", choices=["schedule", "order"])
    parser.add_argument("file", nargs="?", help="a sheet; standard input if absent")
    parser.add_argument("--listing", type=int, metavar="N", default=LISTING_SIZE,
                        help="bytes of the listing (default %(default)s)")
    parser.add_argument("--diagnosis", type=int, metavar="N",
                        help="bytes of the diagnosis slice (default six a row)")
    parser.add_argument("--rows", type=int, metavar="N", default=SHOWN_ROWS,
                        help="the row limit (default %(default)s)")
    args = parser.parse_intermixed_args()
    if args.file:
        with open(args.file, "rb") as source:
            sheet = source.read()
    else:
        sheet = sys.stdin.buffer.read()
    size = 6 * min(args.rows, MOST_ROWS) if args.diagnosis is None else args.diagnosis
    with_items = args.call == "schedule"
    result = answer(sheet, bytes(args.listing), bytes(size), args.rows, with_items)
    sys.stdout.write("".join(line + "\n" for line in printed(sheet, result, with_items)))


if __name__ == "__main__":
    main()
