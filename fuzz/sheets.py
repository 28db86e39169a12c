"""Sheets for the calls that take one, what is lent for them, and what must be left, by the model."""

import itertools
import struct

import case_texts
import model
import sheetlib
from inputs import TOO_FEW_PARTS, Input, filled
from maps import changed, drawn, flavours, hyphens, large, loads, small

CALLS = ("order", "schedule")
OPTIONS = ()  # of the driver: a sheet is given, listing and diagnosis are lent besides the parts
LONGEST = 1 << 18  # above the longest schedule that was found, 239,675 bytes
COLUMNS = {"sheets": None, "accepted": (0,), "refused 10": (10,), "refused 8": (8,), "refused 9": (9,), "refused 17": (17,),
           "other refusals": range(1, 8), "parts too few": (TOO_FEW_PARTS,)}
LIMITS = (1, 2, 63, 64, 65, 255, 256)  # row limits that are allowed
NO_LIMITS = (0, 257, 300, 65536, 65600, 1 << 31, 0x2aaaaaab, (1 << 32) - 1)  # and such as are not; six times one is 2 modulo 2^32


def listed(_call):
    """Maps at the limits, the largest schedule among them; and the sheets of the computed cases, the
    small ones also cut to every length."""
    for given in [*(make() for make in large.MAPS.values()), loads.star(64), loads.largest(64)]:
        yield "large", sheetlib.encode(given)
    for rows in LIMITS:
        for count in (rows - 1, rows, rows + 1):
            yield "rows of 8", sheetlib.encode(large.rows_of_eight(count))
            yield "rows of 9", sheetlib.encode(large.rows_of_nine(count))
    for family in (small.small_hyphen_orders, small.small_hyphen_parents, small.small_hyphen_resources):
        for given in itertools.islice(family(), 0, None, 100):
            yield "hyphens", sheetlib.encode(given)
    for case in [*case_texts.DOCUMENT.values(), *case_texts.CORNERS.values()]:
        sheet = case_texts.sheet_in(case)
        yield "listed", sheet
        if len(sheet) < 24:
            yield from (("cut", sheet[:size]) for size in range(len(sheet)))


def good_map(rng):
    """A map refused by none of 3 to 7; one in four has hyphens in its words."""
    given = plain_map(rng)
    return hyphens.respelled(rng, given) if rng.random() < 0.25 else given


def plain_map(rng):
    """A map without hyphens, refused by none of 3 to 7."""
    if rng.random() < 0.6:
        return drawn.random_map(rng, rng.choice((3, 8, 8, 16, 40)), rng.choice((0, 0.05, 0.3)))
    return flavours.random_map(rng, rng.choices(list(flavours.SHARES), list(flavours.SHARES.values()))[0])


def random_bytes(rng):
    """Bytes that are no sheet, mostly behind a good beginning."""
    size = rng.choice((rng.randrange(8), rng.randrange(200), rng.randrange(2000)))
    if rng.random() < 0.02:
        size = rng.choice((40959, 40960, 40961, 41000, 65536))
    out = bytes(rng.choices((0, 1, 16, 97, 255, rng.randrange(256)), k=size))
    return sheetlib.encode(good_map(rng))[:rng.randrange(40)] + out if rng.random() < 0.7 else out


def random_one(rng, _call):
    """A kind and a sheet of it."""
    kind = rng.choices(("map", "damaged", "rebuilt", "spliced", "bytes"), (40, 30, 8, 7, 15))[0]
    if kind == "bytes":
        return kind, random_bytes(rng)
    given = good_map(rng)
    if kind == "rebuilt":
        given = changed.rebuilt(rng, given)
    sheet = sheetlib.encode(given)
    if kind == "damaged":
        for _ in range(rng.choice((1, 1, 1, 2, 4))):
            sheet = changed.damaged(rng, sheet)
    elif kind == "spliced":
        other = sheetlib.encode(good_map(rng))
        sheet = sheet[:rng.randrange(len(sheet) + 1)] + other[rng.randrange(len(other) + 1):]
    return kind, sheet


def limit_for(rng, rows):
    """A row limit, mostly one that is allowed and often near the number of rows that there are."""
    near = rows + rng.randrange(-1, 2)
    if rng.random() < 0.5 and 1 <= near <= model.MOST_ROWS:
        return near
    return rng.choice((*LIMITS, rng.randrange(1, model.MOST_ROWS + 1)))


def lengths_lent(rng, size, rows):
    """A row limit, listings, diagnosis slices and parts to lend for a schedule of `size` bytes, or for so many rows."""
    listings = {0, size - 1, size, size + 1, size + rng.randrange(2, 300), rng.randrange(size + 1)}
    if size < 200 and rng.random() < 0.02:
        listings |= set(range(size + 9))
    for listing in sorted(at for at in listings if at >= 0):
        limit = limit_for(rng, rows)
        yield limit, listing, 6 * limit + rng.choice((0, 0, 1, 6, rng.randrange(2000))), 3
    limit = limit_for(rng, rows)
    for room in (6 * limit - 1, 6 * limit, 6 * limit + 1, rng.choice((0, 1, 6 * limit - 6, rng.randrange(4000)))):
        yield limit, size, room, 3
    yield rng.choice(NO_LIMITS), rng.choice((0, size)), rng.choice((0, 1, 2, 6, 1535, 1536, 1542, rng.randrange(4000))), 3
    yield rng.choice((limit, 0)), rng.choice((0, size)), rng.choice((0, 6 * limit)), rng.choice((0, 1, 2, 2, 4, 9))


def expected(full, asked):
    """Number, listing, diagnosis and parts after the call, from the model's answer under the largest row limit to a
    listing that is long enough and a diagnosis slice that is: under a smaller one the first of its rows are written."""
    listing, diagnosis = (filled(size, asked.seed) for size in asked.lent)
    parts = filled(4 * asked.parts, asked.seed)
    number, size, rows, flag, packed = 0, 0, 0, 0, b""
    if asked.parts < 3:
        return TOO_FEW_PARTS, listing, diagnosis, parts
    if len(asked.given[0]) > model.SHEET_LIMIT:
        number = 1
    elif not 1 <= asked.w <= model.MOST_ROWS:
        number = 17
    elif len(diagnosis) < 6 * asked.w:
        number = 2
    elif full.number == 0:
        size = full.size
        number = 10 if len(listing) < size else 0
        packed = b"" if number else full.listing[:size]
    else:
        number, rows = full.number, min(asked.w, full.rowcount)
        flag = int(full.flag or rows < full.rowcount)
    listing = packed + listing[len(packed):]
    diagnosis = full.diagnosis[:6 * rows] + diagnosis[6 * rows:]
    return number, listing, diagnosis, struct.pack("=3I", size, rows, flag) + parts[12:]


def asked_of(rng, call, sheet):
    """All that is asked about a sheet, with what must come out."""
    full = getattr(model, call)(sheet, bytes(LONGEST), bytes(6 * model.MOST_ROWS))
    size = full.size if full.number == 0 else rng.choice((0, 3, 64, 700))
    for limit, listing, diagnosis, parts in lengths_lent(rng, size, full.rowcount):
        asked = Input(limit, (sheet,), (listing, diagnosis), parts, rng.randrange(251))
        yield asked, expected(full, asked)
