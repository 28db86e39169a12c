"""The proved calls from Python, through the shared object libgidzelma.so.

    import gidzelma
    library = gidzelma.load()               # or gidzelma.load("lib/libgidzelma.so")
    try:
        packed = library.schedule(sheet)    # bytes to bytes; or library.order(sheet); rows=N for up to N rows
        records = library.read_schedule(w, packed)      # w: the number of words of the sheet
        assert library.write_schedule(w, records) == packed
        total = library.tariff([0, 3, 1250, 2, 0, 100], w, packed)      # hundredths, an int
    except gidzelma.Refused as refused:
        print(refused, refused.rows)

include/gidzelma.h says what the calls do, docs/FORMAT.md what the bytes hold. Nothing is needed but Python's
standard library, and refusals.py beside this file. Threads may call at the same time; a thread that is
started where little stack is given needs threading.stack_size(gidzelma.STACK_LEN) before.
"""

import array
import ctypes
import ctypes.util
import os
from collections import namedtuple

import refusals

ROW_LEN = 6              # bytes of a row
ROWS_MAX = refusals.MOST_ROWS       # rows that are written at most: a row limit is 1 to so many
ROWS_SHOWN = refusals.SHOWN_ROWS    # the limit where none is given, that of the programs
ABSENT = 255             # in a row, for a word that is not there
STACK_LEN = 4 << 20      # bytes of stack that suffice for a call
LISTING_TOO_SHORT = 10   # the refusal that answers the size that is needed
LENT = 65536             # bytes of the listing that is lent first
RECORDS_PER_BYTE = 16    # bytes of records for each byte of a schedule, at most
CALLS = ("schedule", "order")   # of a sheet
CONVERSIONS = ("read_schedule", "write_schedule")   # between a schedule and its records

# What a call answers: its number, the size written or needed, how many rows were written, and whether
# there are more.
Answer = namedtuple("Answer", "number size rows more")
# What the call over a tariff answers: its number, and the sum in hundredths, 0 where it is refused.
Charge = namedtuple("Charge", "number total")
# A row of a diagnosis. Names are tuples of one or two words, a word is its place in the sheet's word list;
# what is absent is None.
Row = namedtuple("Row", "kind subject other word")


class Refused(Exception):
    """A sheet, a schedule, records or a tariff that are turned back: the number, the rows after 8 and 9, and
    whether there are more of them."""

    def __init__(self, number, rows=(), more=False):
        super().__init__(number, rows, more)
        self.number, self.rows, self.more = number, list(rows), more

    def __str__(self):
        return f"refused {self.number}: {refusals.meaning_of(self.number)}"


def diagnosis_len(rows):
    """The bytes that a diagnosis slice needs under a row limit."""
    return ROW_LEN * rows


def checked(rows):
    """A row limit that is allowed."""
    if not 1 <= rows <= ROWS_MAX:
        raise ValueError(f"a row limit of {rows}: it is 1 to {ROWS_MAX}")
    return rows


def name_of(first, second):
    """A name in a row."""
    if first == ABSENT:
        return None
    return (first,) if second == ABSENT else (first, second)


def rows_of(diagnosis, count):
    """The first rows of a diagnosis slice."""
    out = []
    for at in range(0, ROW_LEN * count, ROW_LEN):
        kind, one, two, other, another, word = diagnosis[at:at + ROW_LEN]
        out.append(Row(kind, name_of(one, two), name_of(other, another), None if word == ABSENT else word))
    return out


def lent(data):
    """Writable bytes as a slice for C. One of no bytes has a place too, since no pointer may be null."""
    return (ctypes.c_uint8 * len(data)).from_buffer(data) if data else (ctypes.c_uint8 * 1)()


def numbers_of(tariff):
    """The numbers of a tariff as a slice for C, and how many; one that does not fit 32 bits is an OverflowError."""
    numbers = array.array("i", tariff)
    return (ctypes.c_int32 * max(1, len(numbers)))(*numbers), len(numbers)


class Library:
    """The calls of a shared object."""

    def __init__(self, path):
        self.path = path
        library, size = ctypes.CDLL(path), ctypes.c_size_t
        given, slice_ = [ctypes.c_char_p, size], [ctypes.c_void_p, size]
        kinds = {**dict.fromkeys(CALLS, given + [ctypes.c_uint32] + 3 * slice_),
                 **dict.fromkeys(CONVERSIONS, [size] + given + 2 * slice_),
                 "tariff": slice_ + [size] + given + [ctypes.c_void_p]}
        self.calls = {}
        for name, kind in kinds.items():
            try:
                call = getattr(library, "gidzelma_" + name)
            except AttributeError as error:
                raise OSError(f"{path}: has no gidzelma_{name}") from error
            call.restype, call.argtypes = ctypes.c_uint32, kind
            self.calls[name] = call

    def lend(self, call, sheet, listing, diagnosis, rows=ROWS_SHOWN):
        """One call, "schedule" or "order", on two bytearrays, which it may write to; its Answer. The row limit
        is handed over as it is, a number of 32 bits: the call answers 17 where it is not allowed."""
        if not 0 <= rows < 1 << 32:
            raise OverflowError(f"a row limit of {rows}: no number of 32 bits")
        parts = (ctypes.c_uint32 * 3)()
        sheet = bytes(sheet)
        number = self.calls[call](sheet, len(sheet), rows, lent(listing), len(listing),
                                  lent(diagnosis), len(diagnosis), parts, len(parts))
        return Answer(number, parts[0], parts[1], parts[2] == 1)

    def lend_one(self, call, w, given, output):
        """One call, "read_schedule" or "write_schedule", on a bytearray, which it may write to; its Answer."""
        parts = (ctypes.c_uint32 * 3)()
        given = bytes(given)
        number = self.calls[call](w, given, len(given), lent(output), len(output), parts, len(parts))
        return Answer(number, parts[0], parts[1], parts[2] == 1)

    def packed(self, call, sheet, rows=ROWS_SHOWN):
        """The packed bytes that a call writes, in a listing of the size that is needed. A row limit that is not
        allowed is a ValueError."""
        listing, diagnosis = bytearray(LENT), bytearray(diagnosis_len(checked(rows)))
        answer = self.lend(call, sheet, listing, diagnosis, rows)
        if answer.number == LISTING_TOO_SHORT:
            listing = bytearray(answer.size)
            answer = self.lend(call, sheet, listing, diagnosis, rows)
        if answer.number:
            raise Refused(answer.number, rows_of(diagnosis, answer.rows), answer.more)
        return bytes(listing[:answer.size])

    def schedule(self, sheet, rows=ROWS_SHOWN):
        """The packed access schedule of a sheet; one that is refused with 8 or 9 has up to so many rows."""
        return self.packed("schedule", sheet, rows)

    def order(self, sheet, rows=ROWS_SHOWN):
        """The packed order of the types of a sheet, likewise."""
        return self.packed("order", sheet, rows)

    def converted(self, call, w, given, size):
        """What a call between a schedule and its records writes, in as many bytes as always suffice."""
        output = bytearray(size)
        answer = self.lend_one(call, w, given, output)
        if answer.number:
            raise Refused(answer.number)
        return bytes(output[:answer.size])

    def read_schedule(self, w, schedule):
        """The records of a packed schedule, two bytes a field; w is the number of words of its sheet."""
        return self.converted("read_schedule", w, schedule, RECORDS_PER_BYTE * len(schedule))

    def write_schedule(self, w, records):
        """The packed schedule of records."""
        return self.converted("write_schedule", w, records, len(records))

    def charge(self, tariff, w, schedule):
        """The call over a tariff, given as its numbers, and a packed schedule; its Charge."""
        total, schedule = ctypes.c_int64(), bytes(schedule)
        number = self.calls["tariff"](*numbers_of(tariff), w, schedule, len(schedule), ctypes.byref(total))
        return Charge(number, total.value)

    def tariff(self, tariff, w, schedule):
        """What a tariff charges for the items of a packed schedule, in hundredths."""
        answer = self.charge(tariff, w, schedule)
        if answer.number:
            raise Refused(answer.number)
        return answer.total


def places():
    """Where the shared object is looked for: the folder that GIDZELMA_LIB_DIR names, else that of an
    unpacked archive, that of a repository, those of the system."""
    given = os.environ.get("GIDZELMA_LIB_DIR")
    if given:
        return [os.path.join(given, "libgidzelma.so")]
    above = os.path.dirname(os.path.dirname(os.path.realpath(__file__)))
    out = [os.path.join(above, *folder, "libgidzelma.so") for folder in (["lib"], ["target", "staticlib"])]
    return [path for path in out if os.path.exists(path)] or [ctypes.util.find_library("gidzelma")]


def load(path=None):
    """The library at a path, or the first that is found; OSError where there is none."""
    path = path or places()[0]
    if not path:
        raise OSError("libgidzelma.so is not found; GIDZELMA_LIB_DIR can name its folder")
    return Library(path)
