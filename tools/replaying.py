"""Cases as the programs over crates/replaying read them.

A head of 20 bytes, then a name, a sheet, and the bytes that the call must
write. Numbers of more bytes stand highest byte first. The head:

    call         1    0 the order, 1 the schedule; 2 more: if the sheet is
                      accepted, shorter listings are to be tried too
    number       1    of the answer
    more         1    the flag
    name         1    its length
    rows         2
    diagnosis    2    the length lent
    sheet        2    its length; 65,535 for the sheet of the case before
    listing      3    the length lent
    size         3
    row limit    4
"""

import model

CALLS = {"order": model.order, "schedule": model.schedule}
LENT = 170  # the byte of a lent slice
SAME_SHEET = 65535


def written(answer):
    """The bytes that a call writes."""
    return answer.listing[:answer.size] if answer.number == 0 else answer.diagnosis[:6 * answer.rowcount]


def case(call, sheet, answer, name="", lengths_too=False, same_sheet=False, limit=model.MOST_ROWS):
    """One case under a row limit; the lengths lent are those of the answer's slices."""
    head = bytes([("order", "schedule").index(call) + 2 * lengths_too, answer.number, answer.flag, len(name)])
    head += answer.rowcount.to_bytes(2, "big") + len(answer.diagnosis).to_bytes(2, "big")
    head += (SAME_SHEET if same_sheet else len(sheet)).to_bytes(2, "big")
    head += len(answer.listing).to_bytes(3, "big") + answer.size.to_bytes(3, "big") + limit.to_bytes(4, "big")
    return head + name.encode() + (b"" if same_sheet else sheet) + written(answer)


def cases_in(data):
    """The cases of a file that the programs read, as `case` puts them: call, number, name, sheet, bytes written."""
    at, sheet = 0, b""

    def take(size):
        nonlocal at
        at += size
        return data[at - size:at]

    while at < len(data):
        call, number, _, name_size = take(4)
        rows, _, sheet_size, _, size, _ = (int.from_bytes(take(width), "big") for width in (2, 2, 2, 3, 3, 4))
        name = take(name_size).decode()
        sheet = sheet if sheet_size == SAME_SHEET else take(sheet_size)
        yield ("order", "schedule")[call & 1], number, name, sheet, take(6 * rows if number else size)


def answer_of(call, sheet, listing=None, diagnosis=6 * model.MOST_ROWS, limit=model.MOST_ROWS):
    """The model's answer under a row limit; a listing of two bytes more than the size where no length is given."""
    lent = bytes([LENT]) * diagnosis
    if listing is None:
        listing = CALLS[call](sheet, bytes(1 << 18), lent, limit).size + 2
    return CALLS[call](sheet, bytes([LENT]) * listing, lent, limit)
