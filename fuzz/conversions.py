"""Schedules and records for the calls between the two, what is lent for them, and what must be left, by the model."""

import struct

import case_texts
import model
import sheetlib
import sheets
from inputs import TOO_FEW_PARTS, Input, filled
from maps import changed, large, schedules
from model_conversion import Going, Packed, Records

CALLS = ("read_schedule", "write_schedule")
OPTIONS = ("-DCONVERSION",)  # of the driver: records, or the schedule, are lent besides the parts
COLUMNS = {"inputs": None, "accepted": (0,), "refused 11": (11,), "refused 12": (12,), "parts too few": (TOO_FEW_PARTS,)}
FAR = (1 << 16, 1 << 32, (1 << 32) + 4, 1 << 63, (1 << 64) - 1)


def schedule_of(sheet):
    """W and the packed schedule of a sheet, or None."""
    answer = model.schedule(sheet, bytes(sheets.LONGEST), bytes(6 * model.MOST_ROWS))
    return None if answer.number else (len(model.sheet_words(sheet)), answer.listing[:answer.size])


def form_of(call, w, schedule):
    """What a call is given for a legal schedule: itself, or its records."""
    if call == "read_schedule":
        return w, schedule
    answer = model.read_schedule(w, schedule, bytes(16 * len(schedule)))
    return w, answer.output[:answer.size]


def listed(call):
    """The schedules of large maps and of the computed cases, short ones also cut to every length; each limit
    and one past it."""
    for make in large.MAPS.values():
        found = schedule_of(sheetlib.encode(make()))
        if found:
            yield "large", form_of(call, *found)
    for case in [*case_texts.DOCUMENT.values(), *case_texts.CORNERS.values()]:
        found = schedule_of(case_texts.sheet_in(case))
        if found:
            w, given = form_of(call, *found)
            yield "listed", (w, given)
            if len(given) < 60:
                yield from (("cut", (w, given[:size])) for size in range(len(given)))
    for _, w, fields, _ in [*schedules.limits(), *schedules.flags()]:
        if call == "write_schedule":
            yield "limit", (w, schedules.recorded(fields))
        elif schedules.fit(fields):
            yield "limit", (w, schedules.packed(fields))


def legal(rng, call):
    """A legal schedule: that of a map, or one that no sheet needs to have."""
    found = schedule_of(sheetlib.encode(sheets.good_map(rng))) if rng.random() < 0.5 else None
    if not found:
        w = rng.choice((2, 3, 9, 100, 128, 199, 200))
        found = w, model.pack(*schedules.random_schedule(rng, w))
    return form_of(call, *found)


def random_bytes(rng, call):
    """Bytes that are nothing, mostly behind a good beginning; of records, mostly small values."""
    some = bytes(rng.choices((0, 0, 0, 1, 2, 3, 255, rng.randrange(256)), k=rng.randrange(rng.choice((8, 60, 600)))))
    if call == "write_schedule" and rng.random() < 0.7:
        some = b"".join(bytes([0, byte]) for byte in some)
    w, given = legal(rng, call)
    return w, given[:rng.randrange(60)] + some if rng.random() < 0.7 else some


def random_one(rng, call):
    """A kind, and W with what is given."""
    kind = rng.choices(("legal", "damaged", "spliced", "bytes"), (35, 40, 10, 15))[0]
    w, given = random_bytes(rng, call) if kind == "bytes" else legal(rng, call)
    if kind == "damaged":
        for _ in range(rng.choice((1, 1, 1, 2, 4))):
            given = (changed.damaged if call == "read_schedule" else schedules.damaged_records)(rng, given)
    elif kind == "spliced":
        _, other = legal(rng, call)
        given = given[:rng.randrange(len(given) + 1)] + other[rng.randrange(len(other) + 1):]
    if rng.random() < 0.2:
        kind, w = kind + ", other W", rng.choice((0, 1, 2, w - 1, w + 1, 200, 201, 255, 256, 260,
                                                  rng.randrange(261), rng.choice(FAR)))
    return kind, (w, given)


def reached(call, w, given):
    """How many bytes of a slice that is long enough the fields take up to where one is refused, or all."""
    if not 2 <= w <= 200:
        return 2
    if call == "read_schedule":
        source, target = Packed(given), Records(bytes(16 * len(given)))
    else:
        source, target = Records(given), Packed(bytes(len(given)))
    try:
        Going(w, source, target).schedule()
    except model.Refused:
        pass
    return target.at if call == "read_schedule" else (target.at + 7) // 8


def asked_of(rng, call, subject):
    """All that is asked about a schedule or about records, with what must come out."""
    w, given = subject
    size = reached(call, w, given)
    rooms = {0, size - 2, size - 1, size, size + 1, size + rng.randrange(2, 300), rng.randrange(size + 1)}
    if size < 200 and rng.random() < 0.02:
        rooms |= set(range(size + 5))
    asked = [(room, 3) for room in sorted(rooms) if room >= 0]
    for room, parts in [*asked, (rng.choice((0, size)), rng.choice((0, 1, 2, 2, 4, 9)))]:
        one = Input(w, (given,), (room,), parts, rng.randrange(251))
        yield one, expected(call, one)


def expected(call, asked):
    """Number, the lent slice and parts after the call."""
    output, parts = filled(asked.lent[0], asked.seed), filled(4 * asked.parts, asked.seed)
    if asked.parts < 3:
        return TOO_FEW_PARTS, output, parts
    answer = getattr(model, call)(asked.w, *asked.given, output)
    return answer.number, answer.output, struct.pack("=3I", answer.size, 0, 0) + parts[12:]
