"""Tariffs and schedules for the call that sums what the one charges for the other, and what must be left, by the
model."""

import struct

import conversions
import model
from inputs import Input
from maps import schedules
from maps.tariffs import full, limits, numbers, odd, random_rows, random_tariff

CALLS = ("tariff",)
OPTIONS = ("-DTARIFF",)  # of the driver: tariff and schedule are given, the place of the sum is lent
COLUMNS = {"inputs": None, "accepted": (0,), "refused 11": (11,), "refused 12": (12,), "refused 14": (14,),
           "refused 15": (15,), "refused 16": (16,)}
SUM = 2  # parts of four bytes
LARGE = 4000  # bytes of a schedule that is asked for once; the model takes its time
WHOLE = numbers(full(odd))


def listed(_call):
    """Each limit of a tariff and one past it, beside schedules of every sort of item and beside none; every schedule
    that the reading call has listed, by a full tariff."""
    every = schedules.packed(schedules.whole(
        *(schedules.made([(0,)] * parents, virtual=virtual) for virtual in (0, 1) for parents in range(2, 18)),
        schedules.line()))
    for _, tariff, _ in limits():
        for schedule in (every, b""):
            yield "limit", (tariff, 2, schedule)
    for kind, (w, schedule) in conversions.listed("read_schedule"):
        yield f"{kind} schedule", (WHOLE, w, schedule)


def random_one(rng, _call):
    """A kind, and a tariff, W and a schedule: in most cases one of the two is as it should be."""
    kind, (w, schedule) = conversions.random_one(rng, "read_schedule")
    tariff = numbers(random_rows(rng)) if rng.random() < 0.6 else random_tariff(rng)
    return kind, (tariff, w, schedule)


def asked_of(rng, _call, subject):
    """All that is asked about a tariff and a schedule: the two, the rows of the one in another order, the numbers
    cut short, with what must come out."""
    tariff, w, schedule = subject
    tried = [tariff]
    if len(schedule) < LARGE:
        rows = [tariff[at:at + 3] for at in range(0, len(tariff), 3)]
        tried += [numbers(rng.sample(rows, len(rows))), tariff[:rng.randrange(len(tariff) + 1)], random_tariff(rng)]
    for one in tried:
        asked = Input(w, (struct.pack(f"={len(one)}i", *one), schedule), (), SUM, rng.randrange(251))
        answer = model.tariff(one, w, schedule)
        yield asked, (answer.number, struct.pack("=q", answer.total))
