"""Tariffs: at the limits and past them, or drawn at random."""

ROW, MOST, MOST_RATE = 3, 99, 99_999
EXTREMES = (-1 << 31, (1 << 31) - 1)
# Every sort with every number of parents that it may have: 33 rows.
KEYS = [(sort, parents) for sort in (0, 1) for parents in range(2, 18)] + [(2, 0)]


def numbers(rows):
    """The numbers of rows."""
    return [number for row in rows for number in row]


def full(rate_of=lambda at: MOST_RATE):
    """The rows of all keys; the rate of each is told by its place."""
    return [(*key, rate_of(at)) for at, key in enumerate(KEYS)]


def odd(at):
    """Rates that all differ, of both signs."""
    return (at * 7919 + 1) % 1999 * (-1) ** at


# --------------------------------------------------------------- the limits

def limits_of_rows():
    """Each limit of a row and one past it: what it is, the row, the number."""
    for sort, number in ((-1, 15), (0, 0), (1, 0), (3, 15), *((extreme, 15) for extreme in EXTREMES)):
        yield f"sort {sort}", (sort, 2, 1), number
    for sort in (0, 1):
        for parents in (0, 1, 2, 3, 16, 17, 18, -2, *EXTREMES):
            yield f"{parents} parents of sort {sort}", (sort, parents, 1), 0 if 2 <= parents <= 17 else 15
    for parents in (-1, 0, 1, 2, 17, *EXTREMES):
        yield f"{parents} parents of a line", (2, parents, 1), 0 if parents == 0 else 15
    for key in ((0, 2), (0, 17), (1, 2), (1, 17), (2, 0)):
        for rate in (0, 1, -1, MOST_RATE, -MOST_RATE, MOST_RATE + 1, -MOST_RATE - 1, *EXTREMES):
            yield f"rate {rate} of {key}", (*key, rate), 0 if abs(rate) <= MOST_RATE else 15


def limits():
    """Tariffs at the limits and one past them: what it is, the numbers, the number of its refusal or 0."""
    whole = full(odd)
    for what, row, number in limits_of_rows():
        yield what, list(row), number
        if number:
            for at in (0, 16, 32):
                yield f"{what}, row {at}", numbers([*whole[:at], row, *whole[at + 1:]]), number
    long = numbers([*whole, *whole])
    for count in [*range(103), 198]:
        yield f"{count} numbers", long[:count], 14 if count > MOST else 15 if count % ROW else 0
    yield from refused_twice(whole)


def refused_twice(whole):
    """Two rows with one sort and number, at some places, also beside what is refused before."""
    for one, other in ((0, 1), (0, 32), (15, 17), (31, 32)):
        for rate in (whole[one][2], -whole[one][2], MOST_RATE):
            rows = [*whole[:other], (*whole[one][:2], rate), *whole[other + 1:]]
            yield f"{one} and {other} alike", numbers(rows), 16
            yield f"{one} and {other} alike, a number missing", numbers(rows)[:-1], 15
            yield f"{one} and {other} alike, a row more", numbers([*rows, (2, 0, 1)]), 14
        bad = (*whole[one][:2], MOST_RATE + 1)
        yield f"{one} and {other} alike, and a rate", numbers([*whole[:other], bad, *whole[other + 1:]]), 15
    for key in KEYS:
        yield f"{key} twice", [*key, 1, *key, 1], 16
        yield f"{key} twice, and a sort", [*key, 1, *key, 2, 3, 2, 1], 15


# -------------------------------------------------------------- random ones

NEAR = (-100_000, -99_999, -2, -1, 0, 1, 2, 3, 16, 17, 18, 99_999, 100_000, *EXTREMES)


def random_rate(rng):
    """A rate that is allowed."""
    return rng.choice((-MOST_RATE, -1, 0, 1, 100, MOST_RATE, rng.randint(-MOST_RATE, MOST_RATE)))


def random_rows(rng):
    """Rows that are taken, in any order."""
    return [(*key, random_rate(rng)) for key in rng.sample(KEYS, rng.choice((0, 1, 2, 5, 16, 32, 33)))]


def spoilt(rng, given):
    """Numbers with a fault: one at the limits or past them, one too many or too few, a row once more."""
    out = list(given)
    kind = rng.choice(("value", "value", "value", "cut", "more", "twice", "twice", "long"))
    if kind == "value" and out:
        out[rng.randrange(len(out))] = rng.choice((*NEAR, rng.randint(*EXTREMES)))
    elif kind == "cut":
        out = out[:rng.randrange(len(out) + 1)]
    elif kind == "more":
        out += rng.choices(NEAR, k=rng.choice((1, 2, 3, 4)))
    elif kind == "twice" and len(out) >= ROW:
        at, to = (ROW * rng.randrange(len(out) // ROW) for _ in range(2))
        out[to:to] = [*out[at:at + ROW - 1], random_rate(rng)]
    elif kind == "long":
        out = (out + numbers(full(odd)))[:rng.choice((98, 99, 99, 100, 101, 102, 120))]
    return out


def random_tariff(rng):
    """The numbers of a tariff, mostly one that is taken."""
    out = numbers(random_rows(rng))
    for _ in range(rng.choice((0, 0, 0, 1, 1, 2))):
        out = spoilt(rng, out)
    return out
