"""What the driver is asked, and what it puts into lent bytes before a call."""

import collections

TOO_FEW_PARTS = 255  # what is answered where fewer than three parts are lent
PERIOD = 251
LONGEST = 1 << 22  # bytes that are lent at most
FILL = bytes(range(PERIOD)) * (LONGEST // PERIOD + 3)

# The number that the call takes besides, W or a row limit; the slices given, the lengths of those lent, of parts, and a seed.
Input = collections.namedtuple("Input", "w given lent parts seed")


def filled(size, seed):
    """What the driver puts into lent bytes."""
    return FILL[seed % PERIOD:seed % PERIOD + size]
