"""The model's order of the types: refusal 8 and its rows."""

import itertools
from collections import namedtuple

from model_reading import Refused

MOST_ROWS, SHOWN_ROWS = 256, 64  # a row limit, at most; that of the programs where they are told none (FORMAT 8.2)
Row = namedtuple("Row", "kind subject other word")


def organize_type_map(types, limit=MOST_ROWS):
    """The names by round, then name; refusal 8 with its rows (kinds 1, 2, 3)."""
    waiting, out = dict(types.types), []
    selves = [Row(1, t.name, p, None)
              for t in waiting.values() for p in t.parents if p == (types.self_word,)]
    while waiting:
        placed = set(out)
        # What this round places counts from the next one on; `self` holds no type back
        # (FORMAT 3.4).
        ready = [t.name for t in waiting.values()
                 if all(p in placed or p == (types.self_word,) for p in t.parents)]
        if not ready:
            rows = (row for name in waiting for row in cycles(types, waiting, name, frozenset()))
            raise Refused(8, itertools.islice(rows, limit + 1))
        for name in ready:
            del waiting[name]
        out += ready
        if selves:
            raise Refused(8, selves[:limit + 1])
    return out


def cycles(types, waiting, name, path):
    """The rows of find_cycles_or_bad_types, one by one. A type that is placed
    gives none: all its ancestors are declared and on no cycle."""
    parents = types.types[name].parents
    for parent in parents:
        if parent in path or parent == name:
            yield Row(2, name, parent, None)
            return
        if parent not in types.types:
            yield Row(3, name, parent, None)
            return
    for parent in parents:
        if parent in waiting:
            yield from cycles(types, waiting, parent, path | {name})


def rounds(types, names):
    """The round of each type: how long its longest chain of parents is (FORMAT 3.3)."""
    out = {}
    for name in names:
        out[name] = max((out[p] + 1 for p in types.types[name].parents), default=0)
    return out
