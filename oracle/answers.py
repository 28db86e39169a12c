"""Answers as lines: whether two say the same, and of which kind one is."""

VERDICTS = ("overflow", "timeout", "memory", "panic", "crash")  # what the oracle says instead of an answer


def agree(mode, subject, oracle):
    """Whether both say the same, line by line, the oracle's being in order. An Internal item counts by its
    place: it is an unknown class or a duplicate, with `--duplicates row` always the former."""
    internal = ("D 4",) if mode.endswith("rows") else ("D 4", "D 6")
    return len(subject) == len(oracle) and all(
        mine == theirs or (theirs == "D internal" and mine[:3] in internal)
        for mine, theirs in zip(subject, oracle))


def is_verdict(lines):
    """Whether the oracle gave no answer."""
    return bool(lines) and lines[0].split()[0] in VERDICTS


def shape(lines):
    """An answer in a word or two, to sort disagreements by."""
    if not lines:
        return "accepted"
    first = lines[0].split()
    return lines[0] if first[0] in ("refused", "assertion:") + VERDICTS else "accepted"
