"""What the numbers of an answer mean, in words: the one table of refusals and of kinds of rows.

The programs print numbers, as document 01 has them; these words are added where a person asks.
"""

# How many rows of a diagnosis a call writes: the limit is 1 to so many, and the programs have one of their own.
MOST_ROWS, SHOWN_ROWS = 256, 64

# The numbers of the calls that take a sheet, each with what it says and the limits that it goes by.
OF_SHEETS = {
    1: ("the sheet is too long", "it may have 40,960 bytes"),
    2: ("the diagnosis slice is too short", "it needs six bytes a row of the limit"),
    3: ("a field passes the end of the sheet", ""),
    4: ("a value that is not allowed",
        "version 1; 2 to 200 words of 1 to 31 letters, digits or `_`; up to 64 types, each with up to "
        "8 parents, 12 annotations, 7 marks; up to 32 extensions of 1 to 8 parents"),
    5: ("the words do not ascend, or one that is needed is missing", "`resource` and `self` are needed"),
    6: ("something stands twice",
        "the name of a type, the type and word of an extension, a word in one associate, or an annotation "
        "of a type"),
    7: ("the sheet does not end where its last field does",
        "fewer than 8 bits may follow it, all of them zero"),
    8: ("the types have no order", ""),
    9: ("what a type associates cannot be made", ""),
    10: ("the schedule is longer than the listing", "the program lends 65,536 bytes"),
    17: ("the row limit is not allowed", f"it is 1 to {MOST_ROWS} rows"),
}

# Those of the calls between a schedule and its records.
OF_SCHEDULES = {
    11: ("a field, or its record, passes the end",
         "that of the schedule or that of the records; what the order-only call lists ends before its item count"),
    12: ("no schedule has such a value, or such an end",
         "2 to 200 words, each word below their number; up to 64 types; resources of 2 to 17 parents, each of "
         "1 to 3 words, and of up to 448 marks; fewer than 8 bits may follow the last field, all of them zero"),
}

# Those of a tariff, which the call that sums what it charges has besides those of the schedule.
OF_TARIFFS = {
    14: ("the tariff is too long", "it may have 99 numbers, 33 rows of three"),
    15: ("a row of the tariff is not allowed, or the last one is broken",
         "three numbers a row: the sort, 0 for real resources, 1 for virtual ones, 2 for extension lines; the number of "
         "parents, 2 to 17 for sorts 0 and 1, 0 for sort 2; the rate, -99,999 to 99,999 hundredths"),
    16: ("two rows of the tariff have one sort and one number of parents", ""),
}

REFUSALS = dict(sorted({**OF_SHEETS, **OF_SCHEDULES, **OF_TARIFFS}.items()))

# The kinds of the rows after 8 and 9: the name of the kind, and what a row says.
KINDS = {
    1: ("inherits self", "`{subject}` inherits `{other}`, which no type may"),
    2: ("cycle",
        "`{subject}` inherits `{other}`, and `{other}` inherits `{subject}`, itself or through others"),
    3: ("undeclared parent", "`{subject}` inherits `{other}`, which is not declared"),
    4: ("unknown class", "`{subject}.{word}` is of the class `{other}`, which is not declared"),
    5: ("class that is no resource", "`{subject}.{word}` is of the class `{other}`, which is no resource"),
    6: ("duplicate", "`{subject}.{word}` is there already, declared or made alike"),
}

UNKNOWN = ("a number that the table of refusals does not have", "")


def said_of(number):
    """A refusal in words."""
    return REFUSALS.get(number, UNKNOWN)[0]


def meaning_of(number):
    """A refusal in words, with its limits."""
    said, limits = REFUSALS.get(number, UNKNOWN)
    return f"{said} ({limits})" if limits else said


def more_than(rows):
    """What the line behind so many rows says, `more`."""
    return f"there are more rows than the {rows} listed" + (f"; --rows lists up to {MOST_ROWS}" if rows < MOST_ROWS else "")


def meaning_of_row(kind, subject, other, word):
    """A row in words; the names are texts, None where they are absent."""
    if kind not in KINDS:
        return "a kind that the table of rows does not have"
    if kind == 2 and subject == other:
        return f"cycle: `{subject}` inherits itself"
    name, sentence = KINDS[kind]
    return f"{name}: " + sentence.format(subject=subject, other=other, word=word)
