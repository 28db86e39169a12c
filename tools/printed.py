"""What the programs print, read back: answers as values for JSON, refusals in words."""

import refusals


def refused(text):
    """Whether a program's answer is a refusal."""
    return text.startswith(b"refused ")


def number_of(text):
    """The number of a refusal."""
    return int(text.split()[1])


def absent(word):
    """A word of a row, None for `-`, which is none: no word begins with a hyphen."""
    return None if word == "-" else word


def row_of(line):
    """A row of a refusal."""
    _, kind, subject, other, word = line.split(" ")
    row = {"kind": int(kind), "subject": absent(subject), "other": absent(other), "word": absent(word)}
    row["meaning"] = refusals.meaning_of_row(*list(row.values()))
    return row


def refusal_of(lines):
    """A refusal with its rows."""
    number = int(lines[0].split(" ")[1])
    return {"number": number, "meaning": refusals.meaning_of(number),
            "rows": [row_of(line) for line in lines if line.startswith("D ")],
            "more": lines[-1] == "more"}


def mark_of(text):
    """A mark of a resource."""
    name, colon, tag = text.partition(":")
    return {"mark": name, "tag": int(tag)} if colon else {"mark": name}


def listed(text):
    """The entries of a list of a line."""
    return [] if text == "-" else text.split(",")


def item_of(line):
    """An item of a schedule, from an R or an E line."""
    parts = line.split(" ")
    if parts[0] == "R":
        name, word = parts[1].rsplit(".", 1)
        return {"item": "resource", "type": name, "word": word, "virtual": parts[2] == "1",
                "parents": listed(parts[3]), "marks": [mark_of(mark) for mark in listed(parts[4])]}
    return {"item": "extension", "type": parts[1], "word": parts[3], "virtual": parts[2][0] == "1",
            "trait": parts[2][1] == "1"}


def parsed(call, text):
    """What a program printed, as a value for JSON."""
    lines = text.decode("ascii").splitlines()
    if refused(text):
        return {"refusal": refusal_of(lines)}
    out = {"names": [line[2:] for line in lines if line.startswith("T ")]}
    if call != "order":
        out["items"] = [item_of(line) for line in lines if line[:2] in ("R ", "E ")]
    return out


def is_text(sheet):
    """Whether the bytes look like a text. A readable sheet begins with a byte that no text has."""
    return sheet != b"" and all((b >= 32 and b != 127) or b in b"\t\n\r" for b in sheet[:512])


TEXT_AS_SHEET = "the file is a text and no sheet; tools/sheet makes a sheet from the text of a map"


def why(text, data, is_a_text=TEXT_AS_SHEET):
    """The number of a refusal with what it means; where the bytes look like a text, that."""
    number = number_of(text)
    return f"{number}: {is_a_text if is_text(data) else refusals.meaning_of(number)}"


def explained(text, data, is_a_text=TEXT_AS_SHEET):
    """A line in words for each line of a refusal; one more where the bytes look like a text."""
    out, lines = [], text.decode("ascii").splitlines()
    for line in lines:
        if line.startswith("refused "):
            words = refusals.meaning_of(int(line.split(" ")[1]))
        elif line.startswith("D "):
            words = row_of(line)["meaning"]
        else:
            words = refusals.more_than(len(lines) - 2)
        out.append(f"{line}: {words}\n")
    if is_text(data):
        out.append(is_a_text + "\n")
    return "".join(out).encode()
