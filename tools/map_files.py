"""Type maps from files: the readable text, Cascade's own syntax, or a sheet."""

import re

from cascade_map import read_policies
from places import Place
from program import called
from sheet_checks import Readable
from sheet_records import SheetError, TypeMap
from sheet_text import TextReader
from sheetlib import decode

TEXT, CASCADE, SHEET = "text", "cascade", "sheet"
SHEET_LIMIT = 40960
BLANKS = b"\t\n\v\f\r"
NO_TEXT = re.compile(rb"[\x00-\x08\x0e-\x1f\x7f]")


def syntax_of(name, data, cascade=False):
    """What a file holds: by its name, else by its first byte, which in a sheet is no character."""
    if cascade or name.endswith(".cas"):
        return CASCADE
    if name.endswith(".sheet"):
        return SHEET
    return SHEET if data[:1] and data[0] < 32 and data[0] not in BLANKS else TEXT


def text_in(name, data, problems, instead="--decode prints that of a sheet"):
    """The characters of a text file, one a byte; None where it has bytes that no text has."""
    data = data.removeprefix(b"\xef\xbb\xbf")
    found = NO_TEXT.search(data)
    if found:
        before = data[:found.start()].split(b"\n")
        place = Place(called(name), len(before), len(before[-1]) + 1)
        problems.error(place, f"the byte {found[0][0]:02x} (hexadecimal) is in no text; {instead}")
        return None
    return data.decode("latin-1")


def read_texts(files, problems, cascade=False):
    """The map of one text or of several that are joined; each file is a name and its bytes."""
    texts, policies, maps = [], [], []
    for name, data in files:
        text = text_in(name, data, problems)
        if text is not None:
            kind = policies if syntax_of(name, b"", cascade) == CASCADE else texts
            kind.append((called(name), text))
    maps = [TextReader(file, problems).read(text) for file, text in texts]
    if policies:
        maps.append(read_policies(policies, problems))
    return joined(maps)


def joined(maps):
    """Several maps as one."""
    if len(maps) == 1:
        return maps[0]
    out = TypeMap()
    for other in maps:
        out.types += other.types
        out.extensions += other.extensions
        out.extra += other.extra + (other.words or [])
        if other.version != 1:
            out.version, out.version_place = other.version, other.version_place
    return out


def read_sheet(data, problems):
    """The map of a sheet, or None; what refuses it with 1 or 3 to 7 goes to `problems`."""
    if len(data) > SHEET_LIMIT:
        problems.error(None, f"refused with 1: {len(data):,} bytes, at most {SHEET_LIMIT:,}")
        return None
    try:
        out = decode(data, strict=True)
    except SheetError as error:
        problems.error(None, f"refused with {error.number}: {error.text}")
        return None
    before = len(problems.of("error"))
    Readable(out, problems).check()
    return out if len(problems.of("error")) == before else None
