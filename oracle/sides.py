"""The two sides of a comparison: the oracle, and the subjects that are held to it.

Each has `ask`, which takes a mode and sheets and gives for each sheet a list of
lines, and `pairs`, which takes lines `LEFT | RIGHT` of annotations, or is None.
"""

import importlib.util
import os
import re
import subprocess
import sys

from pairs import annotation_from, annotation_of, annotation_text, pair_bytes, words_in

ROWS = 256  # the row limit of a comparison, which is the oracle's

MODES = {  # what the oracle is asked
    "order": ["--order"],
    "rust": [],
    "01": ["--equality", "01"],
    "01 rows": ["--equality", "01", "--duplicates", "row"],
    "rust rows": ["--duplicates", "row"],
}


def run(command, data):
    """What a command prints for its input."""
    return subprocess.run(command, input=data, stdout=subprocess.PIPE, check=True).stdout


def run_batch(command, sheets):
    """The answers of a batch command, each a list of lines."""
    if not sheets:
        return []
    data = b"".join(len(s).to_bytes(4, "big") + s for s in sheets)
    return blocks(command[0], run(command + ["--batch"], data), len(sheets))


def run_pairs(command, lines):
    """The answers of a command to lines of pairs."""
    return run(command + ["--pairs"], "".join(line + "\n" for line in lines).encode()).decode().splitlines()


def blocks(name, data, count):
    """Answers that each end with a line `.`."""
    out = [block.splitlines() for block in re.split(r"^\.\n", data.decode(), flags=re.M)]
    if len(out) != count + 1:
        sys.exit(f"{name}: {len(out) - 1} answers to {count} sheets")
    return out[:-1]


class Oracle:
    """The oracle's binary."""

    def __init__(self, path, milliseconds=500):
        if not os.path.exists(path):
            sys.exit(f"{os.path.basename(sys.argv[0])}: {path} is not there; oracle/build makes it")
        # A small stack: 64 types never need more, and an overflow is over sooner.
        self.command = [path, "--numbers", "--milliseconds", str(milliseconds), "--stack", "128"]

    def ask(self, mode, sheets):
        """Its answers in one of MODES."""
        return run_batch(self.command + MODES[mode], sheets)

    def pairs(self, lines):
        """Intersections and differences."""
        return run_pairs(self.command[:1], lines)


class PythonSubject:
    """A model imported into this process."""

    def __init__(self, path):
        spec = importlib.util.spec_from_file_location("subject", path)
        self.model = importlib.util.module_from_spec(spec)
        spec.loader.exec_module(self.model)

    def one(self, sheet, with_items):
        """The lines for one sheet; a failed assertion is one too."""
        try:
            got = self.model.answer(sheet, bytes(65536), bytes(6 * ROWS), ROWS, with_items)
            return self.model.printed(sheet, got, with_items)
        except AssertionError as error:
            return [f"assertion: {error}"]

    def ask(self, mode, sheets):
        """Its answers."""
        return [self.one(sheet, mode != "order") for sheet in sheets]

    def pairs(self, lines):
        """Intersections and differences."""
        return [self.pair(line) for line in lines]

    def pair(self, line):
        """Intersection and difference through the model's own forms."""
        words = words_in(line)
        left, right = (annotation_of(text, words) for text in line.split("|"))
        return " | ".join(annotation_text(f(left, right), words)
                          for f in (self.model.intersection, self.model.difference))


class Programs:
    """Two programs, started once for each sheet, with the row limit."""

    pairs = None

    def __init__(self, paths):
        self.schedule, self.order = paths.split(",")

    def ask(self, mode, sheets):
        """Their answers."""
        program = self.order if mode == "order" else self.schedule
        return [subprocess.run([program, str(ROWS)], input=sheet, stdout=subprocess.PIPE,
                               check=False).stdout.decode().splitlines() for sheet in sheets]


class Batch:
    """A command that speaks as the oracle does."""

    def __init__(self, command):
        self.command = command.split()

    def ask(self, mode, sheets):
        """Its answers."""
        return run_batch(self.command + (["--order"] if mode == "order" else []), sheets)

    def pairs(self, lines):
        """Intersections and differences."""
        return run_pairs(self.command, lines)


class Proved:
    """The programs `batch` and `pairs`, which answer many sheets, under this limit, and many pairs."""

    def __init__(self, paths):
        self.batch, self.pair = paths.split(",")
        for path in (self.batch, self.pair):
            if not os.path.exists(path):
                sys.exit(f"compare: {path} is not there; tools/build batch pairs makes it")

    def ask(self, mode, sheets):
        """The answers of `batch`."""
        data = b"".join(bytes([mode != "order"]) + len(s).to_bytes(3, "big") + s for s in sheets)
        return blocks(self.batch, run([self.batch], data), len(sheets))

    def pairs(self, lines):
        """The answers of `pairs`."""
        answers = run([self.pair], b"".join(map(pair_bytes, lines))).decode().splitlines()
        return [" | ".join(self.text(part, words_in(line)) for part in answer.split("|"))
                for line, answer in zip(lines, answers)]

    @staticmethod
    def text(part, words):
        """The text of an annotation that is given by numbers."""
        given = None if part.strip() == "none" else annotation_from([int(n) for n in part.split()])
        return annotation_text(given, words)


SUBJECTS = {"python": PythonSubject, "programs": Programs, "batch": Batch, "proved": Proved}
