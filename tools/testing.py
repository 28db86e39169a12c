"""What the tests of sheets, of Cascade's syntax and of bin/explain share."""

import os
import shutil
import subprocess
import tempfile
import unittest

import building
import map_files
import model
from places import Problems
from sheet_checks import check

HERE = os.path.dirname(os.path.abspath(__file__))
ROOT = os.path.dirname(HERE)
EXAMPLES = os.path.join(ROOT, "examples")
BUILT = building.at_hand(ROOT, building.program(ROOT, "schedule"))
NOT_BUILT = "target/bin/schedule is not built, or older than its sources"


def command(program, *args, given=b"", folder=ROOT, environment=None):
    """Status, standard output and standard error of a command of this repository."""
    done = subprocess.run([os.path.join(ROOT, program), *args], input=given, capture_output=True, check=False,
                          cwd=folder, env={**os.environ, **(environment or {})})
    return done.returncode, done.stdout, done.stderr.decode()


def found_in(text, name="x.txt", allow_refused=False):
    """The map of a text and what the checks say of it."""
    problems = Problems(allow_refused)
    type_map = map_files.read_texts([(name, text.encode())], problems)
    check(type_map, problems)
    return type_map, problems


def told(text, name="x.txt", severities=("error", "warning"), **options):
    """What the checks say, each as `LINE:COLUMN: severity: text`."""
    problems = found_in(text, name, **options)[1]
    return [str(problem).removeprefix(name + ":") for problem in problems.sorted() if problem.severity in severities]


def answer(sheet):
    """The number of the schedule call's answer, by the model."""
    return model.schedule(sheet, bytes(65536), bytes(6 * model.MOST_ROWS)).number


def printed(sheet, rows=model.SHOWN_ROWS):
    """What the schedule program prints under a row limit, by the model."""
    return model.printed(sheet, model.schedule(sheet, bytes(65536), bytes(6 * rows), rows), True)


class InFolder(unittest.TestCase):
    """Tests with a folder of their own."""

    def setUp(self):
        self.folder = tempfile.mkdtemp()
        self.addCleanup(shutil.rmtree, self.folder)

    def path(self, name, data=None):
        """The path of a file in the folder, which is written where there is something to write."""
        path = os.path.join(self.folder, name)
        if data is not None:
            with open(path, "wb") as out:
                out.write(data if isinstance(data, bytes) else data.encode())
        return path

    def read(self, name):
        """The bytes of a file in the folder."""
        with open(os.path.join(self.folder, name), "rb") as source:
            return source.read()
