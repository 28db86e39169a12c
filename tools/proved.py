"""The proved programs and calls, asked for sheets; each is built where it is missing or older than its sources."""

import os
import subprocess

import building
import refusals
from program import ROOT, Once, Trouble, put

LONGEST = 65536  # bytes that the programs read of a sheet; 40,961 are too many already
CALL_NUMBERS = {"order": 0, "schedule": 1}  # in the head of a sheet for the program batch


class RowLimit(Once):
    """--rows N."""

    def __call__(self, parser, namespace, values, option_string=None):
        super().__call__(parser, namespace, values, option_string)
        if not 1 <= values <= refusals.MOST_ROWS:
            raise Trouble(f"{option_string} {values}: the limit is 1 to {refusals.MOST_ROWS} rows")


def limit_of(args):
    """The row limit that is asked for, or that of the programs."""
    return refusals.SHOWN_ROWS if args.rows is None else args.rows


class Each:
    """A process of the program for each sheet, with these arguments."""

    def __init__(self, path, *arguments):
        self.words = [path, *arguments]

    def text(self, sheet):
        """What the program prints."""
        with started(self.words, stdin=subprocess.PIPE, stdout=subprocess.PIPE) as process:
            out, _ = process.communicate(sheet)
        return whole(out, process.returncode)


class Many:
    """One process of the program `batch` for all sheets: before each its call and its length, after each
    answer a line with a dot. Its row limit is the largest; up to a smaller one the answers are the same, and
    a sheet with more rows than that is handed to `each`, the program of the call under the smaller one."""

    def __init__(self, path, call, each, rows):
        self.path, self.call, self.each, self.rows, self.process = path, call, each, rows, None

    def text(self, sheet):
        """What the program of the call would print."""
        out = self.answer(sheet)
        return self.each.text(sheet) if out.count(b"\nD ") > self.rows else out

    def answer(self, sheet):
        """What `batch` prints for a sheet."""
        if self.process is None:
            self.process = started([self.path], stdin=subprocess.PIPE, stdout=subprocess.PIPE)
        head = bytes([CALL_NUMBERS[self.call]]) + len(sheet).to_bytes(3, "big")
        out = self.ask(head + sheet)
        if out == b".\n" or out.endswith(b"\n.\n"):
            return whole(out[:-2], 0)
        self.process.stdin.close()
        self.process.stdout.close()
        status, self.process = self.process.wait(), None
        whole(out, status)
        raise Trouble("the program gave no answer")

    def ask(self, question):
        """What comes until a line with a dot, or until the process has ended."""
        out = b""
        try:
            put(self.process.stdin.fileno(), question)
            while not (out == b".\n" or out.endswith(b"\n.\n")):
                part = os.read(self.process.stdout.fileno(), 1 << 20)
                if not part:
                    break
                out += part
        except BrokenPipeError:
            pass
        return out


def started(words, **files):
    """A process."""
    try:
        return subprocess.Popen(words, **files)
    except OSError as error:
        raise Trouble(f"the program cannot be run: {(error.strerror or str(error)).lower()}") from None


def whole(text, status):
    """What a program printed, if it ended well."""
    if status:
        how = f"signal {-status}" if status < 0 else f"status {status}"
        raise Trouble(f"the program ended with {how}")
    if text and not text.endswith(b"\n"):
        raise Trouble("the program's answer is cut short")
    return text


class Answers:
    """Where the answers under a row limit come from. Both parts are built when they are first needed, so that
    a file that cannot be read is told before."""

    def __init__(self, call, rows, several, say):
        self.call, self.rows, self.several, self.say = call, rows, several, say
        self.program, self.calls = None, None

    def ready_program(self):
        """The proved program; for several sheets `batch`, which prints the same, if it is at hand."""
        if self.program is None:
            self.program = Each(building.ready(ROOT, building.program(ROOT, self.call), self.say), str(self.rows))
            batch = building.program(ROOT, "batch")
            if self.several and building.at_hand(ROOT, batch):
                self.program = Many(batch.path, self.call, self.program, self.rows)
        return self.program

    def ready_calls(self):
        """The exported calls. The program is built first: most crates are in both."""
        if self.calls is None:
            self.ready_program()
            path = building.shared_object(ROOT, self.say)
            import gidzelma  # pylint: disable=import-outside-toplevel
            try:
                self.calls = gidzelma.load(path)
            except OSError as error:
                raise Trouble(f"{path} cannot be loaded: {error}") from None
        return self.calls

    def text(self, sheet):
        """What the proved program prints for a sheet."""
        return self.ready_program().text(sheet[:LONGEST])

    def packed(self, sheet):
        """The number of the exported call, and the packed bytes where it is 0."""
        calls = self.ready_calls()
        import gidzelma  # pylint: disable=import-outside-toplevel
        try:
            return 0, calls.packed(self.call, sheet, self.rows)
        except gidzelma.Refused as refused:
            return refused.number, b""
