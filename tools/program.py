"""What the programs in bin/, tools/sheet and tools/schedule share: statuses, messages, options, files.

A program ends with 0 where all was accepted, 1 where something was refused or has errors, and 2 on
trouble: what was asked could not be done. Trouble is one line on standard error. Standard output and
standard error are written by their numbers, so that no write that fails is missed.
"""

import argparse
import contextlib
import errno
import os
import signal
import stat
import subprocess
import sys

import building
from building import put

ROOT = os.path.dirname(os.path.dirname(os.path.realpath(__file__)))  # also where a program is a link
ACCEPTED, REFUSED, TROUBLE = 0, 1, 2
STDIN, STDOUT = "standard input", "standard output"
LONGEST = 1 << 24  # bytes; no text of a map is as long


class Trouble(Exception):
    """What was asked cannot be done: why, and with what file."""

    def __init__(self, why, about=None):
        super().__init__(f"{about}: {why}" if about else why)
        self.why, self.about = why, about


class NoOutput(Trouble):
    """Standard output takes no more, so that no other file can be answered either."""


@contextlib.contextmanager
def about(name):
    """Trouble inside that names no file is trouble with this one."""
    try:
        yield
    except Trouble as trouble:
        if trouble.about:
            raise
        raise Trouble(trouble.why, called(name)) from None


# ------------------------------------------------------------- messages

def shown(text):
    """A text, such as the name of a file, on one line."""
    return "".join(c if c.isprintable() or "\udc80" <= c <= "\udcff" else ascii(c)[1:-1]
                   for c in text) or "''"


def called(name):
    """A file in a message."""
    return STDIN if name == "-" else shown(name)


def reason(error):
    """An error of the system in words."""
    if error.errno == errno.EBADF:
        return "is closed"
    text = error.strerror or str(error)
    return text[:1].lower() + text[1:]


def sayer(name):
    """What tells one line on standard error, under a program's name."""
    def say(text):
        building.write_error(f"{name}: {shown(text)}\n")
    return say


def at_terminal():
    """Whether a person reads both the answer and the messages."""
    return os.isatty(1) and os.isatty(2)


# ---------------------------------------------------------------- files

def hold_standard_files():
    """Takes the numbers 0, 1 and 2 where they are closed, so that no file that is opened gets them;
    what they then are cannot be read, or cannot be written. Takes back what tools/start handed over."""
    handed = os.environ.pop("GIDZELMA_STDIN", None)
    if handed == "3":
        os.dup2(3, 0)
        os.close(3)
    for number in range(3):
        try:
            os.fstat(number)
        except OSError:
            os.open(os.devnull, os.O_RDONLY if number else os.O_WRONLY)


def read_all(name, most):
    """The bytes of a file, at most so many; `-` is standard input."""
    try:
        number = 0 if name == "-" else os.open(name, os.O_RDONLY)
        try:
            parts, left = [], most
            while left and (part := os.read(number, min(left, 1 << 20))):
                parts.append(part)
                left -= len(part)
            return b"".join(parts)
        finally:
            if number:
                os.close(number)
    except OSError as error:
        raise Trouble(reason(error), called(name)) from None


def read_whole(name):
    """The bytes of a file that is not too long."""
    data = read_all(name, LONGEST + 1)
    if len(data) > LONGEST:
        raise Trouble(f"longer than {LONGEST >> 20} MiB", called(name))
    return data


def put_out(data):
    """To standard output. Where nobody reads it any more, the program ends as any other does."""
    try:
        put(1, data)
    except BrokenPipeError:
        end_by(signal.SIGPIPE)
    except OSError as error:
        raise NoOutput(reason(error), STDOUT) from None


def put_json(value):
    """An object on a line of its own, to standard output."""
    import json  # pylint: disable=import-outside-toplevel
    put_out(json.dumps(value).encode() + b"\n")


@contextlib.contextmanager
def trouble_in_json(asked, head):
    """With --json trouble inside is an object too, led by `head`."""
    try:
        yield
    except NoOutput:
        raise
    except Trouble as trouble:
        if asked:
            put_json({**head, "status": TROUBLE, "trouble": str(trouble)})
        raise


def write_file(name, data):
    """A file with these bytes, whole or not at all; what is no plain file is written to as it is, and `-`
    is standard output. A file that is replaced keeps its mode."""
    if name == "-":
        put_out(data)
        return
    plain = os.path.isfile(name) or not os.path.exists(name)
    path = os.path.realpath(name) if plain else name
    part = f"{path}.{os.getpid()}.part" if plain else path
    try:
        number = os.open(part, os.O_WRONLY | (os.O_CREAT | os.O_EXCL if plain else 0), 0o666)
        try:
            put(number, data)
            if plain and os.path.exists(path):
                os.fchmod(number, stat.S_IMODE(os.stat(path).st_mode))
        finally:
            os.close(number)
        if plain:
            os.replace(part, path)
    except OSError as error:
        if plain and os.path.exists(part):
            os.remove(part)
        raise Trouble(reason(error), shown(name)) from None


def end_by(number):
    """Ends as a program does that the signal meets unprepared."""
    signal.signal(number, signal.SIG_DFL)
    os.kill(os.getpid(), number)


# -------------------------------------------------------------- versions

def said_by(*words):
    """The first line that a command prints, or None."""
    try:
        done = subprocess.run(words, cwd=ROOT, stdin=subprocess.DEVNULL, stdout=subprocess.PIPE,
                              stderr=subprocess.DEVNULL, check=False)
    except OSError:
        return None
    lines = done.stdout.decode(errors="replace").splitlines()
    return lines[0] if lines and not done.returncode else None


def number_of_version():
    """What the file VERSION has."""
    try:
        with open(os.path.join(ROOT, "VERSION"), encoding="utf-8") as source:
            return source.read().strip()
    except OSError:
        return "of unknown version"


def provenance():
    """Where an unpacked archive is from, by key; of a repository nothing."""
    try:
        with open(os.path.join(ROOT, "PROVENANCE"), encoding="utf-8") as source:
            return dict(line.rstrip("\n").split(": ", 1) for line in source)
    except OSError:
        return {}


def version(name):
    """Version, commit and toolchain. Those of an archive are those that it was made with."""
    known, commit = provenance(), None
    if os.path.exists(os.path.join(ROOT, ".git")):
        commit = said_by("git", "describe", "--always", "--dirty", "--abbrev=12", "--exclude=*")
    commit = known.get("commit") or commit or "unknown"
    toolchain = known.get("toolchain") or said_by("rt", "version") or "unknown: rt is not on the path"
    return f"{name} {number_of_version()}\ncommit {commit}\ntoolchain {toolchain}\n"


# --------------------------------------------------------------- options

class Parser(argparse.ArgumentParser):
    """The options of a program and its files; `text` is that of --help where argparse is not to make one."""

    def __init__(self, prog, text=None, **more):
        super().__init__(prog=prog, formatter_class=argparse.RawDescriptionHelpFormatter, allow_abbrev=False,
                         **more)
        self.text = text
        self.add_argument("--version", action=Version, help="print version, commit and toolchain")

    def parse(self, arguments):
        """The options; behind `--` all is files."""
        at = arguments.index("--") if "--" in arguments else len(arguments)
        out = self.parse_intermixed_args(arguments[:at])
        out.files = list(out.files) + arguments[at + 1:]
        if out.files.count("-") > 1:
            raise Trouble(f"{STDIN} is given twice")
        return out

    def error(self, message):
        """Options that are wrong."""
        raise Trouble(f"{message}; --help has the options")

    def format_help(self):
        """The text of --help."""
        return self.text or super().format_help()

    def print_help(self, file=None):
        """The help, to its last byte."""
        put_out(self.format_help().encode())


class Version(argparse.Action):
    """--version."""

    def __init__(self, option_strings, dest, **more):
        super().__init__(option_strings, dest, nargs=0, default=argparse.SUPPRESS, **more)

    def __call__(self, parser, *_):
        put_out(version(parser.prog).encode())
        parser.exit()


class Once(argparse.Action):
    """An option whose value is given once, and is not empty."""

    def __call__(self, parser, namespace, values, option_string=None):
        before = getattr(namespace, self.dest)
        if before is not None or values in ("", b""):
            raise Trouble(f"{option_string} is given {'nothing' if before is None else 'twice'}")
        setattr(namespace, self.dest, values)


# --------------------------------------------------------------- running

def each(items, act, say):
    """Does something with each of them; the worst status. Trouble with one is told, and the others go on,
    unless standard output takes no more."""
    worst = ACCEPTED
    for item in items:
        try:
            status = act(item)
        except NoOutput:
            raise
        except Trouble as trouble:
            say(str(trouble))
            status = TROUBLE
        worst = max(worst, status)
    return worst


def fault(error):
    """An error that should not be, and its place, on one line."""
    place = error.__traceback__
    while place.tb_next:
        place = place.tb_next
    file = os.path.basename(place.tb_frame.f_code.co_filename)
    return f"a fault in {file}, line {place.tb_lineno}: {error!r}"


def run(main):
    """Runs a program, whose first argument is its name: `main` gets the name, the other arguments and what
    tells a line, and gives the status. Ends the process."""
    hold_standard_files()
    if signal.getsignal(signal.SIGINT) is signal.default_int_handler:
        signal.signal(signal.SIGINT, signal.SIG_DFL)
    name, *arguments = sys.argv[1:]
    say = sayer(name)
    try:
        status = main(name, arguments, say)
    except SystemExit as ended:  # after --help and --version
        status = ended.code or ACCEPTED
    except (Trouble, building.NotBuilt) as trouble:
        say(str(trouble))
        status = TROUBLE
    except building.Stopped as stopped:
        end_by(stopped.number)
    except Exception as error:  # pylint: disable=broad-except
        # Python would end with 1, which says that something was refused.
        say(fault(error))
        status = TROUBLE
    # Nothing was written through Python's own files.
    os._exit(status)
