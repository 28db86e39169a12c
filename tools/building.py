"""Builds what the programs in bin/ run, where it is missing or older than its sources.

The sources of a program are crates.txt and the files of its crate and of every crate below it, as `rt`
takes them. Only their times are looked at, so that a run that builds nothing is quick; `rt` itself then
goes by their contents, and proves what has changed. Where there are no sources, as in an unpacked archive,
the programs stand in libexec/ and the shared object in lib/, and nothing is built.

`rt run` in a program's folder proves it, builds it into the folder's out/ and runs it, here on nothing; `rt lib` in that of
`exports` writes the archive of the proved calls. Both are copied to target/, where everything that runs them looks for them, and a
C compiler links the archive to a shared object.
"""

import contextlib
import fcntl
import os
import re
import shlex
import shutil
import signal
import subprocess
import time
from collections import namedtuple

# What is built: its crate, what to call it, the file, what rt leaves in the crate's folder, and the words of rt that build it there.
Target = namedtuple("Target", "crate what path made words")

PARTS = ("src", "specs", "proofs", "stdin", "stdout", "args", "data")  # of a crate, as rt takes them
SLACK = 20_000_000  # nanoseconds; a file system's clock can be behind by some milliseconds


class NotBuilt(Exception):
    """What is to be run is not there and cannot be built."""


class Stopped(Exception):
    """A signal that came while rt ran."""

    def __init__(self, number):
        super().__init__(number)
        self.number = number


def has_sources(root):
    """Whether there is something to build from."""
    return os.path.exists(os.path.join(root, "crates.txt"))


def program(root, name):
    """The program of a crate."""
    place = os.path.join("target", "bin") if has_sources(root) else "libexec"
    return Target(name, "program", os.path.join(root, place, name),
                  os.path.join(root, "crates", name, "out", name), ("rt", "run"))


def library(root):
    """The archive of the exported calls."""
    return Target("exports", "library", os.path.join(root, "target", "staticlib", "libexports.a"),
                  os.path.join(root, "crates", "exports", "out", "libexports.a"), ("rt", "lib"))


# ------------------------------------------------------------ the sources

def crates_below(root, name):
    """A crate and all that it depends on, of those that crates.txt lists."""
    below = {}
    with open(os.path.join(root, "crates.txt"), encoding="utf-8") as source:
        for line in source:
            crate, colon, crates = line.partition("#")[0].partition(":")
            if colon:
                below[crate.split()[0] if crate.split() else ""] = crates.split()
    out, waiting = {}, [name]
    while waiting:
        crate = waiting.pop()
        if crate in below and crate not in out:
            out[crate] = None
            waiting += below[crate]
    return list(out)


def newer_below(path, when):
    """A file or folder below a path that changed at a time or after it, or None."""
    try:
        if os.stat(path).st_mtime_ns >= when:
            return path
        entries = list(os.scandir(path))
    except (FileNotFoundError, NotADirectoryError):
        return None
    for entry in entries:
        if entry.is_symlink():  # rt follows none
            continue
        if entry.is_dir():
            found = newer_below(entry.path, when)
            if found:
                return found
        elif entry.stat().st_mtime_ns >= when:
            return entry.path
    return None


def newer_source(root, name, when):
    """A source of a crate that changed at a time or after it, or None. The time of a folder tells that
    files were removed."""
    if os.stat(os.path.join(root, "crates.txt")).st_mtime_ns >= when:
        return "crates.txt"
    for crate in crates_below(root, name):
        folder = os.path.join(root, "crates", crate)
        for part in PARTS:
            found = newer_below(os.path.join(folder, part), when)
            if found:
                return os.path.relpath(found, root)
    return None


def usable(target):
    """Whether the file is there, has bytes, and can be run if it is a program."""
    try:
        return (os.path.getsize(target.path) > 0
                and (target.what != "program" or os.access(target.path, os.X_OK)))
    except OSError:
        return False


def lacking(root, target):
    """Why a target has to be built, or None."""
    if not usable(target):
        return f"the {target.what} is not built"
    source = newer_source(root, target.crate, os.stat(target.path).st_mtime_ns)
    return source and f"{source} is newer than the {target.what}"


def at_hand(root, target):
    """Whether a target can be used as it is."""
    return usable(target) and not (has_sources(root) and lacking(root, target))


# ------------------------------------------------------------- the building

class Progress:
    """One line that counts the crates: rewritten in place on a terminal; elsewhere a line for each
    crate that was proved anew."""

    BEGUN = re.compile(r"rt: chose --jobs \d+ for (\w+)$")
    ENDED = re.compile(r"logic=(proved|not-proved)\b")

    def __init__(self, total):
        self.total, self.count, self.crate, self.last = total, 0, None, None
        self.live = os.isatty(2)

    def take(self, line):
        """A line of rt's. It names a crate that it begins to check; one that has not changed it passes over."""
        begun, ended = self.BEGUN.match(line), self.ENDED.match(line)
        if begun:
            self.crate = begun[1]
        elif line.startswith("rt: "):
            self.last = line
        if ended and ended[1] == "proved" and self.crate:
            self.count += 1
            self.show(f"{self.crate} proved")
            self.crate = None

    def failure(self):
        """What is to be said where rt did not come to its end, or None."""
        return f"{self.crate} is not proved" if self.crate else self.last

    def show(self, text):
        """The count and what happened."""
        line = f"[{self.count}/{self.total}] {text}"
        if self.live:
            write_error(f"\r\033[K{line}")
        else:
            write_error(line + "\n")

    def end(self):
        """Leaves the terminal's line empty."""
        if self.live:
            write_error("\r\033[K")


def put(number, data):
    """All the bytes, to an open file."""
    left = memoryview(data)
    while left:
        left = left[os.write(number, left):]


def write_error(text):
    """To standard error, if it is there."""
    with contextlib.suppress(OSError):
        put(2, text.encode(errors="surrogateescape"))


@contextlib.contextmanager
def running(words, folder):
    """A process in a group of its own, which is ended with this one: what rt runs in the background
    would outlive an interrupt."""
    def stop(number, _frame):
        raise Stopped(number)
    before = {number: signal.signal(number, stop)
              for number in (signal.SIGINT, signal.SIGTERM, signal.SIGHUP)
              if signal.getsignal(number) is not signal.SIG_IGN}
    try:
        with subprocess.Popen(words, cwd=folder, stdin=subprocess.DEVNULL, stdout=subprocess.PIPE,
                              stderr=subprocess.STDOUT, start_new_session=True) as process:
            try:
                yield process
            except BaseException:
                with contextlib.suppress(ProcessLookupError):
                    os.killpg(process.pid, signal.SIGTERM)
                raise
    finally:
        for number, handler in before.items():
            signal.signal(number, handler)


def prove(root, target, log_path):
    """Runs rt. Its lines go to the log, and a count of them to standard error."""
    progress = Progress(len(crates_below(root, target.crate)))
    try:
        with open(log_path, "wb") as log, running(target.words, os.path.join(root, "crates", target.crate)) as rt:
            for line in rt.stdout:
                log.write(line)
                progress.take(line.decode(errors="replace").rstrip("\n"))
    finally:
        progress.end()
    if rt.returncode:
        failure = progress.failure() or f"{' '.join(target.words)}: status {rt.returncode}"
        raise NotBuilt(f"{failure}; {log_path} has what rt said")


@contextlib.contextmanager
def alone(root, say):
    """Nobody else builds here meanwhile: two runs of rt would write the same files."""
    with open(os.path.join(root, "target", "building"), "w", encoding="utf-8") as lock:
        try:
            fcntl.flock(lock, fcntl.LOCK_EX | fcntl.LOCK_NB)
        except BlockingIOError:
            say("another run is building; waiting for it")
            fcntl.flock(lock, fcntl.LOCK_EX)
        except OSError:
            pass  # a file system without locks
        yield


def take(target, when):
    """Copies what rt made to its place, under another name first, so that no half of one is run; and dates it."""
    os.makedirs(os.path.dirname(target.path), exist_ok=True)
    part = f"{target.path}.{os.getpid()}"
    shutil.copy(target.made, part)
    os.utime(part, ns=(when, when))
    os.replace(part, target.path)


def build(root, target, why, say):
    """Has rt prove and build a target, and dates it by the time at which that began."""
    if not shutil.which(target.words[0]):
        raise NotBuilt(f"{why}, and rt, the toolchain that builds it, is not on the path")
    log_path = os.path.join(root, "target", "log", target.crate + ".build")
    os.makedirs(os.path.dirname(log_path), exist_ok=True)
    began = time.time_ns()
    if usable(target):
        say(f"{why}: rt proves what has changed")
    else:
        say(f"{why}: rt proves and builds it; from nothing that takes some ten minutes")
        for path in (target.path, target.made, target.made + ".stamp"):  # with its stamp rt takes a program for built
            if os.path.exists(path):
                os.remove(path)
    prove(root, target, log_path)
    if not os.path.exists(target.made):
        raise NotBuilt(f"rt left no {os.path.relpath(target.made, root)}; {log_path} has what it said")
    take(target, began - SLACK)  # what changed while rt ran is newer than this
    say(f"the {target.what} is up to date, after {round((time.time_ns() - began) / 1e9)} s")


def ready(root, target, say):
    """The path of a target that is no older than its sources."""
    if not has_sources(root):
        if not usable(target):
            raise NotBuilt(f"{target.path} is missing, and there are no sources to build it from")
        return target.path
    try:
        if lacking(root, target):
            os.makedirs(os.path.join(root, "target"), exist_ok=True)
            with alone(root, say):
                why = lacking(root, target)
                if why:
                    build(root, target, why, say)
    except OSError as error:
        raise NotBuilt(f"{error.filename or 'target'}: {(error.strerror or str(error)).lower()}") from None
    return target.path


# --------------------------------------------------------- the shared object

def compiler():
    """The words that begin a command of the C compiler."""
    given = shlex.split(os.environ.get("CC", ""))
    for words in ([given] if given else [["cc"], ["gcc"], ["clang"]]):
        if shutil.which(words[0]):
            return words
    raise NotBuilt(f"the library has to be linked by a C compiler, and there is none "
                   f"({given[0] if given else 'cc, gcc, clang'})")


def link(archive, path, log_path, options=()):
    """Links an archive to a shared object, under another name first, so that no half of one is loaded.
    It gets the archive's time, by which the two belong together."""
    part = f"{path}.{os.getpid()}"
    words = [*compiler(), "-shared", *options, "-o", part, "-Wl,--whole-archive", archive,
             "-Wl,--no-whole-archive"]
    os.makedirs(os.path.dirname(log_path), exist_ok=True)
    with open(log_path, "wb") as log:
        done = subprocess.run(words, stdin=subprocess.DEVNULL, stdout=log, stderr=log, check=False)
    if done.returncode:
        raise NotBuilt(f"{words[0]} cannot link the library; {log_path} has what it said")
    when = os.stat(archive).st_mtime_ns
    os.utime(part, ns=(when, when))
    os.replace(part, path)


def shared_object(root, say):
    """The path of a shared object that is no older than the sources of the calls."""
    if not has_sources(root):
        return os.path.join(root, "lib", "libgidzelma.so")
    archive = ready(root, library(root), say)
    path = os.path.join(os.path.dirname(archive), "libgidzelma.so")
    try:
        if not os.path.exists(path) or os.stat(path).st_mtime_ns != os.stat(archive).st_mtime_ns:
            link(archive, path, os.path.join(root, "target", "log", "libgidzelma.link"))
    except OSError as error:
        raise NotBuilt(f"{error.filename}: {error.strerror.lower()}") from None
    return path
