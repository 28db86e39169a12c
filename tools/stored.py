"""Files that are stored as a tool writes them."""

import argparse
import os
import sys

ROOT = os.path.dirname(os.path.dirname(os.path.abspath(__file__)))


def options(text):
    """The options of a tool that writes stored files."""
    out = argparse.ArgumentParser(description=text, formatter_class=argparse.RawDescriptionHelpFormatter)
    out.add_argument("--check", action="store_true", help="write nothing; exit with 1 if a file differs")
    return out


def settle(files, check):
    """Writes files, each given by its path below the repository and its bytes, one after the other; with
    `check` says which differ. Gives whether one does."""
    differs = False
    for name, data in files:
        path = os.path.join(ROOT, name)
        if not check:
            with open(path, "wb") as out:
                out.write(data)
        elif not os.path.exists(path) or open(path, "rb").read() != data:
            print(f"{name} differs from what would be written", file=sys.stderr)
            differs = True
    return differs


def of_crate(name, made):
    """What the program of a crate reads and must print, as files."""
    return [(f"crates/{name}/{stream}", data) for stream, data in zip(("stdin", "stdout"), made)]
