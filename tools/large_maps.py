#!/usr/bin/env python3
"""Prints the text of a map of maps/large.py.

    large_maps.py NAME
"""

import sys

from maps import large
from maps.large import *  # noqa: F401,F403  measuring programs outside this repository import the maps from here
from sheetlib import to_text


def main():
    if len(sys.argv) != 2 or sys.argv[1] not in large.MAPS:
        sys.exit(f"{__doc__}\n{large.__doc__}")
    sys.stdout.write(to_text(large.MAPS[sys.argv[1]]()))


if __name__ == "__main__":
    main()
