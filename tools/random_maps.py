#!/usr/bin/env python3
"""Prints the text of a random map, which is refused by none of 3 to 7.

    random_maps.py SEED [--types N] [--wild P]

It has at most N types. P is the chance that a parent or a class is drawn among
all names, also undeclared ones, `self` and names that make a cycle or no resource.
"""

import argparse
import random
import sys

from maps.drawn import random_map
from sheetlib import to_text


def main():
    parser = argparse.ArgumentParser(description=__doc__,
                                     formatter_class=argparse.RawDescriptionHelpFormatter)
    parser.add_argument("seed", type=int)
    parser.add_argument("--types", type=int, default=8)
    parser.add_argument("--wild", type=float, default=0.05)
    args = parser.parse_intermixed_args()
    sys.stdout.write(to_text(random_map(random.Random(args.seed), args.types, args.wild)))


if __name__ == "__main__":
    main()
