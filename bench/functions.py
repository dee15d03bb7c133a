#!/usr/bin/env python3
"""Prints what took longest in the last check of a crate, a line a module of it.

usage: bench/functions.py CRATE [LINES]      after `rm -rf out/incremental; rt check --jobs 1` in the crate's folder

Of a function F, F.Lts is the part of the proof that follows the borrow checker, statement by statement, and F.Proof the search for
its goals; another module is a file of lemmas. Each is written as its check ends, so its time is that since the file before it."""

import os
import sys
from collections import Counter


def times(folder):
    """Returns the seconds of each module that was checked into the folder."""
    files = [f"{at}/{name}" for at, _, names in os.walk(folder) for name in names if name.endswith(".oantt")]
    ends = sorted((os.stat(file).st_mtime_ns / 1e9, os.path.basename(file)) for file in files)
    taken = Counter()
    for (before, _), (end, name) in zip(ends, ends[1:]):
        taken[name.removesuffix(".oantt").removesuffix(".decls").partition("-proofs.")[2] or name] += end - before
    return taken


def main():
    crate, lines = sys.argv[1], int(sys.argv[2]) if len(sys.argv) > 2 else 30
    taken = times(f"{os.path.dirname(os.path.abspath(__file__))}/../crates/{crate}/out/incremental")
    for name, seconds in taken.most_common(lines):
        print(f"{seconds:8.1f}  {name}")
    follows = sum(seconds for name, seconds in taken.items() if name.endswith(".Lts"))
    print(f"{sum(taken.values()):8.1f}  all in all, {follows:.1f} of it what follows the borrow checker")


if __name__ == "__main__":
    main()
