#!/usr/bin/env python3
"""Kills of a producer that keeps, at length: `kills.py SIRI [--kills 1000] [--seed 1]`. What `.ci/keep` does 200 times: the producer is
killed under feeds, beside a board that has subscribed to it, at moments that follow from the seed, and started again on the same file.
It prints what came and each thing that is wrong, and its status is 0 where none is. It wants sqlite3."""
import argparse
import os
import sys
import tempfile
import time

sys.path.insert(0, os.path.join(os.path.dirname(os.path.abspath(__file__)), "..", ".ci"))
from kept import Kills


def main():
    words = argparse.ArgumentParser(description=__doc__)
    words.add_argument("siri")
    words.add_argument("--kills", type=int, default=1000)
    words.add_argument("--seed", type=int, default=1)
    given = words.parse_args()
    with tempfile.TemporaryDirectory() as folder:
        begun = time.monotonic()
        kills = Kills(given.siri, folder, given.kills, given.seed)
        wrong = kills.run()
        print("%d kills in %.0f s" % (given.kills, time.monotonic() - begun))
        for what, count in kills.counts.items():
            print("%-30s %8d" % (what, count))
    for line in wrong:
        print("wrong: " + line)
    sys.exit(bool(wrong))


if __name__ == "__main__":
    main()
