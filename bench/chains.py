#!/usr/bin/env python3
"""Chains in memory of a source, relays and a display: `chains.py SIRI_CHAINS [FIRST COUNT]`, by the program of that name.

It plays so many runs with three relays, of the seeds from FIRST on, with losses, repeats, delays and restarts, and tells how many
of them end otherwise than the source answers, each with its seed; the gate has those of 1 to 200. Then it measures what a change of
one visit takes until the display has it and nothing is sent any more, with no relay, with one and with three, and what it takes that
20,000 visits come to a display: processor seconds, user and system, the least of 5 runs, each figure the difference of two of them.
It ends with 1 where a run went wrong."""
import resource
import subprocess
import sys

RUNS = 5
# How many visits the display shows, and how many changes are made.
CHANGES = [(100, 4_000), (1_000, 2_000), (20_000, 2_000)]
VISITS = 20_000


def seconds(program, *words):
    """The processor seconds of the program with these words, and what it prints."""
    told, least = None, None
    for _ in range(RUNS):
        before = resource.getrusage(resource.RUSAGE_CHILDREN)
        told = subprocess.run([program, *map(str, words)], check=True, capture_output=True, text=True).stdout
        after = resource.getrusage(resource.RUSAGE_CHILDREN)
        used = after.ru_utime + after.ru_stime - before.ru_utime - before.ru_stime
        least = used if least is None else min(least, used)
    return least, int(told)


def changes(program):
    """Microseconds of a change, by relays and visits, and the ratio to none."""
    row = "%-10s %8s %8s %14s %7s"
    print(row % ("a change", "visits", "relays", "us", "ratio"))
    for visits, count in CHANGES:
        alone = None
        for relays in (0, 1, 3):
            before, _ = seconds(program, "shown", relays, visits, 0)
            after, last = seconds(program, "shown", relays, visits, count)
            if last != count + 1:
                sys.exit("chains: of %d changes over %d relays the display has round %d" % (count, relays, last))
            one = (after - before) / count * 1e6
            alone = alone or one
            print(row % ("", visits, relays, "%.1f" % one, "%.2f" % (one / alone)))


def first_rounds(program):
    """Seconds in which all visits come to a display that is new, over relays that are new, by relays, and the ratio to none: without the
    feed of the source, and with it."""
    row = "%-10s %8s %8s %14s %7s %14s %7s"
    print(row % ("all visits", "visits", "relays", "s", "ratio", "s with the feed", "ratio"))
    fed, held = seconds(program, "fed", VISITS)
    if held != VISITS:
        sys.exit("chains: the source holds %d visits" % held)
    alone = None
    for relays in (0, 1, 3):
        shown, _ = seconds(program, "shown", relays, VISITS, 0)
        alone = alone or shown
        print(row % ("", VISITS, relays, "%.3f" % (shown - fed), "%.2f" % ((shown - fed) / (alone - fed)), "%.3f" % shown, "%.2f" % (shown / alone)))


def main(program, first="1", count="2000"):
    played = subprocess.run([program, "counts", first, count], capture_output=True, text=True, check=False)
    print(played.stdout, end="")
    print()
    changes(program)
    print()
    first_rounds(program)
    sys.exit(played.returncode)


main(*sys.argv[1:])
