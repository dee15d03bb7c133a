#!/usr/bin/env python3
"""Makes a board's names.json of a GTFS feed: the names of its stops (stops.txt), and the names and colours of its lines (routes.txt).
Where a producer's references are other than the feed's, a pair of patterns says how: `*` stands for the same in both, and what
fits no pattern is left out."""
import argparse
import csv
import io
import json
import os
import re
import sys
import zipfile


def rows(feed, name):
    """The rows of a table of the feed, a folder or an archive."""
    if os.path.isdir(feed):
        with open(os.path.join(feed, name), encoding="utf-8-sig", newline="") as table:
            yield from csv.DictReader(table)
    else:
        with zipfile.ZipFile(feed) as archive, archive.open(name) as table:
            yield from csv.DictReader(io.TextIOWrapper(table, encoding="utf-8-sig", newline=""))


def references(identifier, patterns):
    """What a producer calls this stop or line."""
    if not patterns:
        return [identifier]
    found = []
    for there, here in patterns:
        fit = re.fullmatch("(.*)".join(re.escape(part) for part in there.split("*")), identifier)
        if fit:
            found.append(here.replace("*", fit[1]))
    return found


def colour(row, column):
    text = (row.get(column) or "").strip().lower()
    return "#" + text if re.fullmatch("[0-9a-f]{6}", text) else None


def line_of(row):
    name = (row.get("route_short_name") or "").strip() or (row.get("route_long_name") or "").strip()
    told = {"name": name, "ground": colour(row, "route_color"), "letters": colour(row, "route_text_color")}
    return {member: value for member, value in told.items() if value}


def stop_of(row):
    # Entrances, nodes and boarding areas are nothing that departs.
    return (row.get("stop_name") or "").strip() if (row.get("location_type") or "0").strip() in ("", "0", "1") else ""


def named(feed, table, identifier, make, patterns):
    made, left = {}, 0
    for row in rows(feed, table):
        value, refs = make(row), references(row[identifier], patterns)
        left += not (value and refs)
        made.update({ref: value for ref in refs} if value else {})
    print("%s: %d named, %d left out" % (table, len(made), left), file=sys.stderr)
    return dict(sorted(made.items()))


def one_star(words):
    for word in words:
        if word.count("*") != 1:
            sys.exit("names.py: “%s” hasn't one *" % word)


def main():
    reader = argparse.ArgumentParser(description=__doc__)
    reader.add_argument("feed", help="a folder or a .zip with stops.txt and routes.txt")
    for kind in ("stops", "lines"):
        reader.add_argument("--" + kind, nargs=2, action="append", default=[], metavar=("THERE", "HERE"), help="such as 'IDFM:*' 'STIF:Line::*:'")
    told = reader.parse_args()
    for pair in told.stops + told.lines:
        one_star(pair)
    try:
        names = {"lines": named(told.feed, "routes.txt", "route_id", line_of, told.lines), "stops": named(told.feed, "stops.txt", "stop_id", stop_of, told.stops)}
    except (OSError, KeyError, UnicodeDecodeError, zipfile.BadZipFile) as fault:
        sys.exit("names.py: %s: %s" % (told.feed, fault))
    json.dump(names, sys.stdout, ensure_ascii=False, separators=(",", ":"))
    print()


if __name__ == "__main__":
    main()
