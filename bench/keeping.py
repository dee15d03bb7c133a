#!/usr/bin/env python3
"""What keeping costs: `keeping.py SIRI [--feeds 500] [--items 20000] [--subscriptions 200] [--rows 100000]`.

So many feeds of one visit and of 100 go to `siri keep`, and to `siri serve`, which keeps nothing: processor milliseconds a feed. What
`keep` takes beyond `serve` is held against a program of 40 lines on SQLite's own library (`rows.c`), which writes the same rows in as many
transactions. Then `keep` is started on a file with so many visits and subscriptions, and on one with so many rows of visits, all but
the first of which are over: the seconds until it answers, and its processor seconds. It wants cc and SQLite's headers."""
import argparse
import json
import os
import resource
import sqlite3
import subprocess
import sys
import tempfile
import time

sys.path.insert(0, os.path.join(os.path.dirname(os.path.abspath(__file__)), "..", ".ci"))
from behind import later
from kept import Keeper, feed, post, seal, sqlite, visit


def processor(pid):
    """The processor seconds of a process so far."""
    with open("/proc/%d/schedstat" % pid) as told:
        return int(told.read().split()[0]) / 1e9


class Server(Keeper):
    """`siri serve`, which keeps nothing, with the same words but for the file."""

    def words(self, count=1_000_000, name=None):
        return [self.siri, "serve", name or self.name, "127.0.0.1:%d" % self.port, str(count)]


def answered(told):
    if not told.startswith(b"HTTP/1.1 200"):
        raise SystemExit("keeping: answered %r" % told[:200])


def feeds_of(count, size):
    """So many feeds of so many visits each, over at most 2,000 names, and the names of each."""
    moment = later(hours=2)
    names = [["%06d" % ((number * size + more) % 2000) for more in range(size)] for number in range(count)]
    return [feed([visit(name, "v%d" % number, moment) for name in some]) for number, some in enumerate(names)], names


def fed_seconds(producer, documents):
    """The processor seconds of a producer for these feeds."""
    producer.start()
    before = processor(producer.process.pid)
    for document in documents:
        answered(post(producer.port, document))
    after = processor(producer.process.pid)
    producer.stop()
    return after - before


def rows_in(file):
    """The rows of a file, by table and, for visits, by name."""
    sqlite(file, "pragma wal_checkpoint(truncate)")
    with sqlite3.connect(file) as database:
        rows = database.execute("select part, place, content from shelf").fetchall()
    database.close()
    named = lambda key: json.loads(key)["Siri"]["ServiceDelivery"]["StopMonitoringDelivery"][0]["MonitoredStopVisitCancellation"][0]["ItemRef"]
    return next(row for row in rows if row[0] == 0), {named(row[1]): row for row in rows if row[0] == 1}


def yardstick_seconds(program, file, names, folder):
    """The processor seconds of the yardstick for the same rows: of each feed the moment, and then its visits."""
    moment, visits = rows_in(file)
    line = lambda row: b"%d\t%s\t%s\n" % row
    path = os.path.join(folder, "rows.txt")
    with open(path, "wb") as rows:
        for some in names:
            rows.write(line(moment) + b"\n" + b"".join(line(visits[name]) for name in some) + b"\n")
    before = resource.getrusage(resource.RUSAGE_CHILDREN)
    with open(path, "rb") as rows:
        subprocess.run([program, os.path.join(folder, "yardstick.db")], stdin=rows, check=True)
    after = resource.getrusage(resource.RUSAGE_CHILDREN)
    return after.ru_utime + after.ru_stime - before.ru_utime - before.ru_stime


def measure_feeds(siri, program, folder, count):
    print("%-20s %10s %10s %10s %10s %7s" % ("ms a feed", "keep", "serve", "beyond", "sqlite", "ratio"))
    for size in (1, 100):
        here = os.path.join(folder, "feeds%d" % size)
        documents, names = feeds_of(count, size)
        keeper = Keeper(siri, os.path.join(here, "keep"))
        kept, served = fed_seconds(keeper, documents), fed_seconds(Server(siri, os.path.join(here, "serve")), documents)
        yardstick = yardstick_seconds(program, keeper.file, names, here)
        ms = [1000 * seconds / count for seconds in (kept, served, kept - served, yardstick)]
        print("%-20s %10.3f %10.3f %10.3f %10.3f %7.2f" % ("of %d visits" % size, *ms, (kept - served) / yardstick))


def opened(keeper, what):
    """Prints how long a start takes until it answers."""
    begun = time.monotonic()
    keeper.start()
    seconds = time.monotonic() - begun
    print("%-44s %8.2f s, %8.2f s of processor time" % (what, seconds, processor(keeper.process.pid)))
    keeper.stop()


def subscribe(keeper, number):
    wanted = {"SubscriptionIdentifier": "S%d" % number, "InitialTerminationTime": later(hours=8), "StopMonitoringRequest": {"MonitoringRef": "S%d" % number}}
    request = {"RequestorRef": "display", "MessageIdentifier": str(number + 1), "StopMonitoringSubscriptionRequest": wanted,
               "SubscriptionContext": {"HeartbeatInterval": "PT1H"}}
    answered(post(keeper.port, json.dumps({"Siri": {"SubscriptionRequest": request}}).encode()))


def measure_opening(siri, folder, items, subscriptions, rows):
    keeper = Keeper(siri, os.path.join(folder, "opening"))
    keeper.start()
    moment = later(hours=2)
    for first in range(0, items, 1000):
        answered(post(keeper.port, feed([visit("%06d" % name, "v", moment) for name in range(first, min(first + 1000, items))])))
    for number in range(subscriptions):
        subscribe(keeper, number)
    keeper.stop()
    opened(keeper, "%d visits, %d subscriptions" % (items, subscriptions))
    fill(keeper.file, rows)
    opened(keeper, "%d rows of visits, %d subscriptions" % (rows, subscriptions))


def fill(file, rows):
    """Puts rows of visits that are over into a file, up to so many of all."""
    _, visits = rows_in(file)
    name, (_, key, text) = next(iter(visits.items()))
    ended = json.loads(text)["Siri"]["ServiceDelivery"]["StopMonitoringDelivery"][0]["MonitoredStopVisit"][0]
    moment = ended["MonitoredVehicleJourney"]["MonitoredCall"]["ExpectedDepartureTime"].encode()
    with sqlite3.connect(file) as database:
        for number in range(len(visits), rows):
            other = b"9%05d" % number
            row = [part.replace(b'"%s"' % name.encode(), b'"%s"' % other) for part in (key, text)]
            database.execute("insert into shelf values (1, ?, ?)", (row[0], row[1].replace(moment, b"2024-05-01T08:00:00Z")))
    database.close()
    sqlite(file, "pragma wal_checkpoint(truncate)")
    seal(file)


def main():
    words = argparse.ArgumentParser(description=__doc__)
    words.add_argument("siri")
    words.add_argument("--feeds", type=int, default=500)
    words.add_argument("--items", type=int, default=20_000)
    words.add_argument("--subscriptions", type=int, default=200)
    words.add_argument("--rows", type=int, default=100_000)
    given = words.parse_args()
    with tempfile.TemporaryDirectory() as folder:
        program = os.path.join(folder, "rows")
        source = os.path.join(os.path.dirname(os.path.abspath(__file__)), "rows.c")
        subprocess.run(["cc", "-O2", "-o", program, source, "-lsqlite3"], check=True)
        measure_feeds(given.siri, program, folder, given.feeds)
        measure_opening(given.siri, folder, given.items, given.subscriptions, given.rows)


if __name__ == "__main__":
    main()
