#!/usr/bin/env python3
"""What asks take beside bad subscribers, of each of some programs in turn: `beside.py SIRI ..`.

A producer has 100 visits of a stop and 200 subscriptions to it: all by an address that answers well, or 50 of them by one
that swallows packets, or that says nothing. Asks for the stop go on for 40 seconds, fifty a second, each on time
whatever became of those before it, with a feed of one visit in every second. A line has how long half of the asks took,
99 of 100 and the longest, how many weren't answered within ten seconds, and how many of the feeds came to the good
subscribers. Then 100,000 connections in turn: how many asks a second one client gets, the system's calls of
each by strace, where it is there, and the memory and open descriptors of the program at the first and the last of them.
"""
import os
import subprocess
import sys
import tempfile
import threading
import time
from concurrent.futures import ThreadPoolExecutor

TOP = os.path.join(os.path.dirname(os.path.abspath(__file__)), "..")
sys.path.insert(0, os.path.join(TOP, ".ci"))
sys.dont_write_bytecode = True

import peers  # noqa: E402
from peers import Program, STATUS, Subscriber, Swallowing, answer_well, asked_for, feed, in_minutes, say_nothing, subscription, visit  # noqa: E402

VISITS, SUBSCRIPTIONS, BAD, RATE, SECONDS, PATIENCE = 100, 200, 50, 50, 40, 10
CONNECTIONS, TRACED = 100_000, 2_000
KINDS = {
    "all of them good": None,
    "50 swallow packets": Swallowing,
    "50 say nothing": lambda: Subscriber(say_nothing),
}


def asks(producer, feeds):
    """What each ask took, in seconds, or nothing; with a feed a second."""
    taken, begun = [], time.monotonic() + 0.5

    def ask(number):
        time.sleep(max(0.0, begun + number / RATE - time.monotonic()))
        due = begun + number / RATE
        try:
            producer.ask(asked_for())
        except (OSError, AssertionError):
            return None
        return time.monotonic() - due

    def tell():
        for number in range(SECONDS):
            time.sleep(max(0.0, begun + number + 0.51 - time.monotonic()))
            moment = in_minutes(200 + number)
            try:
                producer.ask(feed([visit("v000", moment)]))
                feeds.append(moment)
            except (OSError, AssertionError):
                pass

    teller = threading.Thread(target=tell)
    teller.start()
    with ThreadPoolExecutor(200) as pool:
        taken = list(pool.map(ask, range(SECONDS * RATE)))
    teller.join()
    return taken


def beside(siri, kind):
    """One line: half, 99 of 100, the longest, how many weren't answered in time, and the feeds that came through."""
    producer, good = Program(siri, ["lite", "p"]), Subscriber(answer_well)
    producer.ask(feed([visit("v%03d" % number, in_minutes(30 + number)) for number in range(VISITS)]))
    bad = BAD if kind else 0
    for first in range(0, SUBSCRIPTIONS - bad, 50):
        producer.ask(subscription("g%d" % first, good.port, 50))
    if kind:
        producer.ask(subscription("b", kind().port, bad))
    feeds = []
    taken = asks(producer, feeds)
    in_time = sorted(one for one in taken if one is not None and one <= PATIENCE)
    time.sleep(2)
    came = str(good.came)
    shown = sum(moment in came for moment in set(feeds))
    producer.process.kill()
    return [1000 * in_time[len(in_time) // 2], 1000 * in_time[len(in_time) * 99 // 100], 1000 * in_time[-1], len(taken) - len(in_time), "%d of %d" % (shown, len(set(feeds)))]


def state(process):
    """The memory of a process, in MB, and how many descriptors it has."""
    with open("/proc/%d/status" % process.pid, encoding="utf-8") as file:
        memory = next(int(line.split()[1]) for line in file if line.startswith("VmRSS:"))
    return memory / 1024, len(os.listdir("/proc/%d/fd" % process.pid))


def many(siri):
    """Asks a second of one client, the system's calls of an ask, and the memory and descriptors at the first and the last."""
    producer = Program(siri, ["lite", "p"])
    producer.ask(feed([visit("v%03d" % number, in_minutes(30 + number)) for number in range(VISITS)]))
    before, begun = state(producer.process), time.monotonic()
    for _ in range(CONNECTIONS):
        producer.ask(STATUS)
    rate, after = CONNECTIONS / (time.monotonic() - begun), state(producer.process)
    calls = traced(producer) if any(os.access(os.path.join(it, "strace"), os.X_OK) for it in os.environ["PATH"].split(":")) else "-"
    producer.process.kill()
    return [rate, calls, before[0], after[0], before[1], after[1]]


def traced(producer):
    """The system's calls of an ask."""
    with tempfile.NamedTemporaryFile("r") as told:
        tracer = subprocess.Popen(["strace", "-f", "-c", "-o", told.name, "-p", str(producer.process.pid)], stderr=subprocess.DEVNULL)
        time.sleep(1)
        for _ in range(TRACED):
            producer.ask(STATUS)
        tracer.terminate()
        tracer.wait()
        total = [line for line in told.read().splitlines() if line.endswith("total")]
    return "%.1f" % (int(total[0].split()[3 if total[0].split()[0] == "100.00" else 2]) / TRACED) if total else "-"


def main(*programs):
    with peers.begun():
        print("%-20s %8s %10s %10s %10s %10s %14s" % ("subscriptions", "program", "half, ms", "99 %, ms", "worst, ms", "none", "feeds came"))
        for name, kind in KINDS.items():
            for place, siri in enumerate(programs, 1):
                print("%-20s %8d %10.1f %10.1f %10.1f %10d %14s" % (name, place, *beside(siri, kind)), flush=True)
        print("%-20s %8s %10s %10s %10s %10s %14s" % ("connections", "program", "a second", "calls each", "MB first", "MB last", "descriptors"))
        for place, siri in enumerate(programs, 1):
            rate, calls, first, last, low, high = many(siri)
            told = "%d, then %d" % (low, high)
            print("%-20d %8d %10.0f %10s %10.1f %10.1f %14s" % (CONNECTIONS, place, rate, calls, first, last, told), flush=True)


if __name__ == "__main__":
    main(*map(os.path.realpath, sys.argv[1:]))
