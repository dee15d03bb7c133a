#!/usr/bin/env python3
"""Runs the program, its phases and the yardsticks over the inputs in a folder: `measure.py CRATES YARDSTICK FOLDER`,
CRATES being the folder of the built crates and YARDSTICK the program on serde_json."""
import os
import resource
import subprocess
import sys

RUNS = 5
PHASE_RUNS = 15
SLOW_RUNS = 2
JSON = """
import json, sys
for line in sys.stdin:
    if line.startswith("feed "):
        sys.stdout.write(json.dumps(json.loads(line[5:]), separators=(",", ":")) + "\\n")
"""


def run_once(command, path):
    """The processor seconds and the peak memory in MB of a run with that file as its input, which has to end with 0.
    The peak is told by `time` through a file, since a child of this script would count this script's. The output goes
    to a file too: into /dev/null grep stops at its first match."""
    told = path + ".peak"
    with open(path, "rb") as source, open(path + ".output", "wb") as output:
        timed = ["/usr/bin/time", "-f", "%M", "-o", told] + command
        before = resource.getrusage(resource.RUSAGE_CHILDREN)
        subprocess.run(timed, stdin=source, stdout=output, check=True)
        after = resource.getrusage(resource.RUSAGE_CHILDREN)
    seconds = after.ru_utime - before.ru_utime + after.ru_stime - before.ru_stime
    with open(told) as kilobytes:
        return seconds, int(kilobytes.read()) * 1024 / 1e6


PHASES = ["bytes", "tokens", "message", "text"]


def replay_beside_yardsticks(program, folder):
    """Scripts, each beside its yardstick in the same run."""
    replay = [program, "replay"]
    reads_json = [sys.executable, "-S", "-c", JSON]
    cases = [
        ("lines", 500_000, ["grep", "-c", "^#"]),
        ("lines", 1_000_000, ["grep", "-c", "^#"]),
        ("visits", 10_000, reads_json),
        ("visits", 20_000, reads_json),
    ]
    row = "%-8s %9s %7s  %-10s %9s %8s %9s %7s"
    print(row % ("input", "size", "MB", "program", "seconds", "MB/s", "peak MB", "ratio"))
    for kind, size, yardstick in cases:
        path = os.path.join(folder, "%s.%d" % (kind, size))
        megabytes = os.path.getsize(path) / 1e6
        runs = [(run_once(replay, path), run_once(yardstick, path)) for _ in range(RUNS)]
        least = min(run[1][0] for run in runs)
        for place, name in enumerate(["siri", os.path.basename(yardstick[0])]):
            seconds = min(run[place][0] for run in runs)
            peak = max(run[place][1] for run in runs)
            figures = ("%.1f" % megabytes, name, "%.3f" % seconds, "%.0f" % (megabytes / seconds), "%.1f" % peak)
            print(row % ((kind, size) + figures + ("%.2f" % (seconds / least),)))


def phases(program, folder):
    """The phases of reading and writing a document, each as the difference of two runs."""
    path = os.path.join(folder, "delivery.8000")
    megabytes = os.path.getsize(path) / 1e6
    runs = [[run_once([program, "phase", phase], path) for phase in PHASES] for _ in range(PHASE_RUNS)]
    row = "%-8s %7s %9s %8s %9s"
    print(row % ("phase", "MB", "seconds", "MB/s", "peak MB"))
    before = 0.0
    for place, phase in enumerate(PHASES):
        until = min(run[place][0] for run in runs)
        peak = max(run[place][1] for run in runs)
        seconds = max(until - before, 0.001)
        print(row % (phase, "%.1f" % megabytes, "%.3f" % seconds, "%.0f" % (megabytes / seconds), "%.1f" % peak))
        before = until


def documents(program, yardstick, folder):
    """`siri convert` and `siri check` of one document, beside a program on serde_json and one written by hand in the same runs."""
    path = os.path.join(folder, "delivery.8000")
    megabytes = os.path.getsize(path) / 1e6
    by_hand = [("%s by hand" % command, [yardstick, "--by-hand", command]) for command in ("convert", "check")]
    commands = [("convert", [program, "convert"]), ("check", [program, "check"]), ("yardstick", [yardstick, "convert"])] + by_hand
    runs = [[run_once(command, path) for _, command in commands] for _ in range(PHASE_RUNS)]
    least = min(run[2][0] for run in runs)
    row = "%-15s %7s %9s %8s %9s %9s %7s"
    print(row % ("command", "MB", "seconds", "MB/s", "peak MB", "peak/doc", "ratio"))
    for place, (name, _) in enumerate(commands):
        seconds = min(run[place][0] for run in runs)
        peak = max(run[place][1] for run in runs)
        figures = ("%.3f" % seconds, "%.0f" % (megabytes / seconds), "%.1f" % peak, "%.1f" % (peak / megabytes))
        print(row % ((name, "%.1f" % megabytes) + figures + ("%.2f" % (seconds / least),)))


SIZES = [("stops", 10_000, 0), ("stops", 20_000, 0), ("stops", 20_000, 100), ("sorted", 10_000, 0), ("sorted", 20_000, 0)]


def producer(program, yardstick, folder):
    """What a fed visit and an ask take, as differences of runs: of 20,000 live visits the second 10,000, and 100 asks of
    which each shows 200 of them. The bytes of a visit are those of its canonical text, as the answers have it."""
    def path(size):
        return os.path.join(folder, "%s.%d.%d" % size)
    programs = [("siri", [program, "replay"]), ("yardstick", [yardstick, "replay"])]
    runs = [[[run_once(command, path(size)) for size in SIZES] for _, command in programs] for _ in range(RUNS)]
    run_once(programs[0][1], path(SIZES[2]))
    with open(path(SIZES[2]) + ".output") as report:
        answers = [line for line in report if line.startswith("answer ")]
    canonical = sum(map(len, answers)) / sum(line.count('"ItemIdentifier"') for line in answers)
    print("canonical text of a visit: %.0f bytes; %d asks, 200 items each" % (canonical, len(answers)))
    figures = []
    for place, _ in enumerate(programs):
        half, whole, asked, half_sorted, whole_sorted = [min(run[place][size][0] for run in runs) for size in range(len(SIZES))]
        half_peak, peak = [max(run[place][size][1] for run in runs) for size in range(2)]
        more = SIZES[1][1] - SIZES[0][1]
        figures.append((
            (whole - half) / more * 1e6,
            (whole_sorted - half_sorted) / more * 1e6,
            (asked - whole) / len(answers) * 1e6,
            (peak - half_peak) * 1e6 / more,
        ))
    names = ["us a fed visit, in no order", "us a fed visit, in order of key", "us an ask", "bytes a held visit"]
    row = "%-32s %10s %10s %7s"
    print(row % ("of 20,000 visits", "siri", "yardstick", "ratio"))
    for place, name in enumerate(names):
        ours, theirs = figures[0][place], figures[1][place]
        print(row % (name, "%.1f" % ours, "%.1f" % theirs, "%.2f" % (ours / theirs)))


# What changes, visits, subscriptions, visits that a subscription shows, changes, and packets that a change leaves.
LOADS = [
    ("subscribed", 1_000, 20, 100, 2_000, 4),
    ("subscribed", 20_000, 20, 100, 2_000, 2),
    ("subscribed", 20_000, 200, 100, 2_000, 2),
    ("shared", 20_000, 200, 100, 20, 400),
    ("wide", 10_000, 1, 10_000, 2_000, 2),
    ("wide", 20_000, 1, 20_000, 2_000, 2),
    ("ticks", 20_000, 200, 100, 10_000, 0),
    ("nearest", 20_000, 1, 100, 2_000, 2),
    ("limited", 20_000, 1, 5, 2_000, 2),
    ("unshown", 20_000, 200, 2, 10_000, 0),
    ("boards", 20_000, 200, 2, 10_000, 2),
    ("departing", 20_000, 200, 2, 10_000, 0),
    ("silent", 1_000, 1, 1_000, 50_000, 0),
    ("silent", 1_000, 1, 1_000, 200_000, 0),
    ("journeys", 20_000, 0, 0, 1_000, 0),
]


def subscriptions(program, yardstick, folder):
    """What a change of one visit takes, by the visits and the subscriptions: it is fed, settled, sent, taken, acknowledged and settled
    again, as the difference between so many changes and none, beside the same script by a program that is written by hand; and what
    clock lines, keys that soon go and asks of a line take. And memory: the peak; of a visit that is shown to a subscription, which
    stands in the producer's and in the consumer's view and in a packet; and of a packet of a change."""
    def path(kind, visits, wanted, changes):
        return os.path.join(folder, "%s.%d.%d.%d" % (kind, visits, wanted, changes))

    def cost(command, scripts):
        """The milliseconds of all changes, and the peaks of each script."""
        runs = [[run_once(command, script) for script in scripts] for _ in range(SLOW_RUNS)]
        before, after = [min(run[place][0] for run in runs) for place in (-2, -1)]
        return (after - before) * 1e3, [max(run[place][1] for run in runs) for place in range(len(scripts))]
    replay, by_hand = [program, "replay"], [yardstick, "--by-hand", "replay"]
    row = "%-10s %7s %14s %8s %12s %12s %7s %9s %12s %7s %20s %15s"
    print(row % ("changes", "visits", "subscriptions", "changes", "us a change", "us by hand", "ratio", "peak MB", "MB by hand", "ratio",
                 "bytes a shown visit", "bytes a packet"))
    for kind, visits, wanted, shown, changes, packets in LOADS:
        scripts = [path(kind, visits, 0, 0), path(kind, visits, wanted, 0), path(kind, visits, wanted, changes)]
        ours, (bare, subscribed, changed) = cost(replay, scripts)
        theirs, (_, peak) = cost(by_hand, scripts[1:])
        same_report(replay, by_hand, scripts[-1])
        held = "%.0f" % ((subscribed - bare) * 1e6 / (wanted * shown)) if wanted * shown > 1_000 else "-"
        packet = "%.0f" % ((changed - subscribed) * 1e6 / (packets * changes)) if packets else "-"
        times = ["%.1f" % (it / changes * 1e3) for it in (ours, theirs)] + ["%.1f" % (ours / max(theirs, 1e-3))]
        memory = ["%.1f" % changed, "%.1f" % peak, "%.1f" % (changed / peak)]
        print(row % (kind, visits, wanted, changes, *times, *memory, held, packet))


def same_report(replay, by_hand, script):
    """Stops where the two write different reports."""
    reports = []
    for command in (replay, by_hand):
        with open(script, "rb") as source:
            reports.append(subprocess.run(command, stdin=source, stdout=subprocess.PIPE, check=True).stdout)
    if reports[0] != reports[1]:
        sys.exit("measure: of %s the program by hand writes another report" % script)


def load(program, yardstick, folder):
    """`siri load`: a large random network of four subscriptions, at three sizes, beside the same by hand."""
    path = os.path.join(folder, "load")
    open(path, "w").close()
    row = "%-8s %9s %12s %9s %9s %9s %12s %7s"
    print(row % ("load", "seconds", "us an event", "by hand", "ratio", "peak MB", "MB by hand", "ratio"))
    for count in (2_000, 5_000, 20_000):
        words = ["load", "7", str(count)]
        runs = [[run_once(command + words, path) for command in ([program], [yardstick, "--by-hand"])] for _ in range(RUNS)]
        seconds, theirs = [min(run[place][0] for run in runs) for place in (0, 1)]
        peak, other = [max(run[place][1] for run in runs) for place in (0, 1)]
        times = ("%.3f" % seconds, "%.1f" % (seconds / count * 1e6), "%.3f" % theirs, "%.1f" % (seconds / theirs))
        print(row % (count, *times, "%.1f" % peak, "%.1f" % other, "%.1f" % (peak / other)))


def main(crates, yardstick, folder):
    siri = os.path.join(crates, "siri/out/siri")
    replay_beside_yardsticks(siri, folder)
    print()
    phases(os.path.join(crates, "siri_chains/out/siri_chains"), folder)
    print()
    documents(siri, yardstick, folder)
    print()
    producer(siri, yardstick, folder)
    print()
    subscriptions(siri, yardstick, folder)
    print()
    load(siri, yardstick, folder)


if __name__ == "__main__":
    main(*sys.argv[1:])
