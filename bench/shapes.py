#!/usr/bin/env python3
"""What a document takes by its shape: `shapes.py SIRI [MB]`. Of each shape a document of 8 MB is checked: how long that takes, the most memory
that the program has, and how many bytes that is for each of the document. At most 12 are wanted of any shape, 5 of canonical text."""
import json
import os
import re
import subprocess
import sys
import tempfile

MEGABYTE, LONGEST = 1_048_576, 8_388_608
TIMED = '{"ExpectedDepartureTime":"2024-05-01T10:00:00Z"}'


def visit(number, more=""):
    call = {"AimedDepartureTime": "2024-05-01T10:00:00Z", "ExpectedDepartureTime": "2024-05-01T10:%02d:00Z" % (number % 60), "StopPointName": "Market Square"}
    journey = {"LineRef": "L%d" % (number % 50), "DestinationName": "Harbour", "Monitored": True, "MonitoredCall": call}
    row = {"RecordedAtTime": "2024-05-01T09:59:30Z", "ItemIdentifier": "v%07d" % number, "MonitoringRef": "S%d" % (number % 700), "MonitoredVehicleJourney": journey}
    return json.dumps(row, separators=(",", ":"))[:-1] + more + "}"


def stops(items):
    return '{"Siri":{"ServiceDelivery":{"StopMonitoringDelivery":[{"MonitoredStopVisit":[%s]}]}}}' % items


def timetable(items):
    return '{"Siri":{"ServiceDelivery":{"EstimatedTimetableDelivery":[{"EstimatedJourneyVersionFrame":[%s]}]}}}' % items


def journey(number, calls):
    return '{"LineRef":"L1","DirectionRef":"0","DatedVehicleJourneyRef":"j%07d","EstimatedCalls":{"EstimatedCall":[%s]}}' % (number, calls)


def frame(journeys):
    return '{"EstimatedVehicleJourney":[%s]}' % journeys


def many(text, size):
    """So many of these, with commas between them, as have this size."""
    return ",".join([text] * (size // (len(text) + 1)))


def numbered(make, size, most=20_000):
    """The first so many of these that have this size, at most as many as a list may have."""
    count = min(most, size // (len(make(most - 1)) + 1))
    return ",".join(make(number) for number in range(count))


# Each makes a document of about this size.
SHAPES = {
    "visits": lambda size: stops(numbered(visit, size)),
    "visits, the last refused": lambda size: stops(numbered(visit, size) + ',{"ItemIdentifier":1}'),
    "visits, a null behind them": lambda size: stops(numbered(visit, size) + ",null"),
    "visits and `version`": lambda size: stops(numbered(visit, size))[:-2] + ',"version":"2.0"}}',
    "visits, no list around the delivery": lambda size: '{"Siri":{"ServiceDelivery":{"StopMonitoringDelivery":{"MonitoredStopVisit":[%s]}}}}' % numbered(visit, size),
    "visits with escapes": lambda size: stops(numbered(lambda number: visit(number).replace("Harbour", "H\\u00e4fen"), size)),
    "members of no row in a visit": lambda size: stops(visit(0, "," + numbered(lambda number: '"x%d":1' % number, size, size))),
    "members of no row beside the delivery": lambda size: '{"Siri":{%s,"ServiceDelivery":{}}}' % numbered(lambda number: '"x%d":1' % number, size, size),
    "journeys of 1,000 empty calls": lambda size: timetable(frame(numbered(lambda number: journey(number, TIMED + "," + many("{}", 2_997)), size))),
    "journeys of calls with one time": lambda size: timetable(frame(numbered(lambda number: journey(number, many(TIMED, 5_000)), size))),
    "journeys, a frame each": lambda size: timetable(numbered(lambda number: frame(journey(number, TIMED)), size)),
    "frames of nothing": lambda size: timetable(many("{}", size)),
    "visits of nothing": lambda size: stops(many("{}", size)),
    "lists in one another": lambda size: '{"Siri":[%s]}' % many("[" * 124 + "]" * 124, size),
    "lists of one": lambda size: '{"Siri":[%s]}' % many("[1]", size),
    "numbers": lambda size: '{"Siri":[%s]}' % many("1", size),
    "one text": lambda size: '{"Siri":"%s"}' % ("x" * size),
    "one text of escapes": lambda size: '{"Siri":"%s"}' % ("\\n" * (size // 2)),
}


def measured(siri, document):
    """The seconds and MB that `check` takes, and what it tells."""
    with tempfile.NamedTemporaryFile() as file:
        file.write(document)
        file.flush()
        words = ["/usr/bin/time", "-f", "%U %S %M", siri, "check"]
        with open(file.name, "rb") as given:
            done = subprocess.run(words, stdin=given, capture_output=True, text=True, check=False)
    user, system, memory = re.search(r"(\S+) (\S+) (\d+)\s*$", done.stderr).groups()
    return float(user) + float(system), int(memory) / 1024, done.stdout.split("\n")[0][:60]


def main(siri, size="8"):
    print("%-38s %6s %8s %8s %8s  %s" % ("shape", "MB", "seconds", "peak MB", "B a byte", "answer"))
    for name, make in SHAPES.items():
        document = make(int(size) * MEGABYTE - 2_000).encode()
        assert len(document) <= LONGEST, name
        seconds, memory, told = measured(os.path.abspath(siri), document)
        print("%-38s %6.1f %8.2f %8.1f %8.1f  %s" % (name, len(document) / MEGABYTE, seconds, memory, memory * MEGABYTE / len(document), told), flush=True)


if __name__ == "__main__":
    main(*sys.argv[1:])
