"""The trip updates of examples/deploy/portals against what GTFS-Realtime says: `gtfs.py PORTALS`. Of the sample come the bytes beside it,
which another library of protocol buffers made of the text beside it; a reader of this file's own, by the numbers of
gtfs-realtime.proto, reads them as that text. Of the sample with each member absent in turn, and with odd values, it reads what the table
of the page says. What is no delivery is told in one line."""
import copy
import datetime
import json
import os
import subprocess
import sys

# The messages of gtfs-realtime.proto, of each field its name and what it is: a text, a number, an enumeration or another message.
EVENT = {1: ("delay", int), 2: ("time", int), 3: ("uncertainty", int)}
MESSAGES = {
    1: ("header", {1: ("gtfs_realtime_version", str), 2: ("incrementality", ("FULL_DATASET", "DIFFERENTIAL")), 3: ("timestamp", int)}),
    2: ("entity", {1: ("id", str), 2: ("is_deleted", int), 3: ("trip_update", {
        1: ("trip", {1: ("trip_id", str), 2: ("start_time", str), 3: ("start_date", str),
                     4: ("schedule_relationship", ("SCHEDULED", "ADDED", "UNSCHEDULED", "CANCELED")), 5: ("route_id", str), 6: ("direction_id", int)}),
        2: ("stop_time_update", {1: ("stop_sequence", int), 2: ("arrival", EVENT), 3: ("departure", EVENT), 4: ("stop_id", str), 5: ("schedule_relationship", ("SCHEDULED", "SKIPPED", "NO_DATA"))}),
        3: ("vehicle", {1: ("id", str), 2: ("label", str), 3: ("license_plate", str)}), 4: ("timestamp", int), 5: ("delay", int)})})}


def varint(body, at):
    number = shift = 0
    while True:
        number |= (body[at] & 127) << shift
        at, shift = at + 1, shift + 7
        if body[at - 1] < 128:
            return number, at


def read(body, fields):
    """The fields of a message as they come, each with its name and its value."""
    at, found = 0, []
    while at < len(body):
        key, at = varint(body, at)
        value, at = varint(body, at)
        name, kind = fields[key >> 3]
        if key & 7 != (0 if kind is int or isinstance(kind, tuple) else 2):
            raise ValueError("%s has wire type %d" % (name, key & 7))
        if key & 7 == 2:
            value, at = body[at:at + value], at + value
            value = value.decode() if kind is str else read(value, kind)
        elif isinstance(kind, tuple):
            value = kind[value]
        elif value >= 1 << 63:
            value -= 1 << 64
        found.append((name, value))
    return found


def told(message, depth=0):
    """A message in the text format of protocol buffers."""
    lines = []
    for name, value in message:
        if isinstance(value, list):
            lines += ["  " * depth + name + " {", *told(value, depth + 1), "  " * depth + "}"]
        else:
            is_word = isinstance(value, int) or name in ("incrementality", "schedule_relationship")
            lines.append("  " * depth + "%s: %s" % (name, value if is_word else '"%s"' % value.replace("\\", "\\\\").replace('"', '\\"')))
    return lines


# ---- what the table says, as fields

def since(time):
    return int(datetime.datetime.fromisoformat(time).timestamp() // 1) if time else None


def named(*pairs):
    return [pair for pair in pairs if pair[1] not in (None, [])]


def call(one):
    events = []
    for name, way in (("arrival", "Arrival"), ("departure", "Departure")):
        time = one.get("Actual%sTime" % way) or one.get("Expected%sTime" % way)
        if time and one.get(way + "Status") != "cancelled":
            events.append((name, [("time", since(time))]))
    statuses = [one[status] for status in ("ArrivalStatus", "DepartureStatus") if status in one]
    is_skipped = bool(statuses) and all(status == "cancelled" for status in statuses)
    order = one.get("Order")
    order = order if order is not None and order < 4294967296 else None
    if order is None and "StopPointRef" not in one:
        return []
    relation = "SKIPPED" if is_skipped else None if events else "NO_DATA"
    return named(("stop_sequence", order), *([] if is_skipped else events), ("stop_id", one.get("StopPointRef")), ("schedule_relationship", relation))


def update(journey, recorded):
    framed = journey.get("FramedVehicleJourneyRef", {"DatedVehicleJourneyRef": journey.get("DatedVehicleJourneyRef")})
    day = {"2024-05-01": "20240501"}.get(framed.get("DataFrameRef"))
    is_off = journey.get("Cancellation") is True
    calls = [call(one) for kept in ("RecordedCalls", "EstimatedCalls") for one in journey.get(kept, {}).get(kept[:-1], [])]
    return named(("trip", named(("trip_id", framed["DatedVehicleJourneyRef"]), ("start_date", day), ("schedule_relationship", "CANCELED" if is_off else None), ("route_id", journey.get("LineRef")))),
                 *[("stop_time_update", one) for one in calls if one and not is_off],
                 ("vehicle", named(("id", journey.get("VehicleRef")))), ("timestamp", since(recorded)),
                 ("delay", {"PT1M30.500S": 90, "-PT30S": -30, "P1DT2H": 93600, "PT0S": 0}.get(journey.get("Delay"))))


def expected(delivery):
    frames = [frame for one in delivery["EstimatedTimetableDelivery"] for frame in one.get("EstimatedJourneyVersionFrame", [])]
    journeys = [(journey, frame.get("RecordedAtTime")) for frame in frames for journey in frame["EstimatedVehicleJourney"]]
    return [("header", named(("gtfs_realtime_version", "2.0"), ("incrementality", "FULL_DATASET"), ("timestamp", since(delivery.get("ResponseTimestamp")))))] + [
        ("entity", [("id", str(place)), ("trip_update", update(*one))]) for place, one in enumerate(journeys, 1)]


def edited(document):
    """The document with each member of its journeys and calls absent in turn, and with odd values."""
    def places(value, path):
        for key, inner in value.items() if isinstance(value, dict) else enumerate(value) if isinstance(value, list) else ():
            yield path + [key]
            yield from places(inner, path + [key])

    kept = ("Siri", "ServiceDelivery", "EstimatedTimetableDelivery", "EstimatedJourneyVersionFrame", "EstimatedVehicleJourney", "DatedVehicleJourneyRef", "Status")
    for path in [path for path in places(document, []) if isinstance(path[-1], str) and path[-1] not in kept]:
        made = copy.deepcopy(document)
        around = made
        for step in path[:-1]:
            around = around[step]
        del around[path[-1]]
        yield "without " + ".".join(map(str, path)), made
    frames = ("Siri", "ServiceDelivery", "EstimatedTimetableDelivery", 0, "EstimatedJourneyVersionFrame")
    for member, value in (("Delay", "P1DT2H"), ("Delay", "PT0S"), ("Delay", "P30000D"), ("LineRef", "\u05ea\u0645\u00e9 \U0001f68d" * 40), ("Cancellation", True)):
        made = copy.deepcopy(document)
        around = made
        for step in frames:
            around = around[step]
        around[0]["EstimatedVehicleJourney"][0][member] = value
        yield "with %s %s" % (member, value), made


def written(portals, text):
    return subprocess.run([os.path.join(portals, "trip_updates")], input=text, capture_output=True, check=False)


def main(portals):
    faults, samples = [], os.path.join(portals, "samples", "trip-updates.")
    text, bytes_wanted, text_wanted = (open(samples + end, "rb").read() for end in ("json", "pb", "text"))
    if written(portals, text).stdout != bytes_wanted:
        faults.append("of the sample come other bytes than trip-updates.pb")
    if "\n".join(told(read(bytes_wanted, MESSAGES))) + "\n" != text_wanted.decode():
        faults.append("trip-updates.pb isn't trip-updates.text")
    for what, document in edited(json.loads(text)):
        found = written(portals, json.dumps(document).encode())
        if found.returncode or read(found.stdout, MESSAGES) != expected(document["Siri"]["ServiceDelivery"]):
            faults.append("%s comes\n%s\nand by the table\n%s" % (what, "\n".join(told(read(found.stdout, MESSAGES))), "\n".join(told(expected(document["Siri"]["ServiceDelivery"])))))
    for answer in (b"", b"[]", b"{}", b"NotPath\n", b'{"Siri":{"ServiceDelivery":[]}}', b'{"Siri":{"ServiceDelivery":{"Status":false}}}',
                   b'{"Siri":{"ServiceDelivery":{"Status":true,"EstimatedTimetableDelivery":[{"Status":false}]}}}'):
        found = written(portals, answer)
        if found.returncode != 1 or found.stdout or len(found.stderr.splitlines()) != 1:
            faults.append("of %s trip_updates makes %s and tells %s" % (answer, found.stdout, found.stderr.decode()))
    for fault in faults:
        print("portals: " + fault)
    return 1 if faults else 0


if __name__ == "__main__":
    sys.exit(main(*sys.argv[1:]))
