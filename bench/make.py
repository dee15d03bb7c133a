#!/usr/bin/env python3
"""Makes an input of the benchmark: `make.py lines N` is a script of N lines that are passed over, `make.py visits N`
one with N visits fed in four lines and asked for once, `make.py delivery N` a ServiceDelivery of N visits with the rows
that feeds have, about 600 bytes each, and `make.py stops N A` a script that feeds N such visits, 200 to a stop and 100 to a
line, and asks A times for those of a stop; `make.py sorted N A` the same with visits that come in order of their keys;
`make.py subscribed N S C` a script of N such visits, 100 to a stop, of S subscriptions to one stop each, and of C changes of one
visit each, in which every packet is delivered in order; `make.py shared N S C` the same with subscriptions to one stop, the first, so
that each shows each change; `make.py wide N S C` with one stop of all visits; `make.py ticks N S C` as `subscribed`, with clock lines
that pass no departure in the place of changes; `make.py nearest N S C` with changes of the five departures of a stop that come first, and
`make.py limited N S C` the same with MaximumStopVisits 5.

A city of N visits, 40 to a stop, and S boards that show the next three departures of stops of their own with two of these N each, which
acknowledge: `make.py unshown N S C` has C changes of a visit that none of them shows, `make.py boards N S C` changes that one shows, and
`make.py departing N S C` clock lines at each of which a visit departs that none shows.

`make.py silent N S C` has C keys, a thousand at a time, each of a visit that departs a second later, beside N visits and S subscriptions
that never acknowledge; `make.py journeys N 0 A` N journeys of 500 lines, and A asks for one line each. It goes to standard output."""
import json
import sys


def lines(count):
    """Empty lines and comments of up to 100 bytes, a line end included."""
    comment = "# " + "a comment that a script may have between its events, as long as many a line is wide".ljust(97, ".")
    for number in range(count):
        print(comment[: number * 37 % 100] if number % 10 else "")


def visit(number):
    minute = number % (24 * 60)
    time = "2024-05-01T%02d:%02d:%02d.%03dZ" % (minute // 60, minute % 60, number % 60, number % 1000)
    # Identifiers in no order: 7919 has no divisor in common with the counts that are measured.
    return {
        "ItemIdentifier": "visit-%08d" % (number * 7919 % 100_000_007),
        "MonitoredVehicleJourney": {"LineRef": "L%d" % (number % 40), "MonitoredCall": {"ExpectedDepartureTime": time}},
        "MonitoringRef": "S1",
    }


def put(word, document):
    print(word, json.dumps({"Siri": document}, separators=(",", ":")))


def visits(count):
    print("start 2024-05-01T00:00:00Z")
    for part in range(4):
        entries = [visit(number) for number in range(part * count // 4, (part + 1) * count // 4)]
        put("feed", {"ServiceDelivery": {"StopMonitoringDelivery": [{"MonitoredStopVisit": entries}]}})
    put("ask", {"ServiceRequest": {"StopMonitoringRequest": [{"MonitoringRef": "S1"}]}})


STOPS = ["Hauptbahnhof", "Universit\u00e4t Nord", "Marktplatz", "Stadion / Messe"]


def clock(seconds):
    return "2024-05-01T%02d:%02d:%02d+02:00" % (seconds // 3600 % 24, seconds // 60 % 60, seconds % 60)


def stop_name(stop):
    return "STIF:StopPoint:Q:%d:" % (41000 + stop)


def realistic_visit(number, stops=500):
    """A visit in the spellings of feeds: names as objects with a value, texts in lists, numbers as numbers."""
    due = 6 * 3600 + number * 7 % (16 * 3600)
    return {
        "RecordedAtTime": "2024-05-01T05:59:%02d.123456Z" % (number % 60),
        "ItemIdentifier": "visit-%08d" % (number * 7919 % 100_000_007),
        "MonitoringRef": {"value": stop_name(number % stops)},
        "MonitoredVehicleJourney": {
            "LineRef": {"value": "STIF:Line::C%05d:" % (number % 40)},
            "DirectionRef": "out" if number % 2 else "in",
            "FramedVehicleJourneyRef": {"DataFrameRef": {"value": "any"}, "DatedVehicleJourneyRef": "J%07d" % number},
            "DestinationName": [{"value": STOPS[number % 4]}],
            "JourneyNote": [],
            "Delay": "PT%dS" % (number % 240),
            "VehicleLocation": {"Longitude": 2.3 + number % 1000 / 10000, "Latitude": 48.8 + number % 700 / 10000},
            "MonitoredCall": {
                "StopPointName": [{"value": STOPS[(number + 1) % 4]}],
                "Order": number % 30,
                "VehicleAtStop": False,
                "AimedDepartureTime": clock(due),
                "ExpectedDepartureTime": clock(due + number % 240),
                "DepartureStatus": "delayed" if number % 240 else "onTime",
            },
        },
    }


def delivery(count):
    entries = [realistic_visit(number) for number in range(count)]
    services = [{"ResponseTimestamp": "2024-05-01T04:00:00Z", "Status": "true", "MonitoredStopVisit": entries}]
    document = {"ResponseTimestamp": "2024-05-01T06:00:00+02:00", "ProducerRef": {"value": "AGENCY"}, "StopMonitoringDelivery": services}
    print(json.dumps({"Siri": {"ServiceDelivery": document}}, separators=(",", ":"), ensure_ascii=False))


def by_key(visit):
    return visit["MonitoringRef"]["value"], visit["ItemIdentifier"]


def stops(count, asks, in_order=False):
    print("start 2024-05-01T04:00:00Z")
    number_of_stops = count // 200
    visits = [realistic_visit(number, number_of_stops) for number in range(count)]
    if in_order:
        visits.sort(key=by_key)
    for first in range(0, count, 100):
        entries = visits[first : first + 100]
        put("feed", {"ServiceDelivery": {"StopMonitoringDelivery": [{"MonitoredStopVisit": entries}]}})
    for ask in range(asks):
        put("ask", {"ServiceRequest": {"StopMonitoringRequest": [{"MonitoringRef": stop_name(ask % number_of_stops)}]}})


def in_order(count, asks):
    stops(count, asks, in_order=True)


def expected_at(visit):
    return visit["MonitoredVehicleJourney"]["MonitoredCall"]["ExpectedDepartureTime"]


def subscribed(count, subscriptions, changes, number_of_stops=0, stops_asked=0, ticks=False, nearest=0, limit=None):
    """Every packet is delivered as soon as it is sent: a request, its response, the parts of the first round, each with its
    acknowledgement; and of each change the round and its acknowledgement for each subscription that shows it. The changes are of
    any visit, or of so many of each stop that come first."""
    print("start 2024-05-01T04:00:00Z")
    number_of_stops = number_of_stops or count // 100
    stops_asked = stops_asked or number_of_stops
    a_stop = count // number_of_stops
    visits = sorted((realistic_visit(number, number_of_stops) for number in range(count)), key=by_key)
    for first in range(0, count, 100):
        put("feed", {"ServiceDelivery": {"StopMonitoringDelivery": [{"MonitoredStopVisit": visits[first : first + 100]}]}})
    sent = 0

    def deliver(packets):
        nonlocal sent
        for _ in range(packets):
            sent += 1
            print("deliver", sent)
    for number in range(subscriptions):
        wanted = {"SubscriptionIdentifier": "s%d" % number, "InitialTerminationTime": "2024-05-31T00:00:00Z"}
        wanted["StopMonitoringRequest"] = {"MonitoringRef": stop_name(number % stops_asked), "PreviewInterval": "P1D"}
        if limit:
            wanted["StopMonitoringRequest"]["MaximumStopVisits"] = limit
        print("subscribe c%d" % (number % 16), json.dumps({"StopMonitoringSubscriptionRequest": wanted}, separators=(",", ":")))
        deliver(2 + 2 * -(-(limit or a_stop) // 100))
    if ticks:
        for tick in range(changes):
            print("clock 2024-05-01T04:00:%02d.%03dZ" % (tick // 1000 % 60, tick % 1000))
        return
    for change in range(changes):
        first = change % subscriptions % stops_asked * a_stop
        again = change // subscriptions
        if nearest:
            visit = sorted(visits[first : first + a_stop], key=expected_at)[again % nearest]
            # (each time another tenth of its second, so their order stays)
            expected = "%s.%d+02:00" % (expected_at(visit)[:19], 1 + again // nearest % 9)
        else:
            visit = visits[first + again % a_stop]
            # (half a second, which no visit has before)
            expected = clock(6 * 3600 + change * 61 % (16 * 3600)).replace("+", ".5+")
        visit["MonitoredVehicleJourney"]["MonitoredCall"]["ExpectedDepartureTime"] = expected
        put("feed", {"ServiceDelivery": {"StopMonitoringDelivery": [{"MonitoredStopVisit": [visit]}]}})
        deliver(2 * len([number for number in range(subscriptions) if number % stops_asked == change % subscriptions % stops_asked]))


class Script:
    """A script in which each packet is delivered as soon as it is sent, unless it is left out."""

    def __init__(self):
        self.packets = 0
        print("start 2024-05-01T04:00:00Z")

    def feed(self, visits):
        put("feed", {"ServiceDelivery": {"StopMonitoringDelivery": [{"MonitoredStopVisit": visits}]}})

    def feed_all(self, visits):
        for first in range(0, len(visits), 100):
            self.feed(visits[first : first + 100])

    def deliver(self, packets):
        for _ in range(packets):
            self.packets += 1
            print("deliver", self.packets)

    def subscribe(self, number, request):
        wanted = {"SubscriptionIdentifier": "s%d" % number, "InitialTerminationTime": "2024-05-31T00:00:00Z", "StopMonitoringRequest": request}
        print("subscribe c%d" % (number % 16), json.dumps({"StopMonitoringSubscriptionRequest": wanted}, separators=(",", ":")))


def departing_at(visit, moment, stop):
    """The visit, at a stop, with a departure so many seconds after midnight in local time."""
    visit["MonitoringRef"] = {"value": stop}
    visit["MonitoredVehicleJourney"]["MonitoredCall"]["ExpectedDepartureTime"] = clock(moment)
    return visit


def city(count, boards):
    """The script of a city until its boards are level: each visit of its own second, from 06:10 on in local time, those of boards from 20:00
    on. It gives the visits that no board shows, and those of boards."""
    script = Script()
    others = count - 2 * boards
    stops = -(-others // 40)
    passing = [departing_at(realistic_visit(number, stops), 6 * 3600 + 600 + 2 * number, stop_name(number % stops)) for number in range(others)]
    shown = [departing_at(realistic_visit(others + number), 20 * 3600 + number, "board-%d" % (number // 2)) for number in range(2 * boards)]
    script.feed_all(passing + shown)
    for board in range(boards):
        script.subscribe(board, {"MonitoringRef": "board-%d" % board, "MaximumStopVisits": 3})
        script.deliver(4)
    return script, passing, shown


def unshown(count, boards, changes):
    script, passing, _ = city(count, boards)
    for change in range(changes):
        visit = passing[len(passing) - 1 - change % 1000]
        script.feed([departing_at(visit, 18 * 3600 + change, visit["MonitoringRef"]["value"])])


def boards(count, boards, changes):
    script, _, shown = city(count, boards)
    for change in range(changes):
        visit = shown[change % len(shown)]
        script.feed([departing_at(visit, 20 * 3600 + 1000 + change, visit["MonitoringRef"]["value"])])
        script.deliver(2)


def departing(count, boards, changes):
    city(count, boards)
    for change in range(changes):
        print("clock", clock(6 * 3600 + 600 + 2 * change + 1))


def silent(count, subscriptions, keys):
    script = Script()
    script.feed_all([departing_at(realistic_visit(number), 20 * 3600, "board-0") for number in range(count)])
    for number in range(subscriptions):
        script.subscribe(number, {"MonitoringRef": "board-0"})
        script.deliver(1)
        script.packets += 2  # the response and the first part, which stay where they are
    for first in range(0, keys, 1000):
        second = 6 * 3600 + first // 500
        script.feed([departing_at(realistic_visit(count + number), second + 1, "board-1") for number in range(first, first + 1000)])
        print("clock", clock(second + 2))


def journeys(count, _, asks):
    Script()
    for first in range(0, count, 100):
        entries = []
        for number in range(first, first + 100):
            reference = {"DataFrameRef": "any", "DatedVehicleJourneyRef": "J%07d" % number}
            call = {"ExpectedDepartureTime": clock(7 * 3600 + number * 7 % (16 * 3600))}
            entries.append({"LineRef": "L%03d" % (number % 500), "FramedVehicleJourneyRef": reference, "EstimatedCalls": {"EstimatedCall": [call]}})
        put("feed", {"ServiceDelivery": {"EstimatedTimetableDelivery": [{"EstimatedJourneyVersionFrame": [{"EstimatedVehicleJourney": entries}]}]}})
    for ask in range(asks):
        lines = {"LineDirection": [{"LineRef": "L%03d" % (ask % 500)}]}
        put("ask", {"ServiceRequest": {"EstimatedTimetableRequest": [{"Lines": lines}]}})


def shared(count, subscriptions, changes):
    subscribed(count, subscriptions, changes, stops_asked=1)


def wide(count, subscriptions, changes):
    subscribed(count, subscriptions, changes, number_of_stops=1)


def ticks(count, subscriptions, changes):
    subscribed(count, subscriptions, changes, ticks=True)


def nearest(count, subscriptions, changes):
    subscribed(count, subscriptions, changes, nearest=5)


def limited(count, subscriptions, changes):
    subscribed(count, subscriptions, changes, nearest=5, limit=5)


KINDS = {
    "lines": lines,
    "visits": visits,
    "delivery": delivery,
    "stops": stops,
    "sorted": in_order,
    "subscribed": subscribed,
    "shared": shared,
    "wide": wide,
    "ticks": ticks,
    "nearest": nearest,
    "limited": limited,
    "unshown": unshown,
    "boards": boards,
    "departing": departing,
    "silent": silent,
    "journeys": journeys,
}

if __name__ == "__main__":
    KINDS[sys.argv[1]](*map(int, sys.argv[2:]))
