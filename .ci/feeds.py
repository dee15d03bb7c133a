"""The feeds of portals over HTTP: `feeds.py SIRI PORTALS`. A portal of 127.0.0.1 has more than one answer, refuses in each of the ways that
portals do, or isn't there; a producer takes what comes, refuses it, or isn't there. What is fed, how often the portal is asked, and
how `feed` ends is as the page of the portals has it. Then a timetable is fed to `siri lite` of the program SIRI, which answers a board
with its departures, until they have left; and trip updates are made of what it answers."""
import http.client
import http.server
import json
import os
import subprocess
import sys
import tempfile
import threading

import gtfs
from behind import Producer, free_port, later

TAKEN = '{"Siri":{"DataReceivedAcknowledgement":{"Status":true}}}'


class Peer(http.server.BaseHTTPRequestHandler):
    """Answers a GET as a portal, and a POST as a producer."""
    answers, status, asked, fed, says = [], 200, 0, [], (200, TAKEN)

    def do_GET(self):
        kind = type(self)
        place = 0 if self.path == "/first" else min(kind.asked, len(kind.answers) - 1)
        kind.asked += 1
        self.tell(404 if self.path == "/none" else kind.status, kind.answers[place])

    def do_POST(self):
        kind = type(self)
        kind.fed.append(json.loads(self.rfile.read(int(self.headers["Content-Length"]))))
        self.tell(*kind.says)

    def tell(self, status, text):
        body = text.encode()
        self.send_response(status)
        self.send_header("Content-Length", str(len(body)))
        self.end_headers()
        self.wfile.write(body)

    def log_message(self, *words):
        pass


def visit(name):
    return {"ItemIdentifier": name, "MonitoringRef": "S", "MonitoredVehicleJourney": {"MonitoredCall": {"AimedDepartureTime": "2024-05-01T08:00:00Z"}}}


def answer(*names, delivery=None, **more):
    """An answer with these visits."""
    return json.dumps({"Siri": {"ServiceDelivery": {**more, "StopMonitoringDelivery": [{"MonitoredStopVisit": [visit(name) for name in names], **(delivery or {})}]}}})


def fed_names(fed):
    return [one["ItemIdentifier"] for document in fed for delivery in document["Siri"]["ServiceDelivery"]["StopMonitoringDelivery"] for one in delivery["MonitoredStopVisit"]]


# What a portal answers, with the status of its answers; what is then fed, how often it was asked, whether `feed` ends with 0, and what
# its last line says.
PRIM = {"Status": "false", "ErrorCondition": {"ErrorInformation": {"ErrorText": "Le couple MonitoringRef/LineRef\nn'existe pas", "ErrorDescription": "x"}}}
MTA = {"ErrorCondition": {"OtherError": {"ErrorText": "No such stop: 1."}, "Description": "No such stop: 1."}}
CASES = [
    ("one answer", [answer("a", "b", MoreData=False)], 200, "ab", 1, True, "prim: 2 visits taken, 0 left out"),
    ("more than one answer", [answer("a", MoreData=True), answer("b", MoreData="true"), answer("c")], 200, "abc", 3, True, "prim: 1 visits taken, 0 left out"),
    ("more without an end", [answer(MoreData=True)], 200, "", 50, False, "prim: after 50 answers the portal still has more"),
    ("a Status of a service", [answer(delivery=PRIM)], 200, "", 1, False, "prim: the portal refuses: Le couple MonitoringRef/LineRef n'existe pas"),
    ("an ErrorCondition without a Status", [answer(delivery=MTA)], 200, "", 1, False, "prim: the portal refuses: No such stop: 1."),
    ("a Status of the whole", [json.dumps({"Siri": {"ServiceDelivery": {"Status": False}}})], 200, "", 1, False, "prim: the portal refuses: Status false"),
    ("a Status of the whole that is a text", [json.dumps({"ServiceDelivery": {"Status": "0"}})], 200, "", 1, False, "prim: the portal refuses: Status false"),
    ("an ErrorCondition beside a good Status", [answer("a", delivery={**MTA, "Status": True})], 200, "a", 1, True, "prim: 1 visits taken, 0 left out"),
    ("a refusal beside more", [answer(MoreData=True, Status="false")], 200, "", 1, False, "prim: the portal refuses: Status false"),
    ("a refusal after more", [answer("a", MoreData=True), answer(delivery=MTA)], 200, "a", 2, False, "prim: the portal refuses: No such stop: 1."),
    ("a refusal of HTTP", [answer("a")], 401, "", 1, False, "curl: (22) The requested URL returned error: 401"),
    ("no answer", ["<html>"], 200, "", 1, False, "prim: this is no answer of it: "),
    ("nothing", [""], 200, "", 1, False, "prim: this is no answer of it: it is empty"),
]


class Run:
    def __init__(self, portals, folder, faults):
        self.feed, self.folder, self.faults = os.path.join(portals, "feed"), folder, faults
        self.server = http.server.ThreadingHTTPServer(("127.0.0.1", 0), Peer)
        threading.Thread(target=self.server.serve_forever, daemon=True).start()
        self.port = self.server.server_port

    def run(self, *paths, producer=None, portal=None, name="prim"):
        """The status of `feed`, and its lines on standard error."""
        config = os.path.join(self.folder, "curl")
        with open(config, "w") as file:
            file.write("".join("url = \"http://127.0.0.1:%d/%s\"\n" % (portal or self.port, path) for path in paths))
        told = subprocess.run([self.feed, name, "http://127.0.0.1:%d/" % (producer or self.port), config], capture_output=True, text=True, check=False)
        if told.stdout:
            self.faults.append("feed writes %s on standard output" % told.stdout)
        return told.returncode, told.stderr.splitlines()

    def set(self, answers, status=200, says=(200, TAKEN)):
        Peer.answers, Peer.status, Peer.asked, Peer.fed, Peer.says = answers, status, 0, [], says

    def check(self, holds, what, told):
        if not holds:
            self.faults.append("of %s it is told %s, after %d questions, with %s fed" % (what, told, Peer.asked, fed_names(Peer.fed)))

    def cases(self):
        for what, answers, status, names, asked, is_well, line in CASES:
            self.set(answers, status)
            ended, lines = told = self.run("")
            self.check(fed_names(Peer.fed) == list(names) and Peer.asked == asked and (ended == 0) == is_well and lines and lines[-1].startswith(line), what, told)
            self.check(is_well or "more" in what or len(lines) == 1, what, told)

    def several(self):
        """Of two addresses the first one's refusal counts, too."""
        for paths in (("none", ""), ("", "none")):
            self.set([answer("a")])
            ended, lines = told = self.run(*paths)
            self.check(ended != 0 and len(lines) == 1 and not Peer.fed, "an address that isn't there", told)
        self.set([answer("a"), answer("b")])
        told = self.run("first", "")
        self.check(told[0] == 0 and fed_names(Peer.fed) == ["a", "b"], "two addresses", told)

    def producers(self):
        """Producers that refuse, or that aren't there, and a portal that isn't."""
        self.set([answer("a")], says=(400, "Siri: Missing"))
        ended, lines = told = self.run("")
        self.check(ended != 0 and lines[1:] == ["prim: the producer says Siri: Missing"], "a producer that refuses", told)
        self.set([answer(*("n%d" % number for number in range(450)), MoreData=True)])
        ended, lines = told = self.run("", producer=free_port())
        self.check(ended != 0 and len(lines) == 2 and Peer.asked == 1, "a producer that isn't there", told)
        ended, lines = told = self.run("", portal=free_port())
        self.check(ended != 0 and len(lines) == 1, "a portal that isn't there", told)

    def timetables(self, siri, portals):
        """A timetable shows its departures at a board until they have left, and makes trip updates."""
        producer = Producer(siri, os.path.join(self.folder, "lite"))
        producer.start()
        try:
            for has_left in (False, True):
                self.set([timetable(has_left)])
                told = [self.run("", producer=producer.port, name=name) for name in ("entur", "entur-visits")]
                shown = {stop: get(producer.port, "/siri-lite/stop-monitoring.json?MonitoringRef=" + stop).count(b'"ItemIdentifier"') for stop in ("Q1", "Q2", "Q3")}
                self.check([ended for ended, _ in told] == [0, 0] and shown == {"Q1": 0 if has_left else 1, "Q2": 1, "Q3": 0}, "a timetable, of which %s is shown" % shown, told)
            written = subprocess.run([os.path.join(portals, "trip_updates")], input=get(producer.port, "/siri-lite/estimated-timetable.json"), capture_output=True, check=False)
            calls = [value for name, value in dict(dict(gtfs.read(written.stdout, gtfs.MESSAGES))["entity"])["trip_update"] if name == "stop_time_update"]
            found = [(dict(one)["stop_id"], [name for name, _ in one if name in ("arrival", "departure")]) for one in calls]
            self.check(found == [("Q1", ["departure"]), ("Q2", ["departure"]), ("Q3", ["arrival"])], "trip updates", found)
        finally:
            producer.kill()


def timetable(has_left):
    """An answer of Entur with a journey of three calls, which has left at the first one or hasn't."""
    first = {"StopPointRef": {"value": "Q1"}, "Order": 1, "ExpectedDepartureTime": later(hours=1)}
    rest = [{"StopPointRef": {"value": "Q2"}, "Order": 2, "ExpectedDepartureTime": later(hours=2)}, {"StopPointRef": {"value": "Q3"}, "Order": 3, "ExpectedArrivalTime": later(hours=3)}]
    left = {**first, "ActualDepartureTime": later(minutes=-1)}
    journey = {"LineRef": {"value": "L1"}, "FramedVehicleJourneyRef": {"DataFrameRef": {"value": "2024-05-01"}, "DatedVehicleJourneyRef": "J1"}}
    calls = {"RecordedCalls": {"RecordedCall": [left]}, "EstimatedCalls": {"EstimatedCall": rest}} if has_left else {"EstimatedCalls": {"EstimatedCall": [first, *rest]}}
    return json.dumps({"Siri": {"ServiceDelivery": {"EstimatedTimetableDelivery": [{"EstimatedJourneyVersionFrame": [{"EstimatedVehicleJourney": [{**journey, **calls}]}]}]}}})


def get(port, target):
    client = http.client.HTTPConnection("127.0.0.1", port, timeout=20)
    client.request("GET", target)
    return client.getresponse().read()


def main(siri, portals):
    faults = []
    with tempfile.TemporaryDirectory() as folder:
        run = Run(portals, folder, faults)
        run.cases()
        run.several()
        run.producers()
        try:
            run.timetables(siri, portals)
        except (OSError, RuntimeError, KeyError, ValueError, http.client.HTTPException) as fault:
            faults.append("of a timetable: %s: %s" % (type(fault).__name__, fault))
        run.server.shutdown()
    for fault in faults:
        print("portals: " + fault)
    return 1 if faults else 0


if __name__ == "__main__":
    sys.exit(main(*sys.argv[1:]))
