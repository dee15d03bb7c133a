"""What examples/deploy sets up, over real sockets: `deploy.py SIRI EXAMPLES`. nginx with its configuration, but for ports and places of
files, before the program SIRI: what it answers, what it refuses, whom it cuts off, and what waits; then before one that answers no
query. Then the units, by systemd-analyze."""
import collections
import concurrent.futures
import glob
import http.client
import json
import os
import re
import shutil
import signal
import socket
import subprocess
import sys
import tempfile
import time
import urllib.parse

from behind import Nginx, Producer, later

MEMBERS = ("MonitoringRef", "LineRef", "DirectionRef", "OperatorRef", "DestinationRef", "PreviewInterval", "StartTime", "MaximumStopVisits")
# Names that aren't plain, as they stand in a query.
NOT_PLAIN = ("S%221", "S1%22,%22LineRef%22:%22L1", "S\"1", "S\\1", "S1\\u0022", "S1}", "S'1", "S$1", "S$uri", "%53", "S+1", "S/1", "S?1", "<b>", "\u00e9", "x" * 256)
CHECK = '{"Siri":{"CheckStatusRequest":{}}}'


def visit(stop, name="a", **journey):
    return {"ItemIdentifier": name, "MonitoringRef": stop, "MonitoredVehicleJourney": {
        "LineRef": "L1", **journey, "MonitoredCall": {"ExpectedDepartureTime": later(hours=1)}}}


class Deployed:
    def __init__(self, producer, nginx, faults):
        self.producer, self.nginx, self.faults = producer, nginx, faults

    def check(self, holds, fault):
        if not holds:
            self.faults.append(fault)

    def accepted(self):
        """How many connections the producer has told of so far. A status that it is asked for comes after all that came before."""
        self.producer.post(CHECK)
        time.sleep(0.05)
        with open(os.path.join(self.producer.folder, "errors")) as file:
            return len(re.findall(r"^\S+ accepted .*\"HTTP", file.read(), re.M))

    def answers(self, target, status, text, **more):
        told = self.nginx.ask(target, **more)
        self.check(told[0] == status and (told[1].decode(errors="replace") == text if isinstance(text, str) else text.search(told[1].decode(errors="replace"))),
                   "%s %s is answered %d %s" % (more.get("method", "GET"), target[:100], told[0], told[1][:200]))
        return told

    # ---- the public server

    def public(self):
        """Files, questions of each service, and what is none."""
        self.producer.feed({
            "StopMonitoringDelivery": [{"MonitoredStopVisit": [visit("S1"), visit("S1", "b", LineRef="L2"), visit("S:2", "c")]}],
            "EstimatedTimetableDelivery": [{"EstimatedJourneyVersionFrame": [{"EstimatedVehicleJourney": [
                {"LineRef": line, "DirectionRef": "out", "DatedVehicleJourneyRef": "j", "EstimatedCalls": {"EstimatedCall": [{"AimedDepartureTime": later(hours=1)}]}}
                for line in ("L1", "L2")]}]}],
            "VehicleMonitoringDelivery": [{"VehicleActivity": [{"MonitoredVehicleJourney": {"VehicleRef": one, "LineRef": "L" + one}} for one in "12"]}],
            "SituationExchangeDelivery": [{"Situations": {"PtSituationElement": [
                {"SituationNumber": one, "ValidityPeriod": [{"StartTime": later(hours=-1)}], "Affects": {"StopPoints": {"AffectedStopPoint": [{"StopPointRef": one}]}}} for one in ("S1", "S2")]}}]})
        _, _, heads = self.answers("/board/?stop=S1", 200, re.compile("<title>Departures</title>"))
        self.check(heads["Content-Type"].startswith("text/html"), "the board is no page")
        self.check(self.nginx.ask("/board/main.js")[2]["Content-Type"].endswith("/javascript"), "the board's scripts are none")
        for target, member, count in (("stop-monitoring.json?MonitoringRef=S1", "ItemIdentifier", 2), ("stop-monitoring.json?MonitoringRef=S1&LineRef=L2", "ItemIdentifier", 1),
                                      ("stop-monitoring.json?MonitoringRef=S:2&MonitoringRef=S1&x=%22", "ItemIdentifier", 1),
                                      ("stop-monitoring.json?MonitoringRef=S1&MaximumStopVisits=1&LineRef=", "ItemIdentifier", 1),
                                      ("stop-monitoring.json?MonitoringRef=S1&PreviewInterval=PT10M", "ItemIdentifier", 0),
                                      ("estimated-timetable.json", "DatedVehicleJourneyRef", 2), ("estimated-timetable.json?LineRef=L2&DirectionRef=out", "DatedVehicleJourneyRef", 1),
                                      ("vehicle-monitoring.json", "VehicleRef", 2), ("vehicle-monitoring.json?LineRef=L1", "VehicleRef", 1),
                                      ("situation-exchange.json", "SituationNumber", 2), ("situation-exchange.json?StopPointRef=S2", "SituationNumber", 1)):
            status, told, heads = self.nginx.ask("/siri-lite/" + target)
            shown = len(re.findall('"%s":' % member, told.decode()))
            self.check(status == 200 and shown == count and heads["Content-Type"].startswith("application/json"), "%s is answered %d with %d items: %s" % (target, status, shown, told[:200]))
        row = "Siri.ServiceRequest.StopMonitoringRequest[0].%s\n"
        self.answers("/siri-lite/stop-monitoring.json", 400, row % "MonitoringRef: Missing")
        self.answers("/siri-lite/stop-monitoring.json?MonitoringRef=S1&PreviewInterval=soon", 400, row % "PreviewInterval: BadSpan")
        self.answers("/siri-lite/estimated-timetable.json?DirectionRef=out", 400, re.compile(r"LineDirection\[0\]\.LineRef: Missing"))
        for target in ("/siri-lite/", "/siri-lite/x", "/siri-lite/stop-monitoring", "/x", "/board/../../tls/board.key", "/nginx.conf"):
            self.check(self.nginx.ask(target)[0] in (400, 404), "%s is found" % target)
        client = http.client.HTTPConnection("127.0.0.1", self.nginx.plain)
        client.request("GET", "/board/?stop=S1")
        self.check(client.getresponse().status == 301, "without TLS nobody is sent to TLS")

    def names(self):
        """Whatever name stands in a query, what is answered is what a request with that name as a text gets, and nobody else's."""
        quoted = [urllib.parse.quote_plus(name, safe="") for name in ('S "1"', "S\\1", "\u05ea\u05d7\u05e0\u05d4 \u00e9", "<b>&=+%", "S1,LineRef:L1")]
        for number, raw in enumerate((*quoted, *NOT_PLAIN)):
            name = urllib.parse.unquote_plus(raw)
            if len(name) < 256:
                self.producer.feed({"StopMonitoringDelivery": [{"MonitoredStopVisit": [visit(name, "n%d" % number)]}]})
        for raw in (*quoted, *NOT_PLAIN):
            asked = {"StopMonitoringRequest": {"MonitoringRef": urllib.parse.unquote_plus(raw)}}
            status, told = self.producer.post({"Siri": {"ServiceRequest": asked}})
            answer = self.raw("GET /siri-lite/stop-monitoring.json?MonitoringRef=%s HTTP/1.1\r\nHost: a\r\nConnection: close\r\n\r\n" % raw)
            items, wanted = (re.findall('"ItemIdentifier":"([^"]*)"', text) for text in (answer, told.decode()))
            self.check(int(answer.split()[1]) == status and items == wanted and (items or status == 400), "%s is answered %s" % (raw, answer[-300:]))

    def not_plain(self):
        """Before a producer that answers no query, a name that isn't plain reaches no producer, whatever member it stands at."""
        before = self.accepted()
        for name in NOT_PLAIN:
            for member in MEMBERS:
                raw = "/siri-lite/stop-monitoring.json?MonitoringRef=S1&%s=%s" % (member, name)
                if member == "MonitoringRef":
                    raw = "/siri-lite/stop-monitoring.json?MonitoringRef=" + name
                told = self.raw("GET %s HTTP/1.1\r\nHost: a\r\nConnection: close\r\n\r\n" % raw)
                self.check(re.match(r"HTTP/1.1 400 .*\r\n\r\n(NotPlain\n|<html>.*)$", told, re.S) and ("NotPlain" not in told or "text/plain" in told), "%s is answered %s" % (raw, told[:100]))
        self.check(self.accepted() == before + 1, "a name that isn't plain reaches the producer")

    def raw(self, text, port=None, seconds=20):
        """What is answered to these bytes, to the end."""
        with socket.create_connection(("127.0.0.1", port or self.nginx.public), seconds) as plain:
            with self.nginx.context().wrap_socket(plain, server_hostname="127.0.0.1") as peer:
                peer.settimeout(seconds)
                peer.sendall(text.encode("utf-8"))
                told = b""
                while more := peer.recv(65536):
                    told += more
        return told.decode(errors="replace")

    def no_feeds(self):
        """Nothing that anybody sends to the public server feeds the producer."""
        before = self.accepted()
        feed = json.dumps({"Siri": {"ServiceDelivery": {"StopMonitoringDelivery": [{"MonitoredStopVisit": [visit("S9")]}]}}})
        for target in ("/siri-lite/stop-monitoring.json?MonitoringRef=S1", "/siri-lite/", "/"):
            for method in ("POST", "PUT", "DELETE", "PATCH"):
                status = self.nginx.ask(target, method, body=feed)[0]
                self.check(status in (302, 404, 405, 413), "%s %s is answered %d" % (method, target, status))
        self.answers("/siri-lite/vehicle-monitoring.json", 405, "NotGet\n", method="POST")
        self.check(self.accepted() == before + 1, "what is posted to the public server reaches the producer")
        for heads in ({}, {"Transfer-Encoding": "chunked"}, {"X-HTTP-Method-Override": "POST"}):
            body = feed if "Transfer-Encoding" not in heads else None
            head = "".join("%s: %s\r\n" % pair for pair in heads.items())
            length = "Content-Length: %d\r\n" % len(feed) if body else ""
            content = feed if body else "%x\r\n%s\r\n0\r\n\r\n" % (len(feed), feed)
            told = self.raw("GET /siri-lite/stop-monitoring.json?MonitoringRef=S1 HTTP/1.1\r\nHost: a\r\nConnection: close\r\n%s%s\r\n%s" % (head, length, content))
            self.check(re.match(r"HTTP/1.1 413 ", told), "a question with a body is answered %s" % told[:100])
        told = self.producer.post({"Siri": {"ServiceRequest": {"StopMonitoringRequest": {"MonitoringRef": "S9"}}}})[1]
        self.check(b"ItemIdentifier" not in told, "the public server feeds the producer")
        told = self.raw("GET /board/ HTTP/1.1\r\nHost: a\r\nConnection: close\r\nLong: %s\r\n\r\n" % ("x" * 17000))
        self.check(re.match(r"HTTP/1.1 (400|431) ", told), "a long head is answered %s" % told[:100])

    # ---- the server for feeds

    def feeds(self):
        """Who may feed, and how much."""
        ask = self.nginx.ask
        self.check(ask("/", "POST", self.nginx.feeds, CHECK)[0] == 200, "a listed address isn't served")
        self.nginx.stop()
        self.nginx.edit("    127.0.0.1   1;\n", "")
        self.nginx.start()
        self.answers("/", 403, "NotListed\n", method="POST", port=self.nginx.feeds, body=CHECK)
        self.check(ask("/", "POST", self.nginx.feeds, CHECK, "stranger")[0] in (400, 403), "a stranger is served")
        self.answers("/", 200, re.compile("CheckStatusResponse"), method="POST", port=self.nginx.feeds, body=CHECK, certificate="feeder")
        self.answers("/", 405, "NotPost\n", port=self.nginx.feeds, certificate="feeder")
        self.check(ask("/", "POST", self.nginx.feeds, " " * 8388608, "feeder")[0] != 413, "the longest document is refused before the producer")
        client = self.nginx.client(self.nginx.feeds, "feeder")
        client.request("POST", "/", iter([CHECK[:9].encode(), CHECK[9:].encode()]), encode_chunked=True, headers={"Transfer-Encoding": "chunked"})
        self.check(client.getresponse().status == 200, "a body in chunks isn't served")
        before = self.accepted()
        client = self.nginx.client(self.nginx.feeds, "feeder")
        client.putrequest("POST", "/")
        client.putheader("Content-Length", "8388609")
        client.endheaders()
        self.check(client.getresponse().status == 413, "a body that is too long isn't refused")
        self.check(self.accepted() == before + 1, "a body that is too long reaches the producer")

    # ---- slow clients, and the queue

    def slow(self, count):
        """Clients that send a byte a second: each with its place, whether it was cut off, and when."""
        made = []
        for number in range(count):
            plain = socket.create_connection(("127.0.0.1", self.nginx.public), 20, ("127.0.0.%d" % (2 + number % 50), 0))
            peer = self.nginx.context().wrap_socket(plain, server_hostname="127.0.0.1")
            peer.sendall(b"GET /siri-lite/stop-monitoring.json?MonitoringRef=S1 HTTP/1.1\r\n")
            made.append([peer, time.monotonic(), None])
        return made

    def drip(self, clients):
        """A byte of each."""
        for client in clients:
            peer, _, ended = client
            if ended is None:
                try:
                    peer.settimeout(0.001)
                    if peer.recv(1) is not None:
                        raise OSError("it answers")
                except TimeoutError:
                    peer.settimeout(5)
                    try:
                        peer.sendall(b"x")
                    except OSError:
                        client[2] = time.monotonic()
                except OSError:
                    client[2] = time.monotonic()

    def crowd(self):
        """1,000 good questions beside 100 clients that send a byte a second: each is answered within a second, and the others are cut
        off. Where other work has the machine, it is tried up to three times."""
        for _ in range(3):
            slowest, statuses, held = self.crowded()
            if slowest < 1:
                break
        self.check(statuses == {200: 1000}, "1,000 good questions beside slow clients are answered with %s" % statuses)
        self.check(slowest < 1, "beside slow clients a good question takes %.2f seconds" % slowest)
        self.check(held < 20, "a slow client is cut off after %.0f seconds" % held)

    def crowded(self):
        """What the slowest good question took, how many were answered with which status, and how long a slow client was held."""
        clients, took = self.slow(100), []

        def ask(worker):
            client = self.nginx.client(self.nginx.public, source="127.0.0.%d" % (60 + worker))
            client.connect()
            for number in range(50):
                begun = time.monotonic()
                client.request("GET", "/siri-lite/stop-monitoring.json?MonitoringRef=S%d-%d" % (worker, number))
                response = client.getresponse()
                response.read()
                took.append((time.monotonic() - begun, response.status))
            client.close()

        with concurrent.futures.ThreadPoolExecutor(20) as pool:
            waited, begun = [pool.submit(ask, worker) for worker in range(20)], time.monotonic()
            while time.monotonic() < begun + 25 and any(ended is None for _, _, ended in clients):
                self.drip(clients)
                time.sleep(1)
            for one in waited:
                one.result()
        held = max((ended or time.monotonic() + 60) - begun for _, begun, ended in clients)
        return max(took)[0], dict(collections.Counter(status for _, status in took)), held

    def queue(self):
        """While the producer holds still, 100 questions wait; what comes above them is refused. Equal questions are one."""
        os.kill(self.producer.process.pid, signal.SIGSTOP)
        try:
            with concurrent.futures.ThreadPoolExecutor(150) as pool:
                def ask(number):
                    client = self.nginx.client(self.nginx.public, source="127.0.0.%d" % (100 + number % 100))
                    client.request("GET", "/siri-lite/stop-monitoring.json?MonitoringRef=Q%d" % number)
                    return client.getresponse().status

                waiting = [pool.submit(ask, number) for number in range(150)]
                end = time.monotonic() + 15
                while sum(one.done() for one in waiting) < 50 and time.monotonic() < end:
                    time.sleep(0.05)
                refused = sum(one.done() for one in waiting)
                os.kill(self.producer.process.pid, signal.SIGCONT)
                statuses = [one.result() for one in waiting]
        finally:
            os.kill(self.producer.process.pid, signal.SIGCONT)
        self.check(refused == 50 and statuses.count(200) == 100 and statuses.count(502) == 50,
                   "of 150 questions at once %d are refused before the producer goes on, %d answered" % (refused, statuses.count(200)))
        before = self.accepted()
        with concurrent.futures.ThreadPoolExecutor(40) as pool:
            told = list(pool.map(lambda _: self.nginx.ask("/siri-lite/stop-monitoring.json?MonitoringRef=E")[0], range(40)))
        count = self.accepted() - before - 1
        self.check(told == [200] * 40 and 1 <= count <= 8, "40 equal questions at once are %d to the producer" % count)

    def reader(self):
        """Who doesn't take its answer holds nobody up."""
        # (more than the system keeps of what isn't read)
        for first in (0, 400, 800):
            self.producer.feed({"StopMonitoringDelivery": [{"MonitoredStopVisit": [visit("big", "v%d" % number, DestinationName="x" * 16000) for number in range(first, first + 400)]}]})
        plain = socket.create_connection(("127.0.0.1", self.nginx.public), 20)
        plain.setsockopt(socket.SOL_SOCKET, socket.SO_RCVBUF, 4096)
        with self.nginx.context().wrap_socket(plain, server_hostname="127.0.0.1") as peer:
            peer.sendall(b"GET /siri-lite/stop-monitoring.json?MonitoringRef=big HTTP/1.1\r\nHost: a\r\n\r\n")
            self.check(peer.recv(12) == b"HTTP/1.1 200", "a large answer isn't begun")
            # (the producer would give up after five seconds)
            end, line = time.monotonic() + 4.5, None
            while not line and time.monotonic() < end:
                time.sleep(0.1)
                with open(os.path.join(self.producer.folder, "errors")) as file:
                    line = re.search(r"MonitoringRef=big .* 200 OK\" in \d+ out (\d+) bytes", file.read())
            self.check(line and int(line[1]) > 19200000, "a client that doesn't read holds the producer: %s" % (line and line[0]))
            begun = time.monotonic()
            self.check(self.nginx.ask("/siri-lite/stop-monitoring.json?MonitoringRef=S1&LineRef=L1")[0] == 200, "beside a client that doesn't read nobody is answered")
            self.check(time.monotonic() - begun < 1, "beside a client that doesn't read it takes %.1f seconds" % (time.monotonic() - begun))

    def divided(self):
        """Stops divided over two producers, as docs/OPERATION.md has it: each stop is fed and asked for at its own."""
        other = Producer(self.producer.siri, self.producer.folder + "-2")
        other.start()
        self.nginx.stop()
        with open("docs/OPERATION.md") as file:
            block = re.search(r"```\nsplit_clients.*?```", file.read(), re.S)[0].strip("`\n")
        for there, here in (("127.0.0.1:7001", "127.0.0.1:%d" % self.producer.port), ("127.0.0.1:7002", "127.0.0.1:%d" % other.port)):
            block = block.replace(there, here)
        self.nginx.edit("upstream siri {\n    zone siri 64k;\n    server 127.0.0.1:%d max_conns=100;\n}" % self.producer.port, block)
        self.nginx.edit("proxy_pass http://siri;", "proxy_pass http://$producer;")
        told = self.nginx.test()
        self.check(not told, "nginx -t of divided stops: " + told)
        self.nginx.start()
        for number in range(20):
            feed = {"Siri": {"ServiceDelivery": {"StopMonitoringDelivery": [{"MonitoredStopVisit": [visit("D%d" % number)]}]}}}
            self.answers("/?MonitoringRef=D%d" % number, 200, re.compile('"Status":true'), method="POST", port=self.nginx.feeds, body=json.dumps(feed), certificate="feeder")
            self.answers("/siri-lite/stop-monitoring.json?MonitoringRef=D%d" % number, 200, re.compile("ItemIdentifier"))
        held = [sum(b"ItemIdentifier" in one.post({"Siri": {"ServiceRequest": {"StopMonitoringRequest": {"MonitoringRef": "D%d" % number}}}})[1] for number in range(20))
                for one in (self.producer, other)]
        self.check(min(held) > 2 and sum(held) == 20, "of 20 stops the two producers hold %s" % held)
        other.kill()

    def kept(self):
        """A producer that keeps is killed, and has again what it was fed."""
        question = "/siri-lite/stop-monitoring.json?MonitoringRef=S1&x=%d"
        before = [re.findall('"ItemIdentifier":"([^"]*)"', self.nginx.ask(question % 1)[1].decode())]
        self.producer.kill()
        self.answers(question % 2, 502, re.compile("Bad Gateway"))
        self.producer.start()
        before.append(re.findall('"ItemIdentifier":"([^"]*)"', self.nginx.ask(question % 3)[1].decode()))
        self.check(before == [["a", "b"]] * 2, "before and after it was killed it shows %s" % before)

    def gone(self):
        """Without a producer a question is refused at once."""
        self.producer.kill()
        begun = time.monotonic()
        self.check(self.nginx.ask("/siri-lite/vehicle-monitoring.json?LineRef=none")[0] == 502 and time.monotonic() - begun < 2, "without a producer it isn't 502 at once")


def units(siri, deploy, folder, faults):
    """The units, with the programs in the place of those that would be installed."""
    portals = os.path.join(os.path.abspath(deploy), "portals")
    copies = os.path.join(folder, "units")
    os.makedirs(copies)
    for path in glob.glob(os.path.join(deploy, "systemd", "*")):
        with open(path) as file:
            text = file.read().replace("/usr/local/bin/siri", os.path.abspath(siri)).replace("/usr/local/lib/wurtelim/portals", portals)
            text = text.replace("/usr/local/lib/wurtelim/upstream", os.path.join(os.path.abspath(deploy), "upstream"))
        with open(os.path.join(copies, os.path.basename(path)), "w") as file:
            file.write(text)
    for path in sorted(glob.glob(os.path.join(copies, "*"))):
        told = subprocess.run(["systemd-analyze", "verify", "--man=no", path], capture_output=True, text=True, check=False, cwd=copies)
        lines = [line for line in (told.stdout + told.stderr).splitlines() if "wurtelim" in line]
        if told.returncode or lines:
            faults.append("systemd-analyze of %s: %s %s" % (os.path.basename(path), told.returncode, lines or told.stderr[-500:]))
    for name in ("lite", "keep", "relay"):
        told = subprocess.run(["systemd-analyze", "security", "--offline=yes", "--threshold=15", os.path.join(copies, "wurtelim-%s.service" % name)],
                              capture_output=True, text=True, check=False)
        if told.returncode:
            faults.append("systemd-analyze finds wurtelim-%s.service exposed: %s" % (name, (told.stdout + told.stderr)[-200:]))


def before(siri, examples, folder, command, parts, faults):
    """nginx before a producer, which answers queries if it is `lite`."""
    os.mkdir(folder)
    producer = Producer(siri, os.path.join(folder, "producer"), command, SIRI_LOG="1")
    nginx = Nginx(os.path.join(folder, "nginx"), os.path.join(examples, "deploy"), os.path.join(examples, "board"), producer.port, command != "lite")
    told = nginx.test()
    if told:
        faults.append("nginx -t: " + told)
    part = None
    try:
        producer.start()
        nginx.start()
        deployed = Deployed(producer, nginx, faults)
        for part in parts:
            part(deployed)
    except (OSError, RuntimeError, http.client.HTTPException) as fault:
        faults.append("%s before %s: %s: %s" % (part and part.__name__, command, type(fault).__name__, fault))
    finally:
        nginx.stop()
        producer.kill()


def main(siri, examples):
    faults = []
    with tempfile.TemporaryDirectory() as folder:
        os.chmod(folder, 0o755)
        if shutil.which("openssl") and shutil.which("nginx", path=os.environ["PATH"] + ":/usr/sbin"):
            parts = (Deployed.public, Deployed.names, Deployed.no_feeds, Deployed.crowd, Deployed.queue, Deployed.reader, Deployed.feeds, Deployed.divided, Deployed.gone)
            before(siri, examples, os.path.join(folder, "lite"), "lite", parts, faults)
            before(siri, examples, os.path.join(folder, "serve"), "serve", (Deployed.public, Deployed.not_plain, Deployed.no_feeds, Deployed.feeds, Deployed.gone), faults)
            before(siri, examples, os.path.join(folder, "keep"), "keep", (Deployed.public, Deployed.no_feeds, Deployed.feeds, Deployed.kept, Deployed.gone), faults)
        else:
            print("deploy: there is no nginx or no openssl (Debian's packages of these names), so the configuration of nginx isn't tested")
        if shutil.which("systemd-analyze"):
            units(siri, os.path.join(examples, "deploy"), folder, faults)
        else:
            print("deploy: there is no systemd-analyze (Debian's package systemd), so the units aren't tested")
    for fault in faults:
        print("deploy: " + fault)
    return 1 if faults else 0


if __name__ == "__main__":
    sys.exit(main(*sys.argv[1:]))
