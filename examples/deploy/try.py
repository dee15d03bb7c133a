#!/usr/bin/env python3
"""A board to look at: `try.py SIRI [PORT]` starts a producer, feeds it departures of an invented town that change every few seconds,
and serves examples/board on 127.0.0.1. It is for looking alone: docs/OPERATION.md tells how a board is run. Whatever is wrong is told in
one line, with status 1."""
import contextlib
import datetime
import http.client
import http.server
import json
import os
import random
import signal
import subprocess
import sys
import tempfile
import threading
import time

BOARD = os.path.join(os.path.dirname(os.path.abspath(__file__)), "..", "board")
CHECK = {"Siri": {"CheckStatusRequest": {}}}
TYPES = {".html": "text/html; charset=utf-8", ".css": "text/css", ".js": "text/javascript", ".json": "application/json"}


def ask(port, method, target, document=None):
    """The status, the type and the body that the producer answers."""
    client = http.client.HTTPConnection("127.0.0.1", port, timeout=20)
    try:
        client.request(method, target, None if document is None else json.dumps(document))
        response = client.getresponse()
        return response.status, response.getheader("Content-Type"), response.read()
    finally:
        client.close()


class Mistake(Exception):
    """What is wrong, in one line."""


class Handler(http.server.BaseHTTPRequestHandler):
    """The files of the board, and its questions, which are handed on one at a time."""
    producer, one_at_a_time = 0, threading.Lock()

    def do_GET(self):
        if self.path.startswith("/siri-lite/"):
            self.tell(*self.asked())
            return
        path = self.path.partition("?")[0]
        if path == "/":
            self.send_response(302)
            self.send_header("Location", "/board/?stop=market-square&zone=Europe/Paris")
            self.end_headers()
            return
        name = os.path.basename(path) or "index.html"
        file = os.path.join(BOARD, name)
        if path == "/board/names.json" and not os.path.isfile(file):
            self.tell(204, "application/json", b"")
            return
        if not path.startswith("/board/") or os.path.splitext(name)[1] not in TYPES or not os.path.isfile(file):
            self.tell(404, "text/plain", b"NoPath\n")
            return
        with open(file, "rb") as content:
            self.tell(200, TYPES[os.path.splitext(name)[1]], content.read())

    def asked(self):
        """What the producer answers to this question."""
        question = ("POST", "/", CHECK) if self.path.startswith("/siri-lite/check-status.json") else ("GET", self.path)
        try:
            with self.one_at_a_time:
                return ask(self.producer, *question)
        except (OSError, http.client.HTTPException):
            return 502, "text/plain", b"the producer doesn't answer\n"

    def tell(self, status, kind, body):
        self.send_response(status)
        self.send_header("Content-Type", kind or "text/plain")
        self.send_header("Content-Length", str(len(body)))
        self.end_headers()
        self.wfile.write(body)

    def log_message(self, *words):
        pass


class Server(http.server.ThreadingHTTPServer):
    """Of a browser that hangs up before it has its answer nothing is told."""

    def handle_error(self, request, client_address):
        if not isinstance(sys.exc_info()[1], OSError):
            super().handle_error(request, client_address)


def text_of(moment):
    return datetime.datetime.fromtimestamp(moment, datetime.timezone.utc).strftime("%Y-%m-%dT%H:%M:%SZ")


def visit(number, planned, late, **more):
    """The departure of this number of the invented town."""
    line, name, to, platform = (("10", "10", "Harbour", "B"), ("6", "6", "University", "A"), ("24N", "24N", "Old Mill via Hospital", "C"))[number % 3]
    call = {"StopPointRef": "market-square-" + platform, "StopPointName": "Market Square", "AimedDepartureTime": text_of(planned),
            "DeparturePlatformName": platform, **more.pop("call", {})}
    if late is not None:
        call["ExpectedDepartureTime"] = text_of(planned + late)
    return {"ItemIdentifier": "%s-%d" % (line, number), "MonitoringRef": "market-square", "RecordedAtTime": text_of(time.time()),
            "MonitoredVehicleJourney": {"LineRef": line, "PublishedLineName": name, "DestinationName": to, "Monitored": late is not None,
                                        "MonitoredCall": call, **more}}


SITUATION = {"ParticipantRef": "TOWN", "SituationNumber": "works-12", "Progress": "published", "Severity": "slight", "Summary": "Works at the old mill.",
             "Description": "Buses of line 24N end at the hospital until Friday.", "Affects": {"Networks": {"AffectedNetwork": [{"AffectedLine": [{"LineRef": "24N"}]}]}}}


def feed_for_good(port):
    """Departures every two minutes or so; each may get later, a platform changes, some are cancelled or aren't monitored."""
    draw, begun = random.Random(7), time.time()
    late = {}
    feed(port, {"SituationExchangeDelivery": {"Situations": {"PtSituationElement": {**SITUATION, "ValidityPeriod": [{"StartTime": text_of(begun - 3600)}]}}}})
    while True:
        first = int((time.time() - begun) // 130)
        visits = []
        for number in range(first, first + 12):
            late[number] = max(-60, late.get(number, draw.choice((0, 0, 30, 60))) + draw.choice((0,) * 20 + (60, 60, 120, -60)))
            call = {"DepartureStatus": "cancelled"} if number % 11 == 4 else {}
            visits.append(visit(number, begun + 70 + 130 * number, None if number % 7 == 6 else late[number], call=call))
        feed(port, {"StopMonitoringDelivery": {"MonitoredStopVisit": visits}})
        time.sleep(5)


def feed(port, delivery):
    """Feeds the producer; what doesn't reach it now comes with the next one."""
    with contextlib.suppress(OSError, http.client.HTTPException):
        ask(port, "POST", "/", {"Siri": {"ServiceDelivery": delivery}})


def port_of(text):
    if not (text.isascii() and text.isdigit() and len(text) <= 5 and 1 <= int(text) <= 65535):
        raise Mistake("PORT is a number from 1 to 65535, and not %s" % text[:80])
    return int(text)


def server_at(port):
    if not os.path.isfile(os.path.join(BOARD, "index.html")):
        raise Mistake("there is no board at %s" % BOARD)
    try:
        return Server(("127.0.0.1", port), Handler)
    except OSError as fault:
        raise Mistake("the board can't be served at port %d: %s; name another one behind the program" % (port, fault.strerror)) from None


class Producer:
    """`siri lite` at a port of its own, with what it tells in a file."""

    def __init__(self, siri, folder):
        with http.server.HTTPServer(("127.0.0.1", 0), Handler) as free:
            self.port = free.server_port
        self.siri, self.told = siri, os.path.join(folder, "told")
        try:
            with open(self.told, "wb") as told:
                self.process = subprocess.Popen([os.path.abspath(siri), "lite", "TOWN", "127.0.0.1:%d" % self.port, "1000000"], cwd=folder,
                                                stdin=subprocess.DEVNULL, stdout=subprocess.DEVNULL, stderr=told)
        except OSError as fault:
            raise Mistake("%s can't be started: %s; `./siri build` makes crates/siri/out/siri" % (siri, fault.strerror)) from None

    def wait(self):
        """Until it answers, however long that takes."""
        begun, is_told = time.monotonic(), False
        while True:
            with contextlib.suppress(OSError, http.client.HTTPException):
                status, _, body = ask(self.port, "POST", "/", CHECK)
                if status != 200 or b'"CheckStatusResponse"' not in body:
                    raise Mistake("%s answers otherwise than the program `siri`: %d %s" % (self.siri, status, body[:60].decode(errors="replace")))
                return
            if self.process.poll() is not None:
                raise Mistake(self.ended())
            if time.monotonic() - begun > 2 and not is_told:
                is_told = True
                print("the producer doesn't answer yet; waiting for it", flush=True)
            time.sleep(0.1)

    def ended(self):
        with open(self.told, errors="replace") as told:
            words = "; ".join(line.strip() for line in told.readlines()[-2:])
        return "%s ended with status %d%s" % (self.siri, self.process.returncode, ": " + words[:200] if words else "; is it the program `siri`?")

    def stop(self):
        self.process.kill()
        self.process.wait()


def serve(server, producer):
    """Serves the board until it is ended, or the producer ends."""
    def watch():
        producer.process.wait()
        server.shutdown()

    threading.Thread(target=watch, daemon=True).start()
    server.serve_forever()
    raise Mistake(producer.ended())


def main(siri, port="8000"):
    signal.signal(signal.SIGTERM, lambda *_: sys.exit(0))
    server = server_at(port_of(port))
    with tempfile.TemporaryDirectory() as folder:
        producer = Producer(siri, folder)
        try:
            producer.wait()
            Handler.producer = producer.port
            threading.Thread(target=feed_for_good, args=(producer.port,), daemon=True).start()
            print("the board is at http://127.0.0.1:%d/ until this is ended with Ctrl-C" % server.server_port, flush=True)
            serve(server, producer)
        except KeyboardInterrupt:
            pass
        finally:
            producer.stop()


if __name__ == "__main__":
    if len(sys.argv) not in (2, 3):
        sys.exit("usage: try.py SIRI [PORT]")
    try:
        main(*sys.argv[1:])
    except (Mistake, OSError) as mistake:
        sys.exit("try.py: %s" % mistake)
