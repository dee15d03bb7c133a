#!/usr/bin/env python3
"""Measures `siri serve` on loopback beside a server over std's TcpListener that answers the same bytes from memory:
`network.py SIRI YARDSTICK FOLDER`. One client after the other, each connection closed after one answer, as the profile wants."""
import json
import os
import resource
import socket
import subprocess
import sys
import time
from datetime import datetime, timedelta, timezone

ASKS = 500
RUNS = 8
FEEDS = 40


def post(port, body):
    """The body of the answer to a POST, and the seconds that it took."""
    start = time.perf_counter()
    with socket.create_connection(("127.0.0.1", port)) as connection:
        connection.sendall(b"POST / HTTP/1.1\r\nContent-Length: %d\r\n\r\n" % len(body) + body)
        answer = b"".join(iter(lambda: connection.recv(65536), b""))
    head, _, told = answer.partition(b"\r\n\r\n")
    assert head.startswith(b"HTTP/1.1 200"), head
    return told, time.perf_counter() - start


def visit(number, first):
    """One of many visits that come in order of their keys, 200 to a stop, within two hours from a moment on."""
    moment = (first + timedelta(seconds=number * 7 % 7200)).strftime("%Y-%m-%dT%H:%M:%SZ")
    call = {"StopPointRef": "Q%05d" % number, "ExpectedDepartureTime": moment, "AimedDepartureTime": moment, "DepartureStatus": "onTime"}
    journey = {"LineRef": "L%d" % (number % 40), "DirectionRef": "outbound", "DestinationName": "Market Square", "MonitoredCall": call}
    return {"ItemIdentifier": "%06d" % number, "MonitoringRef": "S%03d" % (number // 200), "RecordedAtTime": moment, "MonitoredVehicleJourney": journey}


def feed(visits):
    return json.dumps({"Siri": {"ServiceDelivery": {"StopMonitoringDelivery": [{"MonitoredStopVisit": visits}]}}}).encode()


def free_port():
    with socket.socket() as probe:
        probe.bind(("127.0.0.1", 0))
        return probe.getsockname()[1]


def await_port(port):
    for _ in range(200):
        try:
            socket.create_connection(("127.0.0.1", port)).close()
            return
        except OSError:
            time.sleep(0.05)
    raise SystemExit("nobody listens")


def served(command, folder, exchanges):
    """The answers of a server that is started so, the seconds of its exchanges, and its processor seconds."""
    port = free_port()
    before = resource.getrusage(resource.RUSAGE_CHILDREN)
    server = subprocess.Popen(command(port, sum(count for _, count in exchanges) + 1), cwd=folder, stdin=subprocess.DEVNULL, stdout=subprocess.DEVNULL)
    await_port(port)
    told = []
    for body, count in exchanges:
        answers = [post(port, body) for _ in range(count)]
        told.append((answers[-1][0], sum(seconds for _, seconds in answers)))
    server.wait(30)
    after = resource.getrusage(resource.RUSAGE_CHILDREN)
    return told, after.ru_utime + after.ru_stime - before.ru_utime - before.ru_stime


def memory(pid, line):
    """Kilobytes of a process, by the name of the line: VmRSS is what it holds now, VmHWM the most that it held."""
    with open("/proc/%d/status" % pid) as status:
        return next(int(told.split()[1]) for told in status if told.startswith(line + ":"))


def answer_memory(serve, folder, moment, ask):
    """The bytes of an answer with 20,000 visits, and how many the server takes at most above what it held before it."""
    port = free_port()
    server = subprocess.Popen(serve(port, 100), cwd=folder, stdin=subprocess.DEVNULL, stdout=subprocess.DEVNULL)
    try:
        await_port(port)
        for first in range(0, 20_000, 2_000):
            post(port, feed([dict(visit(number, moment), MonitoringRef="S000") for number in range(first, first + 2_000)]))
        with open("/proc/%d/clear_refs" % server.pid, "w") as clear:
            clear.write("5")  # the most so far is forgotten
        held = memory(server.pid, "VmRSS")
        told, _ = post(port, ask)
        return len(told), (memory(server.pid, "VmHWM") - held) * 1024
    finally:
        server.kill()
        server.wait()


def processor(pid):
    """The processor seconds of a process so far."""
    with open("/proc/%d/schedstat" % pid) as told:
        return int(told.read().split()[0]) / 1e9


def feed_seconds(serve, folder, document):
    """The processor seconds that a server takes for a feed until it has settled, and the seconds until the answer is there.
    What it takes to let go of all that it holds, at its end, isn't counted."""
    port = free_port()
    server = subprocess.Popen(serve(port, 100), cwd=folder, stdin=subprocess.DEVNULL, stdout=subprocess.DEVNULL)
    try:
        await_port(port)
        time.sleep(0.05)
        before = processor(server.pid)
        _, waited = post(port, document)
        time.sleep(0.05)
        return processor(server.pid) - before, waited
    finally:
        server.kill()
        server.wait()


def check_seconds(siri, path):
    """The processor seconds of `check` of a document."""
    before = resource.getrusage(resource.RUSAGE_CHILDREN)
    with open(path, "rb") as document:
        subprocess.run([siri, "check"], stdin=document, stdout=subprocess.DEVNULL, check=True)
    after = resource.getrusage(resource.RUSAGE_CHILDREN)
    return after.ru_utime + after.ru_stime - before.ru_utime - before.ru_stime


def feed_beside_check(siri, serve, folder, document):
    """Prints what a feed takes beside `check` of the same document, the least of so many runs of each in turn."""
    path = os.path.join(folder, "fed")
    with open(path, "wb") as fed:
        fed.write(document)
    feeds, checks = zip(*((feed_seconds(serve, folder, document), check_seconds(siri, path)) for _ in range(FEEDS)))
    (fed, waited), check = min(feeds), min(checks)
    size = len(document) / 1e6
    print("a feed of %.1f MB: %.3f s of processor time, there after %.2f s; `check`: %.3f s; ratio %.2f" % (size, fed, waited, check, fed / check))


def main(siri, yardstick, folder):
    moment = datetime.now(timezone.utc) + timedelta(hours=2)
    ask = json.dumps({"Siri": {"ServiceRequest": {"StopMonitoringRequest": [{"MonitoringRef": "S000"}]}}}).encode()
    serve = lambda port, count: [siri, "serve", "p", "127.0.0.1:%d" % port, str(count)]
    row = "%-34s %10s %10s %7s"
    print(row % ("one client after the other", "siri", "yardstick", "ratio"))
    for shown in (1, 200):
        given = feed([visit(number, moment) for number in range(shown)])
        path = os.path.join(folder, "answer.%d" % shown)
        ours, theirs = [], []
        for _ in range(RUNS):
            told, seconds = served(serve, folder, [(given, 1), (ask, ASKS)])
            with open(path, "wb") as answer:
                answer.write(told[1][0])
            ours.append((told[1][1], seconds))
            told, seconds = served(lambda port, count: [yardstick, str(port), path, str(count)], folder, [(ask, ASKS)])
            theirs.append((told[0][1], seconds))
        for place, text in enumerate(("us a response of %d visits" % shown, "us of processor time")):
            our, other = (sum(run[place] for run in runs) / RUNS / ASKS * 1e6 for runs in (ours, theirs))
            print(row % (text, "%.0f" % our, "%.0f" % other, "%.2f" % (our / other)))
    large = feed([visit(number, moment) for number in range(16_000)])
    feed_beside_check(siri, serve, folder, large)
    told, more = answer_memory(serve, folder, moment, ask)
    print("an answer of 20,000 visits and %.1f MB: at most %.2f MB above what was held" % (told / 1e6, more / 1e6))


main(*sys.argv[1:])
