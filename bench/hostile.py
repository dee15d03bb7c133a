#!/usr/bin/env python3
"""Hostile peers at the built program: `hostile.py SIRI [--serve 100000] [--consume 20000] [--seed 1] [--silences 6]`.

So many connections come to `siri serve`, and so many to what `siri consume` listens at, over sockets of 127.0.0.1:
broken heads, lengths and bodies, early ends, resets and silences, and good requests between them. What each is to be
answered is known beforehand; what a good request is answered is compared with what a quiet end answers, of the same
words, to which the good requests alone come. Where the program dials, to send a round or to ask, it is answered badly
too. The order of all connections follows from the seed. Several are open at a time, and each end answers them in the
order in which they are whole.

It prints what came, how many answers were wrong (0 is wanted), the memory of the process before and after, and how the
run ended; its status is 0 where all is as it should be. The summary that the program writes has to add up with what was
sent: a reset behind a whole request may leave its connection answered or dropped, and nothing else is left open.
"""
import argparse
import contextlib
import json
import os
import random
import re
import socket
import struct
import subprocess
import sys
import tempfile
import threading
import time
from collections import Counter, deque
from dataclasses import dataclass
from datetime import datetime, timedelta, timezone
from typing import Optional

# How many connections are open at a time, fewer than the system keeps for a program that hasn't accepted them (128).
OPEN = 100
# How many of a hundred that wait for an answer end their side behind what they send. The program ends the others after
# its answer, and waits for their end beside.
ENDED = 85
# One in so many is a good request, and one in so many has a body of 8 MiB.
GOOD, LARGE = 8, 4000
LONGEST_HEAD, LONGEST_BODY = 16_384, 8_388_608
# The descriptors of a program that waits for a connection: standard input, output and error, its listener, and by which
# it is told of connections.
AT_REST = 5
# Of a socket that is reset when it is closed.
NO_LINGER = struct.pack("ii", 1, 0)
# Of a socket that takes an address now and its port when it connects.
IP_BIND_ADDRESS_NO_PORT = 24

PHRASES = {
    400: b"Bad Request",
    405: b"Method Not Allowed",
    411: b"Length Required",
    413: b"Payload Too Large",
    431: b"Request Header Fields Too Large",
    501: b"Not Implemented",
}
STATUS = b'{"Siri":{"CheckStatusRequest":{}}}'


# ---- what is sent


@dataclass
class Sent:
    """A connection: what it is called, what is sent at once, and behind a pause when its turn has come, how it ends,
    and what has to come back: bytes, `good` (what the quiet end answers), `none`, `any` (a good answer or none), or
    `told` (an answer of a status that is counted)."""

    kind: str
    now: bytes
    back: object
    later: bytes = b""
    end: str = "read"
    pause: float = 0.0
    asked: Optional[bytes] = None


def refused(status, text):
    head = b"HTTP/1.1 %d %s\r\nContent-Type: text/plain\r\nContent-Length: %d\r\nConnection: close\r\n\r\n"
    return head % (status, PHRASES[status], len(text) + 1) + text + b"\n"


def post(body, *fields):
    head = [b"POST / HTTP/1.1", *fields, b"Content-Length: %d" % len(body)]
    return b"\r\n".join(head) + b"\r\n\r\n" + body


# A head that is none by the grammar, each with no empty line before its end.
BAD_HEADS = [
    b"POST",
    b"POST /",
    b"POST / HTTP/2.0",
    b"POST / HTTP/1.1 more",
    b"POST  / HTTP/1.1",
    b" POST / HTTP/1.1",
    b"POST / HTTX/1.1",
    b"P\x00ST / HTTP/1.1",
    b"POST /\x7f HTTP/1.1",
    b"\x16\x03\x01\x02\x00\x01\x00\x01\xfc\x03\x03",
    b"POST / HTTP/1.1\r\nContent-Length 2",
    b"POST / HTTP/1.1\r\n: 2",
    b"POST / HTTP/1.1\r\nContent-Length : 2",
    b"POST / HTTP/1.1\r\nHost: a\r\n folded: b",
    b"POST / HTTP/1.1\r\nHost: a\x00b",
    b"POST / HTTP/1.1\r\nHost: a\rb",
    b"POST / HTTP/1.1\r\nH\xc3\xb6st: a",
]
# A Content-Length that is no number of 1 to 18 digits.
BAD_LENGTHS = [b"", b"-1", b"+34", b"0x22", b"3 4", b"34,34", b"34;", b"1e3", b"3.4", b"1" + 18 * b"0", b"\xd9\xa3"]
# Documents that are refused, with the line that says why.
HOSTILE = [
    (b"[" * 127 + b"]" * 127, b".: WrongKind"),
    (b"[" * 128 + b"]" * 128, b".: NotJson"),
    (b'{"Siri":"\xff"}', b".: NotJson"),
    (b"", b".: NotJson"),
    (b"{}", b"Siri: Missing"),
    (b'{"Siri":{"CheckStatusRequest":{},"HeartbeatNotification":{}}}', b"Siri: UnknownMessage"),
    (b'{"Siri":{"CheckStatusRequest":{"RequestorRef":[["x"]]}}}', b"Siri.CheckStatusRequest.RequestorRef: WrongKind"),
    (b'{"Siri":{"HeartbeatNotification":{"Status":"yes"}}}', b"Siri.HeartbeatNotification.Status: WrongKind"),
    (
        b'{"Siri":{"SubscriptionRequest":{"MessageIdentifier":"1000000000000000000"}}}',
        b"Siri.SubscriptionRequest.MessageIdentifier: BadNumber",
    ),
    (
        b'{"Siri":{"ServiceDelivery":{"StopMonitoringDelivery":{"Extensions":{"Round":1}}}}}',
        b"Siri.ServiceDelivery.StopMonitoringDelivery[0].Extensions.Start: Missing",
    ),
]

# What a program that dials is answered, None for a reset, and whether its message counts as sent.
ANSWERS = [
    (b"HTTP/1.1 200 OK\r\nContent-Length: 0\r\n\r\n", True),
    (b"HTTP/1.1 200 OK\r\nContent-Length: 9\r\n\r\nno answer", True),
    (b"HTTP/1.1 200 OK\r\nContent-Length: 34\r\n\r\n" + STATUS + b"and more", True),
    (b"HTTP/1.1 404 Not Found\r\nContent-Length: 0\r\n\r\n", False),
    (b"HTTP/1.1 500 Internal Server Error\r\nContent-Length: 2\r\n\r\n{}", False),
    (b"HTTP/1.1 200 OK\r\n\r\n", False),
    (b"HTTP/1.1 200 OK\r\nContent-Length: 5\r\n\r\n{}", False),
    (b"HTTP/1.1 200 OK\r\nContent-Length: 8388609\r\n\r\n{}", False),
    (b"HTTP/1.1 200 OK\r\nContent-Length: 0\r\nContent-Length: 0\r\n\r\n", False),
    (b"HTTP/1.1 200 OK\r\nTransfer-Encoding: chunked\r\n\r\n0\r\n\r\n", False),
    (b"HTTP/1.1 200 OK\r\nA: " + 17_000 * b"a", False),
    (b"HTTP/1.1 200 OK\r\n" + 65 * b"A: b\r\n" + b"Content-Length: 0\r\n\r\n", False),
    (b"HTTP/1.1 2000 OK\r\nContent-Length: 0\r\n\r\n", False),
    (b"POST / HTTP/1.1\r\nContent-Length: 0\r\n\r\n", False),
    (b"HTTP/1.1 2", False),
    (b"", False),
    (None, False),
]


def broken_head(draw, end):
    head = draw.choice(BAD_HEADS)
    return Sent("broken head", head + b"\r\n\r\n", refused(400, b"BadHead"), end=draw.choice(["read", "half"]))


def long_head(draw, end):
    if draw.random() < 0.5:
        fields = [b"A%d: b" % number for number in range(draw.randrange(64, 400))]
        return Sent("too many fields", post(STATUS, *fields), refused(431, b"HeadTooLong"))
    line = b"POST / HTTP/1.1\r\nA: " + b"b" * draw.randrange(LONGEST_HEAD, 3 * LONGEST_HEAD)
    return Sent("head too long", line, refused(431, b"HeadTooLong"))


def bad_length(draw, end):
    if draw.random() < 0.3:
        return Sent("length twice", post(STATUS, b"content-length: %d" % len(STATUS)), refused(400, b"BadHead"))
    head = b"POST / HTTP/1.1\r\nContent-Length: %s\r\n\r\n" % draw.choice(BAD_LENGTHS)
    return Sent("length is no number", head + STATUS, refused(400, b"BadHead"))


def no_length(draw, end):
    return Sent("no length", b"POST / HTTP/1.1\r\nHost: a\r\n\r\n" + STATUS, refused(411, b"NoLength"))


def coded(draw, end):
    fields = [b"Transfer-Encoding: " + draw.choice([b"chunked", b"gzip", b"identity", b""])]
    return Sent("transfer coding", post(STATUS, *fields), refused(501, b"TransferCoding"))


def long_length(draw, end):
    count = draw.choice([LONGEST_BODY + 1, draw.randrange(LONGEST_BODY + 1, 10**18), 10**18 - 1])
    head = b"POST / HTTP/1.1\r\nContent-Length: %d\r\n\r\n" % count
    return Sent("length too great", head + b"{", refused(413, b"BodyTooLong"))


def other_method(draw, end):
    method = draw.choice([b"GET", b"PUT", b"HEAD", b"DELETE", b"OPTIONS", b"post", b"PRI", b"X"])
    body = draw.choice([b"", b"Content-Length: 3\r\n\r\nabc"])
    return Sent("other method", method + b" /x HTTP/1.1\r\n" + (body or b"\r\n"), refused(405, b"NotPost"))


def no_document(draw, end):
    choice = draw.random()
    if choice < 0.4:
        document, line = draw.choice(HOSTILE)
    elif choice < 0.6:
        document, line = b"}" + draw.randbytes(draw.randrange(0, 3000)), b".: NotJson"
    elif choice < 0.8:
        whole = end.a_document(draw)
        document, line = whole[: draw.randrange(1, len(whole))], b".: NotJson"
    else:
        document, line = end.a_refused_document(draw)
    return Sent("no document", post(document), refused(400, line))


def large_body(draw, end):
    document = draw.choice([b"[", b" ", b"{", b'"', b"\x00"]) * LONGEST_BODY
    return Sent("8 MiB that are no document", post(document), refused(400, b".: NotJson"))


def flipped(draw, end):
    document = bytearray(end.a_harmless_document(draw))
    for _ in range(draw.randrange(1, 4)):
        document[draw.randrange(len(document))] ^= 1 << draw.randrange(8)
    return Sent("bits turned", post(bytes(document)), "told")


def short_body(draw, end):
    request = post(end.a_document(draw))
    cut = draw.randrange(len(request) - 20, len(request)) if draw.random() < 0.3 else draw.randrange(len(request))
    return Sent("early end", request[:cut], "none", end=draw.choice(["half", "close"]))


def nothing(draw, end):
    return Sent("nothing sent", b"", "none", end=draw.choice(["half", "close", "reset"]))


def reset_early(draw, end):
    request = post(end.a_document(draw))
    return Sent("reset", request[: draw.randrange(len(request))], "none", end="reset")


def reset_late(draw, end):
    return Sent("reset behind a request", post(end.a_harmless_document(draw)), "any", end="reset")


def silent(draw, end):
    request = post(end.a_document(draw))
    cut = request[: draw.randrange(len(request))]
    return Sent("silence, then an end", cut, "none", end=draw.choice(["close", "reset"]), pause=draw.random() * 0.01)


def long_silent(draw, end):
    request = post(end.a_document(draw))
    return Sent("silence until it is given up", request[: draw.randrange(len(request))], "none")


KINDS = [
    broken_head,
    long_head,
    bad_length,
    no_length,
    coded,
    long_length,
    other_method,
    no_document,
    flipped,
    short_body,
    nothing,
    reset_early,
    reset_late,
    silent,
]


def good(draw, body):
    """A good request, sent in one of several ways; what comes behind its body is no part of it."""
    way = draw.randrange(8)
    request = post(body, b"Host: 127.0.0.1") if way & 1 else post(body)
    cut, pause = draw.randrange(len(request)), draw.random() * 0.005
    if way == 2:
        return Sent("good, more behind it", request + draw.choice([b"\r\n", STATUS, post(STATUS)]), "good", asked=body)
    if way == 3:
        return Sent("good, in two pieces", request[:cut], "good", request[cut:], pause=pause, asked=body)
    if way == 4 and len(request) < 1000:
        return Sent("good, a byte at a time", request[:cut], "good", request[cut:], end="bytes", asked=body)
    if way == 5:
        return Sent("good, empty lines before it", b"\r\n\n" + request, "good", asked=body)
    return Sent("good", request, "good", end="half" if draw.randrange(100) < ENDED else "read", asked=body)


# ---- the two ends, and what is asked of them


def in_hours(hours):
    return (datetime.now(timezone.utc) + timedelta(hours=hours)).strftime("%Y-%m-%dT%H:%M:%SZ")


def visit(draw, moment):
    journey = {"LineRef": "L%d" % draw.randrange(5), "MonitoredCall": {"ExpectedDepartureTime": moment}}
    key = {"ItemIdentifier": "v%d" % draw.randrange(40), "MonitoringRef": "S%d" % draw.randrange(3)}
    return {**key, "MonitoredVehicleJourney": journey}


# The departure of a visit of a delivery, by its place, and why it is refused.
DEPARTURE = (
    b"Siri.ServiceDelivery.StopMonitoringDelivery[0].MonitoredStopVisit[%d]"
    b".MonitoredVehicleJourney.MonitoredCall.ExpectedDepartureTime: %s"
)


def document(name, members):
    return json.dumps({"Siri": {name: members}}, separators=(",", ":")).encode()


class Producer:
    """`siri serve`: feeds of visits that stay, asks for them, subscriptions, and requests for its status."""

    words = ["serve", "p"]
    given = ""

    def __init__(self, draw, port):
        self.port = port
        self.number = 0
        self.moments = [in_hours(hours) for hours in range(5, 9)]
        self.bad = [dict(visit(draw, "tomorrow")), dict(visit(draw, "2024-05-01T08:00:00"))]

    def after(self, port):
        return []

    def a_feed(self, draw, more=()):
        visits = [visit(draw, draw.choice(self.moments)) for _ in range(draw.randrange(1, 6))]
        draw.shuffle(visits := visits + list(more))
        return document("ServiceDelivery", {"StopMonitoringDelivery": [{"MonitoredStopVisit": visits}]}), visits

    def a_harmless_document(self, draw):
        if draw.random() < 0.4:
            return STATUS
        return document("ServiceRequest", {"StopMonitoringRequest": [{"MonitoringRef": "S%d" % draw.randrange(4)}]})

    def a_document(self, draw):
        return self.a_feed(draw)[0] if draw.random() < 0.5 else self.a_harmless_document(draw)

    def a_refused_document(self, draw):
        place = draw.randrange(2)
        fed, visits = self.a_feed(draw, [self.bad[place]])
        return fed, DEPARTURE % (visits.index(self.bad[place]), [b"BadTime", b"NoOffset"][place])

    def a_subscription(self, draw):
        self.number += 1
        wanted = {"SubscriptionIdentifier": "S%d" % draw.randrange(9), "InitialTerminationTime": self.moments[0]}
        wanted["StopMonitoringRequest"] = {"MonitoringRef": "S%d" % draw.randrange(3)}
        asked = {"RequestorRef": "c%d" % draw.randrange(5), "MessageIdentifier": str(self.number)}
        asked["ConsumerAddress"] = "http://127.0.0.1:%d/" % self.port
        return document("SubscriptionRequest", {**asked, "StopMonitoringSubscriptionRequest": [wanted]})

    def next_good(self, draw):
        return self.a_subscription(draw) if draw.random() < 0.1 else self.a_document(draw)


class Consumer:
    """`siri consume`: rounds of a subscription that follow one another, repeats of them, and notifications."""

    words = ["consume", "c"]

    def __init__(self, draw, port):
        wanted = {"SubscriptionIdentifier": "S", "InitialTerminationTime": in_hours(12)}
        wanted["StopMonitoringRequest"] = {"MonitoringRef": "S0"}
        self.given = json.dumps({"StopMonitoringSubscriptionRequest": wanted}) + "\n"
        self.moments = [in_hours(hours) for hours in range(5, 9)]
        self.round = 0
        self.last = None

    def after(self, port):
        return ["http://127.0.0.1:%d/" % port]

    def a_round(self, draw, number, more=None):
        drawn = [dict(visit(draw, draw.choice(self.moments)), MonitoringRef="S0") for _ in range(draw.randrange(1, 6))]
        visits = list({one["ItemIdentifier"]: one for one in drawn}.values()) + ([more] if more else [])
        part = {"Extensions": {"Part": 1, "Round": number, "Start": 1}, "SubscriberRef": "c", "SubscriptionRef": "S"}
        part.update({"Status": True, "MonitoredStopVisit": visits})
        head = {"ProducerRef": "p", "RequestMessageRef": "1000000", "Status": True}
        return document("ServiceDelivery", {**head, "StopMonitoringDelivery": [part]})

    def a_harmless_document(self, draw):
        return draw.choice([STATUS, document("HeartbeatNotification", {"ProducerRef": "p", "Status": True})])

    def a_document(self, draw):
        return self.a_round(draw, self.round + 1) if draw.random() < 0.5 else self.a_harmless_document(draw)

    def a_refused_document(self, draw):
        delivered = self.a_round(draw, self.round + 1, visit(draw, "tomorrow"))
        return delivered, DEPARTURE % (delivered.count(b"ItemIdentifier") - 1, b"BadTime")

    def next_good(self, draw):
        choice = draw.random()
        if choice < 0.5 or self.last is None:
            self.round += 1
            self.last = self.a_round(draw, self.round)
            return self.last
        if choice < 0.7:
            return self.last
        if choice < 0.8:
            place = {"Number": 1000000, "Part": 1, "Round": self.round + 1, "Start": 1, "SubscriptionRef": "S"}
            return document("DataReadyNotification", {"ProducerRef": "p", "Extensions": place})
        return self.a_harmless_document(draw)


# ---- how it is sent


def free_port():
    with socket.socket() as probe:
        probe.bind(("127.0.0.1", 0))
        return probe.getsockname()[1]


def to_end(connection):
    """What comes until the other side ends or resets."""
    came = []
    try:
        while piece := connection.recv(65_536):
            came.append(piece)
    except ConnectionError:
        pass
    return b"".join(came)


class Program:
    """The program that runs, its port, and what it wrote in the end."""

    def __init__(self, siri, end, count, folder, answers):
        os.makedirs(folder)
        self.port, self.answers = free_port(), answers
        words = [siri, *end.words, "127.0.0.1:%d" % self.port, *end.after(answers.port), str(count)]
        pipes = {"stdin": subprocess.PIPE, "stdout": subprocess.PIPE, "stderr": subprocess.PIPE}
        self.process = subprocess.Popen(words, cwd=folder, **pipes)
        self.process.stdin.write(end.given.encode())
        self.process.stdin.close()
        self.process.stdin = None

    def __enter__(self):
        return self

    def __exit__(self, *_):
        self.process.kill()
        self.process.wait()

    def connect(self, draw):
        """A connection from one of many addresses of this machine, so that there are ports enough."""
        connection = socket.socket()
        connection.setsockopt(socket.IPPROTO_IP, IP_BIND_ADDRESS_NO_PORT, 1)
        connection.setsockopt(socket.IPPROTO_TCP, socket.TCP_NODELAY, 1)
        connection.settimeout(30)
        connection.bind(("127.0.%d.%d" % (draw.randrange(1, 20), draw.randrange(1, 250)), 0))
        connection.connect(("127.0.0.1", self.port))
        return connection

    def connect_first(self, draw):
        for _ in range(400):
            try:
                return self.connect(draw)
            except ConnectionRefusedError:
                time.sleep(0.02)
        raise SystemExit("hostile: nobody listens: %s" % self.process.stderr.read())

    def asked(self, draw, body, first=False):
        """A connection by which a request is sent, whose answer isn't read yet."""
        connection = self.connect_first(draw) if first else self.connect(draw)
        connection.sendall(post(body))
        connection.shutdown(socket.SHUT_WR)
        return connection

    def ask(self, draw, body, first=False):
        with self.asked(draw, body, first) as connection:
            return to_end(connection)

    def memory(self):
        """Resident memory now and at most, in KiB, and how many descriptors are open, once the program waits."""
        for _ in range(100):
            descriptors = len(os.listdir("/proc/%d/fd" % self.process.pid))
            if descriptors <= AT_REST:
                break
            time.sleep(0.05)
        with open("/proc/%d/status" % self.process.pid) as status:
            lines = dict(line.split(":", 1) for line in status)
        return int(lines["VmRSS"].split()[0]), int(lines["VmHWM"].split()[0]), descriptors

    def ended(self):
        written, complained = self.process.communicate(timeout=60)
        return self.process.returncode, written.decode(), complained.decode()


def request_of(connection):
    """Takes a whole request, or what comes until the other side ends."""
    came = b""
    while True:
        found = re.search(rb"Content-Length: (\d+)\r\n.*?\r\n\r\n", came, re.S)
        if found and len(came) >= found.end() + int(found[1]):
            return
        if not (piece := connection.recv(65_536)):
            return
        came += piece


class Answers:
    """Whom a program dials: it takes each request whole, and answers as the seed says, or well, with an empty body. It
    counts the messages that have to be unsent."""

    def __init__(self, seed=None):
        self.draw, self.came, self.unsent = seed is not None and random.Random(seed), 0, 0
        self.listener = socket.create_server(("127.0.0.1", 0), backlog=512)
        self.port = self.listener.getsockname()[1]
        threading.Thread(target=self.answer_all, daemon=True).start()

    def answer_all(self):
        while True:
            connection, _ = self.listener.accept()
            connection.settimeout(10)
            with connection, contextlib.suppress(OSError):
                request_of(connection)
                answer, is_sent = self.draw.choice(ANSWERS) if self.draw else ANSWERS[0]
                self.came += 1
                self.unsent += not is_sent
                if answer is None:
                    connection.setsockopt(socket.SOL_SOCKET, socket.SO_LINGER, NO_LINGER)
                else:
                    connection.sendall(answer)


def compared(answer):
    """An answer without what the moment decides: times, and with them its length, which is that of its body."""
    head, _, body = answer.partition(b"\r\n\r\n")
    length = re.search(rb"\r\nContent-Length: (\d+)", head)
    if length is None or int(length[1]) != len(body):
        return b"another length: " + answer
    head = head.replace(length[0], b"\r\nContent-Length: -")
    times = rb'"(ResponseTimestamp|ServiceStartedTime|RequestTimestamp)":"[^"]*"'
    return head + b"\r\n\r\n" + re.sub(times, rb'"\1":"-"', body)


class Run:
    """Connections to a program that come in order, with what is counted of them."""

    def __init__(self, program, quiet, draw):
        self.program, self.quiet, self.draw = program, quiet, draw
        self.open = deque()
        self.kinds, self.wrong = Counter(), []
        self.refused = self.dropped = self.maybe = 0

    def begin(self, sent):
        if len(sent.now) > 100_000:
            self.finish_all()
        connection = self.program.connect(self.draw)
        try:
            connection.sendall(sent.now)
            if sent.end == "half":
                connection.shutdown(socket.SHUT_WR)
        except ConnectionError:
            # (what isn't wanted any more is reset, and the answer is there all the same)
            pass
        self.open.append((sent, connection, sent.asked and self.ask_quiet(sent.asked)))
        if sent.end in ("close", "reset") and not sent.pause:
            self.leave(sent, connection)
        if sent.later:
            # (whoever comes behind it would have its turn before it)
            self.finish(self.open.pop())
        while len(self.open) > OPEN:
            self.finish()

    def ask_quiet(self, body):
        """Sends the same to the quiet end, by the address of whom that one dials."""
        address, other = (b"127.0.0.1:%d/" % answers.port for answers in (self.program.answers, self.quiet.answers))
        return self.quiet.asked(self.draw, body.replace(address, other))

    def leave(self, sent, connection):
        if sent.end == "reset":
            connection.setsockopt(socket.SOL_SOCKET, socket.SO_LINGER, NO_LINGER)
        connection.close()

    def finish_all(self):
        while self.open:
            self.finish()

    def finish(self, one=None):
        """Ends a connection, or else the one that came first, and looks at what came back."""
        sent, connection, quiet = one or self.open.popleft()
        if sent.pause:
            time.sleep(sent.pause)
        if sent.end in ("close", "reset"):
            if sent.pause:
                self.leave(sent, connection)
            came = b""
        else:
            step = 1 if sent.end == "bytes" else len(sent.later) or 1
            with connection:
                for at in range(0, len(sent.later), step):
                    connection.sendall(sent.later[at : at + step])
                came = to_end(connection)
        self.kinds[sent.kind] += 1
        if not self.is_right(sent, came, quiet):
            self.wrong.append((sent, came))

    def is_right(self, sent, came, quiet):
        if isinstance(sent.back, bytes):
            self.refused += 1
            return came == sent.back
        if sent.back == "none":
            self.dropped += 1
            return came == b""
        if sent.back == "any":
            self.maybe += 1
            return True
        if sent.back == "told":
            is_taken = came.startswith(b"HTTP/1.1 200 OK\r\n")
            self.refused += not is_taken
            is_whole = compared(came).startswith(b"HTTP")
            return is_whole and (is_taken or came.startswith(b"HTTP/1.1 400 Bad Request\r\n"))
        with quiet:
            told = to_end(quiet)
        return came.startswith(b"HTTP/1.1 200 OK\r\n") and compared(came) == compared(told)


def planned(seed, end, count, silences):
    """The connections in order, without the first and the last, which the script makes by itself."""
    draw = random.Random(seed)
    silent_at = {count * (number + 1) // (silences + 1) for number in range(silences)}
    for number in range(1, count - 1):
        if number in silent_at:
            yield long_silent(draw, end)
        elif number % LARGE == LARGE // 2:
            yield large_body(draw, end)
        elif draw.randrange(GOOD) == 0:
            yield good(draw, end.next_good(draw))
        else:
            sent = draw.choice(KINDS)(draw, end)
            if sent.end == "read" and draw.randrange(100) < ENDED:
                sent.end = "half"
            yield sent


def told_of(run, count, seconds, before, after):
    print("%d connections in %.0f s:" % (count, seconds))
    for kind, number in sorted(run.kinds.items(), key=lambda one: -one[1]):
        print("  %-30s%8d" % (kind, number))
    print("answers wrong: %d" % len(run.wrong))
    for sent, came in run.wrong[:5]:
        print("  %s: sent %r, then %r; %s" % (sent.kind, sent.now[:400], sent.later[:200], sent.end))
        print("    came %r" % came[:600])
    print("resident memory: %d KiB before, %d KiB after, at most %d KiB" % (before[0], after[0], after[1]))
    print("descriptors: %d before, %d after" % (before[2], after[2]))


def adds_up(run, count, summary):
    """Whether the summary is that of what was sent."""
    found = re.fullmatch(r"served (\d+) refused (\d+) dropped (\d+) unsent (\d+)", summary)
    if found is None:
        return False
    served, refused, dropped, unsent = map(int, found.groups())
    most, answers = run.dropped + run.maybe, run.program.answers
    wanted = (count, run.refused, run.dropped, most, answers.unsent)
    print("it has to be: served %d refused %d dropped %d to %d unsent %d" % wanted, end="")
    print(", of %d messages" % answers.came)
    return (served, refused, unsent) == (count, run.refused, answers.unsent) and run.dropped <= dropped <= most


def ends_well(run, count):
    """Whether both programs end, the summary adds up, and what else they write is the same."""
    status, written, complained = run.program.ended()
    _, wanted, _ = run.quiet.ended()
    *views, summary = written.splitlines() or [""]
    print("it ended with %d: %s %s" % (status, summary, complained))
    same = views == wanted.splitlines()[:-1]
    if not same:
        print("the views differ from the quiet one's: %s" % wanted)
    return adds_up(run, count, summary) and status == 0 and same


def hostile(siri, end, seed, count, silences, folder):
    """Whether a run of so many connections came out as it has to."""
    draw, name = random.Random(seed), end.__name__.lower()
    answers, well_answers = Answers(seed), Answers()
    goods = sum(sent.back == "good" for sent in planned(seed, end(draw, answers.port), count, silences))
    end = end(draw, answers.port)
    with Program(siri, end, count, os.path.join(folder, name), answers) as program:
        with Program(siri, end, goods + 2, os.path.join(folder, "quiet-" + name), well_answers) as quiet:
            return came_well(Run(program, quiet, draw), planned(seed, end, count, silences), count, end)


def came_well(run, plan, count, end):
    program, quiet, draw, begun = run.program, run.quiet, run.draw, time.monotonic()
    well = compared(program.ask(draw, STATUS, first=True)) == compared(quiet.ask(draw, STATUS, first=True))
    before = program.memory()
    for sent in plan:
        run.begin(sent)
    run.finish_all()
    after = program.memory()
    well &= compared(program.ask(draw, STATUS)) == compared(quiet.ask(draw, STATUS))
    print(end.words[0], end=": ")
    told_of(run, count, time.monotonic() - begun, before, after)
    return ends_well(run, count) and well and not run.wrong and after[2] == AT_REST


def main():
    words = argparse.ArgumentParser()
    words.add_argument("siri")
    words.add_argument("--serve", type=int, default=100_000)
    words.add_argument("--consume", type=int, default=20_000)
    words.add_argument("--seed", type=int, default=1)
    words.add_argument("--silences", type=int, default=6)
    given = words.parse_args()
    siri, well = os.path.realpath(given.siri), True
    with tempfile.TemporaryDirectory() as folder:
        for end, count in ((Producer, given.serve), (Consumer, given.consume)):
            if count:
                well = hostile(siri, end, given.seed, count, given.silences, folder) and well
    print("hostile: %s" % ("as expected" if well else "NOT as expected"))
    sys.exit(not well)


main()
