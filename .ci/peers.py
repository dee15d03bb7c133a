"""Programs that are tried over real sockets, and the peers that they meet: what `side-by-side` and `bench/beside.py` share."""
import contextlib
import json
import os
import socket
import subprocess
import tempfile
import threading
import time
from datetime import datetime, timedelta, timezone

STATUS = {"Siri": {"CheckStatusRequest": {}}}
# The programs that run, and the folder in which each has one of its own.
running, places = [], []


def folder():
    """A folder of its own."""
    return tempfile.mkdtemp(dir=places[0])


# ---- messages


def in_minutes(minutes):
    return (datetime.now(timezone.utc) + timedelta(minutes=minutes)).strftime("%Y-%m-%dT%H:%M:%SZ")


def visit(name, time_of, more=""):
    call = {"StopPointName": "Market Square" + more, "ExpectedDepartureTime": time_of}
    return {"ItemIdentifier": name, "MonitoringRef": "S1", "MonitoredVehicleJourney": {"LineRef": "L1", "MonitoredCall": call}}


def feed(visits):
    return {"Siri": {"ServiceDelivery": {"StopMonitoringDelivery": [{"MonitoredStopVisit": visits}]}}}


def asked_for():
    return {"Siri": {"ServiceRequest": {"StopMonitoringRequest": [{"MonitoringRef": "S1"}]}}}


def subscription(name, port, count=1, host="127.0.0.1"):
    """So many subscriptions to the stop, of as many subscribers, by one address."""
    entries = [
        {"SubscriberRef": "%s%d" % (name, number), "SubscriptionIdentifier": "S", "InitialTerminationTime": in_minutes(60), "StopMonitoringRequest": {"MonitoringRef": "S1"}}
        for number in range(count)
    ]
    asked = {"RequestorRef": name, "MessageIdentifier": "1", "ConsumerAddress": "http://%s:%d/" % (host, port)}
    return {"Siri": {"SubscriptionRequest": {**asked, "StopMonitoringSubscriptionRequest": entries}}}


def request(document):
    body = json.dumps(document).encode()
    return b"POST / HTTP/1.1\r\nContent-Length: %d\r\n\r\n" % len(body) + body


def message_of(connection):
    """The document that comes over a connection."""
    came = b""
    while b"\r\n\r\n" not in came:
        came += connection.recv(65536) or bytes(1 // 0)
    head, _, body = came.partition(b"\r\n\r\n")
    length = int(head.lower().split(b"content-length:")[1].split()[0])
    while len(body) < length:
        body += connection.recv(65536)
    return json.loads(body)


def acknowledgement(document):
    """The acknowledgement of a delivery, and nothing for other messages."""
    delivery = document["Siri"].get("ServiceDelivery")
    if delivery is None:
        return b""
    part = delivery["StopMonitoringDelivery"][0]
    told = {"SubscriptionRef": part["SubscriptionRef"], "Number": int(delivery["RequestMessageRef"])}
    told.update({name: part["Extensions"][name] for name in ("Start", "Round", "Part")})
    taken = {"ConsumerRef": part["SubscriberRef"], "Status": True, "Extensions": told}
    return json.dumps({"Siri": {"DataReceivedAcknowledgement": taken}}).encode()


# ---- programs and peers


class Program:
    """A program that is tried, with these words and this input, at a port of its own; within another program, if one is
    given."""

    def __init__(self, siri, words, given="", more=(), host="127.0.0.1", within=()):
        self.host, self.port = host, free_port(host)
        self.folder = folder()
        with open(os.path.join(self.folder, "input"), "w", encoding="utf-8") as file:
            file.write(given)
        self.process = subprocess.Popen(
            [*within, siri, *words, "%s:%d" % (host, self.port), *more, "1000000"],
            cwd=self.folder,
            stdin=open(os.path.join(self.folder, "input"), "rb"),
            stdout=subprocess.DEVNULL,
        )
        running.append(self.process)
        self.await_it()

    def await_it(self):
        for _ in range(400):
            try:
                return self.ask(STATUS)
            except OSError:
                time.sleep(0.05)
        raise AssertionError("nobody listens")

    def ask(self, document):
        """The seconds that an exchange takes, until the program ends its side."""
        begun = time.perf_counter()
        self.answer(document)
        return time.perf_counter() - begun

    def answer(self, document):
        """What is answered."""
        with self.connected() as connection:
            connection.sendall(request(document))
            return answered(connection)

    def connected(self, source=None):
        return socket.create_connection((self.host, self.port), 60, source and (source, 0))


def answered(connection):
    """The document that is answered, with 200, over a connection."""
    answer = b"".join(iter(lambda: connection.recv(65536), b""))
    head, _, body = answer.partition(b"\r\n\r\n")
    assert head.startswith(b"HTTP/1.1 200"), "answered %r" % answer[:200]
    assert b"Content-Length: %d\r\n" % len(body) in head + b"\r\n", "%d bytes came of %r" % (len(body), head)
    return json.loads(body) if body else None


def free_port(host="127.0.0.1"):
    with socket.socket() as probe:
        probe.bind((host, 0))
        return probe.getsockname()[1]


class Subscriber:
    """Whoever listens at a port, and treats each connection in the same way."""

    def __init__(self, treat, host="127.0.0.1", port=0):
        self.treat, self.came = treat, []
        self.listener = socket.create_server((host, port), backlog=512)
        self.port = self.listener.getsockname()[1]
        threading.Thread(target=self.take_all, daemon=True).start()

    def take_all(self):
        while True:
            connection, _ = self.listener.accept()
            threading.Thread(target=self.take, args=(connection,), daemon=True).start()

    def take(self, connection):
        with connection:
            try:
                document = message_of(connection)
                self.came.append(document)
                self.treat(connection, acknowledgement(document))
            except (OSError, ZeroDivisionError):
                pass


def answer_well(connection, acknowledged):
    connection.sendall(b"HTTP/1.1 200 OK\r\nContent-Length: %d\r\n\r\n" % len(acknowledged) + acknowledged)


def answer_and_stay(connection, acknowledged):
    answer_well(connection, acknowledged)
    time.sleep(20)


def answer_slowly(connection, acknowledged):
    connection.sendall(b"HTTP/1.1 200 OK\r\nSlow: ")
    for _ in range(60):
        connection.sendall(b"x")
        time.sleep(1)


def say_nothing(connection, acknowledged):
    time.sleep(60)


class Swallowing:
    """A port whose queue is full: the system drops the packets of whoever dials it."""

    def __init__(self):
        self.listener = socket.socket()
        self.listener.bind(("127.0.0.1", 0))
        self.listener.listen(0)
        self.port = self.listener.getsockname()[1]
        self.waiting = [socket.socket() for _ in range(3)]
        for one in self.waiting:
            one.setblocking(False)
            one.connect_ex(("127.0.0.1", self.port))
        time.sleep(0.2)


@contextlib.contextmanager
def begun():
    """A place for programs, which are ended with it."""
    with tempfile.TemporaryDirectory() as place:
        places.append(place)
        try:
            yield
        finally:
            for process in running:
                process.kill()
                process.wait()
