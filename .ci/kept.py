"""A producer that keeps what it is fed in a file, for tests: it is fed, killed at moments that follow from a seed, started again on the
same file, and held each time against all that it answered. All of it on 127.0.0.1 and in folders of its own."""
import contextlib
import json
import os
import random
import re
import shutil
import socket
import struct
import subprocess
import threading
import time

from behind import free_port, later

STATUS = b'{"Siri":{"CheckStatusRequest":{}}}'
ASK = b'{"Siri":{"ServiceRequest":{"StopMonitoringRequest":{"MonitoringRef":"S1"}}}}'
# How many visits there are, and of how many a feed is at most.
VISITS, MOST = 300, 12
# The moment at which a visit ends is told in whole seconds; so long beside it nothing is said of what is shown.
UNSAID = 1.5


def post(port, document, timeout=60):
    """All that is answered to a message. What came before the connection broke is `args[1]` of the error."""
    told = b""
    try:
        with socket.create_connection(("127.0.0.1", port), timeout) as connection:
            connection.sendall(b"POST / HTTP/1.1\r\nContent-Length: %d\r\n\r\n" % len(document) + document)
            while piece := connection.recv(65536):
                told += piece
    except OSError as error:
        raise ConnectionError(error, told) from None
    return told


def body(told):
    """The body of an answer that came whole; None where it didn't."""
    head, end, text = told.partition(b"\r\n\r\n")
    length = re.search(rb"Content-Length: (\d+)", head)
    return text if end and length and len(text) == int(length[1]) else None


def visit(name, version, moment):
    call = {"ExpectedDepartureTime": moment}
    return {"ItemIdentifier": name, "MonitoringRef": "S1", "MonitoredVehicleJourney": {"LineRef": "L1", "DestinationName": version, "MonitoredCall": call}}


def feed(visits, removed=()):
    """A feed of some visits, and of the names of some that are removed."""
    cancelled = [{"ItemRef": name, "MonitoringRef": "S1"} for name in removed]
    rows = {"MonitoredStopVisit": visits, "MonitoredStopVisitCancellation": cancelled}
    delivery = {name: rows[name] for name in rows if rows[name]}
    return json.dumps({"Siri": {"ServiceDelivery": {"StopMonitoringDelivery": [delivery]}}}).encode()


def shown_in(text):
    """What a direct response shows: the version of each visit, by its name."""
    delivery = json.loads(text)["Siri"]["ServiceDelivery"]["StopMonitoringDelivery"][0]
    return {item["ItemIdentifier"]: item["MonitoredVehicleJourney"]["DestinationName"] for item in delivery.get("MonitoredStopVisit", [])}


def sqlite(file, statement):
    """What the program sqlite3 tells."""
    told = subprocess.run(["sqlite3", file, statement], capture_output=True, text=True, check=False)
    return (told.stdout + told.stderr).strip()


def seal(file):
    """Puts the checksum at the end of each page anew, as SQLite's cksumvfs does, after sqlite3 without that extension wrote to a file."""
    with open(file, "r+b") as pages:
        size, left = struct.unpack(">H2xB", pages.read(21)[16:])
        pages.seek(0)
        while page := pages.read(size):
            first = second = 0
            words = struct.unpack("<%dI" % ((size - left) // 4), page[: size - left])
            for one, other in zip(words[::2], words[1::2]):
                first = (first + one + second) & 0xFFFFFFFF
                second = (second + other + first) & 0xFFFFFFFF
            pages.seek(-left, os.SEEK_CUR)
            pages.write(struct.pack("<II", first, second))


def copy_of(file, folder):
    """A copy of a file of rows as a stop left it, with what stands beside it."""
    shutil.rmtree(folder, ignore_errors=True)
    os.makedirs(folder)
    for name in os.listdir(os.path.dirname(file)):
        if name.startswith(os.path.basename(file)):
            shutil.copy(os.path.join(os.path.dirname(file), name), folder)
    return os.path.join(folder, os.path.basename(file))


class Keeper:
    """`siri keep` over one file, at one port, however often it is started, within the words of another program where there are any. Its
    rows and its start number have folders of their own."""

    def __init__(self, siri, folder, rows=None, name="AGENCY", within=()):
        self.siri, self.folder, self.name, self.port, self.process = os.path.abspath(siri), folder, name, free_port(), None
        self.within = within
        rows = rows or os.path.join(folder, "rows")
        self.file = os.path.join(rows, "kept.db")
        for path in (folder, rows):
            os.makedirs(path, exist_ok=True)

    def words(self, count=1_000_000, name=None):
        return [*self.within, self.siri, "keep", name or self.name, "127.0.0.1:%d" % self.port, self.file, str(count)]

    def spawn(self):
        with open(os.path.join(self.folder, "errors"), "ab") as errors:
            self.process = subprocess.Popen(self.words(), cwd=self.folder, stdin=subprocess.DEVNULL, stdout=subprocess.DEVNULL, stderr=errors)

    def await_answer(self, seconds=60):
        """Waits until it answers; False where it was stopped before."""
        end = time.monotonic() + seconds
        while time.monotonic() < end:
            if self.process.poll() is not None:
                return False
            with contextlib.suppress(ConnectionError):
                return body(post(self.port, STATUS)) is not None
            time.sleep(0.003)
        raise RuntimeError("nobody answers at port %d" % self.port)

    def start(self):
        self.spawn()
        if not self.await_answer():
            raise RuntimeError("a start ended with %d: %s" % (self.process.returncode, self.errors()))

    def stop(self):
        if self.process:
            self.process.kill()
            self.process.wait()
            self.process = None

    def errors(self):
        with open(os.path.join(self.folder, "errors"), encoding="utf-8", errors="replace") as file:
            return file.read().strip()

    def refused(self, name=None, **given):
        """The status of a start that doesn't come to serve, and what it tells."""
        told = subprocess.run(self.words(1, name), cwd=self.folder, stdin=subprocess.DEVNULL, capture_output=True, text=True, timeout=60, check=False, **given)
        return told.returncode, told.stderr.strip()

    def shown(self):
        """The versions of what a direct response shows."""
        told = body(post(self.port, ASK))
        if told is None:
            raise RuntimeError("a request isn't answered whole")
        return shown_in(told)


class Fed:
    """What was fed: of each name the version and the end that were answered 200; and the one feed, if any, whose answer didn't come."""

    def __init__(self, seed):
        self.random, self.version, self.held, self.open = random.Random(seed), 0, {}, None

    def next(self):
        """A feed of some visits under new versions, some of which end soon, and at times of some that are removed."""
        given, removed = {}, []
        names = self.random.sample(range(VISITS), self.random.randint(1, MOST))
        for name in ("%03d" % number for number in names):
            if self.random.random() < 0.12:
                removed.append(name)
            else:
                self.version += 1
                seconds = self.random.randint(2, 9) if self.random.random() < 0.05 else self.random.randint(3600, 7200)
                given[name] = ("v%d" % self.version, time.time() + seconds, later(seconds=seconds))
        self.open = (given, removed)
        return feed([visit(name, version, moment) for name, (version, _, moment) in given.items()], removed)

    def answered(self):
        """The feed was answered 200."""
        given, removed = self.open
        self.held.update({name: (version, end) for name, (version, end, _) in given.items()})
        for name in removed:
            self.held.pop(name, None)
        self.open = None

    def wrong(self, shown):
        """What is wrong with what is shown: the feed that wasn't answered counts as a whole or not at all, and is settled by it."""
        without = self.differences(shown)
        if self.open is None or not without:
            self.open = None
            return without
        held = dict(self.held)
        self.answered()
        within = self.differences(shown)
        if within:
            self.held = held
        return within and "neither with the last feed (%s) nor without it (%s)" % (within, without)

    def differences(self, shown):
        now = time.time()
        lost = [name for name, (version, end) in self.held.items() if end > now + UNSAID and shown.get(name) != version]
        more = [name for name in shown if name not in self.held or self.held[name][0] != shown[name] or self.held[name][1] < now - UNSAID]
        return "; ".join("%s %s" % (what, " ".join("%s: %s" % (name, shown.get(name)) for name in names[:5]))
                         for what, names in (("lost", lost), ("not fed", more)) if names)


class Board:
    """`siri consume` with a subscription to all that a stop shows. It ends after so many connections, and tells its view."""

    def __init__(self, siri, folder, producer, count):
        self.folder, self.port, self.count = folder, free_port(), count
        os.makedirs(folder)
        wanted = {"SubscriptionIdentifier": "S", "InitialTerminationTime": later(hours=8), "StopMonitoringRequest": {"MonitoringRef": "S1"}}
        with open(os.path.join(folder, "wanted"), "w", encoding="utf-8") as file:
            file.write(json.dumps({"StopMonitoringSubscriptionRequest": wanted}) + "\n")
        with open(os.path.join(folder, "wanted"), encoding="utf-8") as wanted, open(os.path.join(folder, "errors"), "w", encoding="utf-8") as errors:
            self.process = subprocess.Popen([os.path.abspath(siri), "consume", "board", "127.0.0.1:%d" % self.port, "http://127.0.0.1:%d/" % producer, str(count)],
                                            cwd=folder, stdin=wanted, stdout=subprocess.PIPE, stderr=errors, text=True, env={**os.environ, "SIRI_LOG": "1"})
        end = time.monotonic() + 60
        while time.monotonic() < end and self.accepted() == 0:
            with contextlib.suppress(ConnectionError):
                post(self.port, STATUS)
            time.sleep(0.01)

    def accepted(self):
        with open(os.path.join(self.folder, "errors"), "rb") as file:
            return file.read().count(b" accepted ")

    def view(self):
        """The first line that it tells at its end, and the versions of what it shows."""
        left = self.count - self.accepted()
        for _ in range(left):
            with contextlib.suppress(ConnectionError):
                post(self.port, STATUS)
        told, _ = self.process.communicate(timeout=60)
        lines = told.splitlines()
        if self.process.returncode != 0 or not lines:
            raise RuntimeError("the board ended with %d: %s" % (self.process.returncode, told[-300:]))
        items = [json.loads(line.split(" ", 1)[1])["MonitoredStopVisit"] for line in lines if line.startswith("item ")]
        return lines[0], {item["ItemIdentifier"]: item["MonitoredVehicleJourney"]["DestinationName"] for item in items}, max(left, 0)


class Kills:
    """Kills of a producer under feeds, beside a board that has subscribed to it. When it is killed follows from the seed, by what a start
    and a feed take on this machine: within the first few feeds, or so soon that it may not have opened yet."""

    def __init__(self, siri, folder, kills, seed):
        self.random, self.kills, self.folder = random.Random(seed), kills, folder
        self.keeper, self.fed = Keeper(siri, os.path.join(folder, "keeper")), Fed(seed)
        self.siri, self.wrong, self.last = siri, [], {}
        self.counts = {"feeds": 0, "feeds that weren't answered": 0, "of these kept": 0, "kills in opening": 0}

    def check_shown(self, after):
        """The direct response after a start, beside what was fed."""
        was_open = self.fed.open is not None
        shown = self.keeper.shown()
        wrong = self.fed.wrong(shown)
        if wrong:
            self.wrong.append("after %s: %s" % (after, wrong))
        elif was_open and any(shown.get(name) == version for name, version in self.last.items()):
            self.counts["of these kept"] += 1

    def check_file(self, after):
        """The file as the kill left it, by sqlite3, in a copy, so that the next start finds what the kill left."""
        told = sqlite(copy_of(self.keeper.file, os.path.join(self.folder, "copy")), "pragma integrity_check")
        if told != "ok":
            self.wrong.append("after %s sqlite3 tells %s" % (after, told))

    def feed_until_killed(self, seconds):
        """Feeds one after the other, until the producer is killed so long after the first answer."""
        timer = threading.Timer(seconds, self.keeper.process.kill)
        timer.start()
        try:
            while True:
                document = self.fed.next()
                self.last = {name: version for name, (version, _, _) in self.fed.open[0].items()}
                try:
                    told = post(self.keeper.port, document)
                except ConnectionError as error:
                    told = error.args[1] if len(error.args) > 1 else b""
                if not told.startswith(b"HTTP/1.1 200"):
                    self.counts["feeds that weren't answered"] += 1
                    return
                self.counts["feeds"] += 1
                self.fed.answered()
                if body(told) is None:
                    return
        finally:
            timer.join()

    def kill_in_opening(self, seconds):
        """A start that is killed so soon that it may not have opened yet."""
        self.keeper.spawn()
        time.sleep(seconds)
        self.counts["kills in opening"] += 1

    def measure(self):
        """The seconds that a start and a feed take, the first ones."""
        begun = time.monotonic()
        self.keeper.start()
        opened = time.monotonic()
        for _ in range(3):
            post(self.keeper.port, self.fed.next())
            self.fed.answered()
        return opened - begun, (time.monotonic() - opened) / 3

    def run(self):
        """Kills it so often. What is wrong is told at the end, which comes after ten wrongs, too."""
        start, fed = self.measure()
        board = Board(self.siri, os.path.join(self.folder, "board"), self.keeper.port, 30 * self.kills + 100)
        done = 0
        try:
            while done < self.kills and len(self.wrong) < 10:
                done += 1
                if self.keeper.process is None and self.random.random() < 0.2:
                    self.kill_in_opening(self.random.uniform(0, 1.2 * start))
                else:
                    if self.keeper.process is None:
                        self.keeper.start()
                        self.check_shown("kill %d" % (done - 1))
                    self.feed_until_killed(self.random.uniform(0, 8 * fed))
                self.keeper.stop()
                self.check_file("kill %d" % done)
            if self.keeper.process is None:
                self.keeper.start()
            self.check_shown("the last kill")
            self.compare(board)
            self.keeper.stop()
            told = sqlite(self.keeper.file, "pragma integrity_check")
            if told != "ok":
                self.wrong.append("at the end sqlite3 tells %s" % told)
        finally:
            self.keeper.stop()
            board.process.kill()
        return self.wrong

    def compare(self, board):
        """The board's view at its end beside the direct response, when nothing ends soon."""
        time.sleep(max([0.0] + [end + UNSAID - time.time() for _, end in self.fed.held.values() if end < time.time() + 60]))
        for _ in range(3):  # each gives the producer a turn, and the last finds the others settled
            post(self.keeper.port, STATUS)
        shown = self.keeper.shown()
        line, view, spare = board.view()
        self.counts["connections to the board"] = board.count - spare
        if view != shown:
            different = [name for name in sorted({*view, *shown}) if view.get(name) != shown.get(name)]
            self.wrong.append("the board's view (%s) differs from the direct response at %s" % (line, " ".join(different[:5])))
