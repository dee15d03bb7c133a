"""Rows of `.ci/refusals.txt`, which says how they are written: what one has run by the program, and what comes out otherwise than it says.
All of it on 127.0.0.1 and in folders of their own."""
import contextlib
import functools
import json
import os
import re
import shutil
import socket
import sqlite3
import struct
import subprocess
import tempfile
import threading
import time

from behind import free_port
from kept import body, seal

# A moment as it is written, where an expected text has the first of these; the second stands between texts that are used in turn.
SOME_MOMENT, NEXT = "\x01", "\x02"
MOMENT = r"\d{4}-\d\d-\d\dT\d\d:\d\d:\d\d(?:\.\d{3})?Z"
STEPS = ("post", "send", "reset", "answer")
# How many seconds a row may take.
LONGEST = 120


def pieces(text, most=-1):
    """The pieces of a text between its single spaces, at most so many and a rest; a space within a word separates nothing."""
    found, depth, start = [], 0, 0
    for place, sign in enumerate(text):
        depth += (sign == "<") - (sign == ">")
        if sign == " " and depth == 0 and len(found) != most:
            found.append(text[start:place])
            start = place + 1
    return [*found, text[start:]]


def end_of(text, start):
    """The place of the `>` that ends the word which begins at a place."""
    depth = 0
    for place in range(start, len(text)):
        depth += (text[place] == "<") - (text[place] == ">")
        if depth == 0:
            return place
    raise ValueError("a word has no end: %.80s" % text[start:])


class Words:
    """What the words of texts stand for: those that the table defines, those of a row, and those that are built in."""

    def __init__(self, defined, **values):
        self.defined = defined
        self.values = {"lf": "\n", "crlf": "\r\n", "space": " ", "none": "", "now": SOME_MOMENT, "next": NEXT, **values}

    def text(self, written):
        """The text with its words put in."""
        parts, at = [], 0
        while (start := written.find("<", at)) >= 0:
            end = end_of(written, start)
            parts += [written[at:start], self.word(written[start + 1:end])]
            at = end + 1
        return "".join(parts) + written[at:]

    def word(self, inside):
        name, *rest = pieces(inside, 1)
        rest = "".join(rest)
        if name == "each":
            first, last, between, one = pieces(rest, 3)
            one = self.text(one)
            return self.text(between).join(one.replace("#", str(number)) for number in range(int(first), int(last) + 1))
        if name == "times":
            count, one = pieces(rest, 1)
            return self.text(one) * int(count)
        if name == "byte":
            return bytes([int(rest, 16)]).decode("utf-8", "surrogateescape")
        if name in self.values:
            return self.values[name]
        given = pieces(rest)
        return self.text(re.sub(r"\$(\d)", lambda found: given[int(found[1]) - 1], self.defined[name]))


def as_bytes(text):
    return text.encode("utf-8", "surrogateescape")


@functools.lru_cache
def pattern(expected):
    return re.compile(as_bytes(MOMENT.join(re.escape(part) for part in expected.split(SOME_MOMENT))))


def differs(what, told, expected):
    """That something was told otherwise than expected, from where on, if it was."""
    same = pattern(expected).fullmatch(told) if SOME_MOMENT in expected else told == as_bytes(expected)
    if same:
        return []
    wanted = as_bytes(expected)
    at = len(os.path.commonprefix([told, wanted]))
    return ["%s is, from byte %d on, %r and not %r" % (what, at, told[at:at + 300], wanted[at:at + 300])]


class There:
    """Whoever listens at the address `there` of a row: it answers each connection with the row's next text, and with the last one from then on.
    One that `acknowledges` answers each part with its acknowledgement."""

    def __init__(self, answers):
        self.answers, self.came = answers, 0
        self.listener = socket.create_server(("127.0.0.1", 0))
        self.port = self.listener.getsockname()[1]
        threading.Thread(target=self.serve, daemon=True).start()

    def serve(self):
        with contextlib.suppress(OSError):
            while True:
                connection, _ = self.listener.accept()
                self.came += 1
                with connection, contextlib.suppress(OSError):
                    connection.settimeout(20)
                    answer = self.answers[min(self.came, len(self.answers)) - 1]
                    request = request_of(connection)
                    connection.sendall(acknowledgement(request) if answer == "acknowledges" else as_bytes(answer))

    def close(self):
        self.listener.close()


def request_of(connection):
    """The body of the request that comes by a connection, which may be none."""
    told = b""
    while b"\r\n\r\n" not in told:
        piece = connection.recv(65536)
        if not piece:
            return b""
        told += piece
    head, _, text = told.partition(b"\r\n\r\n")
    length = re.search(rb"(?i)content-length: (\d+)", head)
    while length and len(text) < int(length[1]) and (piece := connection.recv(65536)):
        text += piece
    return text


def acknowledgement(request):
    """The response that acknowledges the part which a request delivers."""
    delivery = json.loads(request)["Siri"]["ServiceDelivery"]
    part = delivery["StopMonitoringDelivery"][0]
    mark = {**part["Extensions"], "SubscriptionRef": part["SubscriptionRef"], "Number": delivery["RequestMessageRef"]}
    text = json.dumps({"Siri": {"DataReceivedAcknowledgement": {"ConsumerRef": part["SubscriberRef"], "Extensions": mark}}}).encode()
    return b"HTTP/1.1 200 OK\r\nContent-Length: %d\r\n\r\n" % len(text) + text


class Row:
    """A row of the table: its name, the variants that it shows, and its lines by their first word, and in their order."""

    def __init__(self, name):
        self.name, self.steps, self.lines = name, [], {}

    def add(self, key, text):
        self.lines.setdefault(key, []).append(text)
        if key in STEPS:
            self.steps.append((key, text))

    def get(self, key, otherwise=None):
        return self.lines[key][0] if key in self.lines else otherwise

    def all(self, key):
        return self.lines.get(key, [])

    def runs(self):
        return "siri" in self.lines


class Trial:
    """A run of the program by a row."""

    def __init__(self, siri, row, defined, folder, folders):
        self.siri, self.row, self.folder = siri, row, folder
        self.port, self.there = free_port(), There([]) if row.all("there") else None
        there = self.there.port if self.there else free_port()
        self.words = Words(defined, here="127.0.0.1:%d" % self.port, there="127.0.0.1:%d" % there)
        if self.there:
            self.there.answers = [self.words.text(text) for text in row.all("there")]
        if "over" in row.lines:
            shutil.copytree(folders[row.get("over")], folder)
        else:
            os.makedirs(folder)
        self.input, self.output, self.count = b"", b"", 0

    def text(self, key):
        """The lines of the row that begin so, each with its end."""
        return "".join(self.words.text(line) + "\n" for line in self.row.all(key))

    def prepare(self):
        """Makes what stands in the folder before the run."""
        for line in self.row.all("folder"):
            os.makedirs(os.path.join(self.folder, line))
        for line in self.row.all("file"):
            name, text = pieces(line, 1)
            with open(os.path.join(self.folder, name), "wb") as file:
                file.write(as_bytes(self.words.text(text) + "\n"))
        if statements := self.text("spoilt"):
            file = os.path.join(self.folder, "rows")
            with contextlib.closing(sqlite3.connect(file)) as database:
                database.executescript(statements)
            seal(file)

    def feed(self, process):
        """Writes what the program reads, as far as it does."""
        with contextlib.suppress(BrokenPipeError):
            process.stdin.write(self.input)
        with contextlib.suppress(BrokenPipeError):
            process.stdin.close()

    def hear(self, process):
        """Keeps what the program writes; of a row that counts its lines the last piece alone."""
        while piece := process.stdout.read1(1 << 20):
            self.count += piece.count(b"\n")
            self.output = (self.output[-(1 << 20):] if "lines" in self.row.lines else self.output) + piece

    def connect(self, process):
        """A connection to the program, as soon as it listens; none where it ended before."""
        end = time.monotonic() + 20
        while process.poll() is None and time.monotonic() < end:
            with contextlib.suppress(ConnectionRefusedError):
                return socket.create_connection(("127.0.0.1", self.port), 30)
            time.sleep(0.002)
        return None

    def ask(self, process, key, text):
        """What is answered to a connection that brings this."""
        connection = self.connect(process)
        if connection is None:
            return None
        data = as_bytes(text)
        with connection:
            if key == "reset":
                connection.sendall(data)
                time.sleep(0.1)
                connection.setsockopt(socket.SOL_SOCKET, socket.SO_LINGER, struct.pack("ii", 1, 0))
                return b""
            told = b""
            with contextlib.suppress(ConnectionError):
                connection.sendall(b"POST / HTTP/1.1\r\nContent-Length: %d\r\n\r\n" % len(data) + data if key == "post" else data)
                if key == "send":
                    connection.shutdown(socket.SHUT_WR)
            with contextlib.suppress(ConnectionError):
                while piece := connection.recv(1 << 20):
                    told += piece
            return told

    def step(self, process, key, text, answer):
        """Sends what a step of the row has, and says what is answered otherwise."""
        expected = self.words.text(answer).split(NEXT)
        for place, one in enumerate(self.words.text(text).split(NEXT)):
            told = self.ask(process, key, one)
            wanted, what = expected[min(place, len(expected) - 1)], repr(one[:100])
            if told is None:
                return ["nobody listens when %s is to be sent" % repr(one[:100])]
            if wanted == "nothing":
                wrong = differs("what is answered to %s" % what, told, "")
            else:
                status, *rest = pieces(wanted, 1)
                wrong = differs("the status that is answered to %s" % what, told[:13], "HTTP/1.1 %s " % status)
                plain = "" if status == "200" else "\n"
                wrong += differs("the body that is answered to %s" % what, body(told) or b"", "".join(rest) + plain)
            if wrong:
                return wrong
        return []

    def talk(self, process):
        """Takes the steps of the row in turn, up to the first that comes out otherwise."""
        steps = iter(self.row.steps)
        for key, text in steps:
            answer = "nothing" if key == "reset" else next(steps)[1]
            if wrong := self.step(process, key, text, answer):
                return wrong
        return []

    def compare(self, status, errors):
        """What the run came to otherwise than the row says."""
        row, told = self.row, errors.split(b"\n")
        wrong = differs("the status", b"%d" % status, row.get("status", "0"))
        wanted = [self.words.text(line) for line in row.all("err")]
        wrong += differs("what is told on standard error", b"\n".join(told[:max(len(wanted), 1)]), "\n".join(wanted))
        if "lines" in row.lines:
            wrong += differs("the number of lines that are written", b"%d" % self.count, row.get("lines"))
            wrong += differs("the last line that is written", self.output.split(b"\n")[-2], self.words.text(row.get("last")))
        else:
            wrong += differs("what is written", self.output, self.text("out"))
        if "came" in row.lines:
            wrong += differs("the number of connections that came", b"%d" % self.there.came, row.get("came"))
        return wrong

    def start(self, stack):
        """Starts the program, which is killed at the end if it still runs, and after the time that the row may take."""
        words = [self.siri, *(self.words.text(word) for word in pieces(self.row.get("siri")))]
        environment = {name: value for name, value in os.environ.items() if name != "SIRI_LOG"}
        source = sink = subprocess.PIPE
        if "from" in self.row.lines:
            source = os.open(os.path.join(self.folder, self.row.get("from")), os.O_RDONLY)
            stack.callback(os.close, source)
        if "to" in self.row.lines:
            sink = stack.enter_context(open(self.row.get("to"), "wb"))
        errors = stack.enter_context(tempfile.TemporaryFile())
        process = subprocess.Popen(words, cwd=self.folder, env=environment, stdin=source, stdout=sink, stderr=errors)
        stack.callback(process.wait)
        stack.callback(process.kill)
        timer = threading.Timer(LONGEST, process.kill)
        timer.start()
        stack.callback(timer.cancel)
        return process, errors

    def run(self):
        """Runs it, and says what comes out otherwise."""
        self.prepare()
        self.input = as_bytes(self.text("in"))
        with contextlib.ExitStack() as stack:
            if self.there:
                stack.callback(self.there.close)
            process, errors = self.start(stack)
            threads = [threading.Thread(target=self.feed, args=(process,))] if process.stdin else []
            threads += [threading.Thread(target=self.hear, args=(process,))] if process.stdout else []
            for thread in threads:
                thread.start()
            wrong = self.talk(process)
            if wrong:
                process.kill()
            status = process.wait()
            for thread in threads:
                thread.join()
            errors.seek(0)
            return wrong or self.compare(status, errors.read())
