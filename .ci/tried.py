"""examples/deploy/try.py: `tried.py SIRI DEPLOY`. Each mistake is told in one line and ends with 1; a producer that is slow to listen is
waited for, one that ends is told; and by the program SIRI the board shows departures."""
import contextlib
import http.client
import json
import os
import re
import shutil
import signal
import socket
import struct
import subprocess
import sys
import tempfile
import time

from behind import free_port

# A producer that listens after three seconds, and answers what try.py asks; it ends after so many answers.
SLOW = """#!/usr/bin/env python3
import http.server, sys, time
class Handler(http.server.BaseHTTPRequestHandler):
    def do_POST(self):
        self.rfile.read(int(self.headers["Content-Length"]))
        body = b'{"Siri":{"%s":{"Status":true}}}'
        self.send_response(200)
        self.send_header("Content-Length", str(len(body)))
        self.end_headers()
        self.wfile.write(body)
    def log_message(self, *words):
        pass
time.sleep(3)
with http.server.HTTPServer(("127.0.0.1", int(sys.argv[3].rpartition(":")[2])), Handler) as server:
    for _ in range(%d):
        server.handle_request()
sys.exit("all is answered")
"""


class Trial:
    def __init__(self, deploy, folder, faults):
        self.program, self.folder, self.faults = os.path.join(deploy, "try.py"), folder, faults

    def check(self, holds, fault):
        if not holds:
            self.faults.append("try.py: " + fault)

    def executable(self, name, text):
        path = os.path.join(self.folder, name)
        with open(path, "w") as file:
            file.write(text)
        os.chmod(path, 0o755)
        return path

    def mistake(self, says, *words, program=None, nowhere=False):
        """It ends by itself with one line on standard error; also where it has nowhere to put a file."""
        begin = "import sys, tempfile, runpy; tempfile._candidate_tempdir_list = lambda: ['/nowhere']; sys.argv = sys.argv[1:]; runpy.run_path(sys.argv[0], run_name='__main__')"
        told = subprocess.run([sys.executable, *(["-c", begin] if nowhere else []), program or self.program, *words], capture_output=True, text=True, check=False, timeout=60)
        lines = told.stderr.splitlines()
        self.check(told.returncode == 1 and len(lines) == 1 and re.search(says, lines[0]), "%s end with %d and %s" % (words, told.returncode, told.stderr))
        return told.stdout

    def mistakes(self):
        port = str(free_port())
        self.mistake("^usage: ")
        for wrong in ("x", "0", "65536", "-1", "8000x", "9" * 80):
            self.mistake("PORT is a number from 1 to 65535, and not " + wrong, "/bin/true", wrong)
        with socket.create_server(("127.0.0.1", 0)) as taken:
            self.mistake("can't be served at port %d: Address already in use" % taken.getsockname()[1], "/bin/true", str(taken.getsockname()[1]))
        self.mistake("/nowhere can't be started: No such file", "/nowhere", port)
        self.mistake("can't be started: Permission denied", os.path.join(self.folder), port)
        self.mistake("/bin/true ended with status 0", "/bin/true", port)
        self.mistake("No usable temporary directory", "/bin/true", port, nowhere=True)
        copied = shutil.copy(self.program, self.folder)
        self.mistake("there is no board at ", "/bin/true", port, program=copied)
        self.mistake("ended with status 3: it is broken", self.executable("broken", "#!/bin/sh\necho it is broken >&2\nexit 3\n"), port)
        self.mistake("answers otherwise than the program `siri`", self.executable("other", SLOW % ("Another", 1000)), port)
        written = self.mistake("ended with status 1: all is answered", self.executable("slow", SLOW % ("CheckStatusResponse", 2)), port)
        self.check(re.fullmatch(r"the producer doesn't answer yet; waiting for it\nthe board is at http://127\.0\.0\.1:%s/ .*\n" % port, written), "of a slow producer it says %s" % written)

    def shown(self, siri):
        """By the program itself the board is served, and its departures come; once the program is killed that is told."""
        port = free_port()
        process = subprocess.Popen([sys.executable, self.program, siri, str(port)], stdout=subprocess.PIPE, stderr=subprocess.PIPE, text=True)
        try:
            self.check("the board is at" in process.stdout.readline(), "it doesn't say where the board is")
            page, visits = self.get(port, "/board/"), []
            end = time.monotonic() + 20
            while not visits and time.monotonic() < end:
                answer = self.get(port, "/siri-lite/stop-monitoring.json?MonitoringRef=market-square")
                with contextlib.suppress(ValueError, KeyError, IndexError):
                    visits = json.loads(answer)["Siri"]["ServiceDelivery"]["StopMonitoringDelivery"][0]["MonitoredStopVisit"]
                time.sleep(0.2)
            self.check(b"<title>" in page and len(visits) > 3, "the board shows %d departures" % len(visits))
            self.hangs_up(port)
            children = subprocess.run(["ps", "-o", "pid=", "--ppid", str(process.pid)], capture_output=True, text=True, check=False).stdout.split()
            for child in children:
                os.kill(int(child), signal.SIGKILL)
            self.check(process.wait(20) == 1, "once the producer is killed it ends with %s" % process.returncode)
            told = process.stderr.read()
            self.check(len(told.splitlines()) == 1 and "ended with status -9" in told, "once the producer is killed it says %s" % told)
        finally:
            process.kill()
            process.wait()

    def hangs_up(self, port):
        """A browser that doesn't wait for its answers, of which nothing is told."""
        for target in ("/board/main.js", "/siri-lite/situation-exchange.json", "/board/"):
            with socket.create_connection(("127.0.0.1", port)) as client:
                client.setsockopt(socket.SOL_SOCKET, socket.SO_LINGER, struct.pack("ii", 1, 0))
                client.sendall(b"GET %s HTTP/1.1\r\nHost: a\r\n\r\n" % target.encode())
        self.get(port, "/board/")

    def get(self, port, target):
        client = http.client.HTTPConnection("127.0.0.1", port, timeout=20)
        client.request("GET", target)
        return client.getresponse().read()


def main(siri, deploy):
    faults = []
    with tempfile.TemporaryDirectory() as folder:
        trial = Trial(deploy, folder, faults)
        try:
            trial.mistakes()
            trial.shown(siri)
        except (OSError, subprocess.TimeoutExpired, http.client.HTTPException) as fault:
            faults.append("try.py: %s: %s" % (type(fault).__name__, fault))
    for fault in faults:
        print("deploy: " + fault)
    return 1 if faults else 0


if __name__ == "__main__":
    sys.exit(main(*sys.argv[1:]))
