#!/usr/bin/env python3
"""What one producer carries behind nginx: `behind.py SIRI [SECONDS]`, with the configuration of examples/deploy. It wants nginx, openssl
and wrk (Debian's packages of these names). 20,000 visits are held, 200 at each of 100 stops; each line has how many questions a
second are answered, by how many clients, beside how many that send a byte a second, with how many seconds between an answer and the
next question, and how long half and 99 of 100 of them take."""
import os
import re
import socket
import subprocess
import sys
import tempfile
import threading
import time

TOP = os.path.join(os.path.dirname(os.path.abspath(__file__)), "..")
sys.path.insert(0, os.path.join(TOP, ".ci"))
sys.dont_write_bytecode = True

from behind import Nginx, Producer, later  # noqa: E402

# Questions for the stops in turn; each has a window of its own, where it is wanted that no answer is kept.
LUA = """
local count = 0
function setup(thread) thread:set("id", math.random(1, 1000000)) end
function request()
  count = count + 1
  local own = "%s" == "own" and ("&StartTime=2024-01-01T00:00:00." .. id .. count .. "Z") or ""
  return wrk.format("GET", "/siri-lite/stop-monitoring.json?MonitoringRef=S" .. count %% 100 .. "&MaximumStopVisits=20" .. own)
end
if %d > 0 then function delay() return math.random(%d / 2, %d * 3 / 2) end end
"""


def feed(producer, stops):
    """A feed of 200 visits at each of these stops, and how long it takes."""
    visits = [{"ItemIdentifier": "v%03d" % number, "MonitoringRef": "S%d" % stop, "RecordedAtTime": later(), "MonitoredVehicleJourney": {
        "LineRef": "L%d" % (number % 7), "DestinationName": "Harbour", "Monitored": True, "MonitoredCall": {
            "AimedDepartureTime": later(minutes=60 + number), "ExpectedDepartureTime": later(minutes=61 + number)}}} for stop in stops for number in range(200)]
    begun = time.monotonic()
    producer.feed({"StopMonitoringDelivery": [{"MonitoredStopVisit": visits}]})
    return time.monotonic() - begun


def slow(nginx, count, stop):
    """So many clients that send a byte a second, each anew when it is cut off."""
    made = []
    while not stop.wait(1):
        for number in range(count - len(made)):
            plain = socket.create_connection(("127.0.0.1", nginx.public), 20, ("127.0.0.%d" % (2 + number % 200), 0))
            made.append(nginx.context().wrap_socket(plain, server_hostname="127.0.0.1"))
        for peer in list(made):
            try:
                peer.sendall(b"G")
            except OSError:
                made.remove(peer)


def ask(nginx, folder, kind, clients, seconds, pause):
    script = os.path.join(folder, kind + ".lua")
    with open(script, "w") as file:
        file.write(LUA % (kind, pause, pause, pause))
    told = subprocess.run(["wrk", "-t%d" % min(2, clients), "-c%d" % clients, "-d%d" % seconds, "--latency", "--timeout", "20", "-s", script, "https://127.0.0.1:%d" % nginx.public],
                          capture_output=True, text=True, check=True).stdout
    found = {name: re.search(pattern, told) for name, pattern in (("rate", r"Requests/sec: +(\S+)"), ("half", r"50% +(\S+)"), ("most", r"99% +(\S+)"), ("bad", r"Non-2xx.*: (\d+)"))}
    return [found["rate"][1], found["half"][1], found["most"][1], found["bad"][1] if found["bad"] else "0"]


def main(siri, seconds="10"):
    with tempfile.TemporaryDirectory() as folder:
        os.chmod(folder, 0o755)
        producer = Producer(siri, os.path.join(folder, "producer"))
        nginx = Nginx(os.path.join(folder, "nginx"), os.path.join(TOP, "examples", "deploy"), os.path.join(TOP, "examples", "board"), producer.port)
        # All clients are of one address here, and as fast as they can be.
        nginx.edit("limit_conn addresses 50;", "")
        nginx.edit("limit_req zone=questions burst=500;", "")
        producer.start()
        nginx.start()
        try:
            whole = sum(feed(producer, range(first, first + 20)) for first in range(0, 100, 20))
            single = sorted(feed(producer, [stop]) for stop in range(20))[10]
            print("a feed of 20,000 visits in five documents: %.2f s; of the 200 of a stop: %.4f s, so %d a second" % (whole, single, 1 / single))
            print("%-28s %8s %8s %8s %12s %10s %10s %8s" % ("questions", "clients", "slow", "pause", "a second", "half", "99 %", "refused"))
            for kind, name in (("own", "each another"), ("same", "of 100 stops, kept a second")):
                for clients, count, pause in ((1, 0, 0), (100, 0, 0), (100, 100, 0), (900, 100, 1000)):
                    stop = threading.Event()
                    other = threading.Thread(target=slow, args=(nginx, count, stop), daemon=True)
                    other.start()
                    time.sleep(2 if count else 0)
                    told = ask(nginx, folder, kind, clients, int(seconds), pause)
                    print("%-28s %8d %8d %8s %12s %10s %10s %8s" % (name, clients, count, pause / 1000, *told), flush=True)
                    stop.set()
                    other.join()
        finally:
            nginx.stop()
            producer.kill()


if __name__ == "__main__":
    main(*sys.argv[1:])
