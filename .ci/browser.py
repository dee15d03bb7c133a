"""A headless Chromium over its pipe, for tests of pages: no library beside python's own, no port."""
import base64
import collections
import json
import os
import select
import struct
import subprocess
import tempfile
import time
import zlib


class Browser:
    """One page of a browser of its own. `errors` has what its console told as errors, what scripts threw, and what a policy refused."""

    def __init__(self, program):
        self.folder = tempfile.TemporaryDirectory(ignore_cleanup_errors=True)
        to_browser, self.out = os.pipe()
        self.into, from_browser = os.pipe()
        rights = ["--no-sandbox"] if os.geteuid() == 0 else []
        words = [program, "--headless", *rights, "--remote-debugging-pipe", "--user-data-dir=" + self.folder.name, "--disable-gpu",
                 "--disable-lcd-text", "--hide-scrollbars", "--no-first-run", "--disable-background-networking",
                 "--disable-component-update", "--disable-dev-shm-usage", "about:blank"]
        self.process = subprocess.Popen(
            ["bash", "-c", 'exec 3<&%d 4>&%d; exec "$@"' % (to_browser, from_browser), "browser", *words],
            pass_fds=(to_browser, from_browser), stdin=subprocess.DEVNULL, stdout=subprocess.DEVNULL, stderr=subprocess.DEVNULL)
        os.close(to_browser)
        os.close(from_browser)
        self.count, self.bytes, self.errors, self.requests, self.session = 0, b"", [], [], None
        target = self.call("Target.createTarget", url="about:blank")["targetId"]
        self.session = self.call("Target.attachToTarget", targetId=target, flatten=True)["sessionId"]
        for domain in ("Page", "Runtime", "Log", "Network", "DOM", "Accessibility", "Performance"):
            self.call(domain + ".enable")

    def close(self):
        self.process.kill()
        self.process.wait()
        self.folder.cleanup()

    def read(self, seconds):
        """The next message of the browser."""
        while b"\0" not in self.bytes:
            ready, _, _ = select.select([self.into], [], [], seconds)
            if not ready:
                raise TimeoutError("the browser says nothing for %d seconds" % seconds)
            more = os.read(self.into, 1 << 20)
            if not more:
                raise EOFError("the browser has ended")
            self.bytes += more
        message, _, self.bytes = self.bytes.partition(b"\0")
        return json.loads(message)

    def call(self, method, **parameters):
        """What the browser answers to a command of its protocol."""
        self.count += 1
        command = {"id": self.count, "method": method, "params": parameters}
        if self.session:
            command["sessionId"] = self.session
        os.write(self.out, json.dumps(command).encode() + b"\0")
        while True:
            message = self.read(20)
            self.note(message)
            if message.get("id") == self.count:
                if "error" in message:
                    raise RuntimeError("%s: %s" % (method, message["error"]["message"]))
                return message["result"]

    def note(self, message):
        """Keeps what is told by itself: errors, and which addresses are asked for."""
        method, told = message.get("method"), message.get("params", {})
        if method == "Runtime.exceptionThrown":
            self.errors.append(told["exceptionDetails"].get("exception", {}).get("description", told["exceptionDetails"]["text"]))
        elif method == "Runtime.consoleAPICalled" and told["type"] in ("error", "warning", "assert"):
            self.errors.append(" ".join(str(one.get("value", one.get("description"))) for one in told["args"]))
        elif method == "Log.entryAdded" and told["entry"]["level"] in ("error", "warning"):
            self.errors.append(told["entry"]["text"] + " " + told["entry"].get("url", ""))
        elif method == "Network.requestWillBeSent":
            self.requests.append(told["request"]["url"])

    def run(self, expression):
        """The value of an expression of JavaScript in the page."""
        told = self.call("Runtime.evaluate", expression=expression, returnByValue=True, awaitPromise=True)
        if "exceptionDetails" in told:
            raise RuntimeError("%s: %s" % (expression, told["exceptionDetails"].get("exception", {}).get("description")))
        return told["result"].get("value")

    def thread_seconds(self):
        """The processor time of the page's thread so far."""
        return {one["name"]: one["value"] for one in self.call("Performance.getMetrics")["metrics"]}["ThreadTime"]

    def wait(self, expression, seconds=20):
        """Waits until an expression holds."""
        end = time.monotonic() + seconds
        while not self.run("Boolean(%s)" % expression):
            if time.monotonic() > end:
                raise TimeoutError("it doesn't come to hold: " + expression)
            time.sleep(0.02)

    def go(self, address):
        self.call("Page.navigate", url=address)
        self.wait('document.readyState === "complete" && location.href === %s' % json.dumps(address))

    def size(self, width, height, scale=1, dark=False):
        self.call("Emulation.setDeviceMetricsOverride", width=width, height=height, deviceScaleFactor=scale, mobile=width < 500)
        self.call("Emulation.setEmulatedMedia", features=[{"name": "prefers-color-scheme", "value": "dark" if dark else "light"}])

    def choose(self, selector, *paths):
        """Chooses files in a form."""
        root = self.call("DOM.getDocument")["root"]["nodeId"]
        node = self.call("DOM.querySelector", nodeId=root, selector=selector)["nodeId"]
        self.call("DOM.setFileInputFiles", nodeId=node, files=[os.path.abspath(path) for path in paths])

    def drop(self, *paths):
        """Drops files on the page."""
        data = {"items": [], "files": [os.path.abspath(path) for path in paths], "dragOperationsMask": 1}
        for kind in ("dragEnter", "dragOver", "drop"):
            self.call("Input.dispatchDragEvent", type=kind, x=50, y=50, data=data)

    def click(self, x, y):
        for kind in ("mousePressed", "mouseReleased"):
            self.call("Input.dispatchMouseEvent", type=kind, x=x, y=y, button="left", clickCount=1)

    def press(self, key, code=0, text=""):
        for kind in ("keyDown", "keyUp"):
            typed = {"text": text} if kind == "keyDown" and text else {}
            self.call("Input.dispatchKeyEvent", type=kind, key=key, code=key, windowsVirtualKeyCode=code, **typed)

    def picture(self, clip=None):
        """A PNG of what is seen, or of a part of the page."""
        part = {"clip": {**clip, "scale": 1}, "captureBeyondViewport": True} if clip else {}
        return base64.b64decode(self.call("Page.captureScreenshot", format="png", **part)["data"])


def in_few_colours(png):
    """A small PNG of a picture of few colours: those near one another become the most frequent of them, and stand in a table."""
    width, height, _, kind = struct.unpack(">IIBB", b"".join(data for name, data in chunks(png) if name == b"IHDR")[:10])
    depth = {2: 3, 6: 4}[kind]
    lines = unfiltered(width * depth, height, depth, zlib.decompress(b"".join(data for name, data in chunks(png) if name == b"IDAT")))
    rows = [[bytes(line[i:i + 3]) for i in range(0, len(line), depth)] for line in lines]
    most = [colour for colour, _ in collections.Counter(colour for row in rows for colour in row).most_common()]
    near = {colour: bytes((value + 8) // 17 for value in colour) for colour in most}
    colours = list({near[colour]: colour for colour in reversed(most)}.values())
    assert len(colours) <= 256, "the picture has %d colours" % len(colours)
    place = {near[colour]: index for index, colour in enumerate(colours)}
    data = b"".join(b"\0" + bytes(place[near[colour]] for colour in row) for row in rows)
    head = struct.pack(">IIBBBBB", width, height, 8, 3, 0, 0, 0)
    parts = ((b"IHDR", head), (b"PLTE", b"".join(colours)), (b"IDAT", zlib.compress(data, 9)), (b"IEND", b""))
    return png[:8] + b"".join(struct.pack(">I", len(data)) + name + data + struct.pack(">I", zlib.crc32(name + data)) for name, data in parts)


def chunks(png):
    at = 8
    while at < len(png):
        size, = struct.unpack(">I", png[at:at + 4])
        yield png[at + 4:at + 8], png[at + 8:at + 8 + size]
        at += 12 + size


def unfiltered(width, height, depth, data):
    """The lines of bytes of a PNG, each without the filter that its first byte names (PNG, part 9)."""
    before = bytes(width)
    for at in range(0, height * (width + 1), width + 1):
        line = bytearray(data[at + 1:at + 1 + width])
        for i in range(width):
            left, corner = (line[i - depth], before[i - depth]) if i >= depth else (0, 0)
            line[i] = line[i] + guess(data[at], left, before[i], corner) & 255
        yield line
        before = bytes(line)


def guess(kind, left, up, corner):
    if kind < 4:
        return (0, left, up, (left + up) // 2)[kind]
    return min((left, up, corner), key=lambda one: abs(left + up - corner - one))
