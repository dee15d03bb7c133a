"""Opens examples/board in a browser: `departures.py CHROMIUM SIRI EXAMPLES [FOLDER]`, with the program SIRI behind nginx as
examples/deploy has it, or behind the stand-in of examples/deploy/try.py where there is no nginx; then, with nginx, over `keep`. What the
page shows has to be what was fed. With FOLDER, pictures of the board are drawn there."""
import http.server
import importlib.util
import json
import os
import re
import shutil
import sys
import tempfile
import threading
import time
import urllib.parse

from behind import Nginx, Producer
from boards import STATE, Board, at, situation, visit
from browser import Browser, in_few_colours
from fresh import Fresh
from languages import Languages
from named import Named
from readable import Readable
from walls import Walls

HOSTILE = "<script>alert(1)</script><img src=x onerror=alert(2)>\"'&\u05ea\u05d7\u05e0\u05d4 \u0645\u062d\u0637\u0629"
# Answers with one value changed: what is read of them never throws, and costs at most the departure that it stands in.
READS = """(async () => {
    const { answerOf, departuresOf, situationsOf, situationsAt } = await import('./read.js');
    const { Names } = await import('./names.js');
    const answers = %s;
    const odd = [null, '', 0, true, [], {}, [null], 'x', '2024-13-01T00:00:00Z', 'P1M', { value: 1 }];
    const changed = (value) => [...odd, ...(typeof value !== 'object' || value === null ? [] : Object.keys(value).flatMap((key) =>
        changed(value[key]).map((one) => Array.isArray(value) ? value.with(Number(key), one) : { ...value, [key]: one })))];
    let count = 0, least = Infinity;
    const town = { lines: { 10: { name: '10', ground: '#123456', letters: '#ffffff' } }, stops: { S1: 'Market' }, destinations: { north: 'Harbour' } };
    for (const one of changed(town)) {
        const names = new Names(one);
        names.stops();
        least = Math.min(least, departuresOf(answerOf(answers[0][1], answers[0][0]).items, names).length - 1);
    }
    for (const [service, document] of answers) for (const one of changed(document)) {
        count += 1;
        const items = answerOf(one, service)?.items ?? [];
        const departures = departuresOf(items);
        situationsAt(situationsOf(items), 'S1', departures);
        if (items.length === 3 && service === 'StopMonitoringDelivery') least = Math.min(least, departures.length);
    }
    return [count, least];
})()"""


def stand_in(examples, producer, pages):
    """The server of try.py, where there is no nginx, with a copy of the pages."""
    spec = importlib.util.spec_from_file_location("stand_in", os.path.join(examples, "deploy", "try.py"))
    module = importlib.util.module_from_spec(spec)
    spec.loader.exec_module(module)
    module.Handler.producer, module.BOARD = producer.port, pages
    server = http.server.ThreadingHTTPServer(("127.0.0.1", 0), module.Handler)
    threading.Thread(target=server.serve_forever, daemon=True).start()
    return "http://127.0.0.1:%d" % server.server_port


class Departures(Board):
    """What is shown of what was fed, whatever becomes of the producer."""

    def shows(self):
        """Three departures, one moves, one is cancelled, one is withdrawn, one leaves."""
        now = self.now = int(time.time()) // 60 * 60
        self.feed([visit("a", "10", "Harbour", now + 720, 120, DeparturePlatformName="B"), visit("b", "6", "University", now + 1500),
                   visit("c", "24N", "Old Mill", now + 2400, None)],
                  [situation("1", "Works at the stop.", places=["S1-1"]), situation("2", "Line 6 is short.", lines=["6"]),
                   situation("3", "Far away.", lines=["99"], places=["S9"])])
        self.open("stop=S1&zone=Europe/Paris&every=1&old=4")
        self.wait_rows([["10", "Harbour", "%s planned %s" % (at(now + 840), at(now + 720)), None, "B", "2 min late"],
                        ["6", "University", at(now + 1500), None, "", "on time"],
                        ["24N", "Old Mill", at(now + 2400), None, "", "not monitored"]], "a board of three departures")
        minutes = [int((re.match(r"\d+", row[3]) or "0")[0]) for row in self.rows()]
        passed = (time.time() - now) / 60
        self.check(all(wanted - passed - 1.1 <= shown <= wanted - passed + 0.1 for shown, wanted in zip(minutes, (14, 25, 40))), "minutes to go are %s" % minutes)
        self.wait("[...document.querySelectorAll('.situations li')].map((one) => one.textContent).join() === 'Works at the stop.,Line 6 is short.'", "disturbances aren't told")
        self.check(self.browser.run("document.querySelector('h2').textContent") == "Market Square", "the stop isn't named")
        self.check(self.browser.run(STATE) == "", "something is said to be wrong: %s" % self.browser.run(STATE))

        self.browser.run("document.querySelector('tbody tr').mine = true")
        self.feed([visit("a", "10", "Harbour", now + 720, 900, DeparturePlatformName="C")])
        self.wait_rows([["6"], ["10", None, "%s planned %s" % (at(now + 1620), at(now + 720)), None, "C changed, before B", "15 min late"], ["24N"]], "a departure that moved")
        self.check(self.browser.run("document.querySelectorAll('tbody tr')[1].mine") is True, "a row that moves is another element")
        said = "Line 10 to Harbour: now %s, 15 minutes late, platform C." % at(now + 1620)
        self.wait("document.querySelector('#changes').textContent === %s" % json.dumps(said), "it isn't told that a departure moved")

        self.feed([visit("b", "6", "University", now + 1500, DepartureStatus="cancelled")])
        self.wait_rows([["6", None, None, "", None, "cancelled"], ["10"], ["24N"]], "a departure that is cancelled")
        self.feed(cancelled=["c"])
        self.wait_rows([["6"], ["10"]], "a departure that is withdrawn")
        self.wait("document.querySelector('#changes').textContent.includes('Line 24N to Old Mill at %s isn’t expected any more.')" % at(now + 2400),
                  "it isn't told that a departure was withdrawn")

    def breaks_off(self):
        """The producer is killed and started again."""
        self.browser.run("performance.clearResourceTimings()")
        self.producer.kill()
        self.wait(STATE + ".includes('can’t be reached')", "it isn't told that the producer can't be reached")
        self.wait(STATE + ".includes('These departures are old')", "it isn't told that departures are old")
        self.check(len(self.rows()) == 2, "what was known is shown no more")
        failed = "performance.getEntriesByType('resource').filter((one) => one.responseStatus >= 500)"
        self.wait(failed + ".length >= 4", "it isn't asked again", 40)
        starts = self.browser.run(failed + ".map((one) => one.startTime)")[:4]
        gaps = [after - before for before, after in zip(starts, starts[1:])]
        self.check(all(after > before * 1.2 for before, after in zip(gaps, gaps[1:])), "pauses don't grow: %s" % gaps)
        self.producer.start()
        self.browser.run("document.querySelector('#changes').textContent = ''; dispatchEvent(new Event('online'))")
        self.wait("/The producer began anew at ..:.. and knows no departures yet/.test(%s)" % STATE, "it isn't told that the producer began anew")
        self.check(len(self.rows()) == 2, "what was known before the producer began anew is shown no more")
        self.check(self.browser.run("document.querySelector('#changes').textContent") == "", "a producer that began anew takes departures back")
        self.feed([visit("e", "10", "Harbour", self.now + 1800)])
        self.browser.run("dispatchEvent(new Event('online'))")
        self.wait_rows([["10", "Harbour", at(self.now + 1800)]], "a board after a restart")
        self.wait(STATE + " === ''", "something is wrong for good")

    def comes_back(self):
        """The producer keeps what it knows: killed and started again, it is fed nothing, and the board shows what it showed."""
        departures = [["10", "Harbour", at(self.now + 840)], ["6", "University", at(self.now + 1500)]]
        self.feed([visit("a", "10", "Harbour", self.now + 840), visit("b", "6", "University", self.now + 1500)])
        self.open("stop=S1&zone=Europe/Paris&every=1&old=4")
        self.wait_rows(departures, "a board over a producer that keeps")
        self.producer.kill()
        self.wait(STATE + ".includes('can’t be reached')", "it isn't told that a producer that keeps can't be reached")
        self.producer.start()
        self.open("stop=S1&zone=Europe/Paris&every=1&old=4")
        self.wait_rows(departures, "a board over a producer that keeps, after it was killed")
        self.wait(STATE + " === ''", "something is wrong for good")

    def refuses(self):
        """A question that is refused says so, beside one that isn't; what of the address is wrong is told."""
        self.open("stop=%s&stop=S1&zone=Europe/Paris&every=1" % ("x" * 256))
        self.wait("/is refused: .*BadName/.test(%s)" % STATE, "a refusal isn't told")
        self.wait_rows([["10"]], "a stop beside one that is refused", stop=1)
        self.open("stop=S1&zone=Nowhere/At+all&every=0")
        self.wait("%s.includes('“Nowhere/At all” is no time zone') && %s.includes('“every” is a number from 1 to 600')" % (STATE, STATE), "a bad address isn't told")
        self.open("")
        self.wait("!document.querySelector('#choice').hidden", "without a stop none is asked for")

    def hostile(self):
        """Names stay texts, whatever they hold."""
        self.feed([visit("<script>", HOSTILE, HOSTILE, self.now + 1200, DeparturePlatformName=HOSTILE, journey={"PublishedLineName": HOSTILE})],
                  [situation(HOSTILE, HOSTILE, places=["S1"])])
        time.sleep(2.1)  # (nginx keeps an answer for up to two seconds)
        self.open("stop=S1&zone=Europe/Paris&every=1")
        self.wait_rows([[HOSTILE, HOSTILE, at(self.now + 1200), None, HOSTILE, "on time"], ["10"]], "a board of hostile names")
        self.wait("[...document.querySelectorAll('.situations li')].some((one) => one.textContent === %s)" % json.dumps(HOSTILE), "a hostile disturbance isn't shown as it is")
        self.check(self.browser.run("document.querySelectorAll('#stops script, #stops img, #state img').length") == 0, "a name became an element")
        self.check(self.browser.run("document.querySelectorAll('tbody bdi').length") == 6, "names aren't kept apart from what stands beside them")
        self.feed([visit("h", "10", "Harbour", self.now + 1200, stop=HOSTILE)], cancelled=["<script>"])
        self.open("stop=%s&zone=Europe/Paris&every=1" % urllib.parse.quote(HOSTILE))
        self.wait_rows([["10", "Harbour", at(self.now + 1200)]], "a board of a stop with a hostile name")

    def reads(self):
        """Answers that aren't of the form."""
        answers = [("StopMonitoringDelivery", {"StopMonitoringDelivery": [{"MonitoredStopVisit": [
            visit("x%d" % number, "10", "Harbour", 1714550400 + number, DepartureStatus="onTime", journey={"Delay": "PT1M"}) for number in range(3)]}]}),
                   ("SituationExchangeDelivery", {"SituationExchangeDelivery": [{"Situations": {"PtSituationElement": [situation("1", "a", ["10"], ["S1"])]}}]})]
        whole = [(service, {"Siri": {"ServiceDelivery": {"ResponseTimestamp": "2024-05-01T08:00:00Z", "Status": True, **delivery}}}) for service, delivery in answers]
        count, least = self.browser.run(READS % json.dumps(whole))
        self.check(count > 500 and least == 2, "of %d odd answers one costs more than a departure: %s are left" % (count, least))

    def clock(self):
        """A device whose clock is an hour late shows the same minutes."""
        added = self.browser.call("Page.addScriptToEvaluateOnNewDocument", source="{ const now = Date.now; Date.now = () => now() - 3600000; }")
        self.open("stop=S1&zone=Europe/Paris&every=1")
        self.wait_rows([["10"]], "a board of a device whose clock is late")
        minutes, wanted = int(self.rows()[0][3].split()[0]), (self.now + 1800 - time.time()) / 60
        self.check(wanted - 1.1 <= minutes <= wanted + 0.1, "a device whose clock is late shows %d minutes in the place of %d" % (minutes, wanted))
        self.check(self.browser.run("document.querySelector('#clock').textContent") in (at(time.time()), at(time.time() - 1)), "the time at the stop isn't that of the server")
        self.browser.call("Page.removeScriptToEvaluateOnNewDocument", identifier=added["identifier"])

    def screens(self):
        """A telephone, 200 %, a wall, light and dark: nothing is cut off, and a reader of screens finds a table."""
        self.feed([visit("f", "N", "A destination whose name is rather long, via a bridge and a hospital", self.now + 2400, 180, DeparturePlatformName="12a"),
                   visit("g", "Donaudampfschifffahrtslinie", "Linz", self.now + 3000, DepartureStatus="cancelled")], [situation("4", "x" * 300, places=["S1"])])
        time.sleep(2.1)
        for width, height, scale, dark in ((320, 640, 2, False), (360, 740, 3, True), (640, 512, 2, False), (1280, 800, 1, True), (1920, 1080, 1, True), (1080, 1920, 1, False), (3840, 2160, 1, True)):
            self.browser.size(width, height, scale, dark)
            self.open("stop=S1&zone=Europe/Paris&every=5")
            self.wait_rows([["10"], ["N"], ["Donaudampfschifffahrtslinie"]], "a board %d wide" % width)
            self.wait("document.querySelector('.situations li') !== null", "at %d pixels there is no disturbance" % width)
            wide = self.browser.run("document.scrollingElement.scrollWidth")
            self.check(wide <= width, "at %d pixels the page is %d wide" % (width, wide))
            cut = self.browser.run("""[...document.querySelectorAll('tbody th, tbody td')].filter((cell) => cell.textContent !== '' && (cell.scrollWidth > cell.clientWidth + 1
                || cell.getBoundingClientRect().right > innerWidth || cell.getBoundingClientRect().width === 0)).map((cell) => cell.textContent)""")
            self.check(not cut, "at %d pixels %s is cut off" % (width, cut))
            light = self.browser.run("getComputedStyle(document.body).backgroundColor") == "rgb(255, 255, 255)"
            self.check(light != dark, "the colours aren't those of the screen")
            self.named(width)
            letters, wanted = self.browser.run("parseFloat(getComputedStyle(document.querySelector('td')).fontSize)"), 28 * min(width, height) / 1080
            self.check(max(width, height) < 1920 or letters >= wanted, "on a wall of %d to %d pixels letters are %s pixels high" % (width, height, letters))
        self.browser.size(1280, 900)

    def named(self, width):
        nodes = [node for node in self.browser.call("Accessibility.getFullAXTree")["nodes"] if not node.get("ignored")]
        named = [(node["role"]["value"], node.get("name", {}).get("value", "")) for node in nodes]
        for wanted in [("table", "Departures from Market Square"), ("heading", "Market Square"), ("heading", "Disturbances"), ("rowheader", "10")] + [
                ("columnheader", name) for name in ("Line", "To", "Time", "In", "Platform", "Notes")]:
            self.check(wanted in named, "at %d pixels a reader of screens finds no %s “%s”" % (width, *wanted))
        self.check([role for role, _ in named].count("status") == 2, "at %d pixels there aren't two places that tell what changes" % width)

    def pictures(self, folder):
        """The pictures of the pages that tell of the board: as it stands in the README, on walls, and in a hand."""
        now = int(time.time()) // 60 * 60
        lines = (("10", "Harbour", "B", 120), ("6", "University", "A", 0), ("24N", "Old Mill via Hospital", "C", 0), ("10", "Harbour", "B", 0), ("31", "Airport", "", None))
        self.feed(cancelled=["e", "f", "g"])
        self.feed([visit("p%02d" % number, line, to, now + 180 + number * 270, late, "P1", **({"DeparturePlatformName": platform} if platform else {}),
                         **({"DepartureStatus": "cancelled"} if number == 2 else {}))
                   for number, (line, to, platform, late) in enumerate(lines * 4)],
                  [situation("p", "Works at the old mill: buses of line 24N end at the hospital until Friday.", lines=["24N"])])
        time.sleep(2.1)
        for name, width, height, scale, dark, more in (("board", 760, 430, 1, False, "&most=5"), ("wall", 1920, 1080, 0.5, True, "&rows=fit"),
                                                       ("wall-4k", 3840, 2160, 0.25, True, "&rows=fit"), ("stele", 1080, 1920, 0.4, True, "&rows=fit"), ("phone", 390, 844, 1, False, "")):
            self.browser.size(width, height, scale, dark)
            self.open("stop=P1&zone=Europe/Paris" + more)
            self.wait_rows([[line] for line, *_ in lines * (1 if name == "board" else 4)], "the board of the picture")
            self.wait("document.querySelector('.situations li') !== null", "the picture has no disturbance")
            with open(os.path.join(folder, name + ".png"), "wb") as file:
                file.write(in_few_colours(self.browser.picture()))


class Trials(Departures, Fresh, Languages, Named, Readable, Walls):
    pass


def main(chromium, siri, examples, *folders):
    browser, faults, behind = Browser(chromium), [], []
    with tempfile.TemporaryDirectory() as folder:
        os.chmod(folder, 0o755)

        def start(command):
            """A producer and nginx before it, in the place of those before; the page's address, and the folder that it is in."""
            end()
            producer = Producer(siri, os.path.join(folder, command), command)
            behind.append(producer.kill)
            producer.start()
            if not has_nginx:
                pages = os.path.join(folder, "board")
                shutil.copytree(os.path.join(examples, "board"), pages)
                return producer, stand_in(examples, producer, pages), pages
            nginx = Nginx(os.path.join(folder, "nginx-" + command), os.path.join(examples, "deploy"), os.path.join(examples, "board"), producer.port, command != "lite")
            behind.append(nginx.stop)
            nginx.start()
            return producer, "https://127.0.0.1:%d" % nginx.public, os.path.join(nginx.folder, "www", "board")

        def end():
            while behind:
                behind.pop()()

        has_nginx = shutil.which("openssl") and shutil.which("nginx", path=os.environ["PATH"] + ":/usr/sbin")
        try:
            producer, base, pages = start("lite")
            if has_nginx:
                browser.call("Security.setIgnoreCertificateErrors", ignore=True)
            else:
                print("board: there is no nginx or no openssl (Debian's packages of these names), so a stand-in is before the producer")
            browser.size(1280, 900)
            board = Trials(browser, base, producer, faults, pages)
            for part in (board.leaves, board.grows_stale, board.shows, board.breaks_off, board.begins, board.refuses, board.hostile, board.reads, board.clock, board.names, board.comes_first,
                         board.phones, board.speaks, board.contrasts, board.large_letters, board.keeps_still, board.walls, board.screens):
                part()
            for pictures in folders:
                board.pictures(pictures)
            bases = [base]
            if has_nginx:
                board.producer, board.base, board.pages = start("keep")
                bases.append(board.base)
                board.comes_back()
            errors = [error for error in browser.errors if not re.search(r"/siri-lite/", error)]
            board.check(not errors, "the console has errors: %s" % errors)
            others = [request for request in browser.requests if not request.startswith((*bases, "about:", "data:"))]
            board.check(not others, "it asks for %s" % others)
        except (TimeoutError, EOFError, RuntimeError, OSError, IndexError) as fault:
            faults.append("%s: %s" % (type(fault).__name__, fault))
        finally:
            browser.close()
            end()
    for fault in faults:
        print("board: " + fault)
    return 1 if faults else 0


if __name__ == "__main__":
    sys.exit(main(*sys.argv[1:]))
