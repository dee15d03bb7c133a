"""Trials of examples/board on screens of many sizes: walls whose pages turn, telephones, and what comes first."""
import datetime
import time

from boards import ZONE, Board, at, situation, visit

# What of a wall is seen at the moment: rows that are shown, and how they stand in the screen.
SEEN = """(() => {
    const box = (one) => one.getBoundingClientRect(), shown = (list) => [...document.querySelectorAll(list)].filter((one) => box(one).height > 0);
    const rows = shown('tbody tr'), items = shown('.situations li'), last = rows.at(-1);
    const letters = parseFloat(getComputedStyle(document.querySelector('td')).fontSize);
    return { lines: rows.map((row) => row.cells[0].textContent), headings: shown('#stops h2').map((one) => one.textContent),
        disturbances: items.map((one) => one.textContent), letters, high: Math.max(...rows.map((row) => box(row).height)),
        room: (items[0] ? box(items[0]).top : box(document.querySelector('footer')).top) - box(last).bottom,
        least: Math.min(...rows.map((row) => box(row).top)), wide: document.documentElement.scrollWidth, bottom: box(document.querySelector('footer')).bottom,
        below: items.length === 0 ? 0 : box(items.at(-1)).bottom - box(document.querySelector('footer')).top,
        scrolls: document.documentElement.scrollHeight - innerHeight };
})()"""
# In each picture that is made from now on: the least number of rows in it.
COUNTED = """{
    globalThis.fewest = Infinity;
    const count = () => {
        globalThis.fewest = Math.min(globalThis.fewest, [...document.querySelectorAll('tbody tr')].filter((row) => row.getClientRects().length > 0).length);
        requestAnimationFrame(count);
    };
    count();
}"""
# Stop Mill is answered late, situations never are.
LATE = """{
    const asked = fetch;
    globalThis.fetch = async (address, ...more) => {
        if (String(address).includes('situation-exchange')) await new Promise(() => {});
        if (String(address).includes('MonitoringRef=Mill')) await new Promise((done) => setTimeout(done, 5000));
        return asked(address, ...more);
    };
}"""
PHONE = """(() => {
    const rows = [...document.querySelectorAll('tbody tr')];
    const words = [...document.querySelectorAll('td:nth-child(6) span, th bdi')].filter((one) => !one.textContent.includes(' '));
    return { to: Math.min(...rows.map((row) => row.cells[1].getBoundingClientRect().width)), times: rows.map((row) => row.cells[2].textContent),
        broken: words.map((one) => [one.textContent, document.createRange(), one]).filter(([text, range, one]) => {
            range.selectNodeContents(one);
            return new Set([...range.getClientRects()].map((rect) => rect.top)).size > 1;
        }).map(([text]) => text), wide: document.scrollingElement.scrollWidth };
})()"""


class Walls(Board):
    """Rows fill a wall, and what doesn't fit comes on another page."""

    def walls(self):
        now = int(time.time())
        self.feed([visit("w%02d" % number, "L%02d" % number, "Harbour", now + 1200 + number * 60, (0, 60, None)[number % 3], "Quay", DeparturePlatformName="B") for number in range(30)]
                  + [visit("v%d" % number, "V%d" % number, "Old Mill via Hospital", now + 1200 + number * 60, 0, "Mill", StopPointName="Old Mill") for number in range(3)],
                  [situation("5", "Works at the harbour. " * 9, ["L01"]), situation("6", "Lift out of order.", places=["Mill-1"])])
        time.sleep(2.1)
        for width, height in ((1920, 1080), (3840, 2160), (1080, 1920), (1366, 768), (640, 512)):
            self.browser.size(width, height, 1, True)
            self.open("stop=Quay&stop=Mill&zone=Europe/Paris&every=5&rows=fit")
            what = "on a wall of %d to %d pixels " % (width, height)
            self.wait("document.querySelector('.situations li') !== null && document.querySelectorAll('tbody tr').length === 23", what + "not all is drawn")
            self.stands(self.browser.run(SEEN), what, width, height)
        self.browser.size(1920, 1080)
        self.turns()
        self.browser.size(1280, 900)

    def stands(self, seen, what, width, height):
        """Nothing is cut off, and no row more would fit."""
        self.check(seen["scrolls"] <= 0 and seen["wide"] <= width and seen["bottom"] <= height + 1, "%sthe page is %s" % (what, seen))
        self.check(seen["room"] >= 0 and seen["below"] <= 1, "%srows or disturbances are cut off: %s" % (what, seen))
        self.check(seen["room"] < seen["high"] * 1.5, "%sthere is room for another row: %s" % (what, seen))
        self.check(len(seen["lines"]) >= 3 and seen["lines"] == ["L%02d" % number for number in range(len(seen["lines"]))], "%sthe first rows are %s" % (what, seen["lines"]))
        self.check(len(seen["disturbances"]) == 2, "%sdisturbances are %s" % (what, seen["disturbances"]))
        self.check(seen["letters"] >= min(max(width, height) / 64, min(width, height) / 36) * 0.99, "%sletters are %s pixels high" % (what, seen["letters"]))

    def turns(self):
        """Each row and each disturbance comes, and each page has some of both; one that is held stays."""
        self.feed(situations=[situation("7", "Line 2 is short. " * 15, ["L02"]), situation("8", "Line 3 is long. " * 15, ["L03"])])
        time.sleep(2.1)
        self.open("stop=Quay&stop=Mill&zone=Europe/Paris&every=1&rows=fit&turn=3")
        self.wait("document.querySelectorAll('tbody tr').length === 23", "not all is drawn")
        self.browser.run(COUNTED)
        self.wait("document.querySelectorAll('.situations li').length === 4", "not all disturbances are drawn")
        lines, headings, disturbances, end = set(), set(), set(), time.monotonic() + 20
        while len(lines) + len(disturbances) < 27 and time.monotonic() < end:
            seen = self.browser.run(SEEN)
            lines.update(seen["lines"])
            headings.update(seen["headings"])
            disturbances.update(seen["disturbances"])
            self.check(seen["room"] >= 0 and seen["below"] <= 1 and seen["disturbances"], "on a page of a wall something is cut off, or no disturbance is there: %s" % seen)
            self.check(len(seen["disturbances"]) < 4, "disturbances take the place of departures")
            time.sleep(0.4)
        self.check(len(lines) == 23 and len(disturbances) == 4 and headings == {"Market Square", "Old Mill"}, "pages of a wall show %s, %s, %s" % (sorted(lines), headings, disturbances))
        self.check(self.browser.run("globalThis.fewest") > 0, "a picture between two pages is empty")
        self.browser.run("document.querySelector('#turning button').click()")
        before = self.browser.run(SEEN)["lines"]
        time.sleep(3.5)
        self.check(self.browser.run(SEEN)["lines"] == before, "a page that is held turns")

    def phones(self):
        """Long platforms and days leave room for the destination; no word of a line or a note is broken, and of two times one has the day."""
        tomorrow = int(time.time()) + 86400
        self.feed([visit("t0", "6", "University", time.time() + 1200, 120, "T1", DeparturePlatformName="Gleis 7 A-D Nord, Bahnsteig 3"), visit("t1", "S7", "K\u00f6nigs Wusterhausen", tomorrow, 600, "T1", DeparturePlatformName="Gleis 7 A-D Nord"),
                   visit("t2", "24N", "Old Mill via Hospital", tomorrow + 60, 600, "T1", DeparturePlatformName="Gleis 12", DepartureStatus="cancelled")])
        day = datetime.datetime.fromtimestamp(tomorrow + 600, ZONE)
        for width, height in ((320, 640), (390, 844), (620, 800), (728, 900), (760, 900)):
            self.browser.size(width, height, 2)
            self.open("stop=T1&zone=Europe/Paris&preview=P2D")
            self.wait_rows([["6"], ["S7"], ["24N"]], "a board %d wide" % width)
            seen, what = self.browser.run(PHONE), "at %d pixels " % width
            self.check(seen["to"] >= (0.4 if width < 500 else 0.25) * width, "%sthe destination has %s pixels" % (what, seen["to"]))
            self.check(seen["broken"] == [] and seen["wide"] <= width, "%swords are broken, or the page is wide: %s" % (what, seen))
            same = datetime.datetime.fromtimestamp(tomorrow, ZONE).day == day.day
            wanted = "%s %d, %s planned %s" % (day.strftime("%a"), day.day, at(tomorrow + 600), at(tomorrow))
            self.check(not same or seen["times"][1] == wanted, "%sa time is %s, and not %s" % (what, seen["times"][1], wanted))
        self.browser.size(1280, 900)

    def comes_first(self):
        """The first picture waits for no other answer, and a round for no situations."""
        self.feed([visit("f1", "10", "Harbour", time.time() + 1200, 0, "F1")])
        script = self.browser.call("Page.addScriptToEvaluateOnNewDocument", source=LATE)["identifier"]
        self.open("stop=F1&stop=Mill&zone=Europe/Paris&every=1")
        self.wait_rows([["10"]], "a board whose second stop is answered late", seconds=3)
        self.open("stop=F1&zone=Europe/Paris&every=1")
        count = "performance.getEntriesByType('resource').filter((one) => one.name.includes('stop-monitoring')).length"
        self.wait(count + " >= 3", "departures wait for situations", seconds=5)
        self.browser.call("Page.removeScriptToEvaluateOnNewDocument", identifier=script)
