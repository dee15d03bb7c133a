"""Opens examples/viewer in a browser: `viewer.py CHROMIUM EXAMPLES [PICTURE]`. What it draws of four examples has to be what their
lines say, counted here; it is opened by hand and by keys, and has to bear bad lines, hostile texts, small screens and long scripts.
With PICTURE, the chart of examples/lost.script is written there."""
import collections
import functools
import http.server
import json
import os
import re
import sys
import tempfile
import threading

from browser import Browser, in_few_colours

# Whether a script and its report with a line left out, written twice, or changed with the next one lose an event or a line.
KEEPS = """(async () => {
    const [{ readScript, readReport }, { runOf }] = [await import('./read.js'), await import('./run.js')];
    const read = async (name) => (await (await fetch(name)).text()).trimEnd().split('\\n');
    const [script, report] = [await read('../lost.script'), await read('../lost.report')];
    const changed = (lines) => lines.flatMap((line, at) => [[], [line, line], [lines[at + 1] ?? '', line]].map(
        (instead) => lines.toSpliced(at, instead.length > 1 && instead[0] !== line ? 2 : 1, ...instead)));
    const isKept = (events, told) => {
        const run = runOf(readScript(events.join('\\n')), readReport(told.join('\\n')));
        const kept = new Set(run.steps.flatMap(({ told, sent, items, apart }) => [told, ...sent, ...items, ...apart]).map((one) => one?.line));
        return run.steps.length === events.filter((line) => /^[^#]/.test(line)).length && told.every((_, index) => kept.has(index + 1));
    };
    const pairs = [...changed(script).map((one) => [one, report]), ...changed(report).map((one) => [script, one]), [report, script]];
    return [pairs.length, pairs.filter(([events, told]) => !isKept(events, told)).length];
})()"""
HOSTILE = "<img src=x onerror=alert(1)>\"'&\u05d0\u05d1 \u0645\u062d\u0637\u0629"


def fates(script, report):
    """How many packets of each fate there are: by which lines deliver them, and in what order on the way that each takes."""
    numbers, outcomes = re.findall(r"^deliver (\d+)$", script, re.M), re.findall(r"^(took|no packet) ", report, re.M)
    taken = [int(number) for number, outcome in zip(numbers, outcomes) if outcome == "took"]
    ways = {}
    for number, receiver, document in re.findall(r"^packet (\d+) to (\S+) (.*)$", report, re.M):
        ways[int(number)] = re.search(r'"(?:RequestorRef|ConsumerRef)":"[^"]*"', document)[0] if receiver == "producer" else receiver

    def fate(number):
        if taken.count(number) != 1:
            return "twice" if number in taken else "never"
        before = taken[:taken.index(number)]
        return "late" if any(other > number and ways[other] == ways[number] for other in before) else "delivered"

    return collections.Counter(fate(number) for number in ways)


def whole(kind, content):
    return json.dumps({"Siri": {kind: content}}, separators=(",", ":"))


def acknowledgement(consumer, start, part):
    mark = {"Number": 1, "Part": 1, "Round": part, "Start": start, "SubscriptionRef": "S"}
    return whole("DataReceivedAcknowledgement", {"ConsumerRef": consumer, "Extensions": mark, "Status": True})


def part_of(consumer, start, part):
    place = {"Extensions": {"Part": 1, "Round": part, "Start": start}, "SubscriberRef": consumer, "SubscriptionRef": "S"}
    return whole("ServiceDelivery", {"RequestMessageRef": "1", "ResponseTimestamp": "2024-05-01T08:00:00Z", "StopMonitoringDelivery": [place]})


def long_run(lines):
    """A script of so many lines, and what its report looks like: three consumers to whom each feed is sent, and a second start."""
    script, report, packets = ["start 2024-05-01T08:00:00Z"], ["started 1"], 0
    consumers, start, part = ["a", "b", "c"], 1, 0
    while len(script) + 8 <= lines:
        if len(script) > lines // 2 and start == 1:
            script.append("start 2024-05-01T09:00:00Z")
            report.append("started 2")
            start, part = 2, 0
        part += 1
        script.append('feed {"Siri":{"ServiceDelivery":{}}}')
        report.append("fed 1 0 0")
        sent = packets
        for consumer in consumers:
            packets += 1
            report.append("packet %d to %s %s" % (packets, consumer, part_of(consumer, start, part)))
        for index, consumer in enumerate(consumers):
            packets += 1
            script.append("deliver %d" % (sent + 1 + index))
            report += ["took %s Applied %d" % (consumer, part), "packet %d to producer %s" % (packets, acknowledgement(consumer, start, part))]
        for index in range(len(consumers)):
            script.append("deliver %d" % (sent + len(consumers) + 1 + index))
            report.append("took producer Acknowledged")
    script += ["clock 2024-05-01T10:00:00Z"] * (lines - len(script))
    return "\n".join(script) + "\n", "\n".join(report) + "\n"


class Viewer:
    """The page, and what is asked of it."""

    def __init__(self, browser, address, folder, faults):
        self.browser, self.address, self.folder, self.faults = browser, address, folder, faults

    def check(self, holds, text):
        if not holds:
            self.faults.append(text)

    def text(self, selector):
        return self.browser.run("document.querySelector(%s).textContent" % json.dumps(selector))

    def count(self, selector):
        return self.browser.run("document.querySelectorAll(%s).length" % json.dumps(selector))

    def open(self, query=""):
        self.browser.go(self.address + "viewer/" + query)

    def example(self, name):
        self.open("?script=../%s.script" % name)
        self.browser.wait("document.querySelector('#chart .row')")

    def table(self):
        """Opens the table, which is made then."""
        self.browser.run("document.querySelector('#table').open = true")
        self.browser.wait("document.querySelector('#table tbody tr')")

    def write(self, name, text):
        path = os.path.join(self.folder, name)
        with open(path, "w") as file:
            file.write(text)
        return path

    def middle(self, selector):
        """Where the middle of an element is, once it is seen."""
        return self.browser.run("""(() => {
            const node = document.querySelector(%s);
            node.scrollIntoView({ block: 'center' });
            const { x, y, width, height } = node.getBoundingClientRect();
            return [x + width / 2, y + height / 2];
        })()""" % json.dumps(selector))

    def counts(self, name, script, report):
        """What is drawn of an example is what its lines say."""
        self.example(name)
        self.table()
        for fate, count in ({"delivered": 0, "late": 0, "twice": 0, "never": 0} | fates(script, report)).items():
            drawn = self.count(".packet[data-fate=%s]" % fate)
            self.check(drawn == count, "%s has %d arrows of packets that are %s, and not %d" % (name, drawn, fate, count))
        heads, taken = self.count(".packet:not(.never) .head"), len(re.findall(r"^took ", report, re.M))
        self.check(heads == taken, "%s has %d heads of arrows, and not %d" % (name, heads, taken))
        for state in ("quiet", "moving"):
            drawn, told = self.count(".view." + state), len(re.findall("^view .* %s$" % state, report, re.M))
            said = self.browser.run("[...document.querySelectorAll('.view')].filter((view) => view.textContent.endsWith('%s')).length" % state)
            self.check(drawn == said == told, "%s has %d views that look %s, and %d that say so, not %d" % (name, drawn, state, said, told))
        lines = len(re.findall(r"^[^#\n]", script, re.M))
        self.check(self.count("#chart .row") == self.count("#table tbody tr") == lines, "%s hasn't a line for each event" % name)
        self.check(self.browser.run("document.querySelector('#faults').hidden"), "%s is said to be bad" % name)

    def colours(self, report):
        """Each round has a colour of its own."""
        for number, place in re.findall(r'^packet (\d+) .*"Round":(\d+)', report, re.M):
            look = self.browser.run("document.querySelector('.packet[data-packet=\"%s\"]').getAttribute('class')" % number)
            self.check(" round-%d " % (int(place) - 1) in look, "packet %s hasn't the colour of round %s" % (number, place))

    def clocks(self, examples):
        """A clock line brings no line of its own: what is sent at it begins there, and not at the event before, nor at another clock."""
        with open(os.path.join(examples, "lost.script")) as script:
            script = script.read().replace("clock 2024-05-01T08:00:30Z", "clock 2024-05-01T08:00:29.999Z\nclock 2024-05-01T08:00:30Z")
        for name, packet, line in (("heartbeat", 5, 7), ("fetched_in_parts", 10, 10), ("lost", 4, 11)):
            self.example(name)
            if name == "lost":
                self.browser.drop(self.write("clocks.script", script))
                self.browser.drop(os.path.join(examples, "lost.report"))
                self.browser.wait("document.querySelectorAll('#chart .row').length === 18")
            step = self.browser.run("document.querySelector('.packet[data-packet=\"%d\"]').dataset.step" % packet)
            at = self.browser.run("document.querySelector('.row[data-step=\"%s\"] .number').textContent" % step)
            self.check(int(at) == line, "packet %d of %s is sent by line %d, and not %d" % (packet, name, int(at), line))

    def restarts(self):
        """Where a consumer restarts its own line is broken; that it asks for all data is no packet of a round, and its rounds begin anew."""
        self.example("display_restarts")
        self.check(self.count(".break.slash") == 2 and self.count(".break") == 2, "a consumer that restarts is no break of its line alone")
        looks = [self.browser.run("document.querySelector('.packet[data-packet=\"%d\"]').getAttribute('class')" % number) for number in (3, 5, 7)]
        self.check(" round-0 " in looks[0] and "round-" not in looks[1] and " round-1 " in looks[2], "packets 3, 5 and 7 look like %s" % looks)
        self.check("5 request for all data" in self.text('.label[data-packet="5"]'), "packet 5 isn't told as a request for all data")

    def keeps(self):
        """Whatever is wrong with its lines, no event and no line of the report is lost."""
        self.open()
        pairs, lost = self.browser.run(KEEPS)
        self.check(pairs > 150 and lost == 0, "%d of %d changed scripts and reports lose lines" % (lost, pairs))

    def opens(self):
        """A view opens on a click, an arrow too, and a line by keys; Escape closes it and goes back."""
        self.example("lost")
        self.browser.click(*self.middle(".view.quiet"))
        told, items = self.text("#opened div"), self.text("#opened ol")
        self.check("quiet" in told and "MonitoredStopVisit a S1 L1 2024-05-01T08:10:00Z" in items, "a click opens no view")
        self.browser.press("Escape", 27)
        self.check(self.browser.run("document.querySelector('#opened').hidden"), "Escape doesn't close what is open")
        self.check(self.browser.run("document.activeElement.getAttribute('aria-current')") == "true", "what is closed doesn't give the focus back")
        self.browser.click(*self.middle('.label[data-packet="3"]'))
        self.check(self.text("#opened h3:nth-of-type(3)").startswith("packet 3 from producer to board: delivery, round 1"), "a click opens no packet")
        self.example("lost")
        for _ in range(20):
            self.browser.press("Tab", 9)
            if self.browser.run("document.activeElement.closest('#chart .row') !== null"):
                break
        for key, code in (("ArrowDown", 40), ("ArrowDown", 40), ("ArrowDown", 40), ("ArrowUp", 38)):
            self.browser.press(key, code)
        self.browser.press("Enter", 13, "\r")
        self.check(self.text("#opened-heading").startswith("Line 5: subscribe board"), "keys open no line: " + self.text("#opened-heading"))

    def files(self, examples):
        """Files that are chosen one by one, or dropped together."""
        paths = [os.path.join(examples, "heartbeat." + kind) for kind in ("script", "report")]
        self.open()
        self.browser.choose("#script", paths[0])
        self.browser.wait("document.querySelector('#state').textContent.includes('report is wanted')")
        self.browser.choose("#report", paths[1])
        self.browser.wait("document.querySelectorAll('#chart .row').length === 7")
        self.browser.drop(*[os.path.join(examples, "drift." + kind) for kind in ("report", "script")])
        self.browser.wait("document.querySelectorAll('#chart .row').length === 10")
        self.browser.drop(paths[0])
        self.browser.wait("document.querySelector('#drawn').hidden")
        self.check("report is wanted" in self.text("#state"), "a script without its report is taken for a run")

    def bad(self, examples):
        """Lines that are bad or missing are told with their numbers; everything else is drawn, and every line is kept."""
        with open(os.path.join(examples, "lost.script")) as script, open(os.path.join(examples, "lost.report")) as report:
            script, report = script.read().splitlines(), report.read().splitlines()
        script.insert(5, "stop now")
        del report[8]
        report.insert(3, "what is this")
        self.open()
        self.browser.drop(self.write("bad.script", "\n".join(script)), self.write("bad.report", "\n".join(report)))
        self.browser.wait("document.querySelector('#chart .row')")
        self.table()
        told = self.browser.run("[...document.querySelectorAll('#faults li')].map((item) => item.textContent).join('\\n')")
        for text in ("line 6 of the script: “stop” is no word of a script", "line 4 of the report: this is no line of a report",
                     "line 12 of the script: the report has nothing of “deliver 4”"):
            self.check(text in told, "it isn't told that %s, but:\n%s" % (text, told))
        for text in ("stop now", "what is this"):
            self.check(text in self.text("#table"), "“%s” is lost" % text)
        self.check(self.count("#chart .row") == 18, "bad lines take others with them")

    def hostile(self):
        """Texts of files stay texts."""
        wanted = {"StopMonitoringSubscriptionRequest": {"SubscriptionIdentifier": HOSTILE, "StopMonitoringRequest": {"MonitoringRef": HOSTILE}}}
        script = ["# " + HOSTILE, "start 2024-05-01T08:00:00Z", "subscribe a " + json.dumps(wanted), "view a " + HOSTILE, HOSTILE]
        request = whole("SubscriptionRequest", {"RequestorRef": "a", **{name: [value] for name, value in wanted.items()}})
        view = "view a %s number 0 start 0 round 0 items 1 moving" % HOSTILE
        report = ["started 1", "packet 1 to producer " + request, view, "item " + json.dumps({HOSTILE: {"ItemIdentifier": HOSTILE}}), HOSTILE]
        self.open()
        self.browser.drop(self.write("hostile.script", "\n".join(script)), self.write("hostile.report", "\n".join(report)))
        self.browser.wait("document.querySelector('#chart .view')")
        self.table()
        self.browser.run("document.querySelector('#chart .view').click()")
        self.check(self.count("img") == 0, "a text of a file became an element")
        for selector, text in (("#table", HOSTILE[:24]), ("#faults", "<img"), ("#opened", HOSTILE), (".remark", HOSTILE)):
            self.check(text in self.text(selector), "a hostile text isn't shown in %s" % selector)

    def origins(self):
        """Nothing is read but from the page's own origin."""
        self.open("?script=http://127.0.0.2:9/a.script")
        self.browser.wait("document.querySelector('#state').textContent.includes('origin')")
        self.open("?script=../none.script")
        self.browser.wait("document.querySelector('#state').textContent.includes('404')")
        others = [request for request in self.browser.requests if not request.startswith((self.address, "about:", "data:"))]
        self.check(not others, "it asks for %s" % others)

    def screens(self):
        """Small screens, at 200 % too, light and dark: the page isn't wider than the screen, and all that can be pressed has a name."""
        for width, height, scale, dark in ((320, 640, 2, False), (360, 740, 3, True), (640, 512, 2, False), (1920, 1080, 1, True)):
            self.browser.size(width, height, scale, dark)
            self.example("fetched_in_parts")
            self.table()
            self.browser.run("document.querySelector('#chart .view').click()")
            wide = self.browser.run("document.scrollingElement.scrollWidth")
            self.check(wide <= width, "at %d pixels the page is %d wide" % (width, wide))
            light = self.browser.run("getComputedStyle(document.body).backgroundColor") == "rgb(255, 255, 255)"
            self.check(light != dark, "the colours aren't those of the screen")
        self.names()
        self.browser.size(1280, 900)

    def names(self):
        """To a reader of screens, everything has a name, and that of a line tells what came of it."""
        nodes = [node for node in self.browser.call("Accessibility.getFullAXTree")["nodes"] if not node.get("ignored")]
        named = [(node["role"]["value"], node.get("name", {}).get("value", "")) for node in nodes]
        for role in ("button", "link", "columnheader", "region"):
            self.check((role, "") not in named, "a %s has no name" % role)
        for name in ("line 4 deliver 1; producer takes packet 1, subscription request: Subscribed; packet 2 from producer to c1: "
                     "subscription response; never delivered; packet 3 from producer to c1: notification, round 1 part 1; "
                     "delivered by line 5 (Ready)", "line 20 deliver 5; producer takes packet 5, supply request, round 1 part 1: NothingReady; "
                     "packet 18 from producer to c1: delivery; never delivered"):
            self.check(("button", name) in named, "no line is named “%s”" % name)

    def long(self):
        """A script of 2,000 lines is drawn in a second of the page's thread, up to its first frame, and a start in it is a break."""
        self.open()
        before = self.browser.thread_seconds()
        self.browser.drop(*[self.write("long." + kind, text) for kind, text in zip(("script", "report"), long_run(2000))])
        self.browser.wait("performance.getEntriesByName('drawn').length > 0")
        self.browser.run("new Promise((done) => requestAnimationFrame(() => setTimeout(done)))")
        took = self.browser.thread_seconds() - before
        self.check(took < 1, "2,000 lines take %.2f seconds" % took)
        self.check(self.count("#chart .row") == 2000 and self.count("#faults li") == 0, "2,000 lines aren't drawn whole")
        self.check(self.count(".break.slash") == 2, "a second start is no break")

    def picture(self, path):
        self.browser.size(1000, 1000)
        self.example("lost")
        part = self.browser.run("(({ x, y, width, height }) => ({ x, y, width, height }))(document.querySelector('#chart').getBoundingClientRect())")
        with open(path, "wb") as file:
            file.write(in_few_colours(self.browser.picture(part)))


def main(chromium, examples, *pictures):
    handler = functools.partial(http.server.SimpleHTTPRequestHandler, directory=examples)
    handler.func.log_message = lambda *words: None
    server = http.server.ThreadingHTTPServer(("127.0.0.1", 0), handler)
    threading.Thread(target=server.serve_forever, daemon=True).start()
    browser, faults = Browser(chromium), []
    try:
        with tempfile.TemporaryDirectory() as folder:
            viewer = Viewer(browser, "http://127.0.0.1:%d/" % server.server_port, folder, faults)
            browser.size(1280, 900)
            for name in ("lost", "fetched_in_parts", "heartbeat", "display_restarts"):
                with open(os.path.join(examples, name + ".script")) as script, open(os.path.join(examples, name + ".report")) as report:
                    script, report = script.read(), report.read()
                viewer.counts(name, script, report)
                if name != "display_restarts":
                    viewer.colours(report)
            viewer.restarts()
            viewer.clocks(examples)
            viewer.keeps()
            viewer.opens()
            viewer.files(examples)
            viewer.bad(examples)
            viewer.hostile()
            viewer.origins()
            viewer.screens()
            viewer.long()
            for path in pictures:
                viewer.picture(path)
            errors = [error for error in browser.errors if "/none." not in error]
            viewer.check(not errors, "the console has errors: %s" % errors)
    except (TimeoutError, EOFError, RuntimeError) as fault:
        faults.append(str(fault))
    finally:
        browser.close()
    for fault in faults:
        print("viewer: " + fault)
    return 1 if faults else 0


if __name__ == "__main__":
    sys.exit(main(*sys.argv[1:]))
