"""Trials of examples/board in time: a departure of now, news that doesn't come, a producer that has just begun."""
import json
import time

from boards import STATE, Board, at, text_of, visit

EMPTY = "document.querySelector('.empty:not([hidden])')?.textContent"
# In the place of the producer's own answer: it has run for an hour.
LONG_AGO = """{
    const asked = fetch, text = (moment) => new Date(moment).toISOString();
    globalThis.fetch = (address, ...more) => (!String(address).includes('check-status') ? asked(address, ...more) : Promise.resolve(new Response(
        JSON.stringify({ Siri: { CheckStatusResponse: { ResponseTimestamp: text(Date.now()), ServiceStartedTime: text(Date.now() - 3600000) } } }))));
}"""


class Fresh(Board):
    """What is shown has to be what is known now, or it says so."""

    def with_script(self, script):
        return self.browser.call("Page.addScriptToEvaluateOnNewDocument", source=script)["identifier"]

    def without_script(self, identifier):
        self.browser.call("Page.removeScriptToEvaluateOnNewDocument", identifier=identifier)

    def leaves(self):
        """From its moment on a producer tells nothing of a departure, which stays half a minute, and one at the stop a minute more."""
        script = "{ const now = performance.now.bind(performance); performance.now = () => now() + (globalThis.later ?? 0); }"
        added = self.with_script(script)
        soon = time.time() + 4
        self.feed([visit("d1", "7", "Hospital", soon, stop="S2"), visit("d2", "8", "Castle", soon, stop="S2", VehicleAtStop=True),
                   visit("d3", "9", "Mill", soon + 600, stop="S2")])
        self.open("stop=S2&zone=Europe/Paris&every=600")
        both = [["7", None, None, "now"], ["8", None, None, "at stop"], ["9"]]
        self.wait_rows(both, "a board of departures of now", seconds=3)
        time.sleep(max(0, soon + 3.5 - time.time()))  # (nginx keeps an answer for up to two seconds)
        self.browser.run("performance.clearResourceTimings(); dispatchEvent(new Event('online'))")
        self.wait("performance.getEntriesByType('resource').some((one) => one.responseStatus === 200)", "it isn't asked when the network is back")
        time.sleep(0.5)
        self.wait_rows(both, "an answer that lacks what is due", seconds=0)
        self.browser.run("globalThis.later = 22000")
        time.sleep(1.2)
        self.wait_rows(both, "a board shortly after a departure", seconds=0)
        self.browser.run("globalThis.later = 31000")
        self.wait_rows(both[1:], "a departure that left", seconds=2)
        time.sleep(1.2)
        self.wait_rows(both[1:], "a departure at the stop", seconds=0)
        self.browser.run("globalThis.later = 91000")
        self.wait_rows(both[2:], "a departure that was at the stop", seconds=2)
        self.without_script(added)

    def grows_stale(self):
        """A feed that died is seen though the producer answers; what is never recorded anew, or isn't followed, is no such feed."""
        now = int(time.time())
        old = {"RecordedAtTime": text_of(now - 7200)}
        self.feed([{**visit("n1", "1", "Mill", now + 1200, stop="S3"), "RecordedAtTime": text_of(now)},
                   {**visit("n2", "2", "Mill", now + 1800, stop="S3"), **old}, visit("n3", "3", "Mill", now + 1200, stop="S4"),
                   {**visit("n4", "4", "Mill", now + 1800, None, stop="S4"), **old}])
        script = self.with_script(LONG_AGO)
        self.open("stop=S3&stop=S4&zone=Europe/Paris&every=1&news=4")
        rows = [["1", "Mill", at(now + 1200), None, "", "on time"], ["2", "Mill", at(now + 1800), None, "", "on time"]]
        stale = [[*row[:5], "no news"] for row in rows]
        self.wait_rows(rows, "a board that is fed", seconds=3)
        self.check(self.browser.run(STATE) == "", "of a feed that has just come it is said: %s" % self.browser.run(STATE))
        said = "No news of departures from Market Square has come since %s: what is shown may be wrong." % at(now)
        self.wait("%s === %s" % (STATE, json.dumps(said)), "it isn't told that no news has come")
        self.wait_rows(stale, "a board that isn't fed any more", seconds=0)
        self.wait_rows([["3", None, None, None, None, "on time"], ["4", None, None, None, None, "not monitored"]], "a board whose feed tells no records", stop=1)
        self.feed([{**visit("n1", "1", "Mill", now + 1200, stop="S3"), "RecordedAtTime": text_of(time.time())}])
        self.wait(STATE + " === ''", "news isn't seen")
        self.wait_rows(rows, "a board that is fed again", seconds=0)
        self.wait_rows(stale, "a board that isn't fed any more", seconds=10)
        self.producer.feed({"StopMonitoringDelivery": [{"MonitoredStopVisitCancellation": [{"ItemRef": name, "MonitoringRef": "S3"} for name in ("n1", "n2")]}]})
        self.wait("(%s ?? '').startsWith('Departures aren’t known: no news of them has come since')" % EMPTY, "without news none are expected")
        self.without_script(script)

    def begins(self):
        """A producer that has just begun knows nothing yet; one that has run for an hour knows that nothing departs."""
        self.open("stop=S9&zone=Europe/Paris&every=1")
        self.wait("(%s ?? '').startsWith('Departures aren’t known yet: the producer began anew at ')" % EMPTY, "of a producer that has just begun it is said that none are expected")
        script = self.with_script(LONG_AGO)
        self.open("stop=S9&zone=Europe/Paris&every=2")
        self.wait("%s === 'No departures are expected.'" % EMPTY, "of a producer that has run for an hour it isn't said that none are expected")
        self.without_script(script)
