"""A board in a browser and the producer behind it, for trials of examples/board, and what a producer is fed for them."""
import datetime
import json
import time
import zoneinfo

ZONE = zoneinfo.ZoneInfo("Europe/Paris")
ROWS = """[...document.querySelectorAll('#stops section')].map((section) =>
    [...section.querySelectorAll('tbody tr')].map((row) => [...row.cells].map((cell) => cell.textContent)))"""
STATE = "document.querySelector('#state').textContent"


def text_of(moment):
    return datetime.datetime.fromtimestamp(moment, datetime.timezone.utc).strftime("%Y-%m-%dT%H:%M:%SZ")


def at(moment):
    return datetime.datetime.fromtimestamp(moment, ZONE).strftime("%H:%M")


def visit(name, line, to, planned, late=0, stop="S1", journey=None, **call):
    """A departure, planned at a moment and expected so many seconds later; with None it isn't monitored."""
    expected = {} if late is None else {"ExpectedDepartureTime": text_of(planned + late)}
    return {"ItemIdentifier": name, "MonitoringRef": stop, "MonitoredVehicleJourney": {
        "LineRef": line, "DestinationName": to, "Monitored": late is not None, **(journey or {}),
        "MonitoredCall": {"StopPointRef": stop + "-1", "StopPointName": "Market Square", "AimedDepartureTime": text_of(planned), **expected, **call}}}


def situation(number, text, lines=(), places=()):
    affects = {"Networks": {"AffectedNetwork": [{"AffectedLine": [{"LineRef": one} for one in lines]}]},
               "StopPoints": {"AffectedStopPoint": [{"StopPointRef": one} for one in places]}}
    return {"ParticipantRef": "A", "SituationNumber": number, "ValidityPeriod": [{"StartTime": text_of(time.time() - 60)}], "Summary": text, "Affects": affects}


class Board:
    """The page in a browser, the producer behind it, and what is wrong with them."""

    def __init__(self, browser, base, producer, faults, pages):
        self.browser, self.base, self.producer, self.faults, self.pages = browser, base, producer, faults, pages

    def check(self, holds, fault):
        if not holds:
            self.faults.append(fault)

    def open(self, query):
        self.browser.go("%s/board/?%s" % (self.base, query))

    def rows(self, stop=0):
        rows = self.browser.run(ROWS)
        return rows[stop] if stop < len(rows) else []

    def wait_rows(self, wanted, what, stop=0, seconds=20):
        """Waits until the rows have this in the cells that aren't None; minutes to go are told apart."""
        def fits(rows):
            return len(rows) == len(wanted) and all(want is None or want == cell for row, wants in zip(rows, wanted) for cell, want in zip(row, wants))

        end = time.monotonic() + seconds
        while not fits(self.rows(stop)):
            if time.monotonic() > end:
                self.check(False, "%s shows %s, and not %s" % (what, self.rows(stop), wanted))
                return
            time.sleep(0.05)

    def wait(self, expression, fault, seconds=20):
        try:
            self.browser.wait(expression, seconds)
        except TimeoutError:
            self.check(False, "%s; the page says: %s" % (fault, self.browser.run(STATE)))

    def feed(self, visits=(), situations=(), cancelled=()):
        delivery = {}
        if visits or cancelled:
            delivery["StopMonitoringDelivery"] = [{"MonitoredStopVisit": list(visits), "MonitoredStopVisitCancellation": [
                {"ItemRef": name, "MonitoringRef": "S1"} for name in cancelled]}]
        if situations:
            delivery["SituationExchangeDelivery"] = [{"Situations": {"PtSituationElement": list(situations)}}]
        self.producer.feed(delivery)
