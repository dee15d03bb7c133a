"""Trials of examples/board with names of a town, which names.py makes of a feed of GTFS."""
import json
import os
import subprocess
import sys
import time
import zipfile

from boards import STATE, Board, text_of

STOPS = """\ufeffstop_id,stop_name,location_type
IDFM:41322,"Ch\u00e2telet, Halles",
IDFM:411281,La D\u00e9fense,0
IDFM:9,A way in,2
OTHER:1,Nowhere,0
"""
ROUTES = """route_id,route_short_name,route_long_name,route_type,route_color,route_text_color
IDFM:C01742,A,,1,E3051C,FFFFFF
IDFM:C01371,,Metro 1,1,FFBE00,FFFFFF
IDFM:C01, ,,1,,
"""
# A list of stops and lines by hand: the second line's white letters on yellow can't be read.
WANTED = {"lines": {"STIF:Line::C01742:": {"name": "A", "ground": "#e3051c", "letters": "#ffffff"},
                    "STIF:Line::C01371:": {"name": "Metro 1", "ground": "#ffbe00", "letters": "#ffffff"}},
          "stops": {"STIF:StopPoint:Q:411281:": "La D\u00e9fense", "STIF:StopPoint:Q:41322:": "Ch\u00e2telet, Halles", "OTHER:1": "Nowhere"}}
CHATELET, DEFENSE = "STIF:StopPoint:Q:41322:", "STIF:StopPoint:Q:411281:"
PATTERNS = ("--lines", "IDFM:*", "STIF:Line::*:", "--stops", "IDFM:*", "STIF:StopPoint:Q:*:", "--stops", "OTHER:*", "OTHER:*")
LISTED = "[...document.querySelectorAll('#known a')].map((one) => one.textContent)"
COLOURS = """[...document.querySelectorAll('tbody th bdi')].map((one) => [one, getComputedStyle(one)]).map(
    ([one, style]) => [one.textContent, style.backgroundColor, style.color])"""


class Named(Board):
    """A producer that sends references alone, before a town with names."""

    def names(self):
        script = os.path.join(self.pages, "names.py")
        archive = os.path.join(self.pages, "gtfs.zip")
        with zipfile.ZipFile(archive, "w") as feed:
            feed.writestr("stops.txt", STOPS)
            feed.writestr("routes.txt", ROUTES)
        made = subprocess.run([sys.executable, "-B", script, archive, *PATTERNS], capture_output=True, text=True, encoding="utf-8", check=False)
        self.check(made.returncode == 0 and json.loads(made.stdout) == WANTED, "names.py makes %s of a feed, and says %s" % (made.stdout, made.stderr))
        now = int(time.time())
        self.producer.feed({"StopMonitoringDelivery": [{"MonitoredStopVisit": [
            {"ItemIdentifier": line, "MonitoringRef": CHATELET, "MonitoredVehicleJourney": {
                "LineRef": line, "DestinationRef": DEFENSE, **more, "MonitoredCall": {"ExpectedDepartureTime": text_of(now + 1200 + number)}}}
            for number, (line, more) in enumerate((("STIF:Line::C01742:", {}), ("STIF:Line::C01371:", {"PublishedLineName": "one", "DestinationName": "West"}), ("L9", {})))]}]})
        self.open("stop=%s&zone=Europe/Paris&every=1" % CHATELET)
        self.wait_rows([["STIF:Line::C01742:", DEFENSE], ["one", "West"], ["L9", DEFENSE]], "a board of references without names")
        self.with_names(made.stdout or json.dumps(WANTED))
        self.put("{")
        self.wait_rows([["STIF:Line::C01742:", DEFENSE], ["one", "West"], ["L9", DEFENSE]], "a board whose names can't be read")
        os.remove(os.path.join(self.pages, "names.json"))

    def put(self, text):
        with open(os.path.join(self.pages, "names.json"), "w", encoding="utf-8") as file:
            file.write(text)
        self.open("stop=%s&stop=%s&zone=Europe/Paris&every=1" % (CHATELET, DEFENSE))

    def with_names(self, text):
        """The board of a stop with departures and of one without, and the page that asks for a stop."""
        self.put(text)
        self.wait_rows([["A", "La D\u00e9fense"], ["Metro 1", "West"], ["L9", "La D\u00e9fense"]], "a board with names")
        self.wait("[...document.querySelectorAll('h2')].map((one) => one.textContent).join() === 'Ch\u00e2telet, Halles,La D\u00e9fense'", "a stop without departures isn't called by its name")
        colours = self.browser.run(COLOURS)
        self.check(colours[:2] == [["A", "rgb(227, 5, 28)", "rgb(255, 255, 255)"], ["Metro 1", "rgb(255, 190, 0)", "rgb(0, 0, 0)"]], "the lines' colours are %s" % colours)
        self.open("zone=Europe/Paris")
        self.wait("%s.join() === 'Ch\u00e2telet, Halles,La D\u00e9fense,Nowhere'" % LISTED, "the stops aren't listed")
        self.browser.run("document.querySelector('#stop').focus()")
        for letter in "defense":
            self.browser.press(letter, text=letter)
        self.wait("%s.join() === 'La D\u00e9fense'" % LISTED, "a stop isn't found by its name")
        self.check(self.browser.run("document.querySelector('#count').textContent") == "1 stop", "it isn't told how many stops are found")
        self.browser.press("Enter", 13, "\r")
        self.wait("document.querySelector('h2')?.textContent === 'La D\u00e9fense' && document.querySelector('#source').textContent.includes('Europe/Paris')", "a stop that was chosen isn't shown")
        self.check(self.browser.run(STATE) == "", "of a stop that was chosen it is said: %s" % self.browser.run(STATE))
