"""Trials of the languages of examples/board."""
import json
import time

from boards import STATE, Board, situation, visit

# Of each file of texts: names that aren't those of English, and texts whose places aren't; and whether all are texts.
COMPARED = """(async () => {
    const { LANGUAGES } = await import('./language.js');
    const [english, ...others] = await Promise.all(LANGUAGES.map(async (one) => (await import(`./words.${one}.js`)).default));
    const places = (told) => [...told.matchAll(/\\{(\\w+)\\}/g)].map(([, name]) => name).sort().join();
    return [LANGUAGES, others.flatMap((texts) => [...new Set([...Object.keys(texts), ...Object.keys(english)])].filter(
        (name) => !texts[name] || !english[name] || places(texts[name]) !== places(english[name])))];
})()"""
SAID = """({ lang: document.documentElement.lang, title: document.title, words: [document.querySelector('h1'), ...document.querySelectorAll('thead th'),
    document.querySelector('.situations h3'), ...document.querySelectorAll('td:nth-child(6)')].map((one) => one.textContent), wide: document.scrollingElement.scrollWidth })"""
# A text in several languages, as a producer may answer it that keeps them.
CHOSEN = """(async () => {
    const { textOf } = await import('./values.js');
    const several = [{ lang: 'en', value: 'Harbour' }, { lang: 'nb-NO', value: 'Havn' }, { lang: 'FR', value: 'Port' }];
    return [several, several.slice(0, 1), { value: 'Dock' }, ['Pier', 'Quay'], 'Mole', [{ lang: 'fr', value: 1 }], null].map(textOf);
})()"""
# What a board of a late and a planned departure says, in each language.
WANTED = {
    "en": ["Departures", "Line", "To", "Time", "In", "Platform", "Notes", "Disturbances", "2 min late", "not monitored", "cancelled"],
    "de": ["Abfahrten", "Linie", "Nach", "Zeit", "In", "Steig", "Hinweise", "St\u00f6rungen", "2 Min. sp\u00e4ter", "laut Fahrplan", "f\u00e4llt aus"],
    "fr": ["D\u00e9parts", "Ligne", "Vers", "Heure", "Dans", "Quai", "Remarques", "Perturbations", "2 min de retard", "horaire th\u00e9orique", "supprim\u00e9"],
    "no": ["Avganger", "Linje", "Til", "Tid", "Om", "Plattform", "Merknader", "Avvik", "2 min forsinket", "etter ruteplan", "innstilt"],
    "es": ["Salidas", "L\u00ednea", "Destino", "Hora", "En", "And\u00e9n", "Notas", "Incidencias", "2 min de retraso", "seg\u00fan horario", "cancelado"],
}
NAMES = {"en": "en-GB", "no": "nb"}


class Languages(Board):
    """Each language has all texts, and is spoken where it is told or read."""

    def speaks(self):
        now = int(time.time())
        self.feed([visit("l1", "1", "Mill", now + 1200, 120, "L1"), visit("l2", "2", "Mill", now + 1500, None, "L1"),
                   visit("l3", "3", "Mill", now + 1800, 0, "L1", DepartureStatus="cancelled")], [situation("9", "Lift out of order.", places=["L1-1"])])
        time.sleep(2.1)
        for language, wanted in WANTED.items():
            self.browser.size(320, 640, 2)
            self.said("&lang=" + language, language, wanted)
        languages, others = self.browser.run(COMPARED)
        self.check(set(languages) == set(WANTED) and others == [], "of %s these texts are other than those of English: %s" % (languages, others))
        agent = self.browser.run("navigator.userAgent")
        for read, language in (("nb-NO,en", "no"), ("pt,fr-CH,de", "fr"), ("pt", "en")):
            self.browser.call("Emulation.setUserAgentOverride", userAgent=agent, acceptLanguage=read)
            self.said("", language, WANTED[language])
            chosen = {"no": "Havn", "fr": "Port", "en": "Harbour"}[language]
            told = self.browser.run(CHOSEN)
            self.check(told == [chosen, "Harbour", "Dock", "Pier", "Mole", "", ""], "in %s texts of several languages are %s" % (language, told))
        self.said("&lang=pt", "en", WANTED["en"], "\u201clang\u201d is one of en, de, fr, no, es, and not \u201cpt\u201d.")
        self.browser.call("Emulation.setUserAgentOverride", userAgent=agent, acceptLanguage="en-US,en")
        self.browser.size(1280, 900)

    def said(self, query, language, wanted, state=""):
        self.open("stop=L1&zone=Europe/Paris" + query)
        self.wait_rows([["1", "Mill"], ["2", "Mill"], ["3", "Mill"]], "a board in " + language)
        self.wait("document.querySelector('.situations h3') !== null", "a board in %s has no disturbance" % language)
        seen = self.browser.run(SAID)
        said = [word.replace("\u00a0", " ").replace("\u202f", " ") for word in seen["words"]]
        self.check(said == wanted and seen["title"] == wanted[0] and seen["lang"] == NAMES.get(language, language), "%s says %s, and not %s" % (language, seen, wanted))
        self.check(seen["wide"] <= 320, "in %s the page is %d wide" % (language, seen["wide"]))
        self.check(self.browser.run("%s === %s" % (STATE, json.dumps(state))), "in %s it is said: %s" % (language, self.browser.run(STATE)))
