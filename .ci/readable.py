"""Trials of whether everybody can read examples/board: contrast by WCAG 2, letters of twice the size, nothing that moves."""
import json
import os
import time

from boards import Board, situation, visit

# All that is seen: of each text its contrast with its ground and its letters' size by those of the page; of each field and button its
# edge's contrast, and of what has the focus that of the ring around it.
SEEN = """(() => {
    const parts = (colour) => colour.match(/[\\d.]+/g).map(Number);
    const groundOf = (node) => {
        for (let one = node; one !== null; one = one.parentElement) {
            const [red, green, blue, opaque = 1] = parts(getComputedStyle(one).backgroundColor);
            if (opaque > 0) return [red, green, blue];
        }
        return [255, 255, 255];
    };
    const luminance = (colour) => colour.slice(0, 3).map((part) => part / 255).map((part) => (part <= 0.04045 ? part / 12.92 : ((part + 0.055) / 1.055) ** 2.4))
        .reduce((all, part, place) => all + part * [0.2126, 0.7152, 0.0722][place], 0);
    const contrast = (colour, ground) => {
        const [dark, light] = [luminance(parts(colour)), luminance(ground)].sort((one, other) => one - other);
        return (light + 0.05) / (dark + 0.05);
    };
    const root = parseFloat(getComputedStyle(document.documentElement).fontSize), range = document.createRange(), texts = [], edges = [];
    const walker = document.createTreeWalker(document.body, NodeFilter.SHOW_TEXT);
    while (walker.nextNode()) {
        const node = walker.currentNode, parent = node.parentElement, style = getComputedStyle(parent);
        range.selectNodeContents(node);
        const [box] = range.getClientRects();
        if (node.textContent.trim() === '' || box === undefined || box.width < 2 || parent.closest('.is-heard, thead')) continue;
        texts.push([node.textContent, contrast(style.color, groundOf(parent)), parseFloat(style.fontSize) / root, style.opacity]);
    }
    for (const one of document.querySelectorAll('input, button')) {
        if (one.getClientRects().length === 0) continue;
        edges.push([one.id || one.textContent, contrast(getComputedStyle(one).borderTopColor, groundOf(one.parentElement))]);
        if (one.placeholder) texts.push([one.placeholder, contrast(getComputedStyle(one, '::placeholder').color, groundOf(one)), 1, '1']);
    }
    const focused = document.activeElement;
    if (focused !== document.body) edges.push(['the ring', focused.matches(':focus-visible') ? contrast(getComputedStyle(focused).outlineColor, groundOf(document.body)) : 0]);
    return { texts, edges, root };
})()"""
# What of a row's cells stands on another one of them, or is cut off.
CLASHES = """(() => {
    const range = document.createRange();
    const boxes = (cell) => {
        const walker = document.createTreeWalker(cell, NodeFilter.SHOW_TEXT, (node) => (node.parentElement.closest('.is-heard') ? NodeFilter.FILTER_REJECT : NodeFilter.FILTER_ACCEPT)), found = [];
        while (walker.nextNode()) {
            range.selectNodeContents(walker.currentNode);
            found.push(...range.getClientRects());
        }
        return found.filter(({ width }) => width > 1);
    };
    return [...document.querySelectorAll('tbody tr')].flatMap((row) => {
        const cells = [...row.cells].map((cell) => [cell.textContent, boxes(cell)]);
        const meet = (one, other) => one.left < other.right - 1 && other.left < one.right - 1 && one.top < other.bottom - 4 && other.top < one.bottom - 4;
        return cells.flatMap(([text, those], place) => [
            ...those.some((box) => box.right > innerWidth || box.left < 0) ? [`${text} is cut off`] : [],
            ...cells.slice(place + 1).filter(([, others]) => those.some((one) => others.some((other) => meet(one, other)))).map(([other]) => `${text} on ${other}`)]);
    });
})()"""
# What moves, or would.
MOVING = """[...document.getAnimations().map((one) => String(one.animationName ?? one.transitionProperty)), ...[...document.querySelectorAll('*')].filter((one) => {
    const style = getComputedStyle(one);
    return style.animationName !== 'none' || style.transitionDuration !== '0s' || style.scrollBehavior !== 'auto';
}).map((one) => one.tagName), ...document.querySelectorAll('marquee, blink, video, canvas, img')]"""
LONG = "Donaudampfschifffahrtslinie"
LEAST_OF_TEXT, LEAST_OF_EDGES, LEAST_SIZE = 4.5, 3, 0.875


class Readable(Board):
    """Each colour, size and screen leaves all of it to be read."""

    def contrasts(self):
        """What is late, early, punctual, planned, cancelled, at another platform or wrong is told apart from its ground, light and dark."""
        for colours in ("light", "dark"):
            self.browser.size(1280, 900, 1, colours == "dark")
            now, stop, lines = int(time.time()), "C " + colours, [["1"], ["2"], ["3"], ["4"], ["5"]]
            self.feed([visit("c1", "1", "Mill", now + 1200, 120, stop, DeparturePlatformName="A")], [situation("10", "Lift out of order.", places=[stop + "-1"])])
            time.sleep(2.1)  # (nginx keeps an answer for up to two seconds)
            stop = stop.replace(" ", "%20")
            self.open("stop=%s&stop=C0&stop=%s&zone=Europe/Paris&every=1&turn=0" % (stop, "x" * 256))
            self.wait_rows(lines[:1], "a board of colours")
            self.feed(self.colourful(now, "C " + colours))
            self.wait_rows([["1", None, None, None, "B changed, before A"], *lines[1:]], "a board of colours")
            self.wait("document.querySelector('.situations li') !== null && document.querySelectorAll('#state .refused, #state .fault').length === 2", "not all that is wrong is told")
            self.told_apart("in %s colours " % colours, 30)
            self.open("stop=%s&zone=Europe/Paris&rows=fit" % stop)
            self.wait_rows(lines, "a wall of colours")
            self.browser.run("document.querySelector('#turning').hidden = false; document.querySelector('#turning button').focus({ focusVisible: true })")
            self.told_apart("on a %s wall " % colours, 20)
            self.browser.run("document.querySelector('#turning button').setAttribute('aria-pressed', 'true')")
            self.told_apart("on a %s wall that is held " % colours, 20)
            self.lists_stops("in a %s list of stops " % colours)
        self.browser.size(1280, 900)

    def colourful(self, now, stop):
        return [visit("c1", "1", "Mill", now + 1200, 120, stop, DeparturePlatformName="B"), visit("c2", "2", "Mill", now + 1500, -120, stop), visit("c3", "3", "Mill", now + 1440, 0, stop),
                visit("c4", "4", "Mill", now + 1500, None, stop), visit("c5", "5", "Mill", now + 1600, 0, stop, DepartureStatus="cancelled")]

    def lists_stops(self, what):
        path = os.path.join(self.pages, "names.json")
        with open(path, "w", encoding="utf-8") as file:
            json.dump({"stops": {"C1": "Market Square", "C2": "Market Square"}}, file)
        self.open("")
        self.wait("document.querySelectorAll('#known a').length === 2", "the stops aren't listed")
        self.browser.run("document.querySelector('#stop').focus()")
        self.told_apart(what, 8)
        os.remove(path)

    def told_apart(self, what, least):
        seen = self.browser.run(SEEN)
        pale = [(text, round(contrast, 2)) for text, contrast, _, opacity in seen["texts"] if contrast < LEAST_OF_TEXT or opacity != "1"]
        small = [(text, size) for text, _, size, _ in seen["texts"] if size < LEAST_SIZE]
        edges = [(name, round(contrast, 2)) for name, contrast in seen["edges"] if contrast < LEAST_OF_EDGES]
        self.check(not pale and len(seen["texts"]) >= least, "%sof %d texts these have too little contrast: %s" % (what, len(seen["texts"]), pale))
        self.check(not edges, "%sedges have too little contrast: %s" % (what, edges))
        self.check(not small, "%sletters are too small: %s" % (what, small))

    def large_letters(self):
        """Whoever reads by letters of twice the size has all of it, on any screen, without scrolling sideways."""
        now = int(time.time())
        self.feed([visit("g1", "6", "University", now + 1200, 120, "G1", DeparturePlatformName="Gleis 7 A-D Nord, Bahnsteig 3"),
                   visit("g2", "S7", "K\u00f6nigs Wusterhausen", now + 86400, 600, "G1", DeparturePlatformName="Gleis 7 A-D Nord"),
                   visit("g3", "24N", "Old Mill via Hospital", now + 86460, 600, "G1", DeparturePlatformName="Gleis 12", DepartureStatus="cancelled"),
                   visit("g4", LONG, "Linz", now + 87100, None, "G1", DeparturePlatformName="12a")], [situation("11", "Works at the stop.", places=["G1-1"])])
        time.sleep(2.1)
        for size in (32, 16):
            self.browser.call("Page.setFontSizes", fontSizes={"standard": size, "fixed": size})
            self.browser.size(320, 640)
            self.open("lang=de")
            self.wait("!document.querySelector('#choice').hidden", "without a stop none is asked for")
            beyond = self.browser.run("[...document.querySelectorAll('input, button')].map((one) => one.getBoundingClientRect().right - document.querySelector('main').getBoundingClientRect().right)")
            self.check(max(beyond) < 1, "with letters of %d pixels a field stands over the edge by %s" % (size, beyond))
            for width, height, languages in ((320, 640, ("en", "de", "fr", "no", "es")), (390, 844, ("en", "de", "fr", "no", "es")), (640, 512, ("en",)), (1280, 900, ("en",))):
                for language in languages:
                    self.browser.size(width, height)
                    self.open("stop=G1&zone=Europe/Paris&preview=P2D&lang=" + language)
                    self.wait_rows([["6"], ["S7"], ["24N"], [LONG]], "a board of large letters")
                    self.wait("document.querySelector('.situations li') !== null", "a board of large letters has no disturbance")
                    self.large("with letters of %d pixels, %d wide, in %s, " % (size, width, language), size, width)
        self.browser.call("Page.setFontSizes", fontSizes={"standard": 16, "fixed": 13})
        self.browser.size(1280, 900)

    def large(self, what, size, width):
        seen, clashes = self.browser.run(SEEN), self.browser.run(CLASHES)
        self.check(seen["root"] == size, "%sthe page has letters of %s" % (what, seen["root"]))
        self.check(not clashes, "%sthere is %s" % (what, clashes))
        wide = self.browser.run("document.scrollingElement.scrollWidth")
        self.check(wide <= width, "%sthe page is %d wide" % (what, wide))

    def keeps_still(self):
        """Nothing moves, whether less of it is asked for or not: rows come and go, and pages turn, at once."""
        self.feed([visit("m%02d" % number, "M%d" % number, "Mill", time.time() + 1200 + number * 60, 0, "M1") for number in range(20)])
        for motion in ("reduce", "no-preference"):
            self.browser.size(1280, 600)
            self.browser.call("Emulation.setEmulatedMedia", features=[{"name": "prefers-reduced-motion", "value": motion}])
            self.open("stop=M1&zone=Europe/Paris&rows=fit&every=1&turn=3")
            self.wait("document.querySelectorAll('tbody tr').length === 20", "not all is drawn")
            for number in range(4):
                self.feed([visit("m%02d" % number, "M%d" % number, "Mill", time.time() + 1200 + number * 60, 120, "M1")])
                time.sleep(1)
                moving = self.browser.run(MOVING)
                self.check(moving == [], "where motion is %s these move: %s" % (motion, moving))
        self.browser.size(1280, 900)
