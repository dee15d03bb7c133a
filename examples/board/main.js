/**
 * Begins the page: what its address asks for, the questions, and what is drawn of the answers.
 */
import { Watch } from './ask.js';
import { askForStop } from './choose.js';
import { StopBoard, changesSaid } from './draw.js';
import { element, say } from './elements.js';
import { locale, speak, text } from './language.js';
import { Names, namesFrom } from './names.js';
import { situationsAt } from './read.js';
import { settingsOf } from './settings.js';
import { Wall } from './wall.js';
import { Clock, doubtsSaid } from './words.js';

const TICK_MILLISECONDS = 1000;

class Page {
  #settings;
  #clock;
  #watch;
  #boards;
  #parts;
  /** @type {Wall | null} */
  #wall;
  /** @type {import('./ask.js').Seen | null} */
  #seen = null;

  constructor(page, settings) {
    const part = (selector) => page.querySelector(selector);
    this.#parts = { state: part('#state'), changes: part('#changes'), source: part('#source'), time: part('#clock') };
    this.#settings = settings;
    this.#clock = new Clock(settings.zone);
    this.#boards = settings.stops.map((name, number) => new StopBoard(part('#stops'), name, number));
    this.#wall = settings.isWall ? new Wall(page, settings.turn) : null;
    this.#watch = new Watch(settings, (seen, stop) => this.#show(seen, stop));
  }

  start() {
    this.#tellState();
    setInterval(() => this.#tick(), TICK_MILLISECONDS);
    // A telephone that was put away shows at once what is true now.
    document.addEventListener('visibilitychange', () => document.visibilityState === 'visible' && this.#watch.wake());
    addEventListener('online', () => this.#watch.wake());
    this.#watch.run();
  }

  /** @param {number | null} stop  which was answered */
  #show(seen, stop) {
    this.#seen = seen;
    seen.stops.forEach(({ title }, number) => this.#boards[number].call(title));
    const sentences = stop === null ? [] : this.#boards[stop].show(seen.stops[stop], this.#clock, this.#watch.now());
    if (sentences.length > 0) say(this.#parts.changes, changesSaid(sentences));
    this.#showSituations(seen);
    this.#tick();
  }

  /** Below each stop those of it; on a wall all of them in one place. */
  #showSituations({ stops, situations }) {
    const each = stops.map(({ name, departures }) => situationsAt(situations, name, departures ?? []));
    if (this.#wall === null) each.forEach((those, stop) => this.#boards[stop].showSituations(those));
    else this.#wall.showSituations([...new Set(each.flat())]);
  }

  #tick() {
    const now = this.#watch.now();
    if (this.#seen !== null) for (const board of this.#boards) board.tick(this.#clock, now);
    say(this.#parts.time, this.#clock.time(now, now));
    this.#tellState();
    this.#tellSource();
    this.#wall?.lay();
  }

  /** What is wrong, a sentence each; it is told anew only where it is something else. */
  #tellState() {
    const told = [...this.#settings.faults.map((fault) => ['fault', fault]), ...(this.#seen === null ? [] : this.#troubles(this.#seen))];
    const lines = told.map(([kind, sentence]) => element('p', { class: kind, dir: 'auto' }, sentence));
    const { state } = this.#parts;
    if (state.textContent !== lines.map((line) => line.textContent).join('')) state.replaceChildren(...lines);
  }

  #troubles({ stops, unreached, situationsFault }) {
    const told = [];
    const moments = stops.map(({ moment }) => moment).filter((moment) => moment !== null);
    const oldest = moments.length === 0 ? null : Math.min(...moments);
    if (oldest !== null && this.#watch.now() - oldest > this.#settings.old) {
      told.push(['old', text('answerOld', { time: this.#clock.seconds(oldest) })]);
    }
    told.push(...doubtsSaid(stops, this.#clock, this.#watch.now()).map((sentence) => ['old', sentence]));
    if (unreached !== null) told.push(['unreached', text('unreached', { why: unreached })]);
    for (const { name, refusal } of stops) if (refusal !== null) told.push(['refused', text('refused', { stop: name, why: refusal })]);
    if (situationsFault !== null && unreached === null) told.push(['fault', text('situationsUnknown', { why: situationsFault })]);
    return told;
  }

  #tellSource() {
    const { zone, hasZone } = this.#settings;
    const moments = (this.#seen?.stops ?? []).map(({ moment }) => moment).filter((moment) => moment !== null);
    const answer = moments.length === 0 ? [] : [text('answerOf', { time: this.#clock.seconds(Math.min(...moments)) })];
    say(this.#parts.source, [text(hasZone ? 'source' : 'sourceOwn', { zone }), ...answer].join(' '));
  }
}

/** The page's own texts in its language. */
function translate(page) {
  page.documentElement.lang = locale();
  page.title = text('departures');
  for (const node of page.querySelectorAll('[data-text]')) say(node, text(node.dataset.text));
  for (const node of page.querySelectorAll('[data-label]')) node.setAttribute('aria-label', text(node.dataset.label));
}

const told = new URL(location.href).searchParams;
await speak(told.get('lang'), navigator.languages);
translate(document);
const settings = settingsOf(told);
if (settings.stops.length > 0) new Page(document, settings).start();
else askForStop(document, settings, await namesFrom('names.json') ?? new Names());
