/**
 * Asks the producer, stop by stop and again and again, and keeps what it said last. Nothing here knows a page.
 *
 * @typedef {import('./settings.js').Settings} Settings
 * @typedef {import('./read.js').Departure} Departure
 * @typedef {import('./read.js').Situation} Situation
 *
 * @typedef {object} Stop
 * @property {string} name                the MonitoringRef that is asked for
 * @property {string} title               what it is called
 * @property {Departure[] | null} departures  of the last answer that tells some; null before the first
 * @property {number | null} moment       of that answer, by the producer's clock
 * @property {string | null} refusal      why the last question about it was refused
 * @property {import('./news.js').News} news
 * @property {number | null} began        when the producer began, where it did so just now and knows no departure of the stop
 *
 * @typedef {object} Seen                 what is known by now
 * @property {Stop[]} stops
 * @property {Situation[]} situations
 * @property {string | null} situationsFault  why situations aren't known
 * @property {string | null} unreached    why the producer can't be reached
 */
import { Names, namesFrom } from './names.js';
import { NO_NEWS, newsAfter } from './news.js';
import { Producer } from './producer.js';
import { departuresOf, situationsOf } from './read.js';

const LONGEST_PAUSE = 60000;
/** Situations change rarely: they are asked for once a minute, or with the departures where those are asked for less often. */
const SITUATIONS_EVERY = 60000;
/** So long after its start a producer may not have been fed yet. */
const STARTS_MILLISECONDS = 300000;

export class Watch {
  #settings;
  #tell;
  #stops;
  #producer = new Producer();
  /** @type {Names | null} null as long as they aren't known */
  #names = null;
  #situations = [];
  #situationsFault = null;
  /** When they are asked for again, by this page's own clock. */
  #situationsDue = 0;
  #failures = 0;
  #fault = null;
  #wake = () => {};

  /**
   * @param {Settings} settings
   * @param {(seen: Seen, stop: number | null) => void} tell  is called after each answer about a stop, by its place, and where
   *     anything else became known
   */
  constructor(settings, tell) {
    this.#settings = settings;
    this.#tell = tell;
    this.#stops = settings.stops.map((name) => (
      { name, title: name, departures: null, moment: null, refusal: null, news: NO_NEWS, began: null }));
  }

  /** The moment at the server. */
  now() {
    return this.#producer.now();
  }

  /** Asks at once, as when a page is looked at again. */
  wake() {
    this.#wake();
  }

  /** Asks for good. */
  async run() {
    for (;;) {
      await this.#round();
      this.#tellSeen(null);
      await new Promise((done) => {
        this.#wake = done;
        setTimeout(done, this.#pause());
      });
    }
  }

  #tellSeen(stop) {
    this.#tell({
      stops: this.#stops,
      situations: this.#situations,
      situationsFault: this.#situationsFault,
      // A single failure, as of a network that changes, is nothing that a passenger has to know.
      unreached: this.#failures > 1 ? this.#fault : null,
    }, stop);
  }

  /** Twice as long after each failure, up to a minute, and not at the same moment as all other boards. */
  #pause() {
    const { every } = this.#settings;
    const refused = this.#stops.some(({ refusal }) => refusal !== null) ? 1 : 0;
    const pause = Math.min(every * 2 ** Math.min(this.#failures + refused, 6), Math.max(LONGEST_PAUSE, every));
    return pause * (this.#failures > 0 ? 1 + Math.random() / 4 : 1);
  }

  /** Names are asked for beside the first questions, and again where they couldn't be had. */
  async #askNames() {
    if (this.#names === null) {
      this.#names = await namesFrom('names.json');
      for (const stop of this.#stops) stop.title = this.#names?.stop(stop.name) || stop.title;
    }
    return this.#names ?? new Names();
  }

  async #round() {
    const naming = this.#askNames();
    for (const [place, stop] of this.#stops.entries()) {
      const told = await this.#producer.visits(stop.name, this.#settings.preview);
      if (told.unreached) {
        this.#fault = told.unreached;
        this.#failures += 1;
        return;
      }
      this.#askSituations();
      stop.refusal = told.refusal ?? null;
      if (!told.answer) continue;
      const names = await naming;
      const departures = departuresOf(told.answer.items, names).slice(0, this.#settings.most);
      stop.title = names.stop(stop.name) || (departures.find(({ stopName }) => stopName !== '')?.stopName ?? stop.title);
      const start = departures.length === 0 ? await this.#producer.start(stop.name) : null;
      this.#take(stop, departures, told.answer.moment, start);
      this.#tellSeen(place);
    }
    this.#failures = 0;
  }

  /** Where a producer that has just begun knows none, what was known stays. */
  #take(stop, departures, moment, start) {
    stop.began = start !== null && start.since < STARTS_MILLISECONDS ? start.began : null;
    if (stop.began !== null && stop.departures !== null) return;
    stop.departures = departures;
    stop.moment = moment;
    stop.news = newsAfter(stop.news, departures, moment, this.#settings.news);
  }

  /** No departure waits for situations: they are asked for beside, once at a time, where it is time for them. */
  async #askSituations() {
    if (performance.now() < this.#situationsDue) return;
    this.#situationsDue = Infinity;
    const told = await this.#producer.situations(this.#settings.preview);
    this.#situationsFault = told.unreached ?? told.refusal ?? null;
    if (told.answer) this.#situations = situationsOf(told.answer.items);
    this.#situationsDue = performance.now() + (told.answer ? Math.max(SITUATIONS_EVERY, this.#settings.every) : this.#settings.every);
    this.#tellSeen(null);
  }
}
