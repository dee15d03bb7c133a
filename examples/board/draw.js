/**
 * Draws what is known of a stop. A row stays the same element as long as its departure is there, so that whoever reads it isn't
 * thrown out of it.
 *
 * @typedef {import('./read.js').Departure} Departure
 * @typedef {import('./ask.js').Stop} Stop
 * @typedef {import('./words.js').Clock} Clock
 */
import { element, say } from './elements.js';
import { text } from './language.js';
import { SituationList } from './situations.js';
import { changeSentence, hasChanged, minutesToGo, noneSaid, remarks } from './words.js';

const HEADINGS = ['line', 'to', 'time', 'in', 'platform', 'notes'];
/** Of more changes at once than so many only the number is told. */
const MOST_SENTENCES = 3;
/** A departure stays so long after its moment: whoever runs may still catch it. */
const STAYS_MILLISECONDS = 30000;
/** And so long where its vehicle was at the stop when it was told last, since from its moment on nothing more is told. */
const STAYS_AT_STOP_MILLISECONDS = 90000;
/** Moments are told in whole seconds, and an answer may be a second or two old: so near to its moment none is taken back. */
const NEAR_MILLISECONDS = 2000;

/** One stop: its heading, its table, its situations. */
export class StopBoard {
  #heading;
  #caption;
  #table;
  #body;
  #empty;
  #situations;
  /** Of each departure also the platform that was told first. @type {Map<string, {row: HTMLElement, departure: Departure, platform: string}>} */
  #rows = new Map();
  /** What is said where there is no row; null before the first answer. @type {string | null} */
  #none = null;

  constructor(place, name, number) {
    this.#heading = element('h2', { id: `stop-${number}`, dir: 'auto' }, name);
    this.#caption = element('caption', { class: 'is-heard' });
    this.#body = element('tbody', { role: 'rowgroup' });
    const heads = HEADINGS.map((name) => element('th', { scope: 'col', role: 'columnheader' }, text(name)));
    this.#table = element('table', { role: 'table' }, this.#caption,
      element('thead', { role: 'rowgroup' }, element('tr', { role: 'row' }, ...heads)), this.#body);
    this.#empty = element('p', { class: 'empty' }, text('asked'));
    const situations = element('div', { class: 'situations' });
    this.#situations = new SituationList(situations, 'h3');
    place.append(element('section', { 'aria-labelledby': `stop-${number}` }, this.#heading, this.#table, this.#empty, situations));
    this.#table.hidden = true;
  }

  /**
   * Draws an answer, and gives the sentences that tell what it changed.
   * @param {Stop} stop
   * @param {Clock} clock
   * @param {number} now
   * @returns {string[]}
   */
  show(stop, clock, now) {
    if (stop.departures === null) return [];
    const isFirst = this.#none === null;
    const sentences = this.#take(stop, clock, now);
    this.#none = noneSaid(stop, clock, now);
    this.tick(clock, now);
    return isFirst ? [] : sentences;
  }

  /** Says how the stop is called. */
  call(title) {
    say(this.#heading, title);
    say(this.#caption, text('departuresFrom', { stop: title }));
  }

  /** @param {import('./read.js').Situation[]} situations  those of the stop */
  showSituations(situations) {
    this.#situations.show(situations);
  }

  /** Tells the minutes to go, and lets go what has left. */
  tick(clock, now) {
    for (const [key, { row, departure }] of this.#rows) {
      if (isOver(departure, now)) {
        row.remove();
        this.#rows.delete(key);
      } else {
        say(row.cells[3], minutesToGo(departure, now));
      }
    }
    this.#table.hidden = this.#rows.size === 0;
    this.#empty.hidden = this.#rows.size > 0;
    if (this.#none !== null) say(this.#empty, this.#none);
  }

  #take({ departures, news }, clock, now) {
    const before = this.#rows;
    this.#rows = new Map();
    const sentences = [];
    for (const departure of departures) {
      const old = before.get(departure.key);
      before.delete(departure.key);
      const row = old?.row ?? newRow();
      const platform = old?.platform || departure.platform;
      fillRow(row, departure, platform, news.isStale, clock, now);
      this.#rows.set(departure.key, { row, departure, platform });
      if (old === undefined) sentences.push(changeSentence('new', departure, clock, now));
      else if (hasChanged(old.departure, departure)) sentences.push(changeSentence('changed', departure, clock, now));
    }
    for (const [key, known] of before) {
      const { row, departure } = known;
      // A producer tells nothing of a departure from its moment on: that it is lacking says that it is due, and not that it is off.
      if (departure.moment <= now + NEAR_MILLISECONDS && !isOver(departure, now)) {
        this.#rows.set(key, known);
        continue;
      }
      row.remove();
      if (departure.moment > now && !departure.isCancelled && !departure.isAtStop) sentences.push(changeSentence('gone', departure, clock, now));
    }
    this.#order();
    return sentences;
  }

  /** Moves only rows that aren't where they belong. */
  #order() {
    [...this.#rows.values()].sort((one, other) => one.departure.moment - other.departure.moment).forEach(({ row }, index) => {
      if (this.#body.children[index] !== row) this.#body.insertBefore(row, this.#body.children[index] ?? null);
    });
  }
}

/** Whether a departure's moment is so long ago that it is shown no more. */
function isOver({ moment, isAtStop }, now) {
  return moment + (isAtStop ? STAYS_AT_STOP_MILLISECONDS : STAYS_MILLISECONDS) < now;
}

function newRow() {
  const row = element('tr', { role: 'row' }, element('th', { scope: 'row', role: 'rowheader' }));
  for (let cell = 1; cell < HEADINGS.length; cell += 1) row.append(element('td', { role: 'cell' }));
  return row;
}

function fillRow(row, departure, platformBefore, isStale, clock, now) {
  const [line, to, time, , platform, notes] = row.cells;
  row.classList.toggle('is-cancelled', departure.isCancelled);
  row.classList.toggle('is-plan', !departure.isMonitored);
  row.dataset.key = departure.key;
  replace(line, [badge(departure)]);
  replace(to, [element('bdi', {}, departure.destination)]);
  replace(time, timeParts(departure, clock, now));
  replace(platform, platformParts(departure.platform, platformBefore));
  replace(notes, remarks(departure, isStale).map(([kind, words]) => element('span', { class: kind }, words)));
}

/** A line's name, in its colours where they are known. */
function badge({ line, ground, letters }) {
  const made = element('bdi', {}, line);
  if (ground !== null) made.style.setProperty('background-color', ground);
  if (letters !== null) made.style.setProperty('color', letters);
  return made;
}

/** The time that counts, and the planned one where that is another minute; of two times of one day the first tells it. */
function timeParts({ moment, planned, isExpected }, clock, now) {
  const told = [element('time', { datetime: new Date(moment).toISOString() }, clock.time(moment, now))];
  if (isExpected && planned !== null && clock.time(planned, now) !== clock.time(moment, now)) told.push(' ', struck(text('plannedTime'), clock.time(planned, moment)));
  return told;
}

/** Where it leaves, and where it was told to leave when it was seen first. */
function platformParts(platform, before) {
  if (platform === before || platform === '') return [element('bdi', {}, platform)];
  return [element('bdi', { class: 'changed' }, platform), ' ', struck(text('platformBefore'), before)];
}

/** What isn't so any more; a reader of screens is told in words. */
function struck(words, told) {
  return element('s', {}, element('span', { class: 'is-heard' }, `${words} `), element('bdi', {}, told));
}

/** Fills a cell where what it has is another text or has other classes. */
function replace(cell, content) {
  const made = element('div', {}, ...content);
  if (made.innerHTML !== cell.innerHTML) cell.replaceChildren(...made.childNodes);
}

/** What is told politely of all that changed. */
export function changesSaid(sentences) {
  return sentences.length > MOST_SENTENCES ? text('manyChanged', { count: sentences.length }) : sentences.join(' ');
}
