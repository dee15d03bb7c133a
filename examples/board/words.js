/**
 * What the board tells of departures, in its language: times in the stop's zone, minutes to go, delays. Nothing here knows a page.
 *
 * @typedef {import('./read.js').Departure} Departure
 */
import { locale, text } from './language.js';

const MINUTE = 60000;

/** How times are told in a zone. */
export class Clock {
  #time;
  #second;
  #day;
  #date;

  /** @param {string} zone */
  constructor(zone) {
    const format = (options) => new Intl.DateTimeFormat(locale(), { timeZone: zone, ...options });
    this.#time = format({ hour: '2-digit', minute: '2-digit' });
    this.#second = format({ hour: '2-digit', minute: '2-digit', second: '2-digit' });
    this.#day = format({ weekday: 'short', day: 'numeric' });
    this.#date = format({ dateStyle: 'full' });
  }

  /** Hours and minutes, with the day where it is another one than that of `now`. */
  time(moment, now) {
    const time = this.#time.format(moment);
    return this.#date.format(moment) === this.#date.format(now) ? time : `${this.#day.format(moment)}, ${time}`;
  }

  seconds(moment) {
    return this.#second.format(moment);
  }
}

/** @type {Map<string, Intl.NumberFormat>} */
const formats = new Map();

/** So many minutes, as they are written in a row or said in a sentence. */
function minutesIn(display, minutes) {
  const tag = display === 'short' ? text('units') : locale();
  const key = `${tag} ${display}`;
  if (!formats.has(key)) formats.set(key, new Intl.NumberFormat(tag, { style: 'unit', unit: 'minute', unitDisplay: display }));
  return formats.get(key).format(minutes);
}

/** Of what leaves later than that the time alone is told. */
const MOST_MINUTES = 99;

/** How long until a departure leaves: whole minutes, the rest cut. */
export function minutesToGo(departure, now) {
  if (departure.isCancelled) return '';
  if (departure.isAtStop) return text('atStop');
  const minutes = Math.floor((departure.moment - now) / MINUTE);
  if (minutes > MOST_MINUTES) return '';
  return minutes < 1 ? text('now') : minutesIn('short', minutes);
}

/** What of a departure has to be told in words: [kind, words] each, the kinds being classes of the style. */
export function remarks(departure, isStale) {
  const told = [];
  if (departure.isCancelled) told.push(['cancelled', text('cancelled')]);
  else if (isStale && departure.isExpected && departure.isMonitored) told.push(['plan', text('noNews')]);
  else told.push(...delayWords(departure));
  if (!departure.isMonitored) told.push(['plan', text('notMonitored')]);
  return told;
}

function delayWords({ delay, status }) {
  if (delay === null) {
    const names = { onTime: 'onTime', delayed: 'late', early: 'early', departed: 'departed', missed: 'missed', noReport: 'noReport' };
    return Object.hasOwn(names, status) ? [[status === 'delayed' ? 'late' : 'plain', text(names[status])]] : [];
  }
  return [[Math.trunc(delay / MINUTE) === 0 ? 'punctual' : delay > 0 ? 'late' : 'plain', delayIn('short', delay)]];
}

function delayIn(display, delay) {
  const minutes = Math.trunc(delay / MINUTE);
  if (minutes === 0) return text('onTime');
  return text(minutes > 0 ? 'spanLate' : 'spanEarly', { span: minutesIn(display, Math.abs(minutes)) });
}

/** What is said of a stop without departures. */
export function noneSaid({ news, began }, clock, now) {
  if (began !== null) return text('noneBegan', { time: clock.time(began, now) });
  if (news.isStale) return text('noneStale', { time: clock.time(news.newest, now) });
  return text('none');
}

/** What is wrong with what is known of the stops, a sentence each. */
export function doubtsSaid(stops, clock, now) {
  const said = [];
  const stale = stops.filter(({ news }) => news.isStale);
  if (stale.length > 0) {
    const time = clock.time(Math.min(...stale.map(({ news }) => news.newest)), now);
    said.push(stale.length === stops.length ? text('stale', { time })
      : text('staleFrom', { time, stops: stale.map(({ title }) => title).join(', ') }));
  }
  const began = stops.filter(({ began, departures }) => began !== null && departures.length > 0);
  if (began.length > 0) said.push(text('began', { time: clock.time(began[0].began, now) }));
  return said;
}

/** What a reader of screens is told where a departure came, changed or went. */
export function changeSentence(kind, departure, clock, now) {
  const { line, destination: to, platform, delay } = departure;
  const name = text(line === '' ? (to === '' ? 'nameOfNone' : 'nameTo') : (to === '' ? 'nameOfLine' : 'nameOfLineTo'), { line, to });
  const time = clock.time(departure.moment, now);
  if (kind === 'gone') return text('goneAt', { name, time });
  if (departure.isCancelled) return text('cancelledAt', { name, time });
  const told = [time, ...(delay === null ? [] : [delayIn('long', delay)]), ...(platform === '' ? [] : [text('platformSaid', { platform })])].join(', ');
  return text(kind === 'new' ? 'newAt' : 'changedAt', { name, told });
}

/** Whether two states of a departure differ in what a passenger has to hear. */
export function hasChanged(before, after) {
  const parts = ({ line, destination, moment, platform, isCancelled }) => [line, destination, Math.floor(moment / MINUTE), platform, isCancelled];
  return JSON.stringify(parts(before)) !== JSON.stringify(parts(after));
}
