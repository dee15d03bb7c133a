/**
 * What the page's address tells it. Nothing here knows a page.
 *
 * @typedef {object} Settings
 * @property {string[]} stops     the MonitoringRef of each stop, in the order in which they are shown
 * @property {string} zone        the time zone of the stops, a name of the IANA database
 * @property {boolean} hasZone    whether the address names a zone that is known
 * @property {number} every       milliseconds from one answer to the next question
 * @property {number} old         milliseconds after which an answer is old
 * @property {number} news        milliseconds after which the newest record of a stop is old
 * @property {string} preview     how far ahead departures and situations are asked for, as xsd:duration
 * @property {number} most        how many departures of a stop are shown
 * @property {boolean} isWall     whether rows fill the height, and pages turn
 * @property {number} turn        milliseconds that a page of a wall stays
 * @property {string[]} faults    what of the address can't be used, a sentence each
 */

import { LANGUAGES, text } from './language.js';

const MOST_STOPS = 20;
const SPAN = /^P(?=\d|T\d)(\d{1,3}D)?(T(?=\d)(\d{1,3}H)?(\d{1,4}M)?)?$/;

/**
 * `?stop=S1&stop=S2&zone=Europe/Paris`, and where wanted `every` (seconds, 1 to 600), `old` (seconds, 2 to 3,600),
 * `news` (seconds, 2 to 86,400), `preview` (a span of days, hours and minutes), `most` (1 to 200), `rows=fit`, `turn`
 * (seconds, 3 to 120) and `lang` (a language of the board, which is spoken before).
 * @param {URLSearchParams} told
 * @returns {Settings}
 */
export function settingsOf(told) {
  const faults = [];
  const named = [...new Set(told.getAll('stop').filter((name) => name !== ''))];
  if (named.length > MOST_STOPS) faults.push(text('manyStops', { count: named.length, most: MOST_STOPS }));
  wordOf(told, 'lang', LANGUAGES, faults);
  const every = seconds(told, 'every', 10, 1, 600, faults);
  const old = seconds(told, 'old', Math.max(30, every / 1000 * 3), 2, 3600, faults);
  return {
    stops: named.slice(0, MOST_STOPS),
    ...zoneOf(told.get('zone'), faults),
    every,
    old,
    // Feeds of a minute are usual: what is older than five has missed some.
    news: seconds(told, 'news', Math.max(300, old / 1000), 2, 86400, faults),
    preview: previewOf(told.get('preview'), faults),
    most: numberOf(told, 'most', 20, 1, 200, faults),
    isWall: wordOf(told, 'rows', ['fit'], faults) === 'fit',
    turn: seconds(told, 'turn', 10, 3, 120, faults),
    faults,
  };
}

function zoneOf(name, faults) {
  const own = new Intl.DateTimeFormat().resolvedOptions().timeZone;
  if (name === null || name === '') return { zone: own, hasZone: false };
  try {
    return { zone: new Intl.DateTimeFormat('en-GB', { timeZone: name }).resolvedOptions().timeZone, hasZone: true };
  } catch {
    faults.push(text('badZone', { zone: name, own }));
    return { zone: own, hasZone: false };
  }
}

function previewOf(span, faults) {
  if (span === null) return 'PT2H';
  if (SPAN.test(span)) return span;
  faults.push(text('badSpan', { span }));
  return 'PT2H';
}

/** One of these words, or null. */
function wordOf(told, name, words, faults) {
  const value = told.get(name);
  if (value === null || words.includes(value)) return value;
  faults.push(text('badWord', { name, words: words.join(', '), told: value }));
  return null;
}

function seconds(told, name, without, least, most, faults) {
  return numberOf(told, name, without, least, most, faults) * 1000;
}

function numberOf(told, name, without, least, most, faults) {
  const value = told.get(name);
  if (value === null) return without;
  const number = Number(value);
  if (/^\d+$/.test(value) && number >= least && number <= most) return number;
  faults.push(text('badNumber', { name, least, most, told: value }));
  return without;
}
