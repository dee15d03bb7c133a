/**
 * Reads values of documents of the network and of `names.json`: whatever stands there, nothing is thrown. Nothing here knows
 * a page.
 */

import { isSpoken } from './language.js';

/** How much of a text is shown: names may have 16,384 bytes. */
const LONGEST_TEXT = 300;

/** The object at a path of members, or null. */
export function within(value, ...path) {
  const found = path.reduce((at, member) => (isObject(at) ? at[member] : null), value);
  return isObject(found) ? found : null;
}

/** The objects of a list. */
export function entries(value) {
  return Array.isArray(value) ? value.filter(isObject) : [];
}

export function isObject(value) {
  return typeof value === 'object' && value !== null && !Array.isArray(value);
}

export function nameOf(value) {
  return typeof value === 'string' && value !== '' ? value : null;
}

/** A text to be shown, on one line and not without end; of a text in several languages that which is spoken, or else the first. */
export function textOf(value) {
  const shown = [...told(value).slice(0, LONGEST_TEXT * 2).replace(/[\s\p{Cc}]+/gu, ' ').trim()];
  return shown.length > LONGEST_TEXT ? `${shown.slice(0, LONGEST_TEXT).join('')}…` : shown.join('');
}

/** Of `"a"`, `{ value: "a", lang: "en" }` or a list of such. */
function told(value) {
  if (typeof value === 'string') return value;
  const texts = (Array.isArray(value) ? value : [value]).map((one) => (isObject(one) ? one : { value: one })).filter((one) => typeof one.value === 'string');
  return (texts.find(({ lang }) => isSpoken(lang)) ?? texts[0])?.value ?? '';
}

/** In milliseconds since 1970, UTC. */
export function momentOf(value) {
  const moment = typeof value === 'string' && /^\d{4}-\d\d-\d\dT.*(Z|[+-]\d\d:\d\d)$/.test(value) ? Date.parse(value) : NaN;
  return Number.isNaN(moment) ? null : moment;
}

/** A span as a producer writes it, in milliseconds. */
export function spanOf(value) {
  const [, sign, days, hours, minutes, seconds] = /^(-?)P(?:(\d+)D)?(?:T(?:(\d+)H)?(?:(\d+)M)?(?:([\d.]+)S)?)?$/.exec(
    typeof value === 'string' ? value : '') ?? [];
  if (sign === undefined) return null;
  const [d, h, m, s] = [days, hours, minutes, seconds].map((part) => Number(part ?? 0));
  return (sign === '-' ? -1000 : 1000) * (((d * 24 + h) * 60 + m) * 60 + s);
}

export function isTrue(value) {
  return value === true || value === 'true' || value === '1';
}

export function isFalse(value) {
  return value === false || value === 'false' || value === '0';
}
