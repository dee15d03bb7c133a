/**
 * What a town calls its lines and stops, where a producer sends references alone: `names.json` beside this page, as
 * `{"lines": {"L1": {"name": "1", "ground": "#ffbe00", "letters": "#000000"}}, "stops": {"S1": "Harbour"}, "destinations": {"north": "Mill"}}`.
 * `names.py` makes it of a GTFS feed. Nothing here knows a page.
 *
 * @typedef {object} Line
 * @property {string} name              '' where it isn't told
 * @property {string | null} ground     the colour behind its name
 * @property {string | null} letters    the colour of its name
 */
import { isObject, textOf, within } from './values.js';

const LONGEST_WAIT = 5000;
/** Letters are told from their ground by everybody where the two differ so much (WCAG 2, 1.4.3). */
const LEAST_CONTRAST = 4.5;
/** @type {Line} */
const NO_LINE = { name: '', ground: null, letters: null };

export class Names {
  #told;

  /** @param {unknown} told  what the file has; members that are no names are passed over */
  constructor(told = {}) {
    this.#told = { lines: within(told, 'lines') ?? {}, stops: within(told, 'stops') ?? {}, destinations: within(told, 'destinations') ?? {} };
  }

  /** @returns {Line} */
  line(ref) {
    const told = this.#at('lines', ref);
    return isObject(told) ? { name: textOf(told.name), ...coloursOf(told) } : NO_LINE;
  }

  /** '' where it has none. */
  stop(ref) {
    return textOf(this.#at('stops', ref));
  }

  /** What a destination is called whatever the producer calls it; '' where that stays. */
  destination(ref) {
    return textOf(this.#at('destinations', ref));
  }

  /** All stops, [reference, name] each, by name. @returns {[string, string][]} */
  stops() {
    const { compare } = new Intl.Collator();
    return Object.keys(this.#told.stops).map((ref) => /** @type {[string, string]} */ ([ref, this.stop(ref)])).filter(([, name]) => name !== '')
      .sort(([ref, name], [otherRef, other]) => compare(name, other) || compare(ref, otherRef));
  }

  #at(kind, ref) {
    return typeof ref === 'string' && Object.hasOwn(this.#told[kind], ref) ? this.#told[kind][ref] : null;
  }
}

/** The names at an address, none where there is no such file; null where that can't be known at the moment. */
export async function namesFrom(address) {
  try {
    const response = await fetch(address, { cache: 'no-cache', signal: AbortSignal.timeout(LONGEST_WAIT) });
    if (response.status === 204 || response.status === 404) return new Names();
    return response.ok ? new Names(await response.json()) : null;
  } catch {
    return null;
  }
}

/** The colours that a file has, where they are some; letters that can't be read on their ground are black or white. */
function coloursOf({ ground, letters }) {
  if (!isColour(ground)) return { ground: null, letters: null };
  if (isColour(letters) && contrast(ground, letters) >= LEAST_CONTRAST) return { ground, letters };
  return { ground, letters: contrast(ground, '#000000') >= contrast(ground, '#ffffff') ? '#000000' : '#ffffff' };
}

function isColour(value) {
  return typeof value === 'string' && /^#[0-9A-Fa-f]{6}$/.test(value);
}

function contrast(one, other) {
  const [dark, light] = [luminance(one), luminance(other)].sort((a, b) => a - b);
  return (light + 0.05) / (dark + 0.05);
}

/** The relative luminance of a colour as WCAG 2 defines it. */
function luminance(colour) {
  const [red, green, blue] = [1, 3, 5].map((at) => Number.parseInt(colour.slice(at, at + 2), 16) / 255)
    .map((part) => (part <= 0.04045 ? part / 12.92 : ((part + 0.055) / 1.055) ** 2.4));
  return 0.2126 * red + 0.7152 * green + 0.0722 * blue;
}
