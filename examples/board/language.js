/**
 * The language of the board, one for the page: its texts by their names. Nothing here knows a page.
 */
import english from './words.en.js';

/** Of each language there is a file, `words.LANGUAGE.js`. */
export const LANGUAGES = ['en', 'de', 'fr', 'no', 'es'];
/** Bokmål and Nynorsk are named by themselves by browsers. */
const ALSO = { nb: 'no', nn: 'no' };

let texts = english;
let spoken = 'en';

/**
 * Speaks the language that is told, where it is one of these, or else the first of those that somebody reads that is.
 * @param {string | null} told
 * @param {readonly string[]} read  as `navigator.languages`
 */
export async function speak(told, read) {
  const language = [told ?? '', ...read].map(languageOf).find((one) => LANGUAGES.includes(one)) ?? 'en';
  try {
    texts = (await import(`./words.${language}.js`)).default;
    spoken = language;
  } catch {
    // English is there.
  }
}

/** Whether a tag, as `de-AT`, is of the language that is spoken. */
export function isSpoken(tag) {
  return typeof tag === 'string' && languageOf(tag) === spoken;
}

function languageOf(tag) {
  const [language] = tag.toLowerCase().split('-');
  return Object.hasOwn(ALSO, language) ? ALSO[language] : language;
}

/** As Intl takes it. */
export function locale() {
  return texts.locale;
}

/** The text of this name, with what is told in its places. */
export function text(name, told = {}) {
  return (texts[name] ?? english[name]).replace(/\{(\w+)\}/g, (_, place) => String(told[place]));
}
