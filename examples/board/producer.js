/**
 * Questions to the producer, and its clock. Nothing here knows a page.
 *
 * @typedef {object} Told  what comes of a question: one of these
 * @property {any} [answer]
 * @property {string} [refusal]    why it is refused, in words
 * @property {string} [unreached]  why there is no answer, in words
 */
import { text } from './language.js';
import { answerOf, startOf } from './read.js';

const LONGEST_WAIT = 10000;
/** How much of a refusal is read. */
const LONGEST_REFUSAL = 500;

export class Producer {
  /** What the server's clock showed at a moment of this page's own. */
  #server = { moment: Date.now(), at: performance.now() };
  /** A server without this question is asked it once. */
  #tellsStart = true;

  /** The moment at the server, whatever this machine's own clock says. */
  now() {
    return this.#server.moment + performance.now() - this.#server.at;
  }

  /** The visits of a stop. @returns {Promise<Told>} */
  async visits(stop, preview) {
    return itemsIn(await this.#ask('stop-monitoring', { MonitoringRef: stop, PreviewInterval: preview }), 'StopMonitoringDelivery');
  }

  /** @returns {Promise<Told>} */
  async situations(preview) {
    return itemsIn(await this.#ask('situation-exchange', { PreviewInterval: preview }), 'SituationExchangeDelivery');
  }

  /** When the producer of a stop began to run and how long it has, in milliseconds; null where that isn't told. */
  async start(stop) {
    if (!this.#tellsStart) return null;
    const told = await this.#ask('check-status', { MonitoringRef: stop });
    if (told.refusal) this.#tellsStart = false;
    return told.answer ? startOf(told.answer) : null;
  }

  /** @returns {Promise<Told>} with the document as its answer */
  async #ask(path, members) {
    try {
      const response = await fetch(addressOf(path, members), {
        cache: 'no-store', redirect: 'error', credentials: 'omit', signal: AbortSignal.timeout(LONGEST_WAIT),
      });
      this.#setServer(response);
      const told = await response.text();
      if (response.status >= 400 && response.status < 500 && response.status !== 408 && response.status !== 429) {
        return { refusal: refusalIn(response, told) };
      }
      if (!response.ok) return { unreached: text('serverSays', { status: response.status }) };
      return documentIn(told);
    } catch (error) {
      return { unreached: text(error.name === 'TimeoutError' ? 'notInTime' : 'noConnection') };
    }
  }

  #setServer(response) {
    const moment = Date.parse(response.headers.get('Date') ?? '');
    this.#server = { moment: Number.isNaN(moment) ? Date.now() : moment, at: performance.now() };
  }
}

function documentIn(told) {
  try {
    return { answer: JSON.parse(told) };
  } catch {
    return { unreached: text('noAnswer') };
  }
}

function itemsIn(told, delivery) {
  if (told.answer === undefined) return told;
  const answer = answerOf(told.answer, delivery);
  if (answer === null) return { unreached: text('noAnswer') };
  return answer.refusal === null ? { answer } : { refusal: answer.refusal };
}

/** The words of a refusal where it is plain text, as a producer's are, or else its status. */
function refusalIn(response, told) {
  const isPlain = /^text\/plain\b/.test(response.headers.get('Content-Type') ?? '');
  const line = isPlain ? told.slice(0, LONGEST_REFUSAL).trim() : '';
  return line === '' ? text('serverSays', { status: response.status }) : line;
}

/** Beside this page's server; a colon stays, since it is usual in names. */
function addressOf(path, members) {
  const pairs = Object.entries(members).map(([name, value]) => `${name}=${encodeURIComponent(value).replaceAll('%3A', ':')}`);
  return new URL(`/siri-lite/${path}.json?${pairs.join('&')}`, location.origin);
}
