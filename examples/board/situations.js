/**
 * Draws situations, and draws them anew only where they are others.
 *
 * @typedef {import('./read.js').Situation} Situation
 */
import { element } from './elements.js';
import { text } from './language.js';

export class SituationList {
  #place;
  #heading;
  #shown = '[]';

  /**
   * @param {HTMLElement} place
   * @param {string} heading  the name of its heading's element
   */
  constructor(place, heading) {
    this.#place = place;
    this.#heading = heading;
  }

  /** @param {Situation[]} situations */
  show(situations) {
    const shown = JSON.stringify(situations.map(({ key, summary, description, severity }) => [key, summary, description, severity]));
    if (this.#shown === shown) return;
    this.#shown = shown;
    const items = situations.map(({ summary, description, severity }) => {
      const item = element('li', { dir: 'auto', 'data-severity': severity });
      if (summary !== '') item.append(element('strong', {}, summary));
      if (description !== '') item.append(summary === '' ? '' : ' ', description);
      return item;
    });
    this.#place.replaceChildren(...(items.length === 0 ? [] : [element(this.#heading, {}, text('disturbances')), element('ul', {}, ...items)]));
  }
}
