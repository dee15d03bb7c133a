/**
 * A board on a wall, which nobody scrolls: as many rows as the height has, and pages that turn where there are more. Pages
 * are swapped at once, nothing moves. The situations of all stops have one place, below each page.
 */
import { element, say } from './elements.js';
import { text } from './language.js';
import { groupsOf, pagesOf } from './pages.js';
import { SituationList } from './situations.js';

/** How much of the height situations may take. */
const MOST_OF_SITUATIONS = 0.35;

export class Wall {
  #place;
  #below;
  #list;
  #word;
  #button;
  #page = 0;
  #pages = 1;
  #group = 0;
  #groups = 1;
  #isHeld = false;

  /**
   * @param {Document} page
   * @param {number} turn  milliseconds that a page stays
   */
  constructor(page, turn) {
    page.documentElement.classList.add('is-wall');
    this.#place = page.querySelector('#stops');
    this.#below = element('section', { class: 'situations', 'aria-label': text('disturbances') });
    this.#place.after(this.#below);
    this.#list = new SituationList(this.#below, 'h2');
    this.#word = element('span');
    this.#button = element('button', { type: 'button', 'aria-pressed': 'false' }, text('hold'));
    page.querySelector('footer').prepend(element('p', { id: 'turning' }, this.#word, ' ', this.#button));
    this.#button.addEventListener('click', () => {
      this.#isHeld = !this.#isHeld;
      this.#button.setAttribute('aria-pressed', String(this.#isHeld));
    });
    // Whatever changes the room, as a sentence that tells what is wrong.
    new ResizeObserver(() => this.lay()).observe(this.#place);
    addEventListener('resize', () => this.lay());
    setInterval(() => this.#turn(), turn);
    this.lay();
  }

  /** @param {import('./read.js').Situation[]} situations */
  showSituations(situations) {
    this.#list.show(situations);
  }

  /** Lays all that is drawn out on pages, and shows the page whose turn it is. Whoever draws calls it before the picture is made. */
  lay() {
    this.#layBelow();
    const sections = [...this.#place.children];
    const rows = sections.map((section) => [...section.querySelectorAll('tbody tr')]);
    for (const node of [...sections, ...rows.flat()]) node.hidden = false;
    const heights = sections.map((section, stop) => {
      const each = rows[stop].map(heightOf);
      return { head: outerHeightOf(section) - each.reduce((all, one) => all + one, 0), rows: each };
    });
    const pages = pagesOf(heights, this.#place.clientHeight);
    this.#pages = pages.length;
    this.#page = this.#page < pages.length ? this.#page : 0;
    const parts = new Map(pages[this.#page].map((part) => [part.stop, part]));
    sections.forEach((section, stop) => {
      const part = parts.get(stop);
      section.hidden = part === undefined;
      rows[stop].forEach((row, place) => {
        row.hidden = part === undefined || place < part.from || place >= part.to;
      });
    });
    this.#tellPage();
  }

  /** Of situations that don't fit together some are shown at each turn, in a room that stays as high. */
  #layBelow() {
    const items = [...this.#below.querySelectorAll('li')];
    for (const item of items) item.hidden = false;
    const groups = groupsOf(items.map(outerHeightOf), innerHeight * MOST_OF_SITUATIONS);
    const highest = Math.max(0, ...groups.map((group) => group.reduce((all, place) => all + outerHeightOf(items[place]), 0)));
    this.#below.style.setProperty('height', `${Math.ceil(Math.min(highest, innerHeight * MOST_OF_SITUATIONS))}px`);
    this.#groups = Math.max(1, groups.length);
    this.#group = this.#group < this.#groups ? this.#group : 0;
    items.forEach((item, place) => {
      item.hidden = !groups[this.#group].includes(place);
    });
  }

  #turn() {
    if (this.#isHeld) return;
    this.#page = (this.#page + 1) % this.#pages;
    this.#group = (this.#group + 1) % this.#groups;
    this.lay();
  }

  #tellPage() {
    this.#word.parentElement.hidden = this.#pages === 1 && this.#groups === 1;
    say(this.#word, this.#pages === 1 ? '' : text('page', { page: this.#page + 1, pages: this.#pages }));
  }
}

function heightOf(node) {
  return node.getBoundingClientRect().height;
}

function outerHeightOf(node) {
  const { marginTop, marginBottom } = getComputedStyle(node);
  return heightOf(node) + Number.parseFloat(marginTop) + Number.parseFloat(marginBottom);
}
