/**
 * The chart of one run at a time: has it read, laid out and drawn, and opens what is clicked on or chosen by the keys.
 */
import { readReport, readScript } from './read.js';
import { runOf } from './run.js';
import { MOST_STEPS, layOut } from './layout.js';
import { drawChart, drawFaults, drawLegend, drawOpened, drawTable } from './draw.js';
import { eventWords, runSentence } from './words.js';

export class Chart {
  #parts;
  /** @type {import('./run.js').Run | null} */
  #run = null;
  /** The first event that is drawn. */
  #first = 0;
  /** The width for which it is drawn, in pixels. */
  #width = 0;

  /** @param {ReturnType<import('./main.js').partsOf>} parts */
  constructor(parts) {
    this.#parts = parts;
    parts.earlier.addEventListener('click', () => this.#turn(-1));
    parts.later.addEventListener('click', () => this.#turn(1));
    parts.close.addEventListener('click', () => this.#close());
    parts.table.addEventListener('toggle', () => this.#fillTable());
    parts.body.addEventListener('keydown', ({ key }) => {
      if (key === 'Escape') this.#close();
    });
    parts.chart.addEventListener('keydown', goByKeys);
    parts.chart.addEventListener('click', ({ target }) => {
      const found = target.closest('[data-step]');
      if (found !== null) this.#open(Number(found.dataset.step), found.dataset.packet);
    });
    new ResizeObserver(() => this.#fit()).observe(parts.chart);
  }

  /**
   * @param {string} script
   * @param {string} report
   */
  show(script, report) {
    const begin = performance.now();
    const { faults, faultList, drawn, state, legend, tableBody } = this.#parts;
    this.hide();
    this.#run = runOf(readScript(script), readReport(report));
    this.#first = 0;
    drawFaults(faultList, this.#run.faults);
    faults.hidden = this.#run.faults.length === 0;
    drawn.hidden = this.#run.steps.length === 0;
    state.textContent = `${runSentence(this.#run)}.${faults.hidden ? '' : ' Not all could be read.'}`;
    drawLegend(legend, this.#run);
    this.#draw();
    tableBody.replaceChildren();
    this.#fillTable();
    performance.measure('drawn', { start: begin });
  }

  hide() {
    const { chart, drawn, faults } = this.#parts;
    this.#close();
    this.#run = null;
    chart.replaceChildren();
    drawn.hidden = true;
    faults.hidden = true;
  }

  /** Draws anew; which line is open and which has the focus stays. */
  #draw() {
    const { chart, pages, pagesText, earlier, later } = this.#parts;
    const count = this.#run.steps.length;
    const current = chart.querySelector('.row[aria-current]')?.dataset.step;
    const focused = chart.contains(document.activeElement) ? document.activeElement.dataset.step : undefined;
    this.#width = chart.clientWidth;
    drawChart(chart, layOut(this.#run, measuresOf(chart), this.#first), this.#run);
    if (current !== undefined) setCurrent(chart, current);
    if (focused !== undefined) rowAt(chart, focused)?.focus({ preventScroll: true });
    const past = Math.min(this.#first + MOST_STEPS, count);
    pages.hidden = count <= MOST_STEPS;
    pagesText.textContent = `events ${this.#first + 1} to ${past} of ${count}`;
    earlier.disabled = this.#first === 0;
    later.disabled = past === count;
  }

  #fit() {
    const { clientWidth } = this.#parts.chart;
    if (this.#run !== null && clientWidth > 0 && clientWidth !== this.#width) this.#draw();
  }

  /** The table of a run is made when it is opened. */
  #fillTable() {
    const { table, tableBody } = this.#parts;
    if (table.open && this.#run !== null && tableBody.childElementCount === 0) drawTable(tableBody, this.#run);
  }

  #turn(by) {
    this.#first = Math.max(0, this.#first + by * MOST_STEPS);
    this.#draw();
  }

  /** Opens an event; a packet of it is scrolled to. */
  #open(index, packet) {
    const { body, chart, opened, openedHeading, openedPlace } = this.#parts;
    const step = this.#run.steps[index];
    openedHeading.textContent = `Line ${step.event.line}: ${eventWords(step)}`;
    drawOpened(openedPlace, step, this.#run);
    opened.hidden = false;
    body.classList.add('is-open');
    setCurrent(chart, index);
    openedHeading.focus({ preventScroll: true });
    const headings = [...openedPlace.querySelectorAll('h3[data-packet]')];
    const heading = headings.find((node) => node.dataset.packet === packet) ?? openedHeading;
    heading.scrollIntoView({ block: 'nearest' });
  }

  #close() {
    const { body, chart, opened } = this.#parts;
    if (opened.hidden) return;
    opened.hidden = true;
    body.classList.remove('is-open');
    chart.querySelector('.row[aria-current]')?.focus();
  }
}

/** The size of the chart's letters, and how wide a text of them is: each digit is taken to be as wide as 0. */
function measuresOf(chart) {
  const { fontSize, fontFamily } = getComputedStyle(chart);
  const context = document.createElement('canvas').getContext('2d');
  context.font = `${fontSize} ${fontFamily}`;
  const widths = new Map();
  const measure = (text) => {
    const form = text.replace(/\d/g, '0');
    if (!widths.has(form)) widths.set(form, context.measureText(form).width);
    return widths.get(form);
  };
  return { width: chart.clientWidth, size: parseFloat(fontSize), measure };
}

/** Marks the line that is open, and has Tab reach it alone. */
function setCurrent(chart, index) {
  chart.querySelector('.row[aria-current]')?.removeAttribute('aria-current');
  const row = rowAt(chart, index);
  row?.setAttribute('aria-current', 'true');
  reach(chart, row);
}

function rowAt(chart, index) {
  return chart.querySelector(`.row[data-step="${index}"]`);
}

function reach(chart, row) {
  if (row === null) return;
  for (const other of chart.querySelectorAll('.row[tabindex="0"]')) other.tabIndex = -1;
  row.tabIndex = 0;
}

/** Up and down, Home and End, from one line of the script to another. */
function goByKeys(event) {
  const { currentTarget: chart, target, key } = event;
  if (!target.matches('.row')) return;
  const at = Number(target.dataset.step);
  const rows = () => [...chart.querySelectorAll('.row')];
  const goals = {
    ArrowDown: () => rowAt(chart, at + 1),
    ArrowUp: () => rowAt(chart, at - 1),
    Home: () => rows().at(0),
    End: () => rows().at(-1),
  };
  const row = goals[key]?.() ?? null;
  if (row === null) return;
  event.preventDefault();
  reach(chart, row);
  row.focus();
}
