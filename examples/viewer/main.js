/**
 * Begins the page: a chart, and the files that it is drawn of.
 */
import { Chart } from './chart.js';
import { Files } from './files.js';

/** The parts of the page that change. */
export function partsOf(page) {
  const part = (selector) => page.querySelector(selector);
  return {
    body: page.body,
    inputs: { script: part('#script'), report: part('#report') },
    state: part('#state'),
    faults: part('#faults'),
    faultList: part('#faults ul'),
    drawn: part('#drawn'),
    legend: part('#legend'),
    pages: part('#pages'),
    pagesText: part('#pages span'),
    earlier: part('#earlier'),
    later: part('#later'),
    chart: part('#chart'),
    table: part('#table'),
    tableBody: part('#table tbody'),
    opened: part('#opened'),
    openedHeading: part('#opened-heading'),
    openedPlace: part('#opened div'),
    close: part('#close'),
  };
}

function start(page) {
  const parts = partsOf(page);
  parts.state.textContent = '';
  new Files(parts, new Chart(parts)).fetchFrom(new URL(page.location.href));
}

start(document);
