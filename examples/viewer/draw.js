/**
 * Draws a picture that was laid out, and what is opened of it. Texts of files become texts of the page, and nothing
 * else.
 *
 * @typedef {import('./run.js').Run} Run
 * @typedef {import('./run.js').Step} Step
 * @typedef {import('./layout.js').Picture} Picture
 */
import { clipped, itemWords, spread } from './read.js';
import {
  FATES, STATES, dayWords, eventWords, momentWords, packetSentence, stepSentences, viewSentence,
} from './words.js';

const SVG = 'http://www.w3.org/2000/svg';
const COLOURS = 6;
const MOST_FAULTS = 500;

/** An element with attributes, its text or its children. */
function element(name, attributes = {}, ...content) {
  return filled(document.createElement(name), attributes, content);
}

function shape(name, attributes = {}, ...content) {
  return filled(document.createElementNS(SVG, name), attributes, content);
}

function filled(node, attributes, content) {
  for (const [name, value] of Object.entries(attributes)) if (value !== null) node.setAttribute(name, value);
  node.append(...content);
  return node;
}

/** Places an element, in pixels. */
function placed(node, sides) {
  for (const [side, pixels] of Object.entries(sides)) node.style[side] = `${pixels}px`;
  return node;
}

/**
 * @param {HTMLElement} chart
 * @param {Picture} picture
 * @param {Run} run
 */
export function drawChart(chart, picture, run) {
  const sheet = placed(element('div', { class: 'sheet' }), { width: picture.width, height: picture.height });
  sheet.append(drawing(picture), ...bandsOf(picture, run));
  chart.replaceChildren(heads(picture), sheet);
}

function heads({ day, ends, width }) {
  const names = ends.map(({ name, x }) => placed(element('span', {}, name), { left: x }));
  const corner = element('span', { class: 'gutter' }, `${day} UTC`);
  return placed(element('div', { class: 'heads', 'aria-hidden': 'true' }, corner, ...names), { width });
}

/** All that is no text: the lines of the ends, the clock, the arrows. */
function drawing(picture) {
  const svg = sheetOf(0, picture.width, picture.height);
  const { gutter, past, clocks, breaks } = picture;
  svg.append(...clocks.map((y) => across('clock', gutter, past, y)), ...breaks.flatMap((one) => breakLines(one, past)));
  for (const { x, pieces } of picture.ends) {
    svg.append(...pieces.map(({ from, to }) => shape('line', { class: 'end', x1: x, x2: x, y1: from, y2: to })));
  }
  svg.append(...packetShapes(picture.arrows), ...picture.dots.map(dot));
  return svg;
}

function sheetOf(y, width, height) {
  return shape('svg', { width, height, viewBox: `0 ${y} ${width} ${height}`, 'aria-hidden': 'true' });
}

function dot({ step, x, y }) {
  return shape('circle', { class: 'dot', cx: x, cy: y, r: 4, 'data-step': step });
}

function across(name, from, to, y) {
  return shape('line', { class: name, x1: from, x2: to, y1: y, y2: y });
}

/** Two strokes through the line of an end that begins anew; at a start of the producer with a line across. */
function breakLines({ x, y, isAcross }, past) {
  const slash = (top) => shape('line', { class: 'break slash', x1: x - 7, x2: x + 7, y1: top + 3, y2: top - 3 });
  return [...(isAcross ? [across('break', 0, past, y)] : []), slash(y - 3), slash(y + 3)];
}

/** A group for each packet, with an arrow for each time that it is delivered. */
function packetShapes(arrows) {
  const groups = new Map();
  for (const { packet, line, head, colour, shade } of arrows) {
    if (!groups.has(packet)) {
      const look = `packet ${wayClass(packet.fate, colour, shade)}`;
      groups.set(packet, shape('g', { class: look, 'data-fate': packet.fate, ...namesOf(packet) }));
    }
    groups.get(packet).append(shape('path', { class: 'line', d: line }), shape('path', { class: 'head', d: head }));
  }
  return [...groups.values()];
}

function namesOf({ number, sentAt }) {
  return { 'data-packet': number, 'data-step': sentAt };
}

function wayClass(fate, colour, shade) {
  return `way ${fate}${colour < 0 ? '' : ` round-${colour % COLOURS} shade-${shade}`}`;
}

/** The texts and buttons, a band of some lines at a time: a browser lays out the bands that are seen, and no others. */
function bandsOf(picture, run) {
  const { bands: tops, width, height, slot } = picture;
  const bands = tops.map((top, index) => {
    const size = { width, height: (tops[index + 1] ?? height) - top };
    const node = placed(element('div', { class: 'band' }), { top, ...size });
    return { top, node, texts: sheetOf(top, width, size.height) };
  });
  const bandAt = (y) => bands[tops.findLastIndex((top) => top <= y)];
  const put = (y, nodeIn) => {
    const { node, top } = bandAt(y);
    node.append(nodeIn(top));
  };
  for (const remark of picture.remarks) put(remark.y, (top) => remarkOf(remark, top));
  for (const row of picture.rows) put(row.y, (top) => rowButton(row, top, picture, run));
  for (const view of picture.views) put(view.y, (top) => viewButton(view, top, slot, run));
  for (const note of picture.notes) bandAt(note.y).texts.append(noteOf(note));
  for (const { packet, label } of picture.arrows) {
    if (label !== null) bandAt(label.y).texts.append(labelOf(label, packet));
  }
  for (const { node, texts } of bands) node.append(texts);
  return bands.map(({ node }) => node);
}

function noteOf({ step, text, ...place }) {
  return shape('text', { class: 'note', ...textAt(place), dy: '0.35em', 'data-step': step }, text);
}

function labelOf({ text, ...place }, packet) {
  return shape('text', { class: 'label', ...textAt(place), ...namesOf(packet) }, text);
}

function textAt({ x, y, anchor }) {
  return { x: x.toFixed(1), y: y.toFixed(1), 'text-anchor': anchor };
}

function remarkOf({ x, y, width, height, text, isFault }, top) {
  const name = isFault ? 'remark is-fault' : 'remark';
  const node = element('p', { class: name, dir: 'auto' }, element('span', {}, text));
  return placed(node, { left: x, top: y - top, width, height });
}

/** A line of the script: the first alone is reached by Tab, and the arrow keys go on from there. */
function rowButton({ step: index, y, height, text, isMissing }, top, { gutter, digits, slot, rows }, run) {
  const step = run.steps[index];
  const said = [`line ${step.event.line} ${text || step.event.text}`, ...stepSentences(step, run)].join('; ');
  const tabindex = index === rows[0].step ? 0 : -1;
  const button = stepButton(index, said, { class: isMissing ? 'row is-missing' : 'row', tabindex });
  button.append(element('span', { class: 'number' }, `${String(step.event.line).padStart(digits, '\u2007')}  `), text);
  return placed(button, { top: y - top, height, width: gutter - 4, lineHeight: slot });
}

/** A view's button is for the hand: by keys, the line of its event opens it. */
function viewButton({ step, x, y, width, text, state }, top, slot, run) {
  const said = `${text}; ${viewSentence(run.steps[step].told)}`;
  const button = stepButton(step, said, { class: `view ${state}`, tabindex: -1 });
  button.append(text);
  return placed(button, { left: x, top: y - top + 2, width, height: slot - 4 });
}

function stepButton(step, said, attributes) {
  return element('button', { type: 'button', 'data-step': step, 'aria-label': said, ...attributes });
}

/**
 * @param {HTMLElement} list
 * @param {Run} run
 */
export function drawLegend(list, run) {
  const fates = Object.entries(FATES).map(([fate, meaning]) => [sample(fate), `${run.counts[fate]} ${meaning}`]);
  const colour = run.rounds > 0 ? [['A colour is a round, its shade a part; grey is of no round.']] : [];
  list.replaceChildren(...[...fates, ...colour].map((content) => element('li', {}, ...content)));
}

function sample(fate) {
  const paths = fate === 'never' ? ['M0 6H32', 'M28 2L36 10M28 10L36 2'] : ['M0 6H40', 'M48 6L38 2V10Z'];
  const [line, head] = paths.map((d, index) => shape('path', { class: index === 0 ? 'line' : 'head', d }));
  const group = shape('g', { class: `way ${fate}` }, line, head);
  return shape('svg', { viewBox: '0 0 48 12', 'aria-hidden': 'true' }, group);
}

/**
 * @param {HTMLTableSectionElement} body
 * @param {Run} run
 */
export function drawTable(body, run) {
  body.replaceChildren(...run.steps.map((step) => {
    const moment = [dayWords(step.moment), ' ', momentWords(step.moment, false)];
    const cells = [
      element('td', {}, String(step.event.line)),
      element('td', {}, ...moment.map((text) => element('span', {}, text))),
      element('td', { dir: 'auto' }, shortened(step)),
      element('td', {}, sentences(stepSentences(step, run))),
    ];
    return element('tr', {}, ...cells);
  }));
}

function sentences(texts) {
  return element('ul', {}, ...texts.map((text) => element('li', {}, text)));
}

/** A line of a script without its document, which is shown where the line is opened. */
function shortened(step) {
  return step.event.document === undefined ? clipped(step.event.text, 200) : eventWords(step);
}

/**
 * @param {HTMLElement} list
 * @param {import('./read.js').Fault[]} faults
 */
export function drawFaults(list, faults) {
  const shown = faults.slice(0, MOST_FAULTS).map(({ file, line, text }) => {
    const place = line > 0 ? `line ${line} of the ${file}` : `the ${file}`;
    return `${place}: ${text}`;
  });
  const others = faults.length > MOST_FAULTS ? [`and ${faults.length - MOST_FAULTS} more`] : [];
  list.replaceChildren(...[...shown, ...others].map((text) => element('li', {}, text)));
}

/**
 * Shows an event whole: its line, what it brought, the packets that it sends, and the items of a view.
 * @param {HTMLElement} place
 * @param {Step} step
 * @param {Run} run
 */
export function drawOpened(place, step, run) {
  const { event, told, packet } = step;
  const moment = `The producer's moment: ${momentWords(step.moment, true) || 'none yet'}`;
  const nodes = [element('p', {}, moment), sentences(stepSentences(step, run))];
  if (told?.word === 'view') nodes.push(...viewNodes(step));
  if (told?.word === 'answer') nodes.push(element('h3', {}, 'The answer'), documentOf(told.document));
  for (const one of packet === null ? step.sent : [packet, ...step.sent]) {
    nodes.push(element('h3', { 'data-packet': one.number }, packetSentence(one, run)), documentOf(one.document));
  }
  if (event.document !== undefined) nodes.push(element('h3', {}, 'The line\'s document'), documentOf(event.document));
  if (event.document === undefined) nodes.push(element('h3', {}, 'The line'), documentOf(event.text));
  place.replaceChildren(...nodes);
}

function viewNodes({ told, items }) {
  const list = items.map(({ document: text }) => {
    const summary = element('summary', { dir: 'auto' }, itemWords(text));
    return element('li', {}, element('details', {}, summary, documentOf(text)));
  });
  return [element('p', {}, `${told.view.state}: ${STATES[told.view.state]}`), element('ol', {}, ...list)];
}

function documentOf(text) {
  return element('pre', { dir: 'ltr' }, spread(text));
}
