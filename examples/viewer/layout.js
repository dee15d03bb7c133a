/**
 * Where everything of a chart stands, in pixels from its left and top. Nothing here knows a page: how wide a text is,
 * is handed in.
 *
 * @typedef {import('./run.js').Run} Run
 * @typedef {import('./run.js').Step} Step
 * @typedef {import('./run.js').Packet} Packet
 *
 * @typedef {object} Measures
 * @property {number} width      of the place that the chart has
 * @property {number} size       of its letters
 * @property {(text: string) => number} measure  how wide a text is
 *
 * @typedef {object} Arrow       one delivery of a packet, or that it is never delivered
 * @property {Packet} packet
 * @property {string} line       the path of its line
 * @property {string} head       that of its head, or of the cross at which it ends
 * @property {number} colour     -1 where the packet is about no round
 * @property {number} shade      by the part of the round
 * @property {{x: number, y: number, anchor: string, text: string} | null} label  at the first arrow of a packet
 *
 * @typedef {object} Picture
 * @property {number} width
 * @property {number} height
 * @property {number} gutter     how wide the column of the script's lines is
 * @property {number} digits     how many their greatest number has
 * @property {number} slot       how high a line is
 * @property {number} past       where the margin begins
 * @property {string} day        on which it begins
 * @property {number[]} bands    where bands of some lines begin, over whose edges no text goes
 * @property {{name: string, x: number, pieces: {from: number, to: number}[]}[]} ends
 * @property {{step: number, y: number, height: number, text: string, isMissing: boolean}[]} rows
 * @property {{x: number, y: number, width: number, height: number, text: string, isFault: boolean}[]} remarks
 * @property {number[]} clocks   where lines go across
 * @property {{x: number, y: number, isAcross: boolean}[]} breaks  where an end's line is broken: that of the producer
 *   with a line across
 * @property {Arrow[]} arrows
 * @property {{step: number, x: number, y: number, anchor: string, text: string}[]} notes  what is told at an end's line
 * @property {{step: number, x: number, y: number}[]} dots
 * @property {{step: number, x: number, y: number, width: number, text: string, state: string}[]} views
 */
import { clipped } from './read.js';
import { arrowWords, dayWords, eventWords, toldWords, viewWords } from './words.js';

/** How many events are drawn at a time. */
export const MOST_STEPS = 4000;
const SHADES = 3;
/** How many lines a band has. */
const BAND = 50;
/** The margin for remarks, in sizes of letters: where there is less room, they stand between the events. */
const LEAST_MARGIN = 20;
const MOST_MARGIN = 34;
/** How much wider than wanted the room between two lines may be. */
const MOST_SPARE = 14;

/**
 * @param {Run} run
 * @param {Measures} measures
 * @param {number} first  the first event that is drawn
 * @returns {Picture}
 */
export function layOut(run, measures, first = 0) {
  const isNarrow = measures.width < 40 * measures.size;
  const steps = run.steps.slice(first, first + MOST_STEPS);
  const texts = textsOf(run, steps, isNarrow);
  const columns = columnsOf(run, steps, texts, isNarrow, measures);
  const stack = stackOf(run, steps, first, texts, measures, columns);
  const { size } = measures;
  const slot = slotOf(measures);
  const within = { first, past: first + steps.length, isNarrow, ...columns, ...stack, slot, size };
  return {
    width: stack.width,
    past: columns.width,
    day: firstDay(run),
    height: stack.height,
    gutter: columns.gutter,
    digits: String(steps.at(-1)?.event.line ?? 0).length,
    bands: stack.bands,
    slot,
    ends: run.ends.map((name, index) => ({ name, x: columns.xs[index], pieces: piecesOf(name, steps, within) })),
    rows: stack.rows,
    remarks: stack.remarks,
    clocks: steps.flatMap(({ event }, index) => (event.word === 'clock' ? [middle(stack.rows, index, slot)] : [])),
    breaks: steps.flatMap((step, index) => breakOf(step, index, within)),
    arrows: run.packets.flatMap((packet) => arrowsOf(packet, run, within)),
    notes: steps.flatMap((step, index) => noteOf(step, index, texts, within)),
    dots: steps.flatMap((step, index) => dotOf(step, index, within)),
    views: steps.flatMap((step, index) => viewOf(step, index, measures, within)),
  };
}

function slotOf({ size }) {
  return Math.round(1.8 * size);
}

/** The texts of each step: in the column of the script's lines, and at the end that it is told of. */
function textsOf(run, steps, isNarrow) {
  let day = firstDay(run);
  return steps.map((step) => {
    const today = step.event.moment === undefined ? day : dayWords(step.event.moment);
    const isNewDay = today !== day;
    day = today;
    const isShort = isNarrow && step.event.word === 'deliver' && step.told?.word === 'took';
    return { event: isShort ? '' : eventWords(step, isNewDay, !isNarrow), note: toldWords(step) };
  });
}

/** The day on which a run begins, in UTC. */
function firstDay(run) {
  return dayWords(run.steps.find((step) => step.moment !== null)?.moment);
}

/** The end that an event's text stands at. */
function endOfNote({ event, told }) {
  if (told?.word === 'took') return told.who;
  return event.consumer ?? (['feed', 'ask', 'start'].includes(event.word) ? 'producer' : null);
}

/**
 * How wide the column of the script's lines is, where the lines of the producer and of the consumers stand, and how
 * wide the margin is: each text has its room, and what the chart has beside that goes to the margin, where there are
 * remarks, and between the lines.
 */
function columnsOf(run, steps, texts, isNarrow, { width, size, measure }) {
  const places = new Map(run.ends.map((name, index) => [name, index]));
  const numbers = measure(`${steps.at(-1)?.event.line ?? 0}  `);
  let gutter = 8 * size;
  const gaps = run.ends.map((name) => measure(name) + 2 * size);
  steps.forEach((step, index) => {
    const { event, note } = texts[index];
    const isProducers = endOfNote(step) === 'producer';
    const beside = isProducers && note !== '' ? measure(note) + 1.2 * size : 0;
    gutter = Math.max(gutter, numbers + measure(event) + 1.5 * size + beside);
    for (const [gap, least] of roomsOf(step, note, run, places, isNarrow, { size, measure })) {
      gaps[gap] = Math.max(gaps[gap], least);
    }
  });
  const wanted = gutter + gaps.reduce((sum, gap) => sum + gap, 0);
  const hasMargin = hasRemarks(run, steps) && width - wanted >= LEAST_MARGIN * size;
  const margin = hasMargin ? Math.min(width - wanted, MOST_MARGIN * size) : 0;
  const spare = Math.max(0, Math.min((width - margin - wanted) / gaps.length, MOST_SPARE * size));
  const xs = gaps.map((_, index) => gutter + gaps.slice(0, index).reduce((sum, gap) => sum + gap + spare, 0));
  return { gutter, places, xs, margin, width: xs.at(-1) + gaps.at(-1) };
}

/**
 * What room a step's texts want, each behind the line of an end: the arrows' texts, what a consumer says, half of a
 * view on either side.
 */
function roomsOf(step, note, run, places, isNarrow, { size, measure }) {
  const rooms = step.sent.map((packet) => {
    const gap = packet.sender === 'producer' ? 0 : places.get(packet.sender) - 1;
    return [gap, measure(arrowWords(packet, run, isNarrow)) + 2.5 * size];
  });
  const at = places.get(endOfNote(step)) ?? 0;
  if (at > 0 && note !== '') rooms.push([at, measure(note) + 1.2 * size]);
  if (step.told?.word === 'view') {
    const half = measure(viewWords(step)) / 2;
    rooms.push([at, half + size], [at - 1, half + 2 * size]);
  }
  return rooms.filter(([gap]) => gap >= 0);
}

function hasRemarks(run, steps) {
  return run.remarks.length > 0 || steps.some((step) => step.event.remarks.length > 0 || step.apart.length > 0);
}

/**
 * What stands below what: each event has its row, with room for what it sends. The remarks before it, and lines of the
 * report that fit no event, stand in the margin beside it, or where there is none, above and below it.
 */
function stackOf(run, steps, first, texts, measures, { margin, width }) {
  const { size, measure } = measures;
  const slot = slotOf(measures);
  const whole = Math.max(Math.min(width, measures.width), 10 * size);
  const place = margin > 0 ? { x: width, width: margin } : { x: 0, width: whole };
  const rows = [];
  const remarks = [];
  const bands = [0];
  let y = slot / 2;
  let below = 0;
  const remark = (text, isFault) => {
    const [left, room] = [place.x + size, place.width - 2 * size];
    const height = Math.ceil((measure(text) * 1.1) / room) * Math.round(1.4 * size);
    const top = Math.max(y, below);
    remarks.push({ x: left, y: top, width: room, height, text, isFault });
    below = top + height + size / 3;
    if (margin === 0) y = below;
  };
  steps.forEach((step, index) => {
    if (step.event.remarks.length > 0) y = Math.max(y, below);
    if (index % BAND === BAND - 1 && below <= y) bands.push(y);
    for (const { text } of step.event.remarks) remark(text, false);
    const sends = sendsBelow(step) ? step.sent.length : Math.max(0, step.sent.length - 1);
    const height = slot * (1 + sends);
    rows.push({ step: first + index, y, height, text: texts[index].event, isMissing: isMissing(step) });
    if (margin === 0) y += height;
    for (const { line, text } of step.apart) remark(`line ${line} of the report: ${clipped(text, 300)}`, true);
    if (margin > 0) y += height;
  });
  if (first + steps.length === run.steps.length) for (const { text } of run.remarks) remark(text, false);
  return { rows, remarks, bands, width: width + margin, height: Math.max(y, below) + slot / 2 };
}

/** Whether what a step sends begins below its first slot, which the arrow of a delivery or a text takes. */
function sendsBelow({ event }) {
  return event.word === 'deliver' || event.word === 'feed';
}

function isMissing({ event, told }) {
  return told === null && !['clock', 'restart'].includes(event.word);
}

/** The middle of a slot of a step's row. */
function middle(rows, index, slot, which = 0) {
  return rows[index].y + slot * (which + 0.5);
}

/** The end that begins anew at a step: the producer at a start, a consumer that restarts. */
function endThatBegins({ event, told }) {
  if (told?.word === 'started') return 'producer';
  return event.word === 'restart' && (told === null || told.word === 'packet') ? event.consumer ?? null : null;
}

/** An end's line, which is broken where the end begins anew. */
function piecesOf(name, steps, { rows, slot, height, first }) {
  const anew = steps.flatMap((step, index) => (endThatBegins(step) === name ? [middle(rows, index, slot)] : []));
  const begins = name === 'producer' && first === 0 ? anew : [0, ...anew];
  return begins.map((from, index) => {
    const next = begins[index + 1];
    return { from, to: next === undefined ? height : next - slot * 0.7 };
  });
}

function breakOf(step, index, { rows, slot, first, xs, places }) {
  const end = endThatBegins(step);
  const isFirst = end === 'producer' && (first + index === 0 || step.told.says === '1');
  if (end === null || isFirst) return [];
  return [{ x: xs[places.get(end)], y: middle(rows, index, slot) - slot * 0.35, isAcross: end === 'producer' }];
}

function noteOf(step, index, texts, { rows, slot, places, xs, size, first }) {
  const end = endOfNote(step);
  const { note } = texts[index];
  if (note === '' || end === null) return [];
  const isLeft = end === 'producer';
  const x = xs[places.get(end)] + (isLeft ? -0.7 : 0.7) * size;
  return [{ step: first + index, x, y: middle(rows, index, slot), anchor: isLeft ? 'end' : 'start', text: note }];
}

function dotOf(step, index, { rows, slot, places, xs, first }) {
  const { word, consumer } = step.event;
  const end = ['feed', 'ask', 'start'].includes(word) ? 'producer' : consumer;
  if (step.told === null || word === 'view' || end === undefined) return [];
  return [{ step: first + index, x: xs[places.get(end)], y: middle(rows, index, slot) }];
}

function viewOf(step, index, { size, measure }, { rows, slot, places, xs, first }) {
  if (step.told?.word !== 'view') return [];
  const text = viewWords(step);
  const width = measure(text) + 1.5 * size;
  const x = xs[places.get(step.told.who)] - width / 2;
  return [{ step: first + index, x, y: rows[index].y, width, text, state: step.told.view.state }];
}

/** The arrows of a packet, one for each time that it is delivered; where it isn't, one that ends on its way. */
function arrowsOf(packet, run, within) {
  const { first, past, slot, xs, places, size } = within;
  const from = { x: xs[places.get(packet.sender)], y: heightAt(packet.sentAt, slotOfSend(packet, run), within) };
  const target = xs[places.get(packet.receiver)];
  const look = { packet, colour: packet.colour ?? -1, shade: shadeOf(packet) };
  const isSentHere = packet.sentAt >= first && packet.sentAt < past;
  const label = isSentHere ? labelOf(packet, run, from, target > from.x ? 1 : -1, within) : null;
  if (packet.deliveries.length === 0) {
    return isSentHere ? [{ ...look, label, ...lostPath(from, from.x + (target - from.x) * 0.62, slot, size) }] : [];
  }
  const seen = packet.deliveries.filter(({ step }) => packet.sentAt < past && step >= first);
  return seen.map(({ step }, index) => {
    const to = { x: target, y: heightAt(step, 0, within) };
    return { ...look, label: index === 0 ? label : null, ...arrowPath(from, to, size) };
  });
}

/** How far down a slot of a step is; what stands before the events that are drawn, or after them, is at the edge. */
function heightAt(step, which, { first, past, rows, slot, height }) {
  if (step < first) return 0;
  return step >= past ? height : middle(rows, step - first, slot, which);
}

function labelOf(packet, run, from, side, { size, isNarrow }) {
  const [x, y] = [from.x + side * 0.7 * size, from.y - 0.35 * size];
  return { x, y, anchor: side > 0 ? 'start' : 'end', text: arrowWords(packet, run, isNarrow) };
}

/** The slot of its step's row at which a packet begins. */
function slotOfSend(packet, run) {
  const step = run.steps[packet.sentAt];
  return step.sent.indexOf(packet) + (sendsBelow(step) ? 1 : 0);
}

function shadeOf({ message }) {
  return message.place === null ? 0 : (Number(message.place.part) + SHADES - 1) % SHADES;
}

function lostPath(from, x, slot, size) {
  const y = from.y + slot * 0.15;
  const arm = size * 0.32;
  const cross = `M${at(x - arm, y - arm)}L${at(x + arm, y + arm)}M${at(x - arm, y + arm)}L${at(x + arm, y - arm)}`;
  return { line: `M${at(from.x, from.y)}L${at(x, y)}`, head: cross };
}

function arrowPath(from, to, size) {
  const angle = Math.atan2(to.y - from.y, to.x - from.x);
  const back = (length, turn) => {
    const [x, y] = [Math.cos(angle + turn), Math.sin(angle + turn)];
    return at(to.x - size * length * x, to.y - size * length * y);
  };
  const head = `M${at(to.x, to.y)}L${back(0.75, 0.4)}L${back(0.75, -0.4)}Z`;
  return { line: `M${at(from.x, from.y)}L${back(0.4, 0)}`, head };
}

function at(x, y) {
  return `${x.toFixed(1)} ${y.toFixed(1)}`;
}
