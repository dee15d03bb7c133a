/**
 * Reads the lines of a script and of its report. Nothing here knows a page: text goes in, values and faults come out.
 * A line that can't be read is kept as it stands, with a fault that names it.
 *
 * @typedef {object} Fault
 * @property {'script' | 'report'} file
 * @property {number} line   from 1; 0 where the fault is of the file as a whole
 * @property {string} text
 *
 * @typedef {object} Remark  a line of the script that begins with #
 * @property {number} line
 * @property {string} text
 *
 * @typedef {object} ScriptEvent
 * @property {number} line
 * @property {string} word          the first word of the line
 * @property {string} text          the line as it stands
 * @property {Remark[]} remarks     those right before it
 * @property {string} [consumer]    of subscribe, terminate, restart, status and view
 * @property {string} [subscription]  of subscribe, terminate and view
 * @property {string} [packet]      the number of deliver
 * @property {number} [moment]      of start and clock, in milliseconds since 1970 in UTC
 * @property {string} [document]    of feed, ask and subscribe
 *
 * @typedef {object} ReportLine
 * @property {number} line
 * @property {string} word
 * @property {string} text          the line as it stands
 * @property {string} [who]         the receiver or consumer
 * @property {string} [says]        what the receiver says of a packet, or why something is refused
 * @property {string} [packet]      a packet's number
 * @property {string} [document]
 * @property {Message} [message]    of packet
 * @property {number[]} [counts]    of fed: observed, withdrawn, full
 * @property {string} [subscription]  of view and unknown
 * @property {{number: string, start: string, round: string, items: number, state: string}} [view]
 *
 * @typedef {object} Place          the part of a round of a subscription that a message is about
 * @property {string} subscription
 * @property {string} number
 * @property {string} start
 * @property {string} round
 * @property {string} part
 *
 * @typedef {object} Message        what a chart tells of a document
 * @property {string} kind          as ServiceDelivery
 * @property {string | null} sender  the consumer that it is from, where it says so
 * @property {Place | null} place
 * @property {string[]} subscriptions  those that it names
 * @property {boolean} more         whether another part follows
 * @property {boolean} all          whether it asks for all of a subscription again
 * @property {number} items         how many items and removals it carries
 * @property {number | null} moment
 */

/** How the line of each word is read: what stands behind the word. */
const SCRIPT_LINES = {
  start: /^(?<moment>\S+)$/,
  clock: /^(?<moment>\S+)$/,
  feed: /^(?<document>.+)$/,
  ask: /^(?<document>.+)$/,
  subscribe: /^(?<consumer>[\w-]{1,64}) (?<document>.+)$/,
  terminate: /^(?<consumer>[\w-]{1,64}) (?<subscription>.+)$/,
  restart: /^(?<consumer>[\w-]{1,64})$/,
  status: /^(?<consumer>[\w-]{1,64})$/,
  deliver: /^(?<packet>\d{1,18})$/,
  view: /^(?<consumer>[\w-]{1,64}) (?<subscription>.+)$/,
};

const SCRIPT_FORMS = {
  start: 'start MOMENT',
  clock: 'clock MOMENT',
  feed: 'feed DOC',
  ask: 'ask DOC',
  subscribe: 'subscribe CONSUMER WANTED',
  terminate: 'terminate CONSUMER ID',
  restart: 'restart CONSUMER',
  status: 'status CONSUMER',
  deliver: 'deliver N',
  view: 'view CONSUMER ID',
};

const VIEW_PLACE = String.raw`number (?<number>\d+) start (?<start>\d+) round (?<round>\d+)`;
const REPORT_LINES = {
  started: /^started (?<says>\d+)$/,
  fed: /^fed (?<counts>\d+ \d+ \d+)$/,
  answer: /^answer (?<document>.+)$/,
  refused: /^refused (?<who>\S+) (?<says>.+)$/,
  unknown: /^unknown (?<who>\S+)(?: (?<subscription>.+))?$/,
  took: /^took (?<who>\S+) (?<says>.+)$/,
  no: /^no packet (?<packet>\d+)$/,
  packet: /^packet (?<packet>\d+) to (?<who>\S+) (?<document>.+)$/,
  view: new RegExp(`^view (?<who>\\S+) (?<subscription>.*) ${VIEW_PLACE} items (?<items>\\d+) (?<state>quiet|moving)$`),
  item: /^item (?<document>.+)$/,
};

/** The lines of a text, without their ends. */
function linesOf(text) {
  const lines = text.split('\n');
  if (lines.at(-1) === '') lines.pop();
  return lines.map((line) => (line.endsWith('\r') ? line.slice(0, -1) : line));
}

/**
 * @param {string} text
 * @returns {{events: ScriptEvent[], remarks: Remark[], faults: Fault[]}} the remarks are those after the last event
 */
export function readScript(text) {
  const events = [];
  const faults = [];
  let remarks = [];
  linesOf(text).forEach((content, index) => {
    const line = index + 1;
    if (content === '') return;
    if (content.startsWith('#')) {
      remarks.push({ line, text: content.replace(/^#+\s*/, '') });
      return;
    }
    const { event, fault } = readEvent(content, line);
    if (fault !== null) faults.push({ file: 'script', line, text: fault });
    events.push({ ...event, remarks });
    remarks = [];
  });
  if (events.length === 0) faults.push({ file: 'script', line: 0, text: 'it has no event' });
  return { events, remarks, faults };
}

/** An event, and what is wrong with its line. */
function readEvent(text, line) {
  const space = text.indexOf(' ');
  const word = space < 0 ? text : text.slice(0, space);
  const event = { line, word, text };
  if (!Object.hasOwn(SCRIPT_LINES, word)) return { event, fault: `“${clipped(word, 40)}” is no word of a script` };
  const found = SCRIPT_LINES[word].exec(space < 0 ? '' : text.slice(space + 1));
  if (found === null) return { event, fault: `this isn't of the form “${SCRIPT_FORMS[word]}”` };
  Object.assign(event, found.groups);
  if (event.moment !== undefined) return withMoment(event);
  if (event.document !== undefined) return withDocument(event);
  return { event, fault: null };
}

function withMoment(event) {
  const moment = momentOf(event.moment);
  if (moment === null) {
    delete event.moment;
    return { event, fault: 'its moment isn\'t one, as 2024-05-01T08:00:00Z is' };
  }
  return { event: { ...event, moment }, fault: null };
}

function withDocument(event) {
  const read = parsed(event.document);
  if (!isObject(read)) return { event, fault: 'its document is no JSON object' };
  if (event.word === 'subscribe') event.subscription = wantedSubscription(read);
  return { event, fault: null };
}

/** The identifier of the subscription that a consumer wants. */
function wantedSubscription(wanted) {
  const name = Object.keys(wanted).find((key) => key.endsWith('SubscriptionRequest'));
  return textOf(firstOf(wanted[name])?.SubscriptionIdentifier) ?? undefined;
}

/**
 * @param {string} text
 * @returns {{lines: ReportLine[], faults: Fault[]}}
 */
export function readReport(text) {
  const faults = [];
  const lines = linesOf(text).map((content, index) => {
    const read = readReportLine(content, index + 1);
    if (read === null) {
      faults.push({ file: 'report', line: index + 1, text: 'this is no line of a report' });
      return { line: index + 1, word: '', text: content };
    }
    return read;
  });
  if (lines.length === 0) faults.push({ file: 'report', line: 0, text: 'it is empty' });
  return { lines, faults };
}

function readReportLine(text, line) {
  const word = text.slice(0, (text + ' ').indexOf(' '));
  const found = Object.hasOwn(REPORT_LINES, word) ? REPORT_LINES[word].exec(text) : null;
  if (found === null) return null;
  const { counts, number, start, round, items, state, ...rest } = found.groups;
  const read = { line, word, text, ...rest };
  if (counts !== undefined) read.counts = counts.split(' ').map(Number);
  if (word === 'packet') read.message = readMessage(read.document);
  if (state !== undefined) read.view = { number, start, round, items: Number(items), state };
  return read;
}

/**
 * What a chart tells of a document; of one that isn't JSON or no message, its kind alone is there, as ''.
 * @param {string} document
 * @returns {Message}
 */
export function readMessage(document) {
  const siri = parsed(document)?.Siri;
  const kind = isObject(siri) ? (Object.keys(siri)[0] ?? '') : '';
  const message = kind === '' ? {} : (firstOf(siri[kind]) ?? {});
  const deliveries = everyEntry(message, 'Delivery');
  const all = textOf(message.AllData) === 'true';
  const place = placeOfPart(message, deliveries) ?? (all ? null : placeOfMark(message.Extensions));
  return {
    kind,
    sender: textOf(message.RequestorRef ?? message.ConsumerRef),
    place,
    subscriptions: place === null ? namedSubscriptions(message) : [place.subscription],
    more: textOf(message.MoreData) === 'true',
    all,
    items: deliveries.reduce((sum, delivery) => sum + itemsIn(delivery), 0),
    moment: momentOf(textOf(message.ResponseTimestamp ?? message.RequestTimestamp)),
  };
}

/** The entries of all lists of a message whose names end so. */
function everyEntry(message, ending) {
  const lists = Object.keys(message).filter((name) => name.endsWith(ending));
  return lists.flatMap((name) => listOf(message[name]).filter(isObject));
}

function placeOfPart(message, deliveries) {
  const delivery = deliveries.find((one) => textOf(one.Extensions?.Round) !== null);
  if (delivery === undefined) return null;
  const { Start, Round, Part } = delivery.Extensions;
  return placeOf(delivery.SubscriptionRef, message.RequestMessageRef, Start, Round, Part);
}

function placeOfMark(mark) {
  if (!isObject(mark) || textOf(mark.Round) === null) return null;
  return placeOf(mark.SubscriptionRef, mark.Number, mark.Start, mark.Round, mark.Part);
}

function placeOf(...values) {
  const [subscription, number, start, round, part] = values.map((value) => textOf(value) ?? '');
  return { subscription, number, start, round, part };
}

/**
 * The subscriptions that a message without a place is about: it asks for them, or for all of one again, ends them, or
 * tells their status.
 */
function namedSubscriptions(message) {
  const asked = everyEntry(message, 'SubscriptionRequest').map((one) => one.SubscriptionIdentifier);
  const told = everyEntry(message, 'ResponseStatus').map((one) => one.SubscriptionRef);
  const again = listOf(firstOf(message.Extensions)?.SubscriptionRef);
  return [...asked, ...told, ...again, ...listOf(message.SubscriptionRef)].map(textOf).filter((name) => name !== null);
}

const ITEMS = [
  'MonitoredStopVisit', 'MonitoredStopVisitCancellation', 'VehicleActivity', 'VehicleActivityCancellation',
];

function itemsIn(delivery) {
  const journeys = listOf(delivery.EstimatedJourneyVersionFrame).map((frame) => frame?.EstimatedVehicleJourney);
  const others = [delivery.Extensions?.Removed, delivery.Situations?.PtSituationElement];
  const lists = [...ITEMS.map((name) => delivery[name]), ...journeys, ...others];
  return lists.reduce((sum, list) => sum + listOf(list).length, 0);
}

/**
 * A few words that tell an item from others: its key and its moment.
 * @param {string} document  of an `item` line
 */
export function itemWords(document) {
  const item = parsed(document);
  const kind = isObject(item) ? (Object.keys(item)[0] ?? '') : '';
  const value = kind === '' ? {} : (firstOf(item[kind]) ?? {});
  const journey = value.MonitoredVehicleJourney ?? value;
  const call = journey.MonitoredCall ?? {};
  const names = [
    value.ItemIdentifier, value.MonitoringRef, value.ParticipantRef, value.SituationNumber,
    journey.LineRef, journey.DirectionRef,
    journey.FramedVehicleJourneyRef?.DatedVehicleJourneyRef ?? journey.DatedVehicleJourneyRef, journey.VehicleRef,
    call.ActualDepartureTime ?? call.ExpectedDepartureTime ?? call.AimedDepartureTime
      ?? call.ActualArrivalTime ?? call.ExpectedArrivalTime ?? call.AimedArrivalTime,
  ];
  return [kind === '' ? 'item' : kind, ...names.map(textOf).filter((name) => name !== null)].join(' ');
}

/**
 * A document with line ends and spaces between its members; nothing else of it is changed.
 * @param {string} document
 */
export function spread(document) {
  const pieces = document.match(/"(?:[^"\\]|\\.)*"?|[{}[\],]|[^"{}[\],]+/gs) ?? [];
  const out = [];
  let depth = 0;
  pieces.forEach((piece, index) => {
    if (piece === '{' || piece === '[') {
      depth += 1;
      out.push(piece, /^[}\]]/.test(pieces[index + 1] ?? '') ? '' : `\n${indent(depth)}`);
    } else if (piece === '}' || piece === ']') {
      depth -= 1;
      out.push(/^[{[]/.test(pieces[index - 1] ?? '') ? '' : `\n${indent(depth)}`, piece);
    } else if (piece === ',') {
      out.push(`,\n${indent(depth)}`);
    } else {
      out.push(piece.replace(/^:(?!\s)/, ': '));
    }
  });
  return out.join('');
}

function indent(depth) {
  return '  '.repeat(Math.max(0, Math.min(depth, 40)));
}

/**
 * Whether a text looks like a script, where the name of its file doesn't tell.
 * @param {string} text
 */
export function looksLikeScript(text) {
  const first = linesOf(text.slice(0, 100000)).find((line) => line !== '') ?? '';
  return first.startsWith('#') || (Object.hasOwn(SCRIPT_LINES, first.split(' ')[0]) && !REPORT_LINES.view.test(first));
}

/** A JSON value in which each number is the text of its digits, so that none loses any; null where it is no JSON. */
function parsed(text) {
  const digits = (_, value, context) => (typeof value === 'number' ? (context?.source ?? String(value)) : value);
  try {
    return JSON.parse(text, digits);
  } catch {
    return null;
  }
}

function isObject(value) {
  return typeof value === 'object' && value !== null && !Array.isArray(value);
}

/** A list, or a single value as a list of one. */
function listOf(value) {
  if (value === undefined || value === null) return [];
  return Array.isArray(value) ? value : [value];
}

/** An object, or the first of a list, which stands for it. */
function firstOf(value) {
  const first = Array.isArray(value) ? value[0] : value;
  return isObject(first) ? first : null;
}

/** The text of a member: a string, a flag, an object's `value`, or a list's first entry. */
function textOf(value) {
  const first = Array.isArray(value) ? value[0] : value;
  const inner = isObject(first) ? first.value : first;
  return typeof inner === 'string' || typeof inner === 'boolean' ? String(inner) : null;
}

/** Milliseconds since 1970 in UTC, or null where the text is no time with an offset. */
function momentOf(text) {
  if (typeof text !== 'string' || !/^\d{4}-\d\d-\d\dT\d\d:\d\d:\d\d(\.\d+)?(Z|[+-]\d\d:\d\d)$/.test(text)) return null;
  const moment = Date.parse(text.replace(/(\.\d{3})\d+/, '$1'));
  return Number.isNaN(moment) ? null : moment;
}

/** A text of at most so many characters. */
export function clipped(text, most) {
  const characters = text.length > most ? Array.from(text) : [];
  return characters.length > most ? `${characters.slice(0, most - 1).join('')}…` : text;
}
