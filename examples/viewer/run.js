/**
 * Puts a script and its report together: which line of the report is told of which event, which packets each event
 * sends, which line delivers them, and what became of each. Nothing here knows a page.
 *
 * @typedef {import('./read.js').ScriptEvent} ScriptEvent
 * @typedef {import('./read.js').ReportLine} ReportLine
 * @typedef {import('./read.js').Message} Message
 * @typedef {import('./read.js').Fault} Fault
 *
 * @typedef {'delivered' | 'late' | 'twice' | 'never'} Fate  of a packet: `late` is delivered once, after one that was
 *   sent later on the same way, which is from its sender to its receiver; `twice` is delivered twice or more often
 *
 * @typedef {object} Packet
 * @property {string} number
 * @property {string} sender
 * @property {string} receiver
 * @property {Message} message
 * @property {string} document
 * @property {number} line         of the report
 * @property {number} sentAt       the index of the step that sends it
 * @property {{step: number, says: string}[]} deliveries
 * @property {Fate} fate
 * @property {number | null} colour  the same for all packets about one round; null where it is about none
 *
 * @typedef {object} Step          an event of the script, with what came of it
 * @property {ScriptEvent} event
 * @property {number | null} moment  the producer's, after the event
 * @property {ReportLine | null} told
 * @property {Packet[]} sent
 * @property {Packet | null} packet  the one that it delivers
 * @property {ReportLine[]} items  of a view
 * @property {ReportLine[]} apart  lines of the report that follow it and fit no event
 *
 * @typedef {object} Run
 * @property {Step[]} steps
 * @property {string[]} ends       the producer, and each consumer in the order in which they come
 * @property {Packet[]} packets
 * @property {Record<Fate, number>} counts
 * @property {number} rounds       how many colours there are
 * @property {boolean} hasParts    whether a round of it has more than one part
 * @property {boolean} isShared    whether a consumer of it has more than one subscription
 * @property {import('./read.js').Remark[]} remarks  those after the last event
 * @property {Fault[]} faults
 */
import { clipped } from './read.js';

/** After so much the producer sends again what isn't acknowledged. */
const AGAIN_MILLISECONDS = 30000;
/** How far a line is looked for where script and report don't fit together. */
const LOOK_AHEAD = 200;
/** What the producer says of a packet that it answers by another one. */
const ANSWERED = /^(Subscribed|Ended|Renewed|NotRenewed|Supplied|NothingReady|WrongPart|Checked|Asked|Fed)\b/;
/** What a consumer sends by itself, and not as a reply. */
const ASKED_BY = {
  subscribe: 'SubscriptionRequest',
  terminate: 'TerminateSubscriptionRequest',
  restart: 'DataSupplyRequest',
  status: 'CheckStatusRequest',
};

/**
 * @param {ReturnType<import('./read.js').readScript>} script
 * @param {ReturnType<import('./read.js').readReport>} report
 * @returns {Run}
 */
export function runOf(script, report) {
  const faults = [...script.faults, ...report.faults];
  const steps = stepsOf(script.events);
  const packets = pair(steps, report.lines, faults);
  settleFates(packets);
  const counts = { delivered: 0, late: 0, twice: 0, never: 0 };
  for (const packet of packets) counts[packet.fate] += 1;
  return {
    steps,
    ends: endsOf(steps),
    packets,
    counts,
    rounds: colourRounds(packets),
    hasParts: hasParts(packets),
    isShared: isShared(packets),
    remarks: script.remarks,
    faults,
  };
}

/** A step for each event, with the producer's moment after it. */
function stepsOf(events) {
  let moment = null;
  return events.map((event) => {
    const { word, moment: told } = event;
    if (told !== undefined) moment = word === 'start' ? told : Math.max(moment ?? told, told);
    return { event, moment, told: null, sent: [], packet: null, items: [], apart: [] };
  });
}

/**
 * Gives each line of the report to the step that it is told of; tells what fits no step.
 * @returns {Packet[]} in their order
 */
function pair(steps, lines, faults) {
  const groups = groupsOf(steps);
  const known = new Map();
  const sends = new Map();
  let index = 0;
  let at = 0;
  let last = steps[0];
  while (index < groups.length) {
    if (asksNothing(groups[index].steps[0], lines[at], known)) {
      last = groups[index].steps.at(-1);
      index += 1;
      continue;
    }
    const meeting = meet(groups, index, lines, at, known);
    setApart(last, lines.slice(at, meeting.line), faults);
    tellMissing(groups.slice(index, meeting.group), lines[meeting.line], faults);
    ({ line: at, group: index } = meeting);
    const { first, steps: group } = groups[index] ?? { steps: [] };
    if (!isTold(group[0], lines[at], known)) continue;
    begin(group[0], first, lines[at], known);
    const end = endOf(group[0], groups[index + 1]?.steps[0], lines, at + 1, known);
    give(group, first, lines.slice(at + 1, end), known, sends);
    at = end;
    index += 1;
    last = group.at(-1);
  }
  setApart(last, lines.slice(at), faults);
  return [...known.values()];
}

const BRINGS_A_LINE = ['start', 'feed', 'ask', 'subscribe', 'terminate', 'restart', 'status', 'deliver', 'view'];

/** Each step that brings a line of its own, with those right after it that don't: clock lines. */
function groupsOf(steps) {
  const groups = [];
  steps.forEach((step, index) => {
    if (BRINGS_A_LINE.includes(step.event.word)) groups.push({ first: index, steps: [step] });
    else groups.at(-1)?.steps.push(step);
  });
  return groups;
}

/**
 * Where script and report go on together: at a line of the report that is told of the first step of a group. Where
 * they don't fit, lines of the report are passed over, or groups, whichever are fewer, or else one of each.
 */
function meet(groups, group, lines, at, known) {
  if (at >= lines.length) return { group: groups.length, line: at };
  for (let far = 0; far <= LOOK_AHEAD; far += 1) {
    if (isTold(groups[group].steps[0], lines[at + far], known)) return { group, line: at + far };
    if (isTold(groups[group + far]?.steps[0], lines[at], known)) return { group: group + far, line: at };
  }
  return { group: Math.min(group + 1, groups.length), line: at + 1 };
}

/** Whether a consumer restarts that holds nothing: it asks for nothing, so the report goes on with the next step. */
function asksNothing(step, line, known) {
  return step.event.word === 'restart' && !isTold(step, line, known);
}

/** Whether a line of the report is what a step brings. */
function isTold(step, line, known) {
  if (step === undefined || line === undefined) return false;
  const { word, consumer, subscription, packet } = step.event;
  const isOfConsumer = line.who === consumer;
  switch (word) {
    case 'start': return line.word === 'started';
    case 'feed': return line.word === 'fed';
    case 'ask': return line.word === 'answer';
    case 'deliver': return line.word === 'no' ? plain(line.packet) === plain(packet)
      : line.word === 'took' && known.get(plain(packet))?.receiver === line.who;
    case 'view': return ['view', 'unknown'].includes(line.word) && isOfConsumer && line.subscription === subscription;
    default: return line.word === 'packet' ? isAskedBy(word, consumer, line)
      : ['refused', 'unknown'].includes(line.word) && isOfConsumer;
  }
}

/** Whether a packet is what a consumer sends by itself at a line of that word. */
function isAskedBy(word, consumer, { who, message: { kind, all, sender } }) {
  const isAsked = who === 'producer' && kind === ASKED_BY[word];
  return isAsked && (word !== 'restart' || (all && sender === consumer));
}

/** The end of the lines that may follow a step's own, and aren't the next group's: items of a view, and packets. */
function endOf(step, next, lines, from, known) {
  const follow = step.told?.word === 'view' ? ['item', 'packet', ''] : ['packet', ''];
  let end = from;
  while (end < lines.length && follow.includes(lines[end].word) && !isTold(next, lines[end], known)) end += 1;
  return end;
}

/** Keeps lines that fit no event. */
function setApart(step, lines, faults) {
  step?.apart.push(...lines);
  const first = lines.find((line) => line.word !== '');
  if (first === undefined) return;
  const others = lines.length > 1 ? ` and the ${lines.length - 1} after it` : '';
  const text = `no event of the script brings “${clipped(first.text, 60)}”${others}`;
  faults.push({ file: 'report', line: first.line, text });
}

/** The report has nothing for some events: it ends before them, or goes on with another one. */
function tellMissing(groups, line, faults) {
  if (groups.length === 0) return;
  const [{ event }] = groups[0].steps;
  const others = groups.length > 1 ? ` and of the ${groups.length - 1} events after it` : '';
  const instead = line === undefined ? 'it ends before' : `it goes on with line ${line.line}`;
  const text = `the report has nothing of “${clipped(event.text, 60)}”${others}: ${instead}`;
  faults.push({ file: 'script', line: event.line, text });
}

/** Takes the line that an event brought. */
function begin(step, index, line, known) {
  step.told = line;
  if (step.event.packet !== undefined) step.packet = known.get(plain(step.event.packet)) ?? null;
  if (line.word === 'took') step.packet.deliveries.push({ step: index, says: line.says });
  if (line.word === 'packet') send(step, index, line, known);
}

/**
 * Gives the lines that follow a step's own to it, or to the clock lines after it, which bring no line of their own: a
 * packet belongs to the first of them whose moment isn't before the packet's, and, where it repeats what was sent,
 * isn't before that is due.
 */
function give([step, ...clocks], first, lines, known, sends) {
  const group = [step, ...clocks];
  const isAnswered = step.told?.word === 'took' && step.told.who === 'producer' && ANSWERED.test(step.told.says);
  if (step.told?.says === 'Acknowledged') note(sends, step.packet.sender, step.packet.message, step.moment);
  let to = 0;
  lines.forEach((line, index) => {
    if (line.word === 'item') step.items.push(line);
    else if (line.word === '') group[to].apart.push(line);
    else if (line.who === 'producer') send(step, first, line, known);
    else {
      if (index > 0 || !isAnswered) to = dueFrom(group, to, line.message, line.who, sends);
      send(group[to], first + to, line, known);
      note(sends, line.who, line.message, group[to].moment);
    }
  });
}

/** The index of the step that sends a message, from one on. */
function dueFrom(group, from, message, receiver, sends) {
  const { place, kind, moment } = message;
  const before = place === null ? undefined : sends.get(lifeOf(receiver, place));
  const isLaterNotice = kind === 'DataReadyNotification' && place?.part !== '1';
  const isAgain = before !== undefined && (isLaterNotice || before.places.has(placeText(kind, place)));
  const least = isAgain ? Math.max(moment ?? 0, before.moment + AGAIN_MILLISECONDS) : (moment ?? 0);
  const due = group.findIndex((step, index) => index >= from && (step.moment ?? 0) >= least);
  return due < 0 ? from : due;
}

/** Remembers that something was sent or acknowledged of a subscription, and when. */
function note(sends, receiver, message, moment) {
  if (message.place === null) return;
  const life = lifeOf(receiver, message.place);
  const before = sends.get(life) ?? { places: new Set(), moment: 0 };
  before.places.add(placeText(message.kind, message.place));
  sends.set(life, { places: before.places, moment: moment ?? 0 });
}

function lifeOf(consumer, { subscription, number, start }) {
  return JSON.stringify([consumer, subscription, number, start]);
}

function placeText(kind, { round, part }) {
  return `${kind} ${round} ${part}`;
}

function send(step, index, line, known) {
  const { packet: number, who: receiver, message, document, line: at } = line;
  const consumer = message.sender ?? step.packet?.receiver ?? step.event.consumer ?? '';
  const sender = receiver === 'producer' ? consumer : 'producer';
  const packet = {
    number, sender, receiver, message, document, line: at, sentAt: index, deliveries: [], fate: 'never', colour: null,
  };
  step.sent.push(packet);
  known.set(plain(number), packet);
}

/** A number without leading zeros. */
function plain(digits) {
  return (digits ?? '').replace(/^0+(?=\d)/, '');
}

/** What became of each packet. */
function settleFates(packets) {
  const earliest = new Map();
  for (const packet of packets.toReversed()) {
    const way = `${packet.sender} ${packet.receiver}`;
    packet.fate = fateOf(packet.deliveries, earliest.get(way) ?? Infinity);
    earliest.set(way, Math.min(earliest.get(way) ?? Infinity, packet.deliveries[0]?.step ?? Infinity));
  }
}

/** The fate of a packet, where the first of those that were sent later on its way was delivered by that step. */
function fateOf(deliveries, earliest) {
  if (deliveries.length === 0) return 'never';
  if (deliveries.length > 1) return 'twice';
  return deliveries[0].step > earliest ? 'late' : 'delivered';
}

/** Numbers the rounds of all subscriptions in the order in which they come; how many there are. */
function colourRounds(packets) {
  const rounds = new Map();
  for (const packet of packets) {
    const { place } = packet.message;
    if (place === null) continue;
    const round = `${lifeOf(consumerOf(packet), place)} ${place.round}`;
    if (!rounds.has(round)) rounds.set(round, rounds.size);
    packet.colour = rounds.get(round);
  }
  return rounds.size;
}

function hasParts(packets) {
  return packets.some(({ message }) => message.more || (message.place !== null && message.place.part !== '1'));
}

/** Whether the packets of a consumer name more than one subscription. */
function isShared(packets) {
  const named = new Map();
  return packets.some((packet) => {
    const consumer = consumerOf(packet);
    const names = new Set([...(named.get(consumer) ?? []), ...packet.message.subscriptions]);
    named.set(consumer, names);
    return names.size > 1;
  });
}

function consumerOf({ sender, receiver }) {
  return receiver === 'producer' ? sender : receiver;
}

/** The producer, and the consumers in the order in which script and report name them. */
function endsOf(steps) {
  const ends = new Set(['producer']);
  for (const { event, sent } of steps) {
    if (event.consumer !== undefined) ends.add(event.consumer);
    for (const packet of sent) ends.add(packet.receiver).add(packet.sender);
  }
  return [...ends];
}
