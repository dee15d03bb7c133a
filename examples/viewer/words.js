/**
 * What the page says of events, packets and moments, in words. Nothing here knows a page.
 *
 * @typedef {import('./run.js').Run} Run
 * @typedef {import('./run.js').Step} Step
 * @typedef {import('./run.js').Packet} Packet
 */
import { clipped } from './read.js';

const NUMBERS = new Intl.NumberFormat('en');

const KINDS = {
  ServiceRequest: 'request',
  ServiceDelivery: 'delivery',
  SubscriptionRequest: 'subscription request',
  SubscriptionResponse: 'subscription response',
  TerminateSubscriptionRequest: 'termination request',
  TerminateSubscriptionResponse: 'termination response',
  DataReadyNotification: 'notification',
  DataReadyAcknowledgement: 'notification acknowledged',
  DataSupplyRequest: 'supply request',
  DataReceivedAcknowledgement: 'acknowledgement',
  CheckStatusRequest: 'status request',
  CheckStatusResponse: 'status response',
  HeartbeatNotification: 'heartbeat',
};

/** What is said of a number of packets. */
export const FATES = {
  delivered: 'delivered in order',
  late: 'late: after one that was sent later on its way',
  twice: 'delivered twice or more often',
  never: 'never: lost, or still on their way',
};

export const STATES = {
  quiet: 'its last round is acknowledged, and nothing has changed since that would be sent; so it lists the items of a '
    + 'direct response',
  moving: 'it isn\'t known to be up to date: something isn\'t acknowledged or sent yet, or the producer doesn\'t hold '
    + 'the subscription',
};

/** A name from a file that stands in a sentence: its own direction of writing doesn't change that of the others. */
function named(name) {
  return `\u2068${clipped(name, 24)}\u2069`;
}

function counted(count, one) {
  return `${NUMBERS.format(count)} ${one}${count === 1 ? '' : 's'}`;
}

/** A moment's time of day in UTC, with the day where that is wanted. */
export function momentWords(moment, withDay) {
  if (moment === null || moment === undefined) return '';
  const time = new Date(moment).toISOString().slice(11).replace('.000Z', '').replace('Z', '');
  return withDay ? `${dayWords(moment)} ${time}` : time;
}

/** A moment's day in UTC. */
export function dayWords(moment) {
  return moment === null || moment === undefined ? '' : new Date(moment).toISOString().slice(0, 10);
}

/** @param {Step} step */
export function eventWords({ event, told }, withDay = false, withConsumer = true) {
  const { word, consumer, subscription, packet, moment } = event;
  if (moment !== undefined) return `${word} ${momentWords(moment, withDay)}`;
  if (packet !== undefined) return `${word} ${clipped(packet, 8)}${told?.word === 'no' ? ': no such packet' : ''}`;
  if (consumer === undefined) return word === 'feed' || word === 'ask' ? word : clipped(event.text, 30);
  const who = withConsumer ? ` ${clipped(consumer, 16)}` : '';
  return `${word}${who}${subscription === undefined ? '' : ` ${named(subscription)}`}`;
}

/** What the report has of an event, beside packets and views: at the line of the producer or of a consumer. */
export function toldWords({ told, event }) {
  if (told === null) return '';
  if (told.word === 'fed') return fedWords(told.counts);
  if (told.word === 'started') return `start ${told.says}`;
  if (told.word === 'took') return told.says;
  if (told.word === 'refused') return `refused: ${told.says}`;
  if (told.word === 'unknown') return event.subscription === undefined ? 'unknown' : 'unknown subscription';
  return told.word === 'answer' ? 'answer' : '';
}

function fedWords([observed, withdrawn, full]) {
  return `fed ${observed}${withdrawn > 0 ? `, withdrawn ${withdrawn}` : ''}${full > 0 ? `, refused ${full}` : ''}`;
}

/** What a packet is, as `delivery, round 1 part 2`. */
export function packetWords(packet, run, isShort = false) {
  const { kind, all, place, subscriptions } = packet.message;
  const word = all ? 'request for all data' : KINDS[kind] ?? (kind === '' ? 'no message' : clipped(kind, 30));
  const names = run.isShared && subscriptions.length > 0 ? ` ${subscriptions.slice(0, 3).map(named).join(' ')}` : '';
  return `${word}${names}${place === null ? '' : placeWords(place, run, isShort)}`;
}

function placeWords({ round, part }, { hasParts }, isShort) {
  if (isShort) return ` ${round}${hasParts ? `.${part}` : ''}`;
  return `, round ${round}${hasParts ? ` part ${part}` : ''}`;
}

/**
 * A packet as its arrow has it: what isn't delivered once and in order is said, so that no arrow speaks by its look
 * alone. Where there is little room, the words `round` and `part` are left out, and `never`, which a cross says.
 */
export function arrowWords(packet, run, isShort = false) {
  const { fate, number } = packet;
  const isSaid = fate !== 'delivered' && !(isShort && fate === 'never');
  return `${number} ${packetWords(packet, run, isShort)}${isSaid ? ` · ${fate}` : ''}`;
}

export function viewWords({ told }) {
  return `${named(told.subscription)} · ${counted(told.view.items, 'item')} · ${told.view.state}`;
}

/** A whole sentence on what became of a packet. */
export function packetSentence(packet, run) {
  const { number, sender, receiver, deliveries, message } = packet;
  const items = message.items > 0 ? `, ${counted(message.items, 'item')}` : '';
  const lines = deliveries.map(({ step, says }) => `line ${run.steps[step].event.line} (${says})`);
  const delivered = `${packet.fate === 'late' ? 'delivered late' : 'delivered'} by ${lines.join(' and ')}`;
  const fate = deliveries.length === 0 ? 'never delivered' : delivered;
  return `packet ${number} from ${sender} to ${receiver}: ${packetWords(packet, run)}${items}; ${fate}`;
}

/** All that came of an event, a sentence each. */
export function stepSentences(step, run) {
  const told = toldSentence(step, run);
  const apart = step.apart.map((line) => `line ${line.line} of the report fits no event: ${clipped(line.text, 200)}`);
  return [...(told === '' ? [] : [told]), ...step.sent.map((packet) => packetSentence(packet, run)), ...apart];
}

/** What is said of an event of which the report has no line of its own. */
const SAID_OF_NOTHING = { clock: '', restart: 'it holds no subscription, and asks for nothing' };

function toldSentence(step, run) {
  const { event, told, packet } = step;
  if (told === null) return SAID_OF_NOTHING[event.word] ?? 'the report has nothing of it';
  if (told.word === 'view') return viewSentence(told);
  if (told.word === 'no') return `there is no packet ${told.packet}`;
  if (told.word !== 'took') return toldWords(step);
  return `${told.who} takes packet ${packet.number}, ${packetWords(packet, run)}: ${told.says}`;
}

export function viewSentence({ who, subscription, view }) {
  const { number, start, round, items, state } = view;
  const place = round === '0' ? 'of no round' : `of round ${round} of start ${start}, number ${number}`;
  return `view of ${who}, ${named(subscription)}: ${counted(items, 'item')}, ${state}, ${place}`;
}

export function runSentence(run) {
  const { delivered, late, twice, never } = run.counts;
  const fates = `${delivered} delivered in order, ${late} late, ${twice} twice, ${never} never`;
  return `${counted(run.steps.length, 'event')}, ${counted(run.packets.length, 'packet')}: ${fates}`;
}
