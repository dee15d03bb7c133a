/**
 * Reads the answers of a producer: plain departures and situations. What isn't of the form of an answer is left out, a
 * departure at a time. Nothing here knows a page.
 *
 * @typedef {object} Departure
 * @property {string} key           names the visit among those of its stop
 * @property {string} line
 * @property {string | null} lineRef
 * @property {string | null} ground   the colours of the line, where they are known
 * @property {string | null} letters
 * @property {string} destination   '' where it isn't told
 * @property {number} moment        when it leaves, in milliseconds since 1970, UTC: as expected, or as planned
 * @property {number | null} planned
 * @property {boolean} isExpected   whether `moment` is more than the plan
 * @property {number | null} delay  in milliseconds, below zero where it is early; null where it isn't told
 * @property {string} platform
 * @property {string} status        as SIRI has it: 'onTime', 'cancelled' and others
 * @property {boolean} isCancelled
 * @property {boolean} isAtStop
 * @property {boolean} isMonitored
 * @property {string} stopName
 * @property {string | null} stopPointRef
 * @property {number | null} recorded  when what is told of it was recorded
 *
 * @typedef {object} Situation
 * @property {string} key
 * @property {string} summary
 * @property {string} description
 * @property {string} severity
 * @property {Set<string>} lines
 * @property {Set<string>} stopPoints
 *
 * @typedef {object} Answer
 * @property {number | null} moment  the answer's ResponseTimestamp
 * @property {string | null} refusal what the producer says where it has none of what was asked for
 * @property {object[]} items
 */

import { Names } from './names.js';
import { entries, isFalse, isTrue, momentOf, nameOf, spanOf, textOf, within } from './values.js';

/**
 * The items of one service in an answer, or null where it is no answer.
 * @param {unknown} document
 * @param {'StopMonitoringDelivery' | 'SituationExchangeDelivery'} service
 * @returns {Answer | null}
 */
export function answerOf(document, service) {
  const delivery = within(document, 'Siri', 'ServiceDelivery');
  if (delivery === null) return null;
  const deliveries = entries(delivery[service]);
  const refused = [delivery, ...deliveries].find((one) => one.Status === false || one.Status === 'false');
  return {
    moment: momentOf(delivery.ResponseTimestamp),
    refusal: refused === undefined ? null : textOf(within(refused, 'ErrorCondition', 'OtherError')?.ErrorText) || 'Status false',
    items: deliveries.flatMap((one) => (service === 'StopMonitoringDelivery' ? entries(one.MonitoredStopVisit)
      : entries(within(one, 'Situations')?.PtSituationElement))),
  };
}

/**
 * When a producer began to run, and for how many milliseconds it has by its own clock; null where it doesn't say.
 * @param {unknown} document  a CheckStatusResponse
 * @returns {{began: number, since: number} | null}
 */
export function startOf(document) {
  const told = within(document, 'Siri', 'CheckStatusResponse');
  const [began, moment] = [momentOf(told?.ServiceStartedTime), momentOf(told?.ResponseTimestamp)];
  return began === null || moment === null ? null : { began, since: moment - began };
}

/**
 * The departures among visits, the earliest first; of those of one moment, by line and key.
 * @param {object[]} visits
 * @param {Names} names
 * @returns {Departure[]}
 */
export function departuresOf(visits, names = new Names()) {
  return visits.map((visit) => departureOf(visit, names)).filter((one) => one !== null).sort(
    (one, other) => one.moment - other.moment || order(one.line, other.line) || order(one.key, other.key));
}

function order(one, other) {
  if (one === other) return 0;
  return one < other ? -1 : 1;
}

function departureOf(visit, names) {
  const journey = within(visit, 'MonitoredVehicleJourney');
  const call = within(journey, 'MonitoredCall');
  if (call === null) return null;
  const expected = momentOf(call.ActualDepartureTime) ?? momentOf(call.ExpectedDepartureTime);
  const aimed = momentOf(call.AimedDepartureTime);
  const arrival = momentOf(call.ActualArrivalTime) ?? momentOf(call.ExpectedArrivalTime) ?? momentOf(call.AimedArrivalTime);
  const moment = expected ?? aimed ?? arrival;
  if (moment === null) return null;
  const status = textOf(call.DepartureStatus) || textOf(call.ArrivalStatus);
  const { name, ground, letters } = names.line(journey.LineRef);
  return {
    key: JSON.stringify([textOf(visit.MonitoringRef), textOf(visit.ItemIdentifier)]),
    line: name || textOf(journey.PublishedLineName) || textOf(journey.LineRef),
    lineRef: nameOf(journey.LineRef),
    ground,
    letters,
    destination: names.destination(journey.DestinationRef) || textOf(journey.DestinationName) || names.stop(journey.DestinationRef)
      || textOf(journey.DestinationRef),
    moment,
    planned: aimed,
    isExpected: expected !== null,
    delay: delayOf(expected, aimed, journey.Delay),
    platform: textOf(call.DeparturePlatformName) || textOf(call.ArrivalPlatformName),
    status,
    isCancelled: status === 'cancelled',
    isAtStop: isTrue(call.VehicleAtStop),
    isMonitored: !isFalse(journey.Monitored),
    stopName: textOf(call.StopPointName),
    stopPointRef: nameOf(call.StopPointRef),
    recorded: momentOf(visit.RecordedAtTime),
  };
}

/** By the two moments where both are told, or else by the visit's own Delay. */
function delayOf(expected, aimed, span) {
  if (expected !== null && aimed !== null) return expected - aimed;
  return spanOf(span);
}

/**
 * @param {object[]} elements
 * @returns {Situation[]}
 */
export function situationsOf(elements) {
  return elements.map((element) => {
    const affects = within(element, 'Affects');
    const networks = entries(within(affects, 'Networks')?.AffectedNetwork);
    return {
      key: JSON.stringify([textOf(element.ParticipantRef), textOf(element.SituationNumber)]),
      summary: textOf(element.Summary),
      description: textOf(element.Description),
      severity: textOf(element.Severity),
      lines: names(networks.flatMap((network) => entries(network.AffectedLine)), 'LineRef'),
      stopPoints: names(entries(within(affects, 'StopPoints')?.AffectedStopPoint), 'StopPointRef'),
    };
  }).filter(({ summary, description }) => summary !== '' || description !== '');
}

/**
 * Those that name the stop, or a line that leaves from it.
 * @param {Situation[]} situations
 * @param {string} stop
 * @param {Departure[]} departures
 */
export function situationsAt(situations, stop, departures) {
  const places = new Set([stop, ...departures.map(({ stopPointRef }) => stopPointRef)]);
  const lines = new Set(departures.map(({ lineRef }) => lineRef));
  return situations.filter((one) => meet(one.stopPoints, places) || meet(one.lines, lines));
}

function meet(one, other) {
  return [...one].some((name) => other.has(name));
}

function names(list, member) {
  return new Set(list.map((one) => nameOf(one[member])).filter((name) => name !== null));
}
