/**
 * How fresh is what a producer tells of a stop? A producer that answers may be one that nobody feeds any more. Nothing here
 * knows a page.
 *
 * @typedef {import('./read.js').Departure} Departure
 *
 * @typedef {object} News
 * @property {number | null} newest  the newest moment at which something of the stop was recorded, of all that were told
 * @property {boolean} isStale       whether that is too long ago
 */

/** @type {News} */
export const NO_NEWS = { newest: null, isStale: false };

/**
 * After an answer. Departures that are followed are recorded again and again, those that are planned alone aren't: so an old
 * record counts where one is followed. It stays old until a newer one comes, also when the last departure has left; a stop
 * whose last departure left while its records were new is an empty stop.
 * @param {News} before
 * @param {Departure[]} departures
 * @param {number | null} moment  of the answer
 * @param {number} longest        milliseconds after which a record is old
 * @returns {News}
 */
export function newsAfter(before, departures, moment, longest) {
  const newest = Math.max(before.newest ?? -Infinity, ...departures.map(({ recorded }) => recorded ?? -Infinity));
  if (newest === -Infinity || moment === null) return before;
  const isExpected = departures.some(isFollowed) || before.isStale;
  return { newest, isStale: isExpected && moment - newest > longest };
}

function isFollowed({ recorded, isExpected, isMonitored, isCancelled }) {
  return recorded !== null && isExpected && isMonitored && !isCancelled;
}
