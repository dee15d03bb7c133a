/**
 * Which rows of which stops stand on which page of a wall. Nothing here knows a page of the browser.
 *
 * @typedef {object} Height
 * @property {number} head    of a stop without its rows
 * @property {number[]} rows
 *
 * @typedef {object} Part     rows of a stop, from one of them up to another one
 * @property {number} stop
 * @property {number} from
 * @property {number} to
 */

/**
 * A stop stands whole where it can: below the one before, or on a page of its own. One that is higher than a page goes on on
 * the next, under its head again.
 * @param {Height[]} stops
 * @param {number} height  of a page
 * @returns {Part[][]}     at least one page, and on each at least a row or a stop that has none
 */
export function pagesOf(stops, height) {
  /** @type {Part[][]} */
  const pages = [[]];
  let left = height;
  const turn = () => {
    pages.push([]);
    left = height;
  };
  stops.forEach(({ head, rows }, stop) => {
    if (pages.at(-1).length > 0 && head + sum(rows) > left) turn();
    let from = 0;
    do {
      if (from > 0) turn();
      const to = from + Math.max(1, fitting(rows.slice(from), left - head));
      pages.at(-1).push({ stop, from, to: Math.min(to, rows.length) });
      left -= head + sum(rows.slice(from, to));
      from = to;
    } while (from < rows.length);
  });
  return pages;
}

/**
 * Things one behind the other, as many together as fit a height.
 * @param {number[]} heights
 * @param {number} height
 * @returns {number[][]} their places
 */
export function groupsOf(heights, height) {
  const groups = [];
  for (let from = 0; from < heights.length;) {
    const count = Math.max(1, fitting(heights.slice(from), height));
    groups.push(Array.from({ length: count }, (_, place) => from + place));
    from += count;
  }
  return groups;
}

/** How many of them fit. */
function fitting(heights, height) {
  let left = height;
  const past = heights.findIndex((one) => {
    left -= one;
    return left < 0;
  });
  return past < 0 ? heights.length : past;
}

function sum(heights) {
  return heights.reduce((all, one) => all + one, 0);
}
