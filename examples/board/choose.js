/**
 * Without a stop in its address the page asks for one: a field, and where `names.json` has stops, those that the field fits.
 */
import { element, say } from './elements.js';
import { text } from './language.js';

/** So many stops are listed at once; whoever writes more of a name sees the rest. */
const MOST_LISTED = 50;

/**
 * @param {Document} page
 * @param {import('./settings.js').Settings} settings
 * @param {import('./names.js').Names} names
 */
export function askForStop(page, settings, names) {
  page.querySelector('#state').replaceChildren(...settings.faults.map((fault) => element('p', { class: 'fault' }, fault)));
  const [form, field, zone] = ['#choice', '#stop', '#zone'].map((selector) => page.querySelector(selector));
  if (settings.hasZone) zone.value = settings.zone;
  const stops = names.stops().map(([ref, name]) => ({ ref, name, words: plain(`${name} ${ref}`) }));
  if (stops.length > 0) listStops(page, form, field, zone, stops);
  form.hidden = false;
}

function listStops(page, form, field, zone, stops) {
  const [list, count] = [page.querySelector('#known'), page.querySelector('#count')];
  const uses = new Map();
  for (const { name } of stops) uses.set(name, (uses.get(name) ?? 0) + 1);

  function fitting() {
    const wanted = plain(field.value).split(' ');
    return stops.filter(({ words }) => wanted.every((word) => words.includes(word)));
  }

  function draw() {
    const found = fitting();
    list.replaceChildren(...found.slice(0, MOST_LISTED).map(({ ref, name }) => element('li', {},
      element('a', { href: addressOf(ref, zone.value) }, element('bdi', {}, name)),
      // Stops of one name are told apart by their references.
      ...(uses.get(name) > 1 ? [' ', element('small', {}, element('bdi', {}, ref))] : []))));
    const name = found.length > MOST_LISTED ? 'stopsMore' : 'stops';
    say(count, found.length === 1 ? text('oneStop') : text(name, { count: found.length, listed: MOST_LISTED }));
  }

  field.addEventListener('input', draw);
  zone.addEventListener('input', draw);
  form.addEventListener('submit', (event) => {
    // What is written is a stop's reference, or a name that only one stop has; else one has to be chosen.
    const found = fitting();
    if (stops.some(({ ref }) => ref === field.value) || found.length === 0) return;
    event.preventDefault();
    if (found.length === 1) location.assign(addressOf(found[0].ref, zone.value));
    else list.querySelector('a').focus();
  });
  draw();
}

/** This page's own address, with the stop. */
function addressOf(ref, zone) {
  const address = new URL(location.href);
  address.searchParams.set('stop', ref);
  if (zone === '') address.searchParams.delete('zone');
  else address.searchParams.set('zone', zone);
  return address.href;
}

/** Small letters without marks, so that a name is found as it is typed. */
function plain(text) {
  return text.normalize('NFD').replace(/\p{M}/gu, '').toLowerCase().replace(/\s+/g, ' ').trim();
}
