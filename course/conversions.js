// The twenty-five conversions of ride A: what each of them loses.
import { Kind } from '../bindings/js/fulandewu.js';
import { byId, make, say } from './dom.js';
import { sameBytes } from './hex.js';
import { KINDS, refusedWords } from './kinds.js';
import { apart, counted, grouped } from './numbers.js';
import { asKind, elementsOf, entriesOf } from './ride.js';

/** Fills the table for the ride of a card, or says why it cannot be. */
export function showConversions(module, card) {
  const { view, blob, refusal } = card.state;
  const problem = card.problem ?? (refusal ? refusedWords(refusal) : null);
  say(byId('conversions-message'), problem ? `${card.name}: ${problem}` : '');
  const table = byId('conversions-table');
  table.hidden = problem !== null;
  table.replaceChildren(...(problem ? [] : [tableHead(), tableBody(module, blob, view)]));
}

function tableHead() {
  const heads = ['from (rows), to (columns)', ...KINDS.map(({ name }) => name)];
  const cells = heads.map((words) => make('th', { scope: 'col', role: 'columnheader' }, words));
  return make('thead', { role: 'rowgroup' }, make('tr', { role: 'row' }, ...cells));
}

function tableBody(module, blob, view) {
  const rows = KINDS.map((from) => {
    const source = from.kind === view.kind ? { refusal: null, blob } : asKind(module, blob, from.kind);
    const head = make('th', { scope: 'row', role: 'rowheader' }, make('span', { class: 'narrow' }, 'from '), from.name);
    const lost = source.refusal ? () => [refusedWords(source.refusal)] : lossesFrom(module, source.blob);
    return make('tr', { role: 'row' }, head, ...KINDS.map((to) => conversionCell(from, to, lost(to.kind))));
  });
  return make('tbody', { role: 'rowgroup' }, ...rows);
}

function conversionCell(from, to, lost) {
  const words = lost.length ? lost.map((each) => make('span', { class: 'lost' }, `${each} `)) : ['loses nothing'];
  const attributes = { 'data-from': from.kind, 'data-to': to.kind, 'data-lost': lost.length ? 'something' : 'nothing' };
  return make(
    'td', { id: `conversion-${from.kind}-${to.kind}`, role: 'cell', ...attributes },
    make('span', { class: 'narrow' }, `to ${to.name}: `), ...words,
  );
}

/** A blob with its view and its elements as numbers. */
function rideOf(module, blob) {
  return { blob, view: module.read('plain', blob), elements: elementsOf(module, blob) };
}

/** Answers what a conversion of this blob to a kind loses. */
function lossesFrom(module, blob) {
  const before = rideOf(module, blob);
  return (kind) => losses(module, before, kind);
}

/** What a conversion to a kind loses, by the module's answers on the way there and back. */
function losses(module, before, kind) {
  const written = asKind(module, before.blob, kind);
  if (written.refusal) return [refusedWords(written.refusal)];
  const after = rideOf(module, written.blob);
  const lost = [readingsLost(before.view, after.view), elementsLost(before, after)];
  const back = asKind(module, written.blob, before.view.kind);
  const same = !back.refusal && sameBytes(back.blob, before.blob);
  const found = lost.filter((words) => words !== '');
  if (found.length && same) found.push('The way back gives the same bytes.');
  if (!same) found.push('The way back gives other bytes.');
  return found;
}

function readingsLost(before, after) {
  if (before.readings === after.readings) return '';
  const become = before.readings === 1 ? 'becomes' : 'become';
  const counts = `${counted(before.readings, 'reading')} ${become} ${grouped(after.readings)}`;
  if (after.readings > before.readings) return `Gaps are filled: ${counts}.`;
  return after.kind === Kind.Float32Sparse ? `Zeros are dropped: ${counts}.` : `A place keeps one reading: ${counts}.`;
}

/** Whether a place has a reading: only a sparse ride has places without. */
function placesWithReading(view) {
  if (view.kind !== Kind.Float32Sparse) return () => true;
  const places = new Set(entriesOf(view).map(({ place }) => place));
  return (place) => places.has(place);
}

/** How many elements differ, with an example: of a place with a reading if there is such. */
function elementsLost(before, after) {
  const differs = (value, place) => (Object.is(value, after.elements[place]) ? [] : [place]);
  const changed = before.elements.flatMap(differs);
  if (!changed.length) return '';
  const [had, has] = [before, after].map(({ view }) => placesWithReading(view));
  const place = changed.find(had) ?? changed[0];
  const numbers = apart(before.elements[place], after.elements[place]);
  const [from, to] = [had, has].map((isThere, i) => (isThere(place) ? numbers[i] : 'none'));
  const change = changed.length === 1 ? 'changes' : 'change';
  return `${grouped(changed.length)} of ${counted(before.elements.length, 'number')} ${change}: ${from} becomes ${to}.`;
}
