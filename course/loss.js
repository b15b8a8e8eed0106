// What a kind made of the readings that were typed, in words.
import { apart, counted, printed, readingOf } from './numbers.js';
import { widthOf } from './ride.js';
import { briefOf } from './stored.js';

/** What is stored otherwise than it was typed; empty where nothing is. */
export function lossWords(cells, row, kind) {
  const typed = cells.map((text) => readingOf(text).value);
  const filled = typed.flatMap((value, place) => (value === null && row[place].length ? [row[place][0]] : []));
  const changed = typed.flatMap((value, place) => (isChanged(value, row[place], kind) ? [place] : []));
  const words = [];
  if (filled.length) words.push(filledWords(filled, kind));
  if (changed.length) words.push(changedWords(changed.length, typed, row, changed[0]));
  return words.join(' ');
}

function isChanged(value, stored, kind) {
  if (value === null) return false;
  return stored.length !== 1 || printed(stored[0], widthOf(kind)) !== printed(value);
}

function filledWords(filled, kind) {
  const nones = filled.length === 1 ? 'One none has' : `${filled.length} nones have`;
  return `${nones} become ${briefOf(filled[0], kind)}: mistake 1.`;
}

function changedWords(count, typed, row, place) {
  const [from, to] = row[place].length ? apart(typed[place], row[place][0]) : [printed(typed[place]), 'none'];
  const are = `${counted(count, 'reading')} of ${typed.length} ${count === 1 ? 'is' : 'are'}`;
  return `${are} stored as another number, for example ${from} as ${to}.`;
}
