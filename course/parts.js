// The parts of a blob: where each one is, what it is called and what it says.
import { Kind } from '../bindings/js/fulandewu.js';
import { hexOf } from './hex.js';
import { kindName } from './kinds.js';
import { brief, counted, grouped, numbersOf, printed } from './numbers.js';

/** @typedef {{part: string, start: number, end: number, size: number}} Part name, bytes, how many go together */

/** What each part is called on the page. */
const PART_NAMES = {
  readings: 'readings',
  values: 'values',
  indices: 'indices',
  bits: 'bits',
  quantized: 'quantized bytes',
  padding: 'padding',
  alpha: 'alpha',
  shift: 'shift',
  unused: 'unused bytes',
  count: 'trailing count',
  dims: 'dims',
  type: 'type byte',
  unread: 'not read',
};

/** How many bytes of a part are listed as numbers. */
const LISTED_BYTES = 64;

/** The parts of a blob that the reader accepted; empty ones are left out. */
export function partsOf(blob, view) {
  const body = view.body.length;
  const end = blob.length;
  const laid = {
    [Kind.Float32Dense]: () => [['readings', body, 4], ['type', end, 1]],
    [Kind.Float64Dense]: () => [['readings', body, 8], ['type', end, 1]],
    [Kind.Float32Sparse]: () => sparseParts(end),
    [Kind.Float1Bit]: () => [['bits', body, 1], ['unused', end - 2, 1], ['count', end - 1, 1], ['type', end, 1]],
    [Kind.Float8]: () => [
      ['quantized', view.dims, 1], ['padding', body - 8, 1], ['alpha', body - 4, 4], ['shift', body, 4],
      ['unused', end - 2, 1], ['count', end - 1, 1], ['type', end, 1],
    ],
  };
  return placed(laid[view.kind]());
}

/** The parts of a blob that was refused: those that the refusal lets us name. */
export function partsOfRefused(blob, refusal) {
  const end = blob.length;
  if (refusal.entry !== null) return placed(sparseParts(end));
  if (end % 2 === 0) return placed([['unread', end, 4]]);
  const counts = [5, 6].includes(refusal.number);
  return placed([['unread', counts ? end - 2 : end - 1, 4], ['count', end - 1, 1], ['type', end, 1]]);
}

/** Values and indices take equal room before the dims and the type byte. */
function sparseParts(end) {
  return [['values', (end - 5) / 2, 4], ['indices', end - 5, 4], ['dims', end - 1, 4], ['type', end, 1]];
}

/** Parts by their ends, each from the end of the one before it. */
function placed(ends) {
  let start = 0;
  const parts = ends.map(([part, end, size]) => {
    const here = { part, start, end, size };
    start = end;
    return here;
  });
  return parts.filter((here) => here.end > here.start);
}

/** The entry that a refusal names: where its value and its index are, and what they say; null where it names none. */
export function entryOf(blob, { entry }) {
  if (entry === null) return null;
  const half = (blob.length - 5) / 2;
  const [value] = numbersOf('f32', blob.subarray(4 * entry, 4 * entry + 4));
  const [place] = numbersOf('u32', blob.subarray(half + 4 * entry, half + 4 * entry + 4));
  const words = `entry ${entry}: ${printed(value, 32)} at place ${grouped(place)}`;
  return { starts: [4 * entry, half + 4 * entry], words };
}

/** The name of a part. */
export function partName(part) {
  return PART_NAMES[part];
}

/** What a part of this blob says, in a sentence. */
export function partWords({ part, start, end }, blob, view) {
  const bytes = blob.subarray(start, end);
  const words = {
    readings: () => `A number for every place: ${listed(view.kind === Kind.Float64Dense ? 'f64' : 'f32', bytes)}.`,
    values: () => `The readings that there were, four bytes each: ${listed('f32', bytes)}.`,
    indices: () => `The place of each of these readings, four bytes each: ${listed('u32', bytes)}.`,
    bits: () => `One bit for each place, eight in a byte, the lowest first: 1 is above zero. ${unusedBits(view)}`,
    quantized: () => 'One byte for each place, from 0 to 255: the reading is alpha times this, plus shift.',
    padding: () => 'Fills the quantized bytes up to a multiple of four. It stands for no reading.',
    alpha: () => `How much one step of a byte is worth: ${brief(numbersOf('f32', bytes)[0])}.`,
    shift: () => `The reading of byte 0, the least of the ride: ${brief(numbersOf('f32', bytes)[0])}.`,
    unused: () => 'Stands for nothing.',
    count: () => countWords(bytes[0], view),
    dims: () => `The number of places, with a reading or without: ${grouped(numbersOf('u32', bytes)[0])}.`,
    type: () => typeWords(bytes[0], view),
    unread: () => 'The blob was refused, so nothing is said about these bytes.',
  };
  return words[part]();
}

/** The first numbers of a part. */
function listed(form, bytes) {
  const numbers = numbersOf(form, bytes.subarray(0, LISTED_BYTES));
  return numbers.map((value) => brief(value)).join(', ') + (bytes.length > LISTED_BYTES ? ' and so on' : '');
}

function unusedBits({ dims }) {
  const used = dims % 8;
  if (!used) return 'All bits are used.';
  return `Of the last byte the highest ${used === 7 ? 'bit is' : `${8 - used} bits are`} unused.`;
}

function countWords(count, view) {
  const padding = view?.kind === Kind.Float8;
  const counts = padding ? 'bytes of padding there are' : 'of the bits before the type byte do not count';
  return `How many ${counts}: ${count}. It is not the number of places.`;
}

function typeWords(type, view) {
  return view ? `Says the kind: ${hexOf([type])} is ${kindName(view.kind)}.` : `Says the kind: ${hexOf([type])}.`;
}

/** Where a part is. */
export function partPlace({ start, end }) {
  const last = end - 1;
  if (start === last) return `byte ${grouped(start)}`;
  return `bytes ${grouped(start)} to ${grouped(last)} (${counted(end - start, 'byte')})`;
}
