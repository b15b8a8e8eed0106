// A ride: typed cells and a kind, or bytes that were taken over as they are. The module makes its blob.
import { Kind } from '../bindings/js/fulandewu.js';
import { bytesOf, numbersOf, printed, readingOf } from './numbers.js';

/** The most cells of a row that can be edited. */
export const MOST_CELLS = 60;

/** @typedef {{kind: number, cells: string[]}} Typed a ride as it was typed */
/** @typedef {{kind: number | null, bytes: Uint8Array}} Taken bytes as they are; a kind: converted to it */

/**
 * What a ride is, by the module: its blob and view; or `wrong`, the cells that are no readings; or a refusal, with
 * the blob that was refused where there is one.
 */
export function settled(module, ride) {
  if (ride.bytes) return settledBytes(module, ride);
  const readings = ride.cells.map(readingOf);
  const wrong = readings.flatMap((reading, place) => (reading.wrong ? [{ place, words: reading.wrong }] : []));
  if (wrong.length) return { wrong };
  const written = blobOfReadings(module, ride.kind, readings.map((reading) => reading.value));
  return written.refusal ? written : accepted(module, written.blob);
}

function settledBytes(module, { bytes, kind }) {
  const own = module.read('plain', bytes);
  if (own.refusal) return { refusal: own.refusal, blob: bytes };
  if (kind === null || kind === own.kind) return { blob: bytes, view: own };
  const written = asKind(module, bytes, kind);
  return written.refusal ? written : { ...accepted(module, written.blob), converted: true };
}

function accepted(module, blob) {
  return { blob, view: module.read('plain', blob) };
}

/** The blob of readings, of which null is none: through a sparse ride where there is a none, else a dense one. */
function blobOfReadings(module, kind, readings) {
  const sparse = kind === Kind.Float32Sparse || readings.includes(null);
  const written = sparse
    ? module.write(Kind.Float32Sparse, readings.length, sparseBody(readings))
    : module.write(Kind.Float64Dense, readings.length, bytesOf('f64', readings));
  return written.refusal ? written : asKind(module, written.blob, kind);
}

/** Values, then indices, of the readings that there are. A typed 0 is one of them. */
function sparseBody(readings) {
  const places = readings.flatMap((value, place) => (value === null ? [] : [place]));
  const values = bytesOf('f32', places.map((place) => readings[place]));
  return new Uint8Array([...values, ...bytesOf('u32', places)]);
}

/** A blob made another kind and written, or a refusal. */
export function asKind(module, blob, kind) {
  const view = module.convert(blob, kind);
  return view.refusal ? view : module.write(kind, view.dims, view.body);
}

/** The elements of an accepted blob, as numbers. */
export function elementsOf(module, blob) {
  return numbersOf('f64', module.convert(blob, Kind.Float64Dense).body);
}

/** The entries of a sparse view in stored order: value and place. */
export function entriesOf(view) {
  const places = numbersOf('u32', view.indices);
  return numbersOf('f32', view.values).map((value, i) => ({ value, place: places[i] }));
}

/** What stands at each place of an accepted blob: a list of values, empty where there is no reading. */
export function rowOf(module, blob, view) {
  if (view.kind !== Kind.Float32Sparse) return elementsOf(module, blob).map((value) => [value]);
  const row = Array.from({ length: view.dims }, () => []);
  for (const { value, place } of entriesOf(view)) row[place].push(value);
  return row;
}

/** How wide the numbers of a kind are, in bits, when they are printed. */
export function widthOf(kind) {
  return kind === Kind.Float32Dense || kind === Kind.Float32Sparse ? 32 : 64;
}

/** The cells that show a row, or why it cannot be edited as one. */
export function cellsOf(row, kind) {
  const why = whyNoCells(row);
  if (why) return { why: `${why} So this ride is shown as stored and not edited as a row.` };
  return { cells: row.map(([value]) => (value === undefined ? 'none' : printed(value, widthOf(kind)))) };
}

function whyNoCells(row) {
  if (row.length > MOST_CELLS) return `It has more than ${MOST_CELLS} places.`;
  const twice = row.findIndex((values) => values.length > 1);
  if (twice >= 0) return `Place ${twice} has ${row[twice].length} readings, and a row has one for each place.`;
  const odd = row.findIndex(([value = 0]) => !Number.isFinite(value));
  return odd >= 0 ? `Place ${odd} holds ${printed(row[odd][0])}, which cannot be typed.` : null;
}
