// A lab's file, read by slices: where its rides start, and the elements of one of them.
import { Kind, LONGEST_VECTOR } from '../bindings/js/fulandewu.js';
import { bytesOf } from './numbers.js';

/** The largest file that is read, in bytes, and the most rides that are listed. */
export const LARGEST_FILE = 100_000_000;
export const MOST_RIDES = 100_000;

/** How much of the file is in memory at a time. */
const PIECE_BYTES = 4_000_000;

/** How long the page may be busy before it is let go, in milliseconds. */
const BUSY = 30;

/** fvecs or bvecs by the end of a name, or null. */
export function formatOfName(name) {
  return /\.([fb]vecs)$/i.exec(name)?.[1].toLowerCase() ?? null;
}

/** Rides of a file: where they start and their dims. */
export class LabFile {
  #module;
  #pieceStart = 0;
  #piece = new Uint8Array(0);

  constructor(module, file, format) {
    this.#module = module;
    this.file = file;
    this.format = format;
    this.starts = [];
    this.dims = [];
    this.next = 0;
    this.refusal = null;
  }

  /**
   * Walks from ride to ride up to the end, a refusal, the most rides, or until `goesOn` answers false. The page is
   * let go in between, and `progress` is called then.
   */
  async walk(goesOn, progress) {
    let since = performance.now();
    while (this.starts.length < MOST_RIDES) {
      const found = await this.#at(this.next);
      this.refusal = found.refusal;
      if (found.refusal || !found.view) return;
      this.starts.push(this.next);
      this.dims.push(found.view.dims);
      this.next = found.next;
      if (performance.now() - since < BUSY) continue;
      progress();
      await new Promise((resolve) => setTimeout(resolve));
      if (!goesOn()) return;
      since = performance.now();
    }
  }

  /** The blob of a ride: its elements, Float32Dense. */
  async ride(index) {
    return (await this.#at(this.starts[index])).view.body.slice();
  }

  /** What the module finds at a place: it is shown enough for the longest ride, or all up to the file's end. */
  async #at(place) {
    const window = await this.#bytes(place, Math.min(this.file.size, place + LONGEST_VECTOR[this.format]));
    return inFile(this.format === 'fvecs' ? this.#module.fvecsAt(window, 0) : this.#module.bvecsAt(window, 0), place);
  }

  /** Bytes of the file, from the piece that is in memory or a new one. */
  async #bytes(start, end) {
    if (start < this.#pieceStart || end > this.#pieceStart + this.#piece.length) {
      const slice = this.file.slice(start, Math.max(end, Math.min(this.file.size, start + PIECE_BYTES)));
      this.#piece = new Uint8Array(await slice.arrayBuffer());
      this.#pieceStart = start;
      if (this.#piece.length < end - start) throw new Error('it has become shorter');
    }
    return this.#piece.subarray(start - this.#pieceStart, end - this.#pieceStart);
  }
}

/** What was found in a window, with the places of the whole file. */
function inFile(found, place) {
  const { refusal } = found;
  if (refusal) return { refusal: { ...refusal, place: refusal.place === null ? null : place + refusal.place } };
  return { ...found, next: place + found.next };
}

/** Rides of the sample: one ride, the same twice as fast, one that stops, and two longer ones. */
const SAMPLE_RIDES = [
  [60, 72, 80],
  [120, 144, 160],
  [60, 0, 0],
  [92, 95, 101, 118, 126, 131],
  [88, 90, 97, 112, 120, 125],
];

/** A small fvecs file, made by the module, and the same with its last bytes cut off. */
export function sampleFile(module, cutOff) {
  const buffer = new Uint8Array(1024);
  let fill = 0;
  for (const readings of SAMPLE_RIDES) {
    const { blob } = module.write(Kind.Float32Dense, readings.length, bytesOf('f32', readings));
    ({ fill } = module.appendFvecs(blob, buffer, fill));
  }
  const name = cutOff ? 'sample, cut off.fvecs' : 'sample.fvecs';
  return new File([buffer.subarray(0, cutOff ? fill - 5 : fill)], name);
}
