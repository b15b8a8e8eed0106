// Fulandewu: vector blobs read, written, converted, measured and compared, and files of vectors read and
// filled, by the proved functions of fulandewu.wasm (`embed/build wasm`). No dependencies.
//
// Every method answers an object. Where its `refusal` is not null, it has nothing else. Arguments of another
// type than JSDoc says are the caller's mistake, and throw.

/**
 * @typedef {'plain' | 'strict'} Mode How a blob is read. Only `read` has a choice; the others read plainly.
 * @typedef {'cos' | 'l2' | 'dot' | 'jaccard'} Distance Dot is the negated dot product.
 * @typedef {'first' | 'second' | 'probe'} Which
 */

/**
 * @typedef {object} Refusal Why there is no answer. What a refusal does not carry is null.
 * @property {number} number its number in docs/RULES.md
 * @property {string} words the reason in words
 * @property {Which | null} which the blob that it is about, of a distance or the nearer of two
 * @property {number | null} entry of 8 and 10: the first wrong entry of a sparse vector, counted from 0
 * @property {number | null} place of 19: where the vector starts inside which the file ends
 * @property {number | null} need of 15 and 17: how long the buffer has to be; append: after the fill
 */

/** @typedef {{refusal: Refusal}} Refused */

/**
 * @typedef {object} View A vector. Its parts are parts of the caller's own bytes: nothing is copied.
 * @property {null} refusal
 * @property {number} kind a value of Kind
 * @property {number} dims the number of elements
 * @property {number} readings the stored entries of a sparse vector; dims of every other kind
 * @property {Uint8Array} body
 * @property {Uint8Array | null} values of a sparse vector: f32, little-endian
 * @property {Uint8Array | null} indices of a sparse vector: 32 bits each, little-endian
 */

/** @typedef {{refusal: null, length: number, blob: Uint8Array}} Written */

/**
 * @typedef {object} Measured
 * @property {null} refusal
 * @property {number} distance may be NaN: there is no likeness to measure
 * @property {string} pattern its bits, 16 hexadecimal digits; of NaN always 7ff8000000000000
 * @property {number} readings of the first blob
 * @property {number} otherReadings of the second blob
 */

/**
 * @typedef {object} Nearer
 * @property {null} refusal
 * @property {'first' | 'second'} nearer a tie gives the first
 * @property {number} distance its distance from the probe, never NaN
 * @property {string} pattern the bits of the distance
 * @property {number} readings of the nearer candidate
 */

/** @typedef {{refusal: null, view: View | null, next: number}} Found Of a file; view is null at its end. */

/** The kinds, by the type byte that ends a blob. A blob of even length has none: Float32Dense. */
export const Kind = Object.freeze({
  Float32Dense: 1,
  Float64Dense: 2,
  Float1Bit: 3,
  Float8: 4,
  Float32Sparse: 9,
});

/** The longest blob, in bytes. */
export const LONGEST = 524_293;

/** The most dims, which are also the most readings. */
export const MOST_DIMS = 65_536;

/** The bytes of the longest vector in a file of either format: its count and its elements. */
export const LONGEST_VECTOR = Object.freeze({ fvecs: 4 + 4 * MOST_DIMS, bvecs: 4 + MOST_DIMS });

/** The browsers that run the module: its memory has 64-bit addresses. */
export const BROWSERS = 'Chrome and Edge from version 133, Firefox from 134';

/** What runs the module. */
export const RUNS_IN = `${BROWSERS}, Node from 24 (before: --experimental-wasm-memory64)`;

/** The reason of each refusal, by its number. */
const WORDS = [
  '',
  'the blob is over 524,293 bytes',
  'the type byte is 5 or 6',
  'the type byte names no kind',
  'a 1-bit or Float8 blob has nothing before its type byte',
  'the trailing count is too large',
  'the trailing bits are too few',
  'the body length is unfit for kind and dims',
  'a sparse index is not below dims',
  'dims are over 65,536',
  'a sparse index is not above the one before it',
  'an unused bit is set',
  'dims differ',
  'kinds differ',
  'there is no L2 of 1-bit vectors',
  'the output buffer is too short',
  'a 1-bit or Float8 vector cannot have dims 0',
  'scratch is too short',
  'both distances are NaN',
  'the file ends inside a vector',
];

/** The fields of `struct fulandewu_answer` in their order, 8 bytes each. */
const FIELDS = [
  'distance', 'kind', 'dims', 'length', 'needed', 'which', 'nearer', 'entry',
  'readings', 'otherReadings', 'start', 'next', 'place', 'found', 'fill',
];
const ANSWER_BYTES = 256;

const MODES = { plain: 0, strict: 1 };
const DISTANCES = ['cos', 'l2', 'dot', 'jaccard'];
/** @type {(Which | null)[]} */
const WHICH = [null, 'first', 'second', 'probe'];
/** The bytes by which memory grows. */
const PAGE = 65_536;
const NOTHING = new Uint8Array(0);

/** The start of a window, as an export takes a place. */
const START = 0n;

/** The buffer that a refusal calls too short. */
const TOO_SHORT = { 15: 'out', 17: 'scratch' };

const FILE_ENDS_INSIDE = 19;

/** How many bytes of a file a call is lent at first: most vectors end within them. */
const SHORT_WINDOW = 4096;

/** Whether the module can run here: a memory of 64-bit addresses compiles. */
export function isSupported() {
  const memory = Uint8Array.of(0, 0x61, 0x73, 0x6d, 1, 0, 0, 0, 5, 3, 1, 4, 0);
  return typeof WebAssembly === 'object' && WebAssembly.validate(memory);
}

/**
 * Loads fulandewu.wasm.
 * @param {ArrayBuffer | Uint8Array | WebAssembly.Module} source its bytes, or the compiled module
 * @returns {Promise<Fulandewu>}
 */
export async function load(source) {
  if (!isSupported()) throw new Error(`WebAssembly has no 64-bit memory here. It is in ${RUNS_IN}.`);
  const module = source instanceof WebAssembly.Module ? source : await WebAssembly.compile(source);
  return new Fulandewu((await WebAssembly.instantiate(module, {})).exports);
}

/** Bytes that a call writes to: they are copied back. No call writes more than the longest blob has. */
class Lent {
  constructor(bytes) {
    this.bytes = bytes.subarray(0, LONGEST);
  }
}

/** What an export left: its result, and the fields of the answer that was lent to it. */
class Answer {
  #fields;

  constructor(number, fields) {
    this.number = number;
    this.#fields = fields;
  }

  /** A field that is known to be written. */
  #bits(name) {
    return this.#fields.getBigUint64(8 * FIELDS.indexOf(name), true);
  }

  /** A whole number. */
  get(name) {
    return Number(this.#bits(name));
  }

  /** The distance, and its bits as 16 hexadecimal digits. */
  distance() {
    const pattern = this.#bits('distance').toString(16).padStart(16, '0');
    return { distance: this.#fields.getFloat64(0, true), pattern };
  }

  /**
   * The refusal, with what it carries.
   * @param {boolean} named whether it says which blob it is about
   * @returns {Refused}
   */
  refused(named = false) {
    const carried = (field, ...numbers) => (numbers.includes(this.number) ? this.get(field) : null);
    const refusal = {
      number: this.number,
      words: WORDS[this.number],
      which: named ? WHICH[this.get('which')] : null,
      entry: carried('entry', 8, 10),
      place: carried('place', FILE_ENDS_INSIDE),
      need: carried('needed', 15, 17),
    };
    return { refusal };
  }
}

/** The functions of the module. */
export class Fulandewu {
  /** @type {any} */
  #exports;
  #start;

  /** @param {WebAssembly.Exports} exports of fulandewu.wasm; `load` hands them over */
  constructor(exports) {
    this.#exports = exports;
    this.#start = 16 * Math.ceil(Number(this.#exports.__heap_base.value) / 16);
  }

  /**
   * Reads a blob. Refusals: 1 to 9, strict also 10 and 11, in that order.
   * @param {Mode} mode
   * @param {Uint8Array} blob
   * @returns {View | Refused}
   */
  read(mode, blob) {
    if (!Object.hasOwn(MODES, mode)) throw new TypeError(`no mode is called ${mode}`);
    const answer = this.#call('fulandewu_read', MODES[mode], blobBytes(blob));
    return answer.number ? answer.refused() : shown(answer.get('kind'), answer, blob);
  }

  /**
   * Writes the blob of a kind, dims and body to the first bytes of `out`, or of a new buffer where none is lent.
   * Refusals: 2 or 3 where no kind is named, then 9, 7, 1, 8, 16, 15, in that order.
   * @param {number} kind
   * @param {number} dims
   * @param {Uint8Array} body of a sparse vector values, then indices
   * @param {Uint8Array} [out]
   * @returns {Written | Refused}
   */
  write(kind, dims, body, out) {
    const fixed = [typeByte(kind), BigInt(whole(dims)), bytes(body)];
    const { answer, room } = this.#inRoom({ out }, (lent) => this.#call('fulandewu_write', ...fixed, lent.out));
    if (answer.number) return answer.refused();
    const length = answer.get('length');
    return { refusal: null, length, blob: room.out.subarray(0, length) };
  }

  /**
   * Converts a blob to a kind: the view shows the new body in `out`, or in a new buffer where none is lent.
   * From sparse to 1-bit or Float8 the dense body is left in `scratch`.
   * Refusals: 2 or 3 where no kind is named, then the reader's 1 to 9, then 17, 15.
   * @param {Uint8Array} blob
   * @param {number} kind
   * @param {{scratch?: Uint8Array, out?: Uint8Array}} [lent]
   * @returns {View | Refused}
   */
  convert(blob, kind, lent = {}) {
    const fixed = [blobBytes(blob), typeByte(kind)];
    const ask = ({ scratch, out }) => this.#call('fulandewu_convert', ...fixed, scratch, out);
    const { answer, room } = this.#inRoom(lent, ask);
    return answer.number ? answer.refused() : shown(kind, answer, room.out);
  }

  /**
   * The distance of two blobs. Refusals: the reader's 1 to 9 of the first, then of the second; 12, 13, 14.
   * @param {Distance} name
   * @param {Uint8Array} first
   * @param {Uint8Array} second
   * @returns {Measured | Refused}
   */
  distance(name, first, second) {
    const answer = this.#call(`fulandewu_distance_${distanceName(name)}`, blobBytes(first), blobBytes(second));
    if (answer.number) return answer.refused(true);
    const [readings, otherReadings] = [answer.get('readings'), answer.get('otherReadings')];
    return { refusal: null, ...answer.distance(), readings, otherReadings };
  }

  /**
   * The nearer of two candidates to a probe; NaN loses to all else.
   * Refusals: the reader's 1 to 9 of the probe, the first and the second; 12, 13 of each pair; 14; 18.
   * @param {Distance} name
   * @param {Uint8Array} probe
   * @param {Uint8Array} first
   * @param {Uint8Array} second
   * @returns {Nearer | Refused}
   */
  nearer(name, probe, first, second) {
    const blobs = [probe, first, second].map(blobBytes);
    const answer = this.#call(`fulandewu_nearer_${distanceName(name)}`, ...blobs);
    if (answer.number) return answer.refused(true);
    const nearer = /** @type {'first' | 'second'} */ (WHICH[answer.get('nearer')]);
    return { refusal: null, nearer, ...answer.distance(), readings: answer.get('readings') };
  }

  /**
   * The vector at a place of an fvecs file, as a part of that file. Refusals: 19 where the count is cut, 9, 19.
   * @param {Uint8Array} file of any length
   * @param {number} place
   * @returns {Found | Refused}
   */
  fvecsAt(file, place) {
    const ask = (at) => ({ at, answer: this.#call('fulandewu_fvecs_read', at.bytes, START) });
    const { at, answer } = inWindows(bytes(file), whole(place), LONGEST_VECTOR.fvecs, ask);
    return found(answer, at, () => file.subarray(at.before + answer.get('start'), at.before + answer.get('next')));
  }

  /**
   * The vector at a place of a bvecs file, each byte as an f32 in `out`, or in a new buffer where none is lent.
   * Refusals: those of fvecsAt, then 15.
   * @param {Uint8Array} file of any length
   * @param {number} place
   * @param {Uint8Array} [out]
   * @returns {Found | Refused}
   */
  bvecsAt(file, place, out) {
    const call = (at) => (lent) => this.#call('fulandewu_bvecs_read', at.bytes, START, lent.out);
    const ask = (at) => ({ at, ...this.#inRoom({ out }, call(at)) });
    const { at, answer, room } = inWindows(bytes(file), whole(place), LONGEST_VECTOR.bvecs, ask);
    return found(answer, at, () => room.out.subarray(0, 4 * answer.get('dims')));
  }

  /**
   * Each vector of an fvecs file in its order. A refusal ends it: vectors before it are shown.
   * @param {Uint8Array} file
   * @returns {Generator<View | Refused>}
   */
  fvecs(file) {
    bytes(file);
    return walk((place) => this.fvecsAt(file, place));
  }

  /**
   * Each vector of a bvecs file in its order, in a buffer of its own. A refusal ends it.
   * @param {Uint8Array} file
   * @returns {Generator<View | Refused>}
   */
  bvecs(file) {
    bytes(file);
    return walk((place) => this.bvecsAt(file, place));
  }

  /**
   * Appends a Float32Dense blob to the fvecs file in the first `fill` bytes of `out`, and answers the new fill.
   * Refusals: the reader's 1 to 9, then 13, 15.
   * @param {Uint8Array} blob
   * @param {Uint8Array} out
   * @param {number} fill
   * @returns {{refusal: null, fill: number} | Refused}
   */
  appendFvecs(blob, out, fill) {
    const from = blobBytes(blob);
    const at = windowAt(bytes(out), whole(fill), 4 + from.length);
    const answer = this.#call('fulandewu_fvecs_append', from, new Lent(at.bytes), START);
    return answer.number ? answer.refused() : { refusal: null, fill: at.before + answer.get('fill') };
  }

  /** Calls with what is lent; in the place of a buffer that is not, with one as long as is needed. */
  #inRoom(lent, ask) {
    const room = { scratch: bytes(lent.scratch ?? NOTHING), out: bytes(lent.out ?? NOTHING) };
    for (;;) {
      const answer = ask({ scratch: new Lent(room.scratch), out: new Lent(room.out) });
      const short = TOO_SHORT[answer.number];
      if (!short || lent[short]) return { answer, room };
      room[short] = new Uint8Array(answer.get('needed'));
    }
  }

  /**
   * Calls an export: bytes are put into the module's memory, one after the other behind the answer, and passed
   * as a pointer and a length; what it writes is copied back.
   */
  #call(name, ...parts) {
    const start = this.#start;
    const lengths = parts.map((part) => (typeof part === 'object' ? (part.bytes ?? part).length : 0));
    const memory = this.#memory(start + ANSWER_BYTES + lengths.reduce((sum, length) => sum + length, 0));
    const words = [];
    const written = [];
    let place = start + ANSWER_BYTES;
    parts.forEach((part, i) => {
      if (typeof part !== 'object') {
        words.push(part);
        return;
      }
      memory.set(part.bytes ?? part, place);
      words.push(BigInt(place), BigInt(lengths[i]));
      if (part instanceof Lent) written.push([part.bytes, place]);
      place += lengths[i];
    });
    const number = this.#exports[name](...words, BigInt(start));
    for (const [to, from] of written) to.set(memory.subarray(from, from + to.length));
    return new Answer(number, new DataView(memory.slice(start, start + ANSWER_BYTES).buffer));
  }

  /** The module's memory, grown to so many bytes. */
  #memory(needed) {
    const { memory } = this.#exports;
    const missing = Math.ceil((needed - memory.buffer.byteLength) / PAGE);
    if (missing > 0) grow(memory, missing);
    return new Uint8Array(memory.buffer);
  }
}

/** Grows a memory by pages: a number of them in engines from before the standard, a BigInt since. */
function grow(memory, pages) {
  try {
    memory.grow(BigInt(pages));
  } catch (error) {
    if (!(error instanceof TypeError)) throw error;
    memory.grow(pages);
  }
}

/** The vector of an answer, whose body is in the first of these bytes. */
function shown(kind, answer, from) {
  return view(kind, answer.get('dims'), answer.get('readings'), from.subarray(0, answer.get('length')));
}

/** @returns {View} */
function view(kind, dims, readings, body) {
  const [values, indices] =
    kind === Kind.Float32Sparse ? [body.subarray(0, body.length / 2), body.subarray(body.length / 2)] : [null, null];
  return { refusal: null, kind, dims, readings, body, values, indices };
}

/**
 * What a call can touch of a long buffer: at most so many bytes from a place on, none past its end. The call is about
 * their start, and what is before them is added to the places of its answer.
 */
function windowAt(buffer, place, most) {
  const before = Math.min(place, buffer.length);
  return { bytes: buffer.subarray(before, before + most), before };
}

/**
 * Asks about the vector at a place of a file with a short window, and where that ends inside it, with one that is
 * long enough for every vector. What follows a vector changes nothing.
 */
function inWindows(file, place, longest, ask) {
  const short = ask(windowAt(file, place, SHORT_WINDOW));
  return short.answer.number === FILE_ENDS_INSIDE ? ask(windowAt(file, place, longest)) : short;
}

/** What a call found in a file, with the elements of its vector. */
function found(answer, at, elements) {
  if (answer.number) {
    const { refusal } = answer.refused();
    return { refusal: { ...refusal, place: refusal.place === null ? null : at.before + refusal.place } };
  }
  if (!answer.get('found')) return { refusal: null, view: null, next: at.before };
  const dims = answer.get('dims');
  const next = at.before + answer.get('next');
  return { refusal: null, view: view(Kind.Float32Dense, dims, dims, elements()), next };
}

/** Each vector from the start of a file, up to its end or a refusal. */
function* walk(at) {
  for (let place = 0; ; ) {
    const here = at(place);
    if (here.refusal) yield here;
    if (here.refusal || !here.view) return;
    yield here.view;
    place = here.next;
  }
}

function bytes(given) {
  if (!(given instanceof Uint8Array)) throw new TypeError('bytes are to be a Uint8Array');
  return given;
}

/** A blob, as far as it is looked at: with one byte over the limit it is refused as with all of them. */
function blobBytes(given) {
  return bytes(given).subarray(0, LONGEST + 1);
}

function whole(given) {
  if (!Number.isSafeInteger(given) || given < 0) throw new RangeError(`${given} is no length, place or dims`);
  return given;
}

function typeByte(given) {
  if (!Number.isInteger(given) || given < 0 || given > 255) throw new RangeError(`${given} is no type byte`);
  return given;
}

function distanceName(given) {
  if (!DISTANCES.includes(given)) throw new TypeError(`no distance is called ${given}`);
  return given;
}
