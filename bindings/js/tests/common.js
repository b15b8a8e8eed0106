// What several tests share: the module, kinds, distances and small blobs, refusals as they should be, lent buffers.
import assert from 'node:assert/strict';
import { spawnSync } from 'node:child_process';
import { readFileSync } from 'node:fs';
import { Kind, LONGEST, MOST_DIMS, load } from '../fulandewu.js';

/** The root of the repository. */
const ROOT = new URL('../../../', import.meta.url);
export const fileOf = (path) => readFileSync(new URL(path, ROOT));

export const MODULE = fileOf('target/wasm/fulandewu.wasm');
export const fulandewu = await load(MODULE);

/** The exports of a module of its own, to look at its memory. */
export async function newExports() {
  return (await WebAssembly.instantiate(await WebAssembly.compile(MODULE), {})).exports;
}

/** Grows a memory by pages: a BigInt of them or a number, as this Node asks. */
export function grow(memory, pages) {
  try {
    memory.grow(BigInt(pages));
  } catch (error) {
    assert.ok(error instanceof TypeError);
    memory.grow(Number(pages));
  }
}

/** The flag that this Node was given because it needs it for the module; none where it needs none. */
export const FLAGS = process.execArgv.filter((flag) => flag === '--experimental-wasm-memory64');

/** What a Node with these flags prints that runs some code in the root of the repository. */
export function printedBy(flags, code) {
  const given = [...flags, '--input-type=module', '-e', code];
  const ran = spawnSync(process.execPath, given, { cwd: ROOT, encoding: 'utf8' });
  assert.equal(ran.status, 0, ran.stderr);
  return ran.stdout;
}

export const KINDS = Object.values(Kind);
export const DISTANCES = ['cos', 'l2', 'dot', 'jaccard'];

export const bytes = (digits) => Uint8Array.from(Buffer.from(digits, 'hex'));
export const hex = (given) => Buffer.from(given).toString('hex');

/** Of each kind a blob of two dims; those of floats are 60, 80. */
export const BLOBS = {
  [Kind.Float32Dense]: bytes('000070420000a042'),
  [Kind.Float64Dense]: bytes('0000000000004e40000000000000544002'),
  [Kind.Float1Bit]: bytes('030e03'),
  [Kind.Float8]: bytes('010200000000803f00000000000204'),
  [Kind.Float32Sparse]: bytes('000070420000a04200000000010000000200000009'),
};

/** By each of the reader's numbers a blob that it refuses; in that of 8, entry 1 is wrong. */
export const REFUSED = {
  1: new Uint8Array(LONGEST + 1),
  2: bytes('05'),
  3: bytes('07'),
  4: bytes('03'),
  5: bytes('aa1103'),
  6: bytes('aa0703'),
  7: bytes('aa1003'),
  8: bytes('0000803f0000803f01000000050000000200000009'),
  9: bytes('0100010009'),
};

/** Blobs that only the strict mode refuses: falling and repeated indices, and a set bit that is unused. */
export const FALLING = bytes('000000000000000001000000000000000200000009');
export const TWICE = bytes('0000803f0000803f00000000000000000100000009');
export const UNUSED_SET = bytes('ff0903');

/** The longest blob: 65,536 entries of 1.0, and as many dims. */
export function longestBlob() {
  const blob = new Uint8Array(LONGEST);
  const numbers = new DataView(blob.buffer);
  for (let i = 0; i < MOST_DIMS; i++) {
    numbers.setUint32(4 * i, 0x3f800000, true);
    numbers.setUint32(4 * (MOST_DIMS + i), i, true);
  }
  numbers.setUint32(LONGEST - 5, MOST_DIMS, true);
  blob[LONGEST - 1] = Kind.Float32Sparse;
  return blob;
}

/** The reasons in words, which are those of the Rust crate. */
const REASONS = /const REASONS[^;]*; 19\] = \[(.*?)\n\];/s.exec(fileOf('bindings/rust/src/refusal.rs').toString())[1];
const WORDS = ['', ...[...REASONS.matchAll(/"([^"]*)"/g)].map(([, words]) => words)];
assert.equal(WORDS.length, 20);

/** A refusal as it should be: what is not named in `carried` is null. */
export function refusal(number, carried = {}) {
  return { refusal: { number, words: WORDS[number], which: null, entry: null, place: null, need: null, ...carried } };
}

/** The refusal of a blob of REFUSED. */
export function readersRefusal(number, which = null) {
  return refusal(number, { which, entry: Number(number) === 8 ? 1 : null });
}

/** A buffer to lend. It is a part of a larger one, and no two bytes beside each other are equal. */
export class Room {
  static #GUARD = 7;
  #all;

  constructor(length) {
    this.#all = filled(length + 2 * Room.#GUARD);
    this.bytes = this.#all.subarray(Room.#GUARD, Room.#GUARD + length);
  }

  /** Fails where a byte has changed, but for those from one place of the buffer up to another. */
  untouchedBut(from, to) {
    const before = filled(this.#all.length);
    before.set(this.bytes.subarray(from, to), Room.#GUARD + from);
    assert.ok(Buffer.compare(this.#all, before) === 0, `a byte outside ${from} to ${to} has changed`);
  }

  untouched() {
    this.untouchedBut(0, 0);
  }
}

function filled(length) {
  return new Uint8Array(length).map((_, i) => 37 * i + 11);
}
