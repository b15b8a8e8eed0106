// The module itself: what it imports and exports, its memory, and how it is loaded.
import assert from 'node:assert/strict';
import { test } from 'node:test';
import { Fulandewu, Kind, LONGEST, MOST_DIMS, RUNS_IN, isSupported, load } from '../fulandewu.js';
import {
  BLOBS, FLAGS, MODULE, Room, fileOf, fulandewu, grow, hex, longestBlob, newExports, printedBy,
} from './common.js';

const HEADER = fileOf('include/fulandewu.h').toString();
const RIDE = BLOBS[Kind.Float32Dense];

/** The whole numbers that the header gives to names of a pattern. */
function numbersOf(pattern) {
  return Object.fromEntries([...HEADER.matchAll(pattern)].map(([, name, number]) => [name, Number(number)]));
}

test('nothing is imported, and the functions of the header are exported', async () => {
  const module = await WebAssembly.compile(MODULE);
  assert.deepEqual(WebAssembly.Module.imports(module), []);
  const functions = [...HEADER.matchAll(/^uint32_t (fulandewu_\w+)\(/gm)].map(([, name]) => `function ${name}`);
  assert.equal(functions.length, 14);
  const exported = WebAssembly.Module.exports(module).map(({ kind, name }) => `${kind} ${name}`);
  assert.deepEqual(exported.sort(), [...functions, 'global __heap_base', 'memory memory'].sort());
});

test('the stack of 1 MB is below free memory', async () => {
  const { __heap_base: start, memory } = await newExports();
  const stack = 1 << 20;
  assert.ok(start.value >= stack, `free memory starts at ${start.value}`);
  assert.ok(start.value < stack + 4096, `more than a stack of 1 MB is below ${start.value}`);
  assert.ok(memory.buffer.byteLength >= start.value);
});

test('kinds and limits are those of the header', () => {
  const kinds = numbersOf(/^ {4}FULANDEWU_(FLOAT\w+) = (\d+),?$/gm);
  const plain = (name) => name.replace('_', '').toLowerCase();
  const named = (numbers) => Object.entries(numbers).map(([name, number]) => `${plain(name)} ${number}`);
  assert.deepEqual(named(Kind), named(kinds));
  const limits = numbersOf(/^#define FULANDEWU_(\w+) (\d+)$/gm);
  assert.deepEqual({ LONGEST, MOST_DIMS }, limits);
});

test('it is loaded from bytes, from a buffer and from a compiled module', async () => {
  const buffer = Uint8Array.from(MODULE).buffer;
  for (const source of [MODULE, buffer, await WebAssembly.compile(MODULE)]) {
    const loaded = await load(source);
    assert.ok(loaded instanceof Fulandewu);
    assert.deepEqual(loaded.read('plain', RIDE), fulandewu.read('plain', RIDE));
  }
  await assert.rejects(load(MODULE.subarray(0, 100)), WebAssembly.CompileError);
  await assert.rejects(load('fulandewu.wasm'), TypeError);
});

/** What a Node with these flags prints that loads the module after some code. */
function loading(flags, before) {
  const code = `${before}
    const { isSupported, load } = await import('./bindings/js/fulandewu.js');
    const { readFileSync } = await import('node:fs');
    await load(readFileSync('target/wasm/fulandewu.wasm')).then(() => 'loaded', (error) => error.message)
      .then((said) => console.log(isSupported(), said));`;
  return printedBy(flags, code);
}

test('without 64-bit memory it says what runs it', () => {
  assert.ok(isSupported());
  const refused = `false WebAssembly has no 64-bit memory here. It is in ${RUNS_IN}.\n`;
  assert.equal(loading(FLAGS, ''), 'true loaded\n');
  assert.equal(loading([], ''), FLAGS.length ? refused : 'true loaded\n');
  assert.equal(loading(FLAGS, 'delete globalThis.WebAssembly;'), refused);
});

test('memory grows for a long blob after a short one, and what was answered stays', async () => {
  const exports = await newExports();
  const fresh = new Fulandewu(exports);
  const before = exports.memory.buffer.byteLength;
  const [short, longest] = [fresh.convert(RIDE, Kind.Float64Dense), longestBlob()];
  assert.equal(exports.memory.buffer.byteLength, before);
  const long = fresh.convert(longest, Kind.Float32Sparse);
  assert.ok(exports.memory.buffer.byteLength >= before + LONGEST);
  assert.equal(hex(short.body), hex(BLOBS[Kind.Float64Dense].subarray(0, 16)));
  assert.deepEqual(fresh.convert(RIDE, Kind.Float64Dense), short);
  assert.deepEqual([long.dims, long.readings], [MOST_DIMS, MOST_DIMS]);
  assert.ok(Buffer.compare(long.body, longest.subarray(0, LONGEST - 5)) === 0);
});

/** The functions over a memory that grows by a function of the pages. */
function growing(exports, growBy) {
  const memory = { grow: growBy, get buffer() { return exports.memory.buffer; } };
  return new Fulandewu({ ...exports, memory });
}

test('memory grows by a BigInt or by a number of pages, as the engine asks', async () => {
  for (const type of ['bigint', 'number']) {
    const exports = await newExports();
    const growBy = (pages) => {
      if (typeof pages !== type) throw new TypeError('another type');
      grow(exports.memory, pages);
    };
    assert.equal(growing(exports, growBy).read('plain', longestBlob()).dims, MOST_DIMS);
  }
  const full = growing(await newExports(), (pages) => {
    throw typeof pages === 'bigint' ? new RangeError('full') : new RangeError('asked again');
  });
  assert.throws(() => full.read('plain', longestBlob()), { message: 'full' });
});

test('of long blobs and buffers only what a call can look at is copied', async () => {
  const exports = await newExports();
  const fresh = new Fulandewu(exports);
  const [long, other, room] = [new Uint8Array(5_000_000), new Uint8Array(5_000_000), new Room(5_000_000)];
  assert.equal(fresh.nearer('l2', long, long, long).refusal.number, 1);
  assert.equal(fresh.appendFvecs(RIDE, room.bytes, 2_000_000).fill, 2_000_012);
  room.untouchedBut(2_000_000, 2_000_012);
  assert.equal(fresh.convert(BLOBS[Kind.Float32Sparse], Kind.Float8, { scratch: long, out: other }).dims, 2);
  assert.equal(fresh.bvecsAt(new Uint8Array(5_000_000), 100, other).next, 104);
  assert.ok(exports.memory.buffer.byteLength < 3_000_000);
});
