// Every method on blobs, good and refused: what it answers, and what a refusal carries.
import assert from 'node:assert/strict';
import { test } from 'node:test';
import { Kind, LONGEST, MOST_DIMS } from '../fulandewu.js';
import {
  BLOBS, DISTANCES, FALLING, KINDS, REFUSED, TWICE, UNUSED_SET,
  bytes, fulandewu, hex, longestBlob, readersRefusal, refusal,
} from './common.js';

const DENSE = BLOBS[Kind.Float32Dense];
const BITS = BLOBS[Kind.Float1Bit];
const SPARSE = BLOBS[Kind.Float32Sparse];
const NOTHING = new Uint8Array(0);

/** Sparse vectors of three dims: `HOLDING[n]` holds n readings. These are 160; 60 and 80; 60, a stored 0 and 80. */
const HOLDING = [
  bytes('0300000009'),
  bytes('00002043010000000300000009'),
  bytes('000070420000a04200000000020000000300000009'),
  bytes('00007042000000000000a0420000000001000000020000000300000009'),
];

/** Sparse vectors without a reading, of one dim and of two. */
const NONE_OF_1 = bytes('0100000009');
const NONE_OF_2 = bytes('0200000009');

/** Whether a part shows the first bytes of a buffer itself. */
function isFrontOf(part, buffer) {
  return part.buffer === buffer.buffer && part.byteOffset === buffer.byteOffset;
}

test('each refusal is given, with what it carries', () => {
  const room = new Uint8Array(7);
  const given = {
    1: [fulandewu.read('plain', REFUSED[1])],
    2: [fulandewu.read('plain', REFUSED[2])],
    3: [fulandewu.read('plain', REFUSED[3])],
    4: [fulandewu.read('plain', REFUSED[4])],
    5: [fulandewu.read('plain', REFUSED[5])],
    6: [fulandewu.read('plain', REFUSED[6])],
    7: [fulandewu.read('plain', REFUSED[7])],
    8: [fulandewu.read('plain', REFUSED[8]), { entry: 1 }],
    9: [fulandewu.read('plain', REFUSED[9])],
    10: [fulandewu.read('strict', FALLING), { entry: 1 }],
    11: [fulandewu.read('strict', UNUSED_SET)],
    12: [fulandewu.distance('l2', DENSE, NOTHING)],
    13: [fulandewu.distance('l2', DENSE, SPARSE)],
    14: [fulandewu.distance('l2', BITS, BITS)],
    15: [fulandewu.write(Kind.Float32Dense, 2, DENSE, room), { need: 8 }],
    16: [fulandewu.write(Kind.Float1Bit, 0, NOTHING)],
    17: [fulandewu.convert(SPARSE, Kind.Float8, { scratch: room }), { need: 8 }],
    18: [fulandewu.nearer('cos', SPARSE, NONE_OF_2, NONE_OF_2)],
    19: [fulandewu.fvecsAt(bytes('0000000001'), 4), { place: 4 }],
  };
  for (let number = 1; number <= 19; number++) {
    const [told, carried] = given[number];
    assert.deepEqual(told, refusal(number, carried));
  }
});

test('each kind is read in both modes', () => {
  for (const kind of KINDS) {
    const blob = BLOBS[kind];
    const view = fulandewu.read('plain', blob);
    assert.deepEqual([view.refusal, view.kind, view.dims, view.readings], [null, kind, 2, 2]);
    assert.ok(isFrontOf(view.body, blob), 'nothing is copied');
    assert.equal(view.values === null && view.indices === null, kind !== Kind.Float32Sparse);
    assert.deepEqual(fulandewu.read('strict', blob), view);
  }
  const { body, values, indices } = fulandewu.read('plain', SPARSE);
  assert.deepEqual([body, values, indices].map(hex), [SPARSE.subarray(0, 16), DENSE, SPARSE.subarray(8, 16)].map(hex));
});

test('what the reader refuses is refused by all that read, and the blob is named', () => {
  for (const [number, bad] of Object.entries(REFUSED).map(([n, blob]) => [Number(n), blob])) {
    const [first, second, probe, none] = ['first', 'second', 'probe', null].map((w) => readersRefusal(number, w));
    for (const mode of ['plain', 'strict']) assert.deepEqual(fulandewu.read(mode, bad), none);
    for (const kind of KINDS) assert.deepEqual(fulandewu.convert(bad, kind), none);
    assert.deepEqual(fulandewu.appendFvecs(bad, NOTHING, 0), none);
    for (const d of DISTANCES) {
      assert.deepEqual(fulandewu.distance(d, bad, DENSE), first);
      assert.deepEqual(fulandewu.distance(d, DENSE, bad), second);
      assert.deepEqual(fulandewu.distance(d, bad, REFUSED[3]), first);
      assert.deepEqual(fulandewu.nearer(d, bad, DENSE, DENSE), probe);
      assert.deepEqual(fulandewu.nearer(d, DENSE, bad, DENSE), first);
      assert.deepEqual(fulandewu.nearer(d, DENSE, DENSE, bad), second);
      assert.deepEqual(fulandewu.nearer(d, bad, REFUSED[3], REFUSED[2]), probe);
    }
  }
});

test('the strict mode asks for order and unused bits of zero', () => {
  for (const blob of [FALLING, TWICE]) {
    assert.equal(fulandewu.read('plain', blob).readings, 2);
    assert.deepEqual(fulandewu.read('strict', blob), refusal(10, { entry: 1 }));
  }
  assert.equal(fulandewu.read('plain', UNUSED_SET).dims, 7);
  assert.deepEqual(fulandewu.read('strict', UNUSED_SET), refusal(11));
  const inPlace0 = bytes('0000803f000000000100000009');
  assert.deepEqual(fulandewu.read('strict', inPlace0), fulandewu.read('plain', inPlace0));
});

test('what is written reads back', () => {
  for (const kind of KINDS) {
    const view = fulandewu.read('plain', BLOBS[kind]);
    const written = fulandewu.write(kind, view.dims, view.body);
    assert.deepEqual(written, { refusal: null, length: BLOBS[kind].length, blob: BLOBS[kind] });
    assert.deepEqual(fulandewu.read('plain', written.blob), view);
  }
});

test('what the writer refuses', () => {
  const refused = (number, carried, ...given) => assert.deepEqual(fulandewu.write(...given), refusal(number, carried));
  refused(9, {}, Kind.Float32Dense, MOST_DIMS + 1, NOTHING);
  refused(9, {}, Kind.Float32Dense, Number.MAX_SAFE_INTEGER, NOTHING);
  refused(7, {}, Kind.Float64Dense, 1, new Uint8Array(4));
  refused(1, {}, Kind.Float32Sparse, 0, new Uint8Array(8 * (MOST_DIMS + 1)));
  refused(8, { entry: 1 }, Kind.Float32Sparse, 2, REFUSED[8].subarray(0, 16));
  refused(16, {}, Kind.Float1Bit, 0, NOTHING);
  refused(16, {}, Kind.Float8, 0, new Uint8Array(8));
});

test('a byte that names no kind is refused before all else', () => {
  for (let byte = 0; byte < 256; byte++) {
    const named = KINDS.includes(byte);
    const unknown = byte === 5 || byte === 6 ? 2 : 3;
    assert.deepEqual(fulandewu.write(byte, MOST_DIMS + 1, NOTHING), refusal(named ? 9 : unknown));
    assert.deepEqual(fulandewu.convert(REFUSED[1], byte), refusal(named ? 1 : unknown));
  }
});

test('each kind is converted to each', () => {
  const dims = 2;
  for (const source of KINDS) {
    for (const target of KINDS) {
      const view = fulandewu.convert(BLOBS[source], target);
      assert.deepEqual([view.refusal, view.kind, view.dims, view.readings], [null, target, dims, 2]);
      const written = fulandewu.write(target, dims, view.body);
      assert.deepEqual(fulandewu.read('strict', written.blob), view);
    }
  }
  const floats = [Kind.Float32Dense, Kind.Float64Dense, Kind.Float32Sparse];
  for (const source of floats) {
    for (const target of floats) {
      const { body } = fulandewu.convert(BLOBS[source], target);
      assert.deepEqual(body, fulandewu.read('plain', BLOBS[target]).body);
    }
  }
});

test('a distance, its bits and the refusals of pairs', () => {
  const [right, up] = [bytes('0000404000000000'), bytes('0000000000008040')];
  const counts = { readings: 2, otherReadings: 2 };
  const of = (distance, pattern) => ({ refusal: null, distance, pattern, ...counts });
  assert.deepEqual(fulandewu.distance('l2', right, up), of(5, '4014000000000000'));
  assert.deepEqual(fulandewu.distance('cos', right, up), of(1, '3ff0000000000000'));
  assert.deepEqual(fulandewu.distance('dot', right, up), of(-0, '8000000000000000'));
  assert.deepEqual(fulandewu.distance('dot', DENSE, DENSE), of(-10000, 'c0c3880000000000'));
  assert.deepEqual(fulandewu.distance('jaccard', DENSE, DENSE), of(0, '0000000000000000'));
  assert.deepEqual(fulandewu.distance('jaccard', right, up), of(1, '3ff0000000000000'));
  for (const d of DISTANCES) {
    assert.deepEqual(fulandewu.distance(d, DENSE, bytes('00007042')), refusal(12));
    assert.deepEqual(fulandewu.distance(d, DENSE, SPARSE), refusal(13));
    for (const kind of KINDS) {
      const told = fulandewu.distance(d, BLOBS[kind], BLOBS[kind]).refusal;
      assert.deepEqual({ refusal: told }, d === 'l2' && kind === Kind.Float1Bit ? refusal(14) : { refusal: null });
    }
  }
});

test('NaN is an answer, of one pattern', () => {
  const measured = fulandewu.distance('cos', NONE_OF_2, SPARSE);
  const expected = { refusal: null, distance: NaN, pattern: '7ff8000000000000', readings: 0, otherReadings: 2 };
  assert.deepEqual(measured, expected);
  const signalling = bytes('010080ff010080ff');
  assert.equal(fulandewu.distance('l2', signalling, DENSE).pattern, '7ff8000000000000');
  assert.deepEqual(fulandewu.convert(signalling, Kind.Float32Dense).body, signalling, 'copied bits are kept');
});

test('the nearer of two', () => {
  const far = bytes('01000000000000000200000009');
  for (const d of DISTANCES) {
    const { distance, pattern } = fulandewu.distance(d, SPARSE, SPARSE);
    const near = { refusal: null, distance, pattern, readings: 2 };
    assert.deepEqual(fulandewu.nearer(d, SPARSE, far, SPARSE), { ...near, nearer: 'second' });
    assert.deepEqual(fulandewu.nearer(d, SPARSE, SPARSE, far), { ...near, nearer: 'first' });
    assert.deepEqual(fulandewu.nearer(d, SPARSE, SPARSE, SPARSE), { ...near, nearer: 'first' });
    assert.deepEqual(fulandewu.nearer(d, DENSE, DENSE, bytes('00007042')), refusal(12));
    assert.deepEqual(fulandewu.nearer(d, DENSE, SPARSE, DENSE), refusal(13));
  }
  // NaN loses to all else, and two of them are refused
  assert.equal(fulandewu.nearer('cos', SPARSE, NONE_OF_2, SPARSE).nearer, 'second');
  assert.deepEqual(fulandewu.nearer('cos', SPARSE, NONE_OF_2, NONE_OF_2), refusal(18));
  assert.deepEqual(fulandewu.nearer('l2', BITS, BITS, BITS), refusal(14));
});

test('readings are counted, and are not dims', () => {
  for (const [n, first] of HOLDING.entries()) {
    for (const mode of ['plain', 'strict']) {
      const { dims, readings } = fulandewu.read(mode, first);
      assert.deepEqual([dims, readings], [3, n]);
    }
    for (const kind of KINDS) {
      const { dims, readings } = fulandewu.convert(first, kind);
      assert.deepEqual([dims, readings], [3, kind === Kind.Float32Sparse ? n : 3]);
    }
    for (const [m, second] of HOLDING.entries()) {
      for (const d of DISTANCES) {
        const { readings, otherReadings } = fulandewu.distance(d, first, second);
        assert.deepEqual([readings, otherReadings], [n, m]);
      }
    }
  }
  const { readings, otherReadings } = fulandewu.distance('l2', TWICE, NONE_OF_1);
  assert.deepEqual([readings, otherReadings], [2, 0]);
  const [probe, near, other] = [HOLDING[2], HOLDING[3], HOLDING[1]];
  for (const d of DISTANCES) assert.equal(fulandewu.nearer(d, probe, other, near).readings, 3);
});

test('the longest blob is read, written, converted and measured', () => {
  const blob = longestBlob();
  const view = fulandewu.read('strict', blob);
  assert.deepEqual([view.kind, view.dims, view.readings, view.body.length], [9, MOST_DIMS, MOST_DIMS, LONGEST - 5]);
  assert.deepEqual(fulandewu.write(view.kind, view.dims, view.body).blob, blob);
  const lengths = KINDS.map((kind) => fulandewu.convert(blob, kind).body.length);
  assert.deepEqual(lengths, [4 * MOST_DIMS, 8 * MOST_DIMS, MOST_DIMS / 8, MOST_DIMS + 8, 8 * MOST_DIMS]);
  const distances = DISTANCES.map((d) => fulandewu.distance(d, blob, blob).distance);
  assert.deepEqual(distances, [0, 0, -65_536, 0]);
  assert.equal(fulandewu.nearer('dot', blob, blob, blob).distance, -65_536);
});

/** Each call throws such an error for each argument. */
function throws(error, wrongs, calls) {
  for (const call of calls) {
    for (const wrong of wrongs) assert.throws(() => call(wrong), error, `${call} of ${wrong}`);
  }
}

test('what is no Uint8Array throws', () => {
  const notLent = [undefined, null];
  const wrong = ['aa', 3, [1, 2], {}, DENSE.buffer, new Float32Array(2)];
  const error = { name: 'TypeError', message: 'bytes are to be a Uint8Array' };
  throws(error, [...notLent, ...wrong], [
    (blob) => fulandewu.read('plain', blob),
    (body) => fulandewu.write(1, 2, body),
    (blob) => fulandewu.convert(blob, 1),
    (first) => fulandewu.distance('l2', first, DENSE),
    (second) => fulandewu.distance('l2', DENSE, second),
    (probe) => fulandewu.nearer('l2', probe, DENSE, DENSE),
    (first) => fulandewu.nearer('l2', DENSE, first, DENSE),
    (second) => fulandewu.nearer('l2', DENSE, DENSE, second),
    (file) => fulandewu.fvecsAt(file, 0),
    (file) => fulandewu.bvecsAt(file, 0),
    (file) => fulandewu.fvecs(file),
    (file) => fulandewu.bvecs(file),
    (blob) => fulandewu.appendFvecs(blob, new Uint8Array(20), 0),
    (out) => fulandewu.appendFvecs(DENSE, out, 0),
  ]);
  throws(error, wrong, [
    (out) => fulandewu.write(1, 2, DENSE, out),
    (out) => fulandewu.convert(DENSE, 1, { out }),
    (scratch) => fulandewu.convert(DENSE, 1, { scratch }),
    (out) => fulandewu.bvecsAt(NOTHING, 0, out),
  ]);
});

test('what is no name or number of its kind throws', () => {
  const noName = { name: 'TypeError', message: /^no (mode|distance) is called / };
  throws(noName, [undefined, null, 0, '', 'Plain', 'euclid', 'toString', '__proto__'], [
    (mode) => fulandewu.read(mode, DENSE),
    (name) => fulandewu.distance(name, DENSE, DENSE),
    (name) => fulandewu.nearer(name, DENSE, DENSE, DENSE),
  ]);
  const wrong = [undefined, null, '1', 1n, -1, 0.5, NaN, Infinity, 2 ** 53];
  throws({ name: 'RangeError', message: / is no length, place or dims$/ }, wrong, [
    (dims) => fulandewu.write(1, dims, DENSE),
    (place) => fulandewu.fvecsAt(DENSE, place),
    (place) => fulandewu.bvecsAt(DENSE, place),
    (fill) => fulandewu.appendFvecs(DENSE, new Uint8Array(20), fill),
  ]);
  throws({ name: 'RangeError', message: / is no type byte$/ }, [...wrong, 256], [
    (kind) => fulandewu.write(kind, 2, DENSE),
    (kind) => fulandewu.convert(DENSE, kind),
  ]);
});
