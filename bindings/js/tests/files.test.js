// Files of vectors: what stands at a place, whole files, long ones in parts, blobs appended and read back.
import assert from 'node:assert/strict';
import { test } from 'node:test';
import { Kind, MOST_DIMS } from '../fulandewu.js';
import {
  BLOBS, KINDS, REFUSED, Room, bytes, fileOf, fulandewu, grow, hex, newExports, readersRefusal, refusal,
} from './common.js';

/** Four rides, 60 with 80, none, 120 and 255, and where their vectors start. */
const FILES = {
  fvecs: {
    file: bytes('02000000000070420000a04200000000010000000000f0420100000000007f43'),
    places: [0, 12, 16, 24, 32],
  },
  bvecs: { file: bytes('020000003c5000000000010000007801000000ff'), places: [0, 6, 10, 15, 20] },
};
const RIDES = ['000070420000a042', '', '0000f042', '00007f43'].map(bytes);
const FORMATS = ['fvecs', 'bvecs'];
const RIDE = BLOBS[Kind.Float32Dense];

const at = (format, file, place) => fulandewu[`${format}At`](file, place);
const end = (next) => ({ refusal: null, view: null, next });

/** A vector of a file as it should be shown. */
function shown(body) {
  const dims = body.length / 4;
  return { refusal: null, kind: Kind.Float32Dense, dims, readings: dims, body, values: null, indices: null };
}

/** All that a generator yields. One that does not end fails. */
function allOf(walked) {
  const all = [];
  for (const view of walked) {
    assert.ok(all.push(view) <= 2000, 'there is no end');
  }
  return all;
}

test('a file is walked, whole and cut at every length', () => {
  for (const format of FORMATS) {
    const { file, places } = FILES[format];
    for (let length = 0; length <= file.length; length++) {
      const whole = places.slice(1).filter((next) => next <= length).length;
      const cut = places[whole] < length ? [refusal(19, { place: places[whole] })] : [];
      const walked = fulandewu[format](file.subarray(0, length));
      assert.deepEqual(allOf(walked), [...RIDES.slice(0, whole).map(shown), ...cut]);
      assert.deepEqual(walked.next(), { value: undefined, done: true });
    }
  }
});

test('what stands at a place', () => {
  for (const format of FORMATS) {
    const { file, places } = FILES[format];
    for (const [i, ride] of RIDES.entries()) {
      assert.deepEqual(at(format, file, places[i]), { refusal: null, view: shown(ride), next: places[i + 1] });
    }
    for (const past of [0, 1, 1000, Number.MAX_SAFE_INTEGER - file.length]) {
      assert.deepEqual(at(format, file, file.length + past), end(file.length));
      assert.deepEqual(at(format, new Uint8Array(0), past), end(0));
    }
  }
  const { file, places } = FILES.fvecs;
  for (const [i, { body }] of allOf(fulandewu.fvecs(file)).entries()) {
    assert.deepEqual([body.buffer, body.byteOffset], [file.buffer, places[i] + 4], 'nothing is copied');
  }
});

test('vectors of a bvecs file have buffers of their own', () => {
  const [first, , second] = fulandewu.bvecs(FILES.bvecs.file);
  assert.notEqual(first.body.buffer, second.body.buffer);
  first.body.fill(0xff);
  assert.equal(hex(second.body), hex(RIDES[2]));
});

test('counts at and over the limit', () => {
  for (const format of FORMATS) {
    for (const count of ['01000100', '00000080', 'ffffffff']) {
      for (const after of ['', '0909090909']) {
        const file = bytes(`00000000${count}${after}`);
        assert.deepEqual(at(format, file, 4), refusal(9));
        assert.deepEqual(allOf(fulandewu[format](file)), [shown(new Uint8Array(0)), refusal(9)]);
      }
    }
    assert.deepEqual(at(format, bytes('00000100'), 0), refusal(19, { place: 0 }));
    // a place inside a vector is taken as given: the bytes of 60 as a count
    assert.deepEqual(at(format, FILES.fvecs.file, 4), refusal(9));
  }
});

test('each byte is the float of its number', () => {
  const file = Uint8Array.of(0, 1, 0, 0, ...Array(256).keys());
  const floats = new DataView(new ArrayBuffer(1024));
  for (let byte = 0; byte < 256; byte++) floats.setFloat32(4 * byte, byte, true);
  const { view, next } = fulandewu.bvecsAt(file, 0);
  assert.deepEqual([hex(view.body), next], [hex(new Uint8Array(floats.buffer)), 260]);
});

/** Numbers that look random, the same in each run. */
function* numbers() {
  for (let state = 0x9e3779b9; ; ) {
    state ^= state << 13;
    state ^= state >>> 17;
    state ^= state << 5;
    yield state >>> 0;
  }
}

/** A file of vectors of these dims, with elements that look random. */
function fileOfDims(elementBytes, dims) {
  const random = numbers();
  const vectors = dims.map((count) => {
    const vector = new Uint8Array(4 + elementBytes * count).map(() => random.next().value);
    new DataView(vector.buffer).setUint32(0, count, true);
    return vector;
  });
  return Uint8Array.from(Buffer.concat(vectors));
}

/** What the export itself answers at a place of a file that is put whole into its memory, behind the answer. */
async function wholeFile(format, file) {
  const exports = await newExports();
  const start = 16 * Math.ceil(Number(exports.__heap_base.value) / 16);
  const [from, out] = [start + 256, start + 256 + file.length];
  grow(exports.memory, Math.ceil((out + 4 * MOST_DIMS) / 65_536));
  const memory = new Uint8Array(exports.memory.buffer);
  memory.set(file, from);
  const room = format === 'bvecs' ? [BigInt(out), BigInt(4 * MOST_DIMS)] : [];
  return (place) => {
    const words = [BigInt(from), BigInt(file.length), BigInt(place), ...room, BigInt(start)];
    const number = exports[`fulandewu_${format}_read`](...words);
    const field = (i) => Number(new DataView(memory.buffer).getBigUint64(start + 8 * i, true));
    if (number) return refusal(number, number === 19 ? { place: field(12) } : {});
    if (!field(13)) return end(file.length);
    const [dims, begin] = [field(2), format === 'bvecs' ? out : from + field(10)];
    return { refusal: null, view: shown(memory.slice(begin, begin + 4 * dims)), next: field(11) };
  };
}

/** Walks a file; each answer is what the export shows of the whole. Answers where it ends. */
async function walkedAsWhole(format, file) {
  const whole = await wholeFile(format, file);
  const walked = fulandewu[format](file);
  for (let place = 0; ; ) {
    const answer = at(format, file, place);
    assert.deepEqual(answer, whole(place), `at ${place}`);
    const ended = !answer.refusal && !answer.view;
    assert.deepEqual(walked.next(), { value: ended ? undefined : answer.view ?? answer, done: ended });
    if (!answer.view) return place;
    assert.ok(answer.next > place, 'there is no end');
    place = answer.next;
  }
}

test('a long file shows what it shows as a whole, and so it does where it is cut', async () => {
  const dims = [0, 1, 360, 1022, 1023, 1024, 4091, 4092, 4093, 65_535, MOST_DIMS];
  for (const [format, elementBytes] of [['fvecs', 4], ['bvecs', 1]]) {
    const file = fileOfDims(elementBytes, [...Array(8).fill(dims).flat(), MOST_DIMS]);
    const last = file.length - elementBytes * MOST_DIMS - 4;
    assert.ok(last > 1_000_000);
    assert.equal(await walkedAsWhole(format, file), file.length);
    assert.equal(await walkedAsWhole(format, file.subarray(0, file.length - 1)), last);
    for (const length of [last + 1, last + 3, last + 4, last + 4096, last + 4097, file.length - 1]) {
      assert.deepEqual(at(format, file.subarray(0, length), last), refusal(19, { place: last }));
    }
    assert.deepEqual(at(format, file.subarray(0, last), last), end(last));
    file.fill(0xff, last, last + 4);
    assert.equal(await walkedAsWhole(format, file), last);
    assert.deepEqual(at(format, file, last), refusal(9));
  }
});

test('what is appended', () => {
  for (const blob of [RIDE, Uint8Array.of(...RIDE, 1)]) {
    for (let fill = 0; fill <= 8; fill++) {
      const room = new Room(20);
      assert.deepEqual(fulandewu.appendFvecs(blob, room.bytes, fill), { refusal: null, fill: fill + 12 });
      assert.equal(hex(room.bytes.subarray(fill, fill + 12)), hex(FILES.fvecs.file.subarray(0, 12)));
      room.untouchedBut(fill, fill + 12);
    }
    for (const fill of [9, 19, 20, 21, 1000, Number.MAX_SAFE_INTEGER]) {
      const room = new Room(20);
      assert.deepEqual(fulandewu.appendFvecs(blob, room.bytes, fill), refusal(15, { need: 12 }));
      room.untouched();
    }
  }
  assert.deepEqual(fulandewu.appendFvecs(new Uint8Array(0), new Uint8Array(4), 0), { refusal: null, fill: 4 });
  assert.deepEqual(fulandewu.appendFvecs(new Uint8Array(0), new Uint8Array(3), 0), refusal(15, { need: 4 }));
});

test('what is not appended', () => {
  const room = new Room(64);
  for (const fill of [0, 64, Number.MAX_SAFE_INTEGER]) {
    for (const [number, blob] of Object.entries(REFUSED)) {
      assert.deepEqual(fulandewu.appendFvecs(blob, room.bytes, fill), readersRefusal(Number(number)));
    }
    for (const kind of KINDS.filter((other) => other !== Kind.Float32Dense)) {
      assert.deepEqual(fulandewu.appendFvecs(BLOBS[kind], room.bytes, fill), refusal(13));
    }
  }
  room.untouched();
});

test('the longest vector is appended, at the end of a long buffer too', () => {
  const blob = fileOfDims(4, [MOST_DIMS]).subarray(4);
  const room = new Room(1_500_000);
  const last = room.bytes.length - blob.length - 4;
  assert.deepEqual(fulandewu.appendFvecs(blob, room.bytes, last + 1), refusal(15, { need: blob.length + 4 }));
  room.untouched();
  assert.deepEqual(fulandewu.appendFvecs(blob, room.bytes, last), { refusal: null, fill: room.bytes.length });
  room.untouchedBut(last, room.bytes.length);
  const { view, next } = fulandewu.fvecsAt(room.bytes, last);
  assert.deepEqual([hex(view.body) === hex(blob), next], [true, room.bytes.length]);
});

test('two thousand blobs read back', () => {
  const random = numbers();
  const below = (limit) => (random.next().value >>> 8) % limit;
  const blobs = Array.from({ length: 2000 }, () => new Uint8Array(4 * below(16)).map(() => below(256)));
  const file = new Uint8Array(200_000);
  let fill = 0;
  for (const blob of blobs) ({ fill } = fulandewu.appendFvecs(blob, file, fill));
  assert.equal(fill, blobs.reduce((sum, blob) => sum + 4 + blob.length, 0));
  assert.deepEqual(allOf(fulandewu.fvecs(file.subarray(0, fill))), blobs.map(shown));
});

test('the file of three rides is made again by appending its rides', () => {
  const lab = fileOf('examples/lab.fvecs');
  const again = new Uint8Array(lab.length);
  let fill = 0;
  for (const ride of allOf(fulandewu.fvecs(lab))) ({ fill } = fulandewu.appendFvecs(ride.body, again, fill));
  assert.deepEqual([fill, hex(again)], [lab.length, hex(lab)]);
});
