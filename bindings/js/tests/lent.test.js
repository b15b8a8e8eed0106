// Lent buffers: what is written to them, what is not, and that answers stay.
import assert from 'node:assert/strict';
import { test } from 'node:test';
import { Kind } from '../fulandewu.js';
import { BLOBS, DISTANCES, KINDS, Room, fulandewu, hex, refusal } from './common.js';

const RIDE = BLOBS[Kind.Float32Dense];
const SPARSE = BLOBS[Kind.Float32Sparse];
const FILE = Uint8Array.of(2, 0, 0, 0, 60, 80);

/** The first of a buffer's bytes, of which these are so many. */
function assertFront(part, room, expected) {
  assert.equal(part.buffer, room.bytes.buffer);
  assert.equal(part.byteOffset, room.bytes.byteOffset);
  assert.equal(hex(part), hex(expected));
  room.untouchedBut(0, expected.length);
}

/** Asks with every buffer that is too short, then with one as long as needed and with longer ones. */
function tryLengths(expected, ask, shown) {
  for (let length = 0; length < expected.length; length++) {
    const short = new Room(length);
    assert.deepEqual(ask(short.bytes), refusal(15, { need: expected.length }));
    short.untouched();
  }
  for (const more of [0, 1, 5]) {
    const room = new Room(expected.length + more);
    assertFront(shown(ask(room.bytes)), room, expected);
  }
}

test('a blob is written to the first bytes of a buffer', () => {
  for (const kind of KINDS) {
    const { dims, body } = fulandewu.read('plain', BLOBS[kind]);
    tryLengths(BLOBS[kind], (out) => fulandewu.write(kind, dims, body, out), (answer) => answer.blob);
  }
});

test('a body is converted to the first bytes of a buffer', () => {
  for (const source of KINDS) {
    for (const target of KINDS) {
      const { body } = fulandewu.convert(BLOBS[source], target);
      const packed = target === Kind.Float1Bit || target === Kind.Float8;
      const dense = source === Kind.Float32Sparse && packed ? RIDE : new Uint8Array(0);
      const ask = (out) => {
        const scratch = new Room(11);
        const answer = fulandewu.convert(BLOBS[source], target, { scratch: scratch.bytes, out });
        if (answer.refusal) scratch.untouched();
        else assertFront(scratch.bytes.subarray(0, dense.length), scratch, dense);
        return answer;
      };
      tryLengths(body, ask, (answer) => answer.body);
    }
  }
});

test('scratch that is too short is refused before a short output', () => {
  for (const kind of [Kind.Float1Bit, Kind.Float8]) {
    for (let length = 0; length < 8; length++) {
      const [scratch, out] = [new Room(length), new Room(0)];
      const told = fulandewu.convert(SPARSE, kind, { scratch: scratch.bytes, out: out.bytes });
      assert.deepEqual(told, refusal(17, { need: 8 }));
      scratch.untouched();
    }
    const lent = { scratch: new Room(8).bytes };
    assert.equal(fulandewu.convert(SPARSE, kind, lent).kind, kind);
    assert.equal(hex(lent.scratch), hex(RIDE));
  }
});

test('bytes of a file are made floats in the first bytes of a buffer', () => {
  tryLengths(RIDE, (out) => fulandewu.bvecsAt(FILE, 0, out), (answer) => answer.view.body);
  for (const file of [FILE.subarray(0, 5), Uint8Array.of(1, 0, 1, 0), new Uint8Array(0)]) {
    const room = new Room(20);
    fulandewu.bvecsAt(file, 0, room.bytes);
    room.untouched();
  }
});

test('what is refused leaves the buffers', () => {
  const [scratch, out] = [new Room(40), new Room(40)];
  const refused = [
    fulandewu.write(7, 0, RIDE, out.bytes),
    fulandewu.write(Kind.Float32Dense, 3, RIDE, out.bytes),
    fulandewu.convert(RIDE.subarray(1), Kind.Float8, { scratch: scratch.bytes, out: out.bytes }),
    fulandewu.convert(SPARSE, 6, { scratch: scratch.bytes, out: out.bytes }),
    fulandewu.appendFvecs(SPARSE, out.bytes, 0),
    fulandewu.appendFvecs(RIDE, out.bytes, 29),
  ];
  assert.deepEqual(refused.map((answer) => answer.refusal.number), [3, 7, 3, 2, 13, 15]);
  scratch.untouched();
  out.untouched();
});

test('a part of a larger buffer is as good as a buffer', () => {
  for (let offset = 0; offset < 9; offset++) {
    const shifted = (blob) => {
      const room = new Uint8Array(blob.length + 20).fill(0xff);
      room.set(blob, offset);
      return room.subarray(offset, offset + blob.length);
    };
    for (const blob of Object.values(BLOBS)) {
      const part = shifted(blob);
      const { kind, dims, body } = fulandewu.read('strict', blob);
      assert.deepEqual(fulandewu.read('strict', part), fulandewu.read('strict', blob));
      assert.deepEqual(fulandewu.write(kind, dims, shifted(body)), fulandewu.write(kind, dims, body));
      assert.deepEqual(fulandewu.convert(part, Kind.Float8), fulandewu.convert(blob, Kind.Float8));
      for (const d of DISTANCES) {
        assert.deepEqual(fulandewu.distance(d, part, blob), fulandewu.distance(d, blob, blob));
        assert.deepEqual(fulandewu.nearer(d, part, part, part), fulandewu.nearer(d, blob, blob, blob));
      }
    }
    assert.deepEqual(fulandewu.bvecsAt(shifted(FILE), 0), fulandewu.bvecsAt(FILE, 0));
  }
});

test('blobs that are lent stay as they are, and answers stay after later calls', () => {
  const all = () => [
    fulandewu.read('plain', SPARSE),
    fulandewu.write(Kind.Float32Dense, 2, RIDE),
    fulandewu.convert(RIDE, Kind.Float64Dense),
    fulandewu.distance('l2', RIDE, RIDE),
    fulandewu.nearer('l2', SPARSE, SPARSE, SPARSE),
    fulandewu.bvecsAt(FILE, 0),
    fulandewu.fvecsAt(FILE, 0),
  ];
  const before = JSON.stringify(Object.values(BLOBS).map(hex));
  const first = all();
  const copy = structuredClone(first);
  for (const blob of Object.values(BLOBS)) {
    for (const kind of KINDS) fulandewu.convert(blob, kind);
    fulandewu.distance('cos', blob, SPARSE);
  }
  fulandewu.convert(new Uint8Array(200_000).fill(0x41), Kind.Float64Dense);
  assert.deepEqual(first, copy);
  assert.deepEqual(all(), first);
  assert.equal(JSON.stringify(Object.values(BLOBS).map(hex)), before);
});
