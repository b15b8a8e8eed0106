// Every stored line of the two programs, put to the binding: its answer is spelled as the program spells it, and is
// the stored one. What tests/boundary/replay.c looks at besides, of C's calls, is looked at here too.
import assert from 'node:assert/strict';
import { test } from 'node:test';
import { Kind } from '../fulandewu.js';
import { Room, fileOf, fulandewu, hex } from './common.js';

/** Lines about rounding: no export answers them. */
const ROUNDING = ['root', 'narrow', 'trunc', 'widen'];
const LETTERS = { first: 'a', second: 'b', probe: 'p' };
const OUTPUT_TOO_SHORT = 15;
const SCRATCH_TOO_SHORT = 17;

function unhex(text) {
  assert.match(text, /^([0-9a-f]{2})*$/, 'an answer is stored, so it is hexadecimal');
  return Uint8Array.from(Buffer.from(text, 'hex'));
}

function decimal(text) {
  assert.match(text, /^[0-9]+$/, 'an answer is stored, so it is decimal');
  return Number(text);
}

const spelled = (...fields) => fields.join('\t');

/** A refusal with what it carries, and of several blobs the one that it is about. */
function refused({ number, which, entry, place, need }, named = false) {
  const about = named ? [which === null ? '-' : LETTERS[which]] : [];
  return spelled('R', number, ...about, ...[entry, need, place].filter((carried) => carried !== null));
}

function viewed(letter, { kind, dims, body, readings }) {
  return spelled(letter, kind, dims, hex(body), readings);
}

function replayRead(mode, blob) {
  const view = fulandewu.read(mode, unhex(blob));
  return view.refusal ? refused(view.refusal) : viewed('V', view);
}

/** Asks with new buffers of these lengths. A refusal changes none of their bytes. */
function lend(ask, lengths) {
  const rooms = { scratch: new Room(lengths.scratch), out: new Room(lengths.out) };
  const answer = ask({ scratch: rooms.scratch.bytes, out: rooms.out.bytes });
  if (answer.refusal) Object.values(rooms).forEach((room) => room.untouched());
  return { answer, rooms };
}

/**
 * Asks with empty buffers, then with each as long as was said to be needed: one byte less than that is refused with
 * the same need, and a few more change nothing.
 */
function inRoom(ask) {
  const lengths = { scratch: 0, out: 0 };
  let { answer } = lend(ask, lengths);
  while ([OUTPUT_TOO_SHORT, SCRATCH_TOO_SHORT].includes(answer.refusal?.number)) {
    const short = answer.refusal.number === OUTPUT_TOO_SHORT ? 'out' : 'scratch';
    const { need } = answer.refusal;
    assert.ok(need > lengths[short], 'what is needed was there');
    assert.deepEqual(lend(ask, { ...lengths, [short]: need - 1 }).answer, answer);
    lengths[short] = need;
    ({ answer } = lend(ask, lengths));
  }
  if (answer.refusal) return { answer };
  const longer = lend(ask, { scratch: lengths.scratch + 3, out: lengths.out + 5 });
  assert.deepEqual(longer.answer, answer);
  return longer;
}

function replayWrite(kind, dims, body) {
  const given = [decimal(kind), decimal(dims), unhex(body)];
  const { answer, rooms } = inRoom(({ out }) => fulandewu.write(...given, out));
  if (answer.refusal) return refused(answer.refusal);
  assert.equal(answer.length, answer.blob.length);
  rooms.out.untouchedBut(0, answer.length);
  return spelled('W', hex(answer.blob));
}

/** The scratch of a conversion holds the dense body where it is used, and else what it held. */
function checkScratch(blob, kind, scratch) {
  const packed = kind === Kind.Float1Bit || kind === Kind.Float8;
  const used = packed && fulandewu.read('plain', blob).kind === Kind.Float32Sparse;
  const dense = used ? fulandewu.convert(blob, Kind.Float32Dense).body : new Uint8Array(0);
  assert.equal(hex(scratch.bytes.subarray(0, dense.length)), hex(dense), 'scratch is not the dense body');
  scratch.untouchedBut(0, dense.length);
}

function replayConvert(kindText, blobText) {
  const [kind, blob] = [decimal(kindText), unhex(blobText)];
  const { answer, rooms } = inRoom((lent) => fulandewu.convert(blob, kind, lent));
  if (answer.refusal) return refused(answer.refusal);
  rooms.out.untouchedBut(0, answer.body.length);
  checkScratch(blob, kind, rooms.scratch);
  return viewed('C', answer);
}

/** The counts of a distance, which no reply has, are those that the reader gives of its blobs. */
function replayDistance(name, ...texts) {
  const blobs = texts.map(unhex);
  const measured = fulandewu.distance(name, ...blobs);
  if (measured.refusal) return refused(measured.refusal, true);
  const counts = blobs.map((blob) => fulandewu.read('plain', blob).readings);
  assert.deepEqual([measured.readings, measured.otherReadings], counts);
  checkPattern(measured);
  return spelled('D', measured.pattern);
}

/** The number of a distance has the bits that its pattern says. */
function checkPattern({ distance, pattern }) {
  const number = new DataView(new ArrayBuffer(8));
  number.setBigUint64(0, BigInt(`0x${pattern}`));
  assert.ok(Object.is(number.getFloat64(0), distance), `${distance} is not ${pattern}`);
}

const DISTANCES = new Map([['cos', 'cos'], ['l2', 'l2'], ['dot', 'dot'], ['jac', 'jaccard']]);

function replayNearer(name, ...blobs) {
  assert.ok(DISTANCES.has(name), 'an answer is stored, so it is a distance');
  const found = fulandewu.nearer(DISTANCES.get(name), ...blobs.map(unhex));
  if (found.refusal) return refused(found.refusal, true);
  checkPattern(found);
  return spelled('N', found.nearer === 'first' ? 1 : 2, found.pattern, found.readings);
}

/** Only `bvecsAt` takes a buffer. */
function replayVector(method, place, fileText) {
  const file = unhex(fileText);
  const { answer, rooms } = inRoom(({ out }) => fulandewu[method](file, decimal(place), out));
  if (answer.refusal) return refused(answer.refusal);
  const written = answer.view?.body.buffer === rooms.out.bytes.buffer ? answer.view.body.length : 0;
  rooms.out.untouchedBut(0, written);
  return answer.view ? spelled('I', answer.next, answer.view.dims, hex(answer.view.body)) : 'E';
}

/** The buffer of the line with the bytes that are written. */
function replayAppend(fillText, bufferText, blob) {
  const [fill, before, buffer] = [decimal(fillText), unhex(bufferText), unhex(bufferText)];
  const answer = fulandewu.appendFvecs(unhex(blob), buffer, fill);
  if (answer.refusal) {
    assert.deepEqual(buffer, before);
    return refused(answer.refusal);
  }
  return spelled('A', answer.fill, hex(buffer));
}

/** By its first field, what a line asks. */
const VERBS = new Map([
  ['read', (blob) => replayRead('plain', blob)],
  ['strict', (blob) => replayRead('strict', blob)],
  ['write', replayWrite],
  ['conv', replayConvert],
  ['near', replayNearer],
  ['fvecs', (place, file) => replayVector('fvecsAt', place, file)],
  ['bvecs', (place, file) => replayVector('bvecsAt', place, file)],
  ['append', replayAppend],
  ...[...DISTANCES].map(([verb, name]) => [verb, (...blobs) => replayDistance(name, ...blobs)]),
]);

/** The lines of a file. They may have any byte in them: each is one character here. */
function linesOf(path) {
  const lines = fileOf(path).toString('latin1').split('\n');
  return lines.at(-1) === '' ? lines.slice(0, -1) : lines;
}

/** Puts a line to the binding. Answers what it counts as. */
function replay(line, stored) {
  if (stored === 'X') return 'shapeless';
  const [verb, ...fields] = line.split('\t');
  if (ROUNDING.includes(verb)) return 'rounding';
  assert.ok(VERBS.has(verb), `an answer is stored, but no line starts with ${verb}`);
  assert.equal(VERBS.get(verb)(...fields), stored);
  return verb;
}

/** Replays the lines of a program. Answers how many there were of each sort. */
function replayAll(folder) {
  const [asked, answers] = ['stdin', 'stdout'].map((name) => linesOf(`${folder}/${name}`));
  assert.equal(answers.length, asked.length);
  const counts = {};
  asked.forEach((line, i) => {
    try {
      const [, number, stored] = /^(\d+)\t(.*)$/.exec(answers[i]);
      assert.equal(number, `${i + 1}`);
      const sort = replay(line, stored);
      counts[sort] = (counts[sort] ?? 0) + 1;
    } catch (error) {
      throw new Error(`line ${i + 1} of ${folder}: ${error.message}`, { cause: error });
    }
  });
  return counts;
}

/** The lines of a program are as stored, and there are some of each of these verbs. */
function expectReplayed(t, folder, verbs) {
  const { shapeless = 0, rounding = 0, ...replayed } = replayAll(folder);
  assert.deepEqual(Object.keys(replayed).sort(), verbs.sort());
  const lines = Object.values(replayed).reduce((sum, count) => sum + count, 0);
  t.diagnostic(`${folder}: ${lines} lines replayed; ${rounding} about rounding and ${shapeless} of no shape left out`);
}

test('the stored lines of vecprobe', (t) => {
  expectReplayed(t, 'crates/vecprobe', ['read', 'strict', 'write', 'conv', 'near', 'fvecs', 'bvecs', 'append']);
});

test('the stored lines of vecdist', (t) => {
  expectReplayed(t, 'crates/vecdist', [...DISTANCES.keys()]);
});
