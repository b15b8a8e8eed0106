// The reader: a blob typed or pasted, shown part by part or refused, in either mode.

import assert from 'node:assert/strict';

import { Kind, LONGEST } from '../../bindings/js/fulandewu.js';
import { fromHex, inBrowser, loadModule, toHex } from './course.js';
import { count, isSeen, pasteBlob, shownHex, shownParts, texts, typed, useBlob, values } from './hands.js';

const module = await loadModule();

/** A blob of each refusal that a blob can have, and the mode that gives it; the wrong entry, its value and index. */
const REFUSED = [
  [1, 'plain', '00'.repeat(LONGEST + 1)],
  [2, 'plain', '05'],
  [2, 'strict', '000006'],
  [3, 'plain', '0000704207'],
  [4, 'plain', '04'],
  [5, 'plain', 'aa1103'],
  [6, 'plain', 'aa0703'],
  [7, 'plain', '000070'.repeat(2)],
  [8, 'plain', '000070420000a04201000000050000000200000009', ['entry 1: 80 at place 5', '0000a042', '05000000']],
  [8, 'strict', '00007042ffffffff0200000009', ['entry 0: 60 at place 4,294,967,295', '00007042', 'ffffffff']],
  [9, 'plain', '0100010009'],
  [10, 'strict', '0000803f0000004007000000070000000800000009', ['entry 1: 2 at place 7', '00000040', '07000000']],
  [11, 'strict', '030f03'],
];

/** Accepted blobs, of each kind and in layouts that the page's own rides never have: kind, dims and parts. */
const ACCEPTED = [
  ['000070420000a042', 'Float32Dense', 2, [['readings', '000070420000a042']]],
  ['0000704201', 'Float32Dense', 1, [['readings', '00007042'], ['type byte', '01']]],
  ['0000000000004e4002', 'Float64Dense', 1, [['readings', '0000000000004e40'], ['type byte', '02']]],
  ['aa0903', 'Float1Bit', 7, [['bits', 'aa'], ['trailing count', '09'], ['type byte', '03']]],
  ['aabbcc1903', 'Float1Bit', 7, [
    ['bits', 'aa'], ['unused bytes', 'bbcc'], ['trailing count', '19'], ['type byte', '03'],
  ]],
  ['01020304000000400000803fee0104', 'Float8', 3, [
    ['quantized bytes', '010203'], ['padding', '04'], ['alpha', '00000040'], ['shift', '0000803f'],
    ['unused bytes', 'ee'], ['trailing count', '01'], ['type byte', '04'],
  ]],
  ['00007042020000000300000009', 'Float32Sparse', 3, [
    ['values', '00007042'], ['indices', '02000000'], ['dims', '03000000'], ['type byte', '09'],
  ]],
];

/** Texts that are no blob. */
const NO_BLOBS = ['0', 'abc', 'xy', '00 0g', '0x00', 'none', 'é€😀', '<script>', '-1', '00,00'];

/** What the page says of the blob that is read. */
async function facts(page) {
  return Object.fromEntries(await Promise.all(['kind', 'dims', 'readings', 'length'].map(async (fact) =>
    [fact, await page.text(`#blob-${fact}`)])));
}

/** How many bytes of a long blob are shown, and how many the page says are not. */
async function shownAndLeftOut(page) {
  const digits = (await texts(page, '#blob-hex .part')).join('').replaceAll(' ', '');
  const said = (await texts(page, '#blob-hex .left-out')).map((words) => /([\d,]+) bytes? left out/.exec(words)[1]);
  return [digits.length / 2, said.reduce((sum, number) => sum + Number(number.replaceAll(',', '')), 0)];
}

/** A sparse blob of so many entries in as many places, of which one is at a place that is not there. */
function wrongAt(entry, entries) {
  const values = Float32Array.from({ length: entries }, (_, i) => i);
  const indices = Uint32Array.from({ length: entries + 1 }, (_, i) => (i === entry ? 70_000 : i));
  return toHex(Buffer.concat([Buffer.from(values.buffer), Buffer.from(indices.buffer), Buffer.of(Kind.Float32Sparse)]));
}

inBrowser('A blob', (it) => {
  for (const [number, mode, hex, entry] of REFUSED) {
    it(`of ${hex.length / 2} bytes is refused by ${number}, ${mode}`, async (page) => {
      const { refusal } = module.read(mode, fromHex(hex));
      assert.equal(refusal?.number, number);
      await pasteBlob(page, hex, mode);
      assert.ok((await page.text('#blob-answer')).startsWith(`Refused by ${number}: ${refusal.words}.`));
      assert.equal(await typed(page, '#blob-text'), hex);
      assert.equal(await isSeen(page, '#blob-facts'), false);
      assert.equal(await isSeen(page, '#blob-row'), false);
      assert.equal(await isSeen(page, '#blob-entry'), entry !== undefined);
      assert.deepEqual(await texts(page, '#blob-hex mark'), entry?.slice(1) ?? []);
      if (entry) assert.ok((await page.text('#blob-entry')).toLowerCase().includes(entry[0]));
    });
  }

  it('that only the strict mode refuses is read by the plain one, and the mode can be changed', async (page) => {
    for (const [number, mode, hex] of REFUSED.filter(([given]) => given >= 10)) {
      await pasteBlob(page, hex, 'plain');
      assert.equal(module.read('plain', fromHex(hex)).refusal, null);
      assert.equal(await page.text('#blob-dims'), String(module.read('plain', fromHex(hex)).dims));
      await page.click(`#mode-${mode}`);
      assert.ok((await page.text('#blob-answer')).startsWith(`Refused by ${number}:`));
    }
  });

  for (const [hex, kind, dims, parts] of ACCEPTED) {
    it(`${hex} is read, part by part`, async (page) => {
      const view = module.read('plain', fromHex(hex));
      assert.equal(view.dims, dims);
      await pasteBlob(page, hex.toUpperCase().replaceAll(/(....)/g, '$1 \n'));
      const some = (number, thing) => `${number} ${thing}${number === 1 ? '' : 's'}`;
      assert.deepEqual(await facts(page), {
        kind,
        dims: String(dims),
        readings: `${some(view.readings, 'reading')} in ${some(dims, 'place')}`,
        length: some(hex.length / 2, 'byte'),
      });
      assert.deepEqual(await shownParts(page, '#blob-hex', '#blob-parts'), parts);
    });
  }

  it('of no byte is a ride of no place', async (page) => {
    await pasteBlob(page, '');
    assert.equal(module.read('plain', fromHex('')).dims, 0);
    assert.equal(await page.text('#blob-kind'), 'Float32Dense');
    assert.equal(await page.text('#blob-dims'), '0');
  });

  it('that is no hexadecimal is kept, and what is wrong is said beside it', async (page) => {
    await pasteBlob(page, 'aa0803');
    for (const text of NO_BLOBS) {
      await page.fill('#blob-text', text);
      assert.equal(await typed(page, '#blob-text'), text);
      assert.notEqual(await page.text('#blob-text-error'), '');
      for (const stale of ['#blob-answer', '#blob-facts', '#blob-hex', '#blob-use-a']) {
        assert.equal(await isSeen(page, stale), false, `${stale} is not shown for '${text}'`);
      }
    }
    await page.fill('#blob-text', 'aa0803');
    assert.equal(await isSeen(page, '#blob-text-error'), false);
    assert.equal(await page.text('#blob-dims'), '8');
  });

  it('of a megabyte of digits is read at once, and what is left out is said', async (page) => {
    const blob = new Uint8Array(8 * 65_536 + 1).fill(0x40);
    blob[blob.length - 1] = 2;
    const start = Date.now();
    await pasteBlob(page, toHex(blob));
    assert.equal(await page.text('#blob-dims'), '65,536');
    assert.ok(Date.now() - start < 5000, `within five seconds, not ${Date.now() - start} ms`);
    const [shown, leftOut] = await shownAndLeftOut(page);
    assert.equal(shown + leftOut, blob.length);
    assert.ok(shown >= 512 && shown < 1000, `${shown} bytes are shown`);
    assert.match(await page.text('#blob-row-rest'), /65,476 more places/);
    await page.click('#blob-use-a');
    await page.click('#blob-use-b');
    assert.equal(await page.text('#ride-a-dims'), '65,536');
    assert.equal(await page.text('#distance-l2'), '0');
    assert.ok(Date.now() - start < 15_000, `within fifteen seconds, not ${Date.now() - start} ms`);
  });

  it('that is long is shown where an entry of it is wrong', async (page) => {
    await pasteBlob(page, wrongAt(500, 1000));
    assert.ok((await page.text('#blob-answer')).startsWith('Refused by 8:'));
    assert.match(await page.text('#blob-entry'), /entry 500: 500 at place 70,000/);
    assert.deepEqual(await texts(page, '#blob-hex mark'), ['0000fa43', '70110100']);
    const [shown, leftOut] = await shownAndLeftOut(page);
    assert.equal(shown + leftOut, 8005);
  });

  it('taken over as a ride keeps its bytes, also where no row could hold them', async (page) => {
    const stuttering = '0000803f0000004007000000070000000800000009';
    await useBlob(page, 'b', stuttering);
    assert.equal(await shownHex(page, '#ride-b-blob'), stuttering);
    assert.match(await page.text('#ride-b-source'), /Place 7 has 2 readings/);
    assert.equal(await count(page, '#ride-b-cells input'), 0);
    const oddPadding = '01020304000000400000803fee0104';
    await useBlob(page, 'a', oddPadding);
    assert.equal(await shownHex(page, '#ride-a-blob'), oddPadding);
    assert.deepEqual(await values(page, '#ride-a-cells input'), ['3', '5', '7']);
    await page.click('#ride-a-to-reader');
    assert.equal((await typed(page, '#blob-text')).replaceAll(/\s/g, ''), oddPadding);
  });

  it('taken over leaves the typed ride to be put back', async (page) => {
    await page.fill('#ride-a-cell-0', '61.5');
    const own = await shownHex(page, '#ride-a-blob');
    await useBlob(page, 'a', 'aa0803');
    assert.notEqual(await shownHex(page, '#ride-a-blob'), own);
    await page.click('#ride-a-back');
    assert.equal(await shownHex(page, '#ride-a-blob'), own);
    assert.equal(await typed(page, '#ride-a-cell-0'), '61.5');
  });
});
