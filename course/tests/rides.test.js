// The cards of ride A and ride B: a row of readings, a kind, and what is stored of it.

import assert from 'node:assert/strict';

import { Kind } from '../../bindings/js/fulandewu.js';
import { inBrowser, loadModule, toHex } from './course.js';
import { attribute, blobOf, choose, isSeen, shownHex, shownParts, texts, typed, typeRide } from './hands.js';

const module = await loadModule();

/** A ride with a reading, none, a zero, and a reading that no small kind keeps. */
const TYPED = ['60', 'none', '0', '80.5', '160'];
const CELLS = [60, null, 0, 80.5, 160];

/** The parts of that ride by its kind, and how many bytes each has (docs/RULES.md, Vectors and blobs). */
const PARTS = {
  Float32Dense: [['readings', 20]],
  Float64Dense: [['readings', 40], ['type byte', 1]],
  Float32Sparse: [['values', 16], ['indices', 16], ['dims', 4], ['type byte', 1]],
  Float1Bit: [['bits', 1], ['trailing count', 1], ['type byte', 1]],
  Float8: [
    ['quantized bytes', 5], ['padding', 3], ['alpha', 4], ['shift', 4], ['unused bytes', 1], ['trailing count', 1],
    ['type byte', 1],
  ],
};

/** Texts that are no reading. */
const NO_READINGS = [
  'abc', '', '   ', '1,5', '1e999', 'NaN', 'Infinity', '0x10', '6 0', '<b>60</b>', '--1', '9'.repeat(400),
];

/** What is shown of a ride, and not where there is none. */
const OF_A_RIDE = [
  '#ride-a-blob', '#ride-a-facts', '#ride-a-row', '#distance-cos', '#distance-l2', '#conversions-table',
];

/** A blob cut into parts of so many bytes. */
function cut(blob, parts) {
  let start = 0;
  return parts.map(([name, length]) => [name, toHex(blob.subarray(start, (start += length)))]);
}

/** The elements of a blob by the module, null where there is no reading. */
function elements(blob) {
  const view = module.read('plain', blob);
  const dense = module.convert(blob, Kind.Float64Dense).body;
  const numbers = [...new Float64Array(dense.slice().buffer)];
  if (view.kind !== Kind.Float32Sparse) return numbers;
  const places = new Set(new Uint32Array(view.indices.slice().buffer));
  return numbers.map((number, place) => (places.has(place) ? number : null));
}

/** What the row of the stored ride shows: a number, or null for none. */
function storedRow(page, letter) {
  return page.script((where) => [...document.querySelectorAll(`${where} li`)].map((cell) => {
    const [value] = cell.getElementsByClassName('value');
    return { shown: value.innerText, exact: cell.title, word: cell.querySelector('.word').innerText };
  }), `#ride-${letter}-row`);
}

inBrowser('A ride', (it) => {
  for (const [name, kind] of Object.entries(Kind)) {
    it(`is stored as ${name}`, async (page) => {
      const blob = blobOf(module, kind, CELLS);
      const view = module.read('plain', blob);
      await typeRide(page, 'a', kind, TYPED);
      assert.equal(await shownHex(page, '#ride-a-blob'), toHex(blob));
      assert.deepEqual(await shownParts(page, '#ride-a-blob', '#ride-a-parts'), cut(blob, PARTS[name]));
      assert.equal(await page.text('#ride-a-dims'), String(view.dims));
      assert.equal(await page.text('#ride-a-readings'), `${view.readings} readings in ${view.dims} places`);
      assert.equal(await page.text('#ride-a-length'), `${blob.length} bytes`);

      const row = await storedRow(page, 'a');
      assert.deepEqual(row.map(({ shown, exact }) => (shown === 'none' ? null : Number(exact))), elements(blob));
      const words = elements(blob).map((value) => (value === null ? 'no reading' : value === 0 ? 'zero' : 'reading'));
      assert.deepEqual(row.map(({ word }) => word), words);

      const filled = elements(blob)[1];
      const loss = await page.script(() => document.querySelector('#ride-a-loss').innerText);
      assert.equal(loss.includes('One none has become'), filled !== null, loss);
      assert.equal(loss.includes('mistake 1'), filled !== null, loss);
    });
  }

  it('tells a reading, zero and none apart by look and by word', async (page) => {
    await typeRide(page, 'b', Kind.Float32Sparse, ['60', '0', 'none', '-0', 'NONE']);
    assert.deepEqual(await texts(page, '#ride-b .cell .word'), ['reading', 'zero', 'no reading', 'zero', 'no reading']);
    const looks = await page.script(() => [0, 1, 2].map((place) => {
      const style = (element) => getComputedStyle(element);
      const field = document.querySelector(`#ride-b-cell-${place}`);
      const cell = style(field.closest('.cell'));
      return [style(field).backgroundImage, style(field).borderStyle, cell.backgroundImage, cell.borderStyle].join();
    }));
    assert.equal(new Set(looks).size, 3, `without colour the three look different: ${looks}`);
  });

  it('keeps what is no reading, says so beside it, and shows nothing stale', async (page) => {
    await typeRide(page, 'a', Kind.Float32Dense, ['60', '80']);
    for (const text of NO_READINGS) {
      await page.fill('#ride-a-cell-1', text);
      assert.equal(await typed(page, '#ride-a-cell-1'), text);
      assert.match(await page.text('#ride-a-error'), /^Not yet a ride: the reading at place 1\b/);
      assert.equal(await attribute(page, '#ride-a-cell-1', 'aria-invalid'), 'true');
      for (const stale of OF_A_RIDE) assert.equal(await isSeen(page, stale), false, `${stale} for '${text}'`);
    }
    await page.fill('#ride-a-cell-1', ' 8e1 ');
    assert.equal(await isSeen(page, '#ride-a-error'), false);
    assert.equal(await shownHex(page, '#ride-a-blob'), '000070420000a042');
  });

  it('has no place, or as many as the row takes', async (page) => {
    await typeRide(page, 'a', Kind.Float32Sparse, []);
    assert.equal(await shownHex(page, '#ride-a-blob'), '0000000009');
    await choose(page, '#ride-a-kind', Kind.Float1Bit);
    assert.match(await page.text('#ride-a-answer'), /^Refused by 16: a 1-bit or Float8 vector cannot have dims 0/);
    assert.equal(await isSeen(page, '#ride-a-blob'), false);
    await choose(page, '#ride-a-kind', Kind.Float32Dense);
    await page.script(() => {
      for (let place = 0; place < 60; place++) document.querySelector('#ride-a-add').click();
    });
    assert.equal(await page.text('#ride-a-dims'), '60');
    assert.equal(await attribute(page, '#ride-a-add', 'disabled'), '');
    assert.match(await page.text('#ride-a-error'), /up to 60 places/);
  });
});
