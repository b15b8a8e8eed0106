// The table of the twenty-five conversions of ride A.

import assert from 'node:assert/strict';

import { Kind } from '../../bindings/js/fulandewu.js';
import { inBrowser, loadModule, toHex } from './course.js';
import { blobOf, count, texts, typeRide, useBlob } from './hands.js';

const module = await loadModule();
const KINDS = Object.values(Kind);

/** A ride with readings, a gap and a zero. */
const TYPED = ['60', 'none', '0', '80.7'];
const CELLS = [60, null, 0, 80.7];

/** A blob made another kind. */
function made(blob, kind) {
  const { dims, body } = module.convert(blob, kind);
  return module.write(kind, dims, body).blob;
}

function elements(blob) {
  return [...new Float64Array(module.convert(blob, Kind.Float64Dense).body.slice().buffer)];
}

/** What a cell has to say of a conversion, by the module. */
function expected(ride, from, to) {
  const before = made(ride, from);
  const after = made(before, to);
  const [had, has] = [before, after].map((blob) => module.read('plain', blob).readings);
  const now = elements(after);
  const changed = elements(before).filter((value, place) => !Object.is(value, now[place])).length;
  return { had, has, changed, same: toHex(made(after, from)) === toHex(before) };
}

/** Checks a cell against the module's own answers. */
function checkCell(words, { had, has, changed, same }, dims) {
  assert.equal(/loses nothing/.test(words), had === has && changed === 0 && same, words);
  assert.equal(words.includes('Gaps are filled'), has > had, words);
  assert.equal(words.includes('Zeros are dropped'), has < had, words);
  if (had !== has) assert.match(words, new RegExp(`\\b${had} readings? becomes? ${has}\\b`));
  assert.equal(/numbers? changes?/.test(words), changed > 0, words);
  if (changed) assert.match(words, new RegExp(`\\b${changed} of ${dims} numbers changes?: \\S+ becomes \\S+`));
  assert.equal(words.includes('other bytes'), !same, words);
}

inBrowser('The twenty-five conversions', (it) => {
  for (const kind of [Kind.Float32Sparse, Kind.Float64Dense, Kind.Float8]) {
    it(`of a ride of kind ${kind} say what they lose`, async (page) => {
      await typeRide(page, 'a', kind, TYPED);
      const ride = blobOf(module, kind, CELLS);
      assert.equal(await count(page, '#conversions-table td'), 25);
      for (const from of KINDS) {
        for (const to of KINDS) {
          const [words] = await texts(page, `#conversion-${from}-${to}`);
          checkCell(words, expected(ride, from, to), CELLS.length);
        }
      }
    });
  }

  it('follow ride A, and go where it is refused or no ride', async (page) => {
    const [before] = await texts(page, '#conversions-table');
    await page.fill('#ride-a-cell-0', '61.25');
    const [after] = await texts(page, '#conversions-table');
    assert.notEqual(before, after);
    await page.fill('#ride-a-cell-0', 'x');
    assert.equal(await count(page, '#conversions-table td'), 0);
    assert.match(await page.text('#conversions-message'), /^Ride A: Not yet a ride/);
    await useBlob(page, 'a', 'aa0703');
    assert.equal(await count(page, '#conversions-table td'), 0);
    assert.match(await page.text('#conversions-message'), /^Ride A: Refused by 6/);
  });

  it('of a ride of no place are refused where a kind has none', async (page) => {
    await typeRide(page, 'a', Kind.Float32Sparse, []);
    const [words] = await texts(page, `#conversion-${Kind.Float32Sparse}-${Kind.Float1Bit}`);
    assert.match(words, /Refused by 16/);
    assert.equal((await texts(page, '#conversions-table td')).filter((text) => text).length, 25);
  });
});
