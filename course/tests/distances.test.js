// Two rides beside each other: the chart, the four distances, and what is refused.

import assert from 'node:assert/strict';

import { fromHex, inBrowser, loadModule } from './course.js';
import { DISTANCES, count, isSeen, texts, useBlob } from './hands.js';

const module = await loadModule();

/** Pairs that have distances: each kind, gaps, zeros, NaN, minus zero, infinities, rides of no place. */
const MEASURED = [
  ['000070420000a042', '0000f04200002043'],
  ['0000000000000000', '0000000000000000'],
  ['0000000000000000', '000070420000a042'],
  ['0200000009', '000070420000a04200000000010000000200000009'],
  ['000070420000a04200000000020000000300000009', '00007042000000000300000009'],
  ['0000803f0000004007000000070000000800000009', '0000803f070000000800000009'],
  ['0000803f00000000', '000000000000803f'],
  ['0000000000004e40000000000000544002', '9a99999999b95e40000000000000644002'],
  ['01020304000000400000803fee0104', '030201000000004000008040000104'],
  ['0000807f0000a042', '00007042000080ff'],
  ['0000c07f00007042', '0000704200007042'],
  ['', ''],
];

/** Pairs that are refused, by which number; L2 alone is refused by 14. */
const REFUSED = [
  [12, 'aa0803', 'aa0903'],
  [13, '000070420000a042', '000070420000a04200000000010000000200000009'],
];

/** What the page shows of the four distances. */
function shown(page) {
  return page.script((names) => names.map((name) => ({
    words: document.getElementById(`distance-${name}`).innerText.trim(),
    pattern: document.getElementById(`distance-${name}-pattern`).innerText.trim(),
  })), DISTANCES);
}

/** A distance in decimal, as a person reads it. */
function decimal(words) {
  return words.endsWith('infinity') ? Number(words.replace('infinity', 'Infinity')) : Number(words);
}

async function putPair(page, first, second) {
  await useBlob(page, 'a', first);
  await useBlob(page, 'b', second);
}

inBrowser('Two rides', (it) => {
  it('are at the distances of the module, in decimal and as patterns', async (page) => {
    let numbers = 0;
    for (const [first, second] of MEASURED) {
      await putPair(page, first, second);
      for (const [i, { words, pattern }] of (await shown(page)).entries()) {
        const name = DISTANCES[i];
        const { distance, pattern: bits } = module.distance(name, fromHex(first), fromHex(second));
        assert.equal(pattern, bits);
        if (Number.isNaN(distance)) assert.equal(words, 'no likeness to measure');
        else assert.ok(Object.is(decimal(words), distance), `${name} of ${first}, ${second} is ${distance}: ${words}`);
        numbers += Number.isNaN(distance) ? 0 : 1;
      }
    }
    assert.ok(numbers > 20 && numbers < 4 * MEASURED.length, `${numbers} are numbers`);
  });

  it('have no distance where they are refused: dims, kinds, L2 of 1-bit rides', async (page) => {
    for (const [number, first, second] of REFUSED) {
      await putPair(page, first, second);
      for (const name of DISTANCES) {
        const { refusal } = module.distance(name, fromHex(first), fromHex(second));
        assert.equal(refusal.number, number);
        assert.ok((await page.text(`#distance-${name}`)).startsWith(`Refused by ${number}: ${refusal.words}.`));
        assert.equal(await isSeen(page, `#distance-${name}-pattern`), false);
      }
    }
    await putPair(page, 'aa0803', 'ab0803');
    assert.match(await page.text('#distance-l2'), /^Refused by 14: there is no L2 of 1-bit vectors\./);
    assert.equal(await page.text('#distance-cos'), '1');
  });

  it('have no distance where one of them is refused, and the page says which', async (page) => {
    await putPair(page, '000070420000a042', 'aa0703');
    assert.match(await page.text('#distance-cos'), /^Refused by 6 \(.*ride B.*\)/i);
    await putPair(page, '000070420000a04201000000050000000200000009', '0200000009');
    assert.match(await page.text('#distance-jaccard'), /^Refused by 8 \(.*ride A.*\)/i);
  });

  it('at NaN are shown in words, and nowhere by a number', async (page) => {
    await putPair(page, '0200000009', '0200000009');
    const shownTexts = await page.script(() => document.body.innerText.match(/.*\bNaN\b.*/g) ?? []);
    assert.deepEqual(shownTexts, []);
    assert.equal(await page.text('#distance-cos'), 'no likeness to measure');
  });

  it('at cosine 0 are said not to be alike, where they differ', async (page) => {
    await putPair(page, '000070420000a042', '0000f04200002043');
    assert.match(await page.text('#distance-cos-remark'), /zero is not likeness/i);
    await putPair(page, '000070420000a042', '000070420000a042');
    assert.doesNotMatch(await page.text('#distance-cos-remark'), /zero is not likeness/i);
  });

  it('are drawn with gaps as gaps and zeros as zeros, and told in words', async (page) => {
    // 60, none, 0, 80 and 60, 80, none, 120
    await putPair(page, '00007042000000000000a0420000000002000000030000000400000009',
      '000070420000a0420000f0420000000001000000030000000400000009');
    assert.match(await page.text('#pair-readings'), /3 readings in 4 places.*3 readings in 4 places/s);
    assert.equal(await count(page, '#pair-chart .dot.a:not(.zero)'), 2);
    assert.equal(await count(page, '#pair-chart .dot.a.zero'), 1);
    assert.equal(await count(page, '#pair-chart .none.a'), 1);
    assert.equal(await count(page, '#pair-chart .dot.b'), 3);
    assert.equal(await count(page, '#pair-chart .none.b'), 1);
    assert.match(await page.script(() => document.querySelector('#pair-chart-text').textContent), /none/);
    const labels = await texts(page, '#pair-chart text');
    const places = labels.filter((label) => ['0', '1', '2', '3'].includes(label));
    assert.deepEqual(places.sort(), ['0', '0', '1', '2', '3'], `the axes: ${labels}`);
    for (const letter of ['a', 'b']) {
      const pieces = await page.script((ride) => [...document.querySelectorAll(`#pair-chart path.line.${ride}`)]
        .map((path) => path.getAttribute('d')).join('').match(/M/g).length, letter);
      assert.equal(pieces, 2, `the line of ride ${letter} breaks at its gap`);
    }
  });
});
