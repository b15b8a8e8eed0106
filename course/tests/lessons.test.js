// The three lessons, each to its end, with right guesses and with wrong ones.

import assert from 'node:assert/strict';

import { Kind } from '../../bindings/js/fulandewu.js';
import { fromHex, inBrowser, loadModule } from './course.js';
import { attribute, isSeen, shownHex, texts, values } from './hands.js';

const module = await loadModule();

/** The outcome of a distance, as the page's choices name it. */
function outcome({ refusal, distance }) {
  if (refusal) return 'refused';
  return Number.isNaN(distance) ? 'no likeness' : distance === 0 ? 'zero' : 'above';
}

const cos = (a, b) => [a, b, () => outcome(module.distance('cos', fromHex(a), fromHex(b)))];
const dims = (a, b) => [a, b, () => String(module.read('plain', fromHex(a)).dims ?? 'refused')];
const converted = (a, kind) => [a, a, () => String(module.convert(fromHex(a), kind).readings)];

/** The rides of each step, after docs/COURSE.md, and the choice that the module's answer makes right. */
const LESSONS = [
  [
    cos('0000000000000000', '0000000000000000'),
    cos('0200000009', '0200000009'),
    converted('000070420000a04200000000020000000300000009', Kind.Float32Dense),
    converted('00007042000000000000a042', Kind.Float32Sparse),
  ],
  [
    cos('000070420000a042', '0000f04200002043'),
    ['000070420000a042', '0000f04200002043', (a, b) => String(module.distance('l2', a, b).distance)],
    cos('00'.repeat(12), '00'.repeat(12)),
    ['000070420000a04200000000010000000200000009', '0200000009',
      (a, b) => module.nearer('cos', a, b, fromHex('00007042000000000200000009')).nearer],
  ],
  [
    dims('aa0803', 'aa0803'),
    dims('aa0903', 'aa0803'),
    dims('aa0703', 'aa0803'),
    ['0200000009', '0300000009', (a, b) => [a, b].map((blob) => module.read('plain', blob).dims).join(' and ')],
    cos('aa0803', 'aa0903'),
  ],
];

/** Goes through one step: its rides are set up, a guess is made and judged. */
async function step(page, where, [a, b, right], guessRight) {
  assert.equal(await isSeen(page, where), true);
  assert.equal(await shownHex(page, '#ride-a-blob'), a);
  assert.equal(await shownHex(page, '#ride-b-blob'), b);
  await page.click(`${where} [data-do="answer"]`);
  assert.match(await page.text(`${where} .error`), /Guess first/);
  assert.equal(await isSeen(page, `${where} .answer`), false);

  const expected = right(fromHex(a), fromHex(b));
  const choices = await values(page, `${where} input`);
  assert.equal(choices.filter((value) => value === expected).length, 1, `'${expected}' is one choice of ${choices}`);
  const guess = guessRight ? expected : choices.find((value) => value !== expected);
  await page.click(`${where} input[value="${guess}"]`);
  await page.click(`${where} [data-do="answer"]`);
  assert.equal(await isSeen(page, `${where} .answer`), true);
  assert.equal(await attribute(page, `${where} .answer`, 'data-verdict'), guessRight ? 'right' : 'other');
  assert.equal((await texts(page, `${where} .answer p`)).filter((line) => line).length, 3, 'verdict, answer and rule');
  await page.click(`${where} [data-do="next"]`);
}

inBrowser('The lessons', (it) => {
  for (const [i, steps] of LESSONS.entries()) {
    const lesson = `#lesson-${i + 1}`;
    for (const guessRight of [true, false]) {
      it(`${i + 1} goes to its end with ${guessRight ? 'right' : 'wrong'} guesses, and starts again`, async (page) => {
        await page.click(`${lesson} [data-do="start"]`);
        for (const [at, each] of steps.entries()) {
          await step(page, `${lesson} [data-step="${at + 1}"]`, each, guessRight);
        }
        assert.equal(await isSeen(page, `${lesson} [data-step="end"]`), true);
        assert.match(await page.text(`${lesson} [data-step="end"]`), /^What to take away: ./);
        await page.click(`${lesson} [data-do="start"]`);
        assert.equal(await isSeen(page, `${lesson} [data-step="end"]`), false);
        await step(page, `${lesson} [data-step="1"]`, steps[0], !guessRight);
      });
    }
  }

  it('leave the ride that was typed to be put back', async (page) => {
    await page.fill('#ride-a-cell-0', '61');
    const own = await shownHex(page, '#ride-a-blob');
    await page.click('#lesson-3 [data-do="start"]');
    assert.notEqual(await shownHex(page, '#ride-a-blob'), own);
    await page.click('#ride-a-back');
    assert.equal(await shownHex(page, '#ride-a-blob'), own);
  });
});
