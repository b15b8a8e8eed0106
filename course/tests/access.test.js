// The page by keyboard alone, and as a screen reader finds it.

import assert from 'node:assert/strict';

import { faultless, inBrowser } from './course.js';
import { Key } from './driver.js';
import { attribute, count, isSeen, texts } from './hands.js';
import { throughStates } from './states.js';

/** What a reader can do something with, by its role. */
const CONTROLS = ['button', 'textbox', 'radio', 'checkbox', 'combobox', 'listbox', 'link'];

/** Answers that are spoken when they change. */
const SPOKEN = [
  '#opening-answer', '#ride-a-answer', '#ride-b-error', '#blob-text-error', '#blob-answer', '#pair-status',
  '#lab-error', '#lab-progress', '#lab-fault',
];

const LANDMARKS = ['header', 'nav', 'main', 'footer'];

/** Presses Tab until an element has the focus. */
async function tabTo(page, css) {
  for (let pressed = 0; pressed < 200; pressed++) {
    if (await page.script((where) => document.activeElement.matches(where), css)) return;
    await page.keys(Key.Tab);
  }
  throw new Error(`Tab does not lead to ${css}`);
}

inBrowser('By keyboard and by ear', (it) => {
  it('every control has a name, and ids, headings and drawings are in order in every state', async (page) => {
    await throughStates(page, async (state) => {
      await faultless(page, ['ids', 'headings', 'pictures'], `in the state '${state}'`);
      const controls = (await page.spoken()).filter(({ role }) => CONTROLS.includes(role));
      assert.ok(controls.length > 30, `${controls.length} controls`);
      assert.deepEqual(controls.filter(({ name }) => name === ''), [], `in the state '${state}' each has a name`);
    });
  });

  it('has a language, a title, landmarks, and answers that are spoken when they change', async (page) => {
    assert.equal(await attribute(page, 'html', 'lang'), 'en');
    assert.notEqual(await page.script(() => document.title), '');
    for (const landmark of LANDMARKS) assert.equal(await count(page, `body ${landmark}`), 1, landmark);
    for (const answer of SPOKEN) {
      const live = `:is([role=status], [role=alert], [aria-live])`;
      assert.equal(await count(page, `${live}${answer}, ${live} ${answer}`), 1, `${answer} is spoken`);
    }
    for (const field of ['#ride-a-cell-0', '#blob-text', '#lab-file']) {
      assert.ok(await attribute(page, field, 'aria-describedby'), `what is wrong with ${field} is told with it`);
    }
  });

  it('the focus is seen at every stop of Tab, forth and back', async (page) => {
    await page.click('#opening-ask');
    await page.click('#lab-sample');
    await page.until('the sample is listed', () => document.querySelector('#lab-rides > li'));
    let last;
    for (const scheme of ['light', 'dark']) {
      await page.look(scheme);
      await page.script(() => inspect.rest());
      const stops = [];
      for (;;) {
        await page.keys(Key.Tab);
        const stop = await page.script(() => inspect.focus());
        if (!stop) break;
        assert.ok(stop.seen, `the focus is not seen (${scheme}): ${stop.where}`);
        stops.push(stop.where);
      }
      assert.ok(stops.length > 40, `${stops.length} stops`);
      last = stops.at(-1);
    }
    await page.chord(Key.Shift, Key.Tab);
    assert.equal((await page.script(() => inspect.focus())).where, last);
  });

  it('the first stop skips to the course', async (page) => {
    await page.keys(Key.Tab);
    assert.equal(await isSeen(page, '.skip'), true);
    await page.keys(Key.Enter);
    assert.equal(await page.script(() => document.activeElement.id), 'main');
  });

  it('a lesson is done by keys alone', async (page) => {
    await tabTo(page, '#lesson-2 [data-do="start"]');
    await page.keys(Key.Enter);
    for (let step = 1; step <= 4; step++) {
      const where = `#lesson-2 [data-step="${step}"]`;
      await tabTo(page, `${where} input`);
      await page.keys(Key.Space, Key.Down);
      assert.equal(await count(page, `${where} .choice:nth-of-type(2) input:checked`), 1);
      await tabTo(page, `${where} [data-do="answer"]`);
      await page.keys(Key.Space);
      assert.equal(await isSeen(page, `${where} .answer`), true);
      await tabTo(page, `${where} [data-do="next"]`);
      await page.keys(Key.Enter);
    }
    assert.equal(await isSeen(page, '#lesson-2 [data-step="end"]'), true);
  });

  it('a ride is typed, stored as another kind and read again by keys alone', async (page) => {
    await tabTo(page, '#ride-a-cell-0');
    await page.chord(Key.Control, 'a');
    await page.keys('7', '5', Key.Tab);
    await page.keys('0', Key.Tab);
    await tabTo(page, '#ride-a-kind');
    await page.keys(Key.Down);
    const [kind] = await texts(page, '#ride-a-answer');
    assert.match(kind, /^Float32Dense: 3 readings in 3 places/);
    await tabTo(page, '#ride-a-to-reader');
    await page.keys(Key.Enter);
    assert.equal(await page.script(() => document.activeElement.id), 'blob-text');
    assert.equal(await page.text('#blob-kind'), 'Float32Dense');
  });
});
