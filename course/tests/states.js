// The states of the page that a reader brings about: what is asked of every look is asked in each of them.

import { pasteBlob, useBlob } from './hands.js';

/** The largest f64, and the least one. */
const LARGEST = 'ffffffffffffef7f';
const LEAST = 'ffffffffffffefff';

/** Answers the first step of a lesson by its first or last choice. */
async function guess(page, lesson, choice) {
  const step = `#lesson-${lesson} [data-step="1"]`;
  await page.click(`#lesson-${lesson} [data-do="start"]`);
  await page.click(`${step} .choice:${choice}-of-type input`);
  await page.click(`${step} [data-do="answer"]`);
}

/** Waits until the sample file is listed, and compares its first ride. */
async function sample(page, which) {
  await page.click(`#lab-sample${which}`);
  await page.until('the sample is listed', () => document.querySelector('#lab-rides > li'));
  await page.click('#lab-rides > li:first-child [data-do="compare"]');
}

/** Each state by name, one after the other in a page. */
export const STATES = {
  'as opened': async () => {},
  'the opening answered': (page) => page.click('#opening-ask'),
  'no reading': (page) => page.fill('#ride-a-cell-1', 'abc'),
  'a long text': (page) => page.fill('#ride-a-cell-1', 'x'.repeat(300)),
  'a large number': (page) => page.fill('#ride-a-cell-1', '123456789012345678901234567890.123456789'),
  'rides mended': (page) => page.fill('#ride-a-cell-1', '0'),
  'a blob read': (page) => pasteBlob(page, '01020304000000400000803fee0104'),
  'a blob refused at an entry': (page) => pasteBlob(page, '000070420000a04201000000050000000200000009'),
  'no blob': (page) => page.fill('#blob-text', 'x'.repeat(300)),
  'a long blob': (page) => pasteBlob(page, '0000704200000000'.repeat(400)),
  'two bit rides': async (page) => {
    await useBlob(page, 'a', 'aabbcc1903');
    await useBlob(page, 'b', 'ab0903');
  },
  'a pair refused': (page) => useBlob(page, 'b', 'aa0703'),
  'a belt that stutters': (page) => useBlob(page, 'a', '0000803f0000004007000000070000000800000009'),
  'no likeness': async (page) => {
    await useBlob(page, 'a', '0200000009');
    await useBlob(page, 'b', '000070420000a04200000000010000000200000009');
  },
  'the largest numbers': async (page) => {
    await useBlob(page, 'a', `${LARGEST}${LEAST}02`);
    await useBlob(page, 'b', `${LEAST}${LARGEST}02`);
  },
  'a right guess': (page) => guess(page, 1, 'first'),
  'a wrong guess': (page) => guess(page, 2, 'last'),
  'no guess': async (page) => {
    await page.click('#lesson-3 [data-do="start"]');
    await page.click('#lesson-3 [data-step="1"] [data-do="answer"]');
  },
  'a sample file': (page) => sample(page, ''),
  'a damaged file': (page) => sample(page, '-cut'),
};

/** Brings one state about after the other, and asks something in each. */
export async function throughStates(page, ask) {
  for (const [name, bring] of Object.entries(STATES)) {
    await bring(page);
    await ask(name);
  }
}
