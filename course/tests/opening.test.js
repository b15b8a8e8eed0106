// The opening: what the software does for a patient with no pulse.

import assert from 'node:assert/strict';

import { fromHex, inBrowser, loadModule } from './course.js';
import { isSeen } from './hands.js';

const module = await loadModule();

/** The ride of the patient, and the two old rides: 60, 80 and 60, none. */
const NO_PULSE = fromHex('0200000009');
const FULL = fromHex('000070420000a04200000000010000000200000009');
const HALF = fromHex('00007042000000000200000009');

inBrowser('The opening', (it) => {
  it('asks first, and then says that there is no likeness, and that neither is nearer', async (page) => {
    const measured = module.distance('cos', NO_PULSE, FULL);
    const { refusal } = module.nearer('cos', NO_PULSE, FULL, HALF);
    assert.ok(Number.isNaN(measured.distance) && refusal.number === 18);

    assert.equal(await isSeen(page, '#opening-answer'), false);
    await page.click('#opening-ask');
    assert.equal(await isSeen(page, '#opening-answer'), true);
    assert.equal(await page.text('#opening-cos'), 'no likeness to measure');
    assert.equal(await page.text('#opening-cos-pattern'), measured.pattern);
    assert.ok((await page.text('#opening-near')).startsWith(`Refused by 18: ${refusal.words}.`));
    assert.match(await page.text('#opening-end'), /copies no setting/);
  });
});
