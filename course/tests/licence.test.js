// The page is handed on as one file, so it has its licences inside.

import assert from 'node:assert/strict';
import { readFileSync } from 'node:fs';
import { join } from 'node:path';

import { ROOT, faultless, inBrowser } from './course.js';
import { isSeen } from './hands.js';

inBrowser('The licences', (it) => {
  it('of this project and of what it is a port of are shown when asked for', async (page) => {
    assert.equal(await isSeen(page, '#licence'), false);
    await page.click('.licence summary');
    const texts = ['LICENSE', 'NOTICE'].map((name) => readFileSync(join(ROOT, name), 'utf8'));
    const shown = await page.script(() => document.querySelector('#licence').textContent);
    assert.equal(shown.trim(), texts.join('\n').trim());
    assert.equal(await isSeen(page, '#licence'), true);
    await faultless(page, ['faint'], 'in the licences');
  });
});
