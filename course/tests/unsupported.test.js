// A browser whose WebAssembly has no 64-bit memory.

import assert from 'node:assert/strict';

import { BROWSERS } from '../../bindings/js/fulandewu.js';
import { inBrowser, openCourse } from './course.js';
import { isSeen } from './hands.js';

inBrowser('A browser without 64-bit memory', (it) => {
  it('is told which versions have it, and shown nothing that does not work', async (page) => {
    await page.beforeEachPage('WebAssembly.validate = () => false;');
    await openCourse(page, '#unsupported');
    assert.ok((await page.text('#unsupported')).includes(BROWSERS));
    assert.match(BROWSERS, /Chrome .* 133.*Firefox .* 134/);
    assert.equal(await isSeen(page, '#sections'), false);
    const controls = () => [...document.querySelectorAll('button, input')].filter(inspect.seen).length;
    assert.equal(await page.script(controls), 0);
  });
});
