// What the tests of the course page share: the page under test, the module that says what it ought to show, and
// what holds of the page in every test.

import assert from 'node:assert/strict';
import { mkdirSync, readFileSync, writeFileSync } from 'node:fs';
import { dirname, join } from 'node:path';
import { after, before, describe, it } from 'node:test';
import { fileURLToPath, pathToFileURL } from 'node:url';
import { setFlagsFromString } from 'node:v8';

import { isSupported, load } from '../../bindings/js/fulandewu.js';
import { Browser } from './driver.js';

const HERE = dirname(fileURLToPath(import.meta.url));
export const ROOT = dirname(dirname(HERE));

/** The page under test, opened from the disk. */
const PAGE = pathToFileURL(process.env.COURSE_PAGE ?? join(ROOT, 'target/course.html')).href;

/** One test may take so long. */
const TEST_MS = 90_000;

/** The module itself, run by Node: what the page shows is compared with what it answers here. */
export async function loadModule() {
  if (!isSupported()) setFlagsFromString('--experimental-wasm-memory64');
  return load(readFileSync(join(ROOT, 'target/wasm/fulandewu.wasm')));
}

export function fromHex(text) {
  return Uint8Array.from(Buffer.from(text, 'hex'));
}

export function toHex(bytes) {
  return Buffer.from(bytes).toString('hex');
}

/** A path in a folder under target, which is made where it is not there. */
function inTarget(folder, name) {
  mkdirSync(join(ROOT, 'target', folder), { recursive: true });
  return join(ROOT, 'target', folder, name);
}

/** Where a picture of the page is kept. */
export function pictureFile(name) {
  return inTarget('course-pictures', name);
}

/** A file for a test. */
export function scratchFile(name, bytes) {
  const path = inTarget('course-files', name);
  writeFileSync(path, bytes);
  return path;
}

/** Tests of one subject in one browser. Each gets the page newly opened, and is followed by what holds in all. */
export function inBrowser(subject, tests) {
  describe(subject, () => {
    let browser;
    before(async () => {
      browser = await Browser.start();
      await browser.beforeEachPage(readFileSync(join(HERE, 'inspect.js'), 'utf8'));
    });
    after(() => browser?.close());
    tests((name, body) => it(name, { timeout: TEST_MS }, async () => {
      await openCourse(browser);
      await body(browser);
      await wellBehaved(browser);
    }));
  });
}

/** Opens the page as a new reader finds it: wide, light, on a screen. Waits for what it is to show. */
export async function openCourse(browser, shown = '#sections') {
  await browser.size(1200);
  await browser.look('light');
  await browser.open(PAGE);
  assert.equal(await browser.script(() => navigator.onLine), false);
  await browser.until(`${shown} is shown`, (where) => document.querySelector(where)?.checkVisibility(), shown);
}

/** In every state: nothing on the console, no request but the page, nothing sideways. */
export async function wellBehaved(browser) {
  assert.deepEqual(await browser.messages(), [], 'the console is silent');
  const asked = (await browser.requests()).filter((url) => !url.startsWith('data:'));
  assert.ok(asked.every((url) => url === PAGE), `only the page itself is asked for: ${asked}`);
  await inNoWidthSideways(browser);
}

/** Nothing scrolls sideways, wide or narrow. */
export async function inNoWidthSideways(browser) {
  for (const width of [380, 1200]) {
    await browser.size(width);
    await faultless(browser, ['sideways'], `at ${width} px`);
  }
}

/** Questions of inspect.js find no fault; else the first few are told. */
export async function faultless(browser, questions, where) {
  const found = await browser.script((names) => names.map((name) => inspect[name]()), questions);
  for (const [i, faults] of found.entries()) {
    const told = faults.slice(0, 8).join('\n');
    assert.equal(faults.length, 0, `${questions[i]} ${where}: ${faults.length} faults\n${told}`);
  }
}
