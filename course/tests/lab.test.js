// A lab's file: dropped or chosen, listed, compared; damaged, empty, too large, long.

import assert from 'node:assert/strict';
import { closeSync, ftruncateSync, openSync, readFileSync, rmSync } from 'node:fs';
import { join } from 'node:path';

import { Kind } from '../../bindings/js/fulandewu.js';
import { ROOT, fromHex, inBrowser, loadModule, scratchFile, toHex } from './course.js';
import { DISTANCES, count, isSeen, shownHex, texts, typeRide, useBlob } from './hands.js';

const module = await loadModule();
const GOOD = join(ROOT, 'examples/lab.fvecs');

/** A file of rides: each is its count, and its readings as f32 or as bytes. */
function fileOf(rides, Readings) {
  const parts = rides.flatMap((ride) => [Uint32Array.of(ride.length), Readings.from(ride)]);
  return Buffer.concat(parts.map((part) => Buffer.from(part.buffer)));
}

/** Rides of a file as the module finds them: dims and start, up to the end or a refusal. */
function walked(format, file) {
  const rides = [];
  for (let place = 0; ; ) {
    const found = module[`${format}At`](file, place);
    if (found.refusal || !found.view) return { rides, refusal: found.refusal };
    rides.push({ dims: String(found.view.dims), place: String(place), blob: found.view.body.slice() });
    place = found.next;
  }
}

/** The rides that the page lists: dims and start. */
function listed(page) {
  return page.script(() => [...document.querySelectorAll('#lab-rides > li')].map(({ dataset: { dims, place } }) =>
    ({ dims, place })));
}

/** Waits until the file is read. */
async function done(page) {
  await page.until('the file is read', () => document.querySelector('#lab-stop').hidden
    && (document.querySelector('#lab-progress').textContent || document.querySelector('#lab-error').textContent));
}

/** Checks the list against the module's own walk of the file. */
async function checkListed(page, format, file) {
  await done(page);
  const { rides, refusal } = walked(format, file);
  assert.deepEqual(await listed(page), rides.slice(0, 50).map(({ dims, place }) => ({ dims, place })));
  assert.equal(await isSeen(page, '#lab-fault'), refusal !== null);
  return { rides, refusal };
}

/** Runs what takes time, and answers how long the page was busy at most without a pause, in milliseconds. */
async function longestPause(page, work) {
  await page.script(() => {
    let last = performance.now();
    window.longest = 0;
    window.beat = setInterval(() => {
      window.longest = Math.max(window.longest, performance.now() - last);
      last = performance.now();
    }, 10);
  });
  await work();
  return page.script(() => {
    clearInterval(window.beat);
    return window.longest;
  });
}

inBrowser("A lab's file", (it) => {
  it('of fvecs is dropped, listed, drawn and compared', async (page) => {
    const file = readFileSync(GOOD);
    await typeRide(page, 'a', Kind.Float32Dense, ['90', '95', '100', '110', '120', '130']);
    const own = fromHex(await shownHex(page, '#ride-a-blob'));
    await page.drop('#lab-drop', GOOD);
    const { rides } = await checkListed(page, 'fvecs', file);
    assert.equal(rides.length, 3);
    assert.equal(await count(page, '#lab-rides > li svg path.line'), 3);
    for (const [i, ride] of rides.entries()) {
      const line = `#lab-rides > li[data-ride="${i + 1}"]`;
      await page.click(`${line} [data-do="compare"]`);
      const answers = DISTANCES.map((name) => module.distance(name, own, ride.blob));
      if (ride.dims === '6') {
        assert.deepEqual(await texts(page, `${line} .compared code`), answers.map(({ pattern }) => pattern));
      } else {
        assert.ok(answers.every(({ refusal }) => refusal.number === 12));
        assert.match(await page.text(`${line} [data-distance="all"]`), /^Refused by 12: dims differ/);
      }
    }
    await page.click('#lab-rides > li[data-ride="2"] [data-do="use"]');
    assert.equal(await shownHex(page, '#ride-b-blob'), toHex(rides[1].blob));
    await page.fill('#ride-a-cell-0', '91');
    assert.deepEqual((await texts(page, '#lab-rides .compared')).join(''), '', 'no comparison with the ride that was');
  });

  it('of bvecs is chosen, and one of another name is asked about and kept', async (page) => {
    const file = fileOf([[60, 80, 255], [], [0, 1]], Uint8Array);
    await page.chooseFile('#lab-file', scratchFile('good.bvecs', file));
    const { rides } = await checkListed(page, 'bvecs', file);
    assert.deepEqual(rides.map(({ dims }) => dims), ['3', '0', '2']);
    await page.click('#lab-rides > li[data-ride="1"] [data-do="use"]');
    assert.equal(await shownHex(page, '#ride-b-blob'), toHex(rides[0].blob));

    await page.chooseFile('#lab-file', scratchFile('good.dat', file));
    await done(page);
    assert.match(await page.text('#lab-error'), /good\.dat.*neither in \.fvecs nor in \.bvecs/);
    await page.click('#lab-format-bvecs');
    await checkListed(page, 'bvecs', file);
  });

  it('may be dropped anywhere, one at a time, and a folder is no file', async (page) => {
    await page.drop('h1', GOOD);
    await done(page);
    assert.equal(await count(page, '#lab-rides > li'), 3);
    await page.drop('#lab-drop', GOOD, scratchFile('second.fvecs', ''));
    assert.match(await page.text('#lab-error'), /one at a time/);
    assert.equal(await isSeen(page, '#lab-list'), false);
    await page.click('#lab-format-fvecs');
    await page.drop('#lab-drop', join(ROOT, 'examples'));
    await done(page);
    assert.match(await page.text('#lab-error'), /could not be read/);
  });

  it('that is cut shows the rides before the fault, the refusal and its place', async (page) => {
    const whole = readFileSync(GOOD);
    for (const [cut, before, place] of [[1, 2, 56], [19, 2, 56], [whole.length - 2, 0, 0]]) {
      const file = whole.subarray(0, whole.length - cut);
      await page.drop('#lab-drop', scratchFile(`cut-${cut}.fvecs`, file));
      const { rides, refusal } = await checkListed(page, 'fvecs', file);
      assert.deepEqual([rides.length, refusal.number, refusal.place], [before, 19, place]);
      assert.match(await page.text('#lab-fault'), new RegExp(`byte ${place}\\b.*Refused by 19: ${refusal.words}`));
    }
  });

  it('with a count over the limit is refused there', async (page) => {
    const file = Buffer.concat([fileOf([[60, 80]], Float32Array), Buffer.from(Uint32Array.of(65_537, 0).buffer)]);
    await page.drop('#lab-drop', scratchFile('count.fvecs', file));
    const { rides, refusal } = await checkListed(page, 'fvecs', file);
    assert.deepEqual([rides.length, refusal.number], [1, 9]);
    assert.match(await page.text('#lab-fault'), /byte 12\b.*Refused by 9: dims are over 65,536/);
  });

  it('that is empty, or over 100 MB, is said in words', async (page) => {
    await page.drop('#lab-drop', scratchFile('nothing.fvecs', ''));
    await done(page);
    assert.match(await page.text('#lab-progress'), /is empty/);
    assert.equal(await isSeen(page, '#lab-list'), false);

    const path = scratchFile('large.fvecs', '');
    const large = openSync(path, 'r+');
    ftruncateSync(large, 100_000_001);
    closeSync(large);
    await page.chooseFile('#lab-file', path);
    await done(page);
    assert.match(await page.text('#lab-error'), /100,000,001 bytes.*up to 100 MB/);
    assert.equal(await isSeen(page, '#lab-list'), false);
    rmSync(path);
  });

  it('of 20 MB is read while the page stays responsive, page by page, and can be stopped', async (page) => {
    const path = scratchFile('long.fvecs', fileOf(Array(99_000).fill(Array(50).fill(60)), Float32Array));
    const pause = await longestPause(page, async () => {
      await page.chooseFile('#lab-file', path);
      await done(page);
    });
    assert.ok(pause < 1000, `the page paused for ${pause} ms`);
    assert.match(await page.text('#lab-progress'), /99,000 rides/);
    assert.equal(await count(page, '#lab-rides > li'), 50);
    await page.click('#lab-next');
    await page.until('the next are listed', () => document.querySelector('#lab-rides > li').dataset.ride === '51');
    assert.match(await page.text('#lab-page'), /^Rides 51 to 100 of 99,000$/);

    await page.script(() => document.addEventListener('drop', () =>
      requestAnimationFrame(() => document.querySelector('#lab-stop').click())));
    await page.drop('#lab-drop', path);
    await done(page);
    const stopped = /Reading was stopped at byte ([\d,]+) of 20,196,000/.exec(await page.text('#lab-progress'));
    assert.ok(Number(stopped[1].replaceAll(',', '')) < 20_196_000, stopped[0]);
    rmSync(path);
  });

  it('of over 100,000 rides is listed up to there, and the page says so', async (page) => {
    await page.drop('#lab-drop', scratchFile('many.fvecs', fileOf(Array(100_001).fill([60]), Float32Array)));
    await done(page);
    assert.match(await page.text('#lab-progress'), /100,000 rides\. No more .* goes on at byte 800,000/);
  });

  it('has a sample, and a damaged one, for whoever has none', async (page) => {
    await page.click('#lab-sample');
    await done(page);
    const whole = await count(page, '#lab-rides > li');
    await page.click('#lab-sample-cut');
    await done(page);
    assert.equal(await count(page, '#lab-rides > li'), whole - 1);
    assert.match(await page.text('#lab-fault'), /Refused by 19/);
  });

  it('is compared with a sparse ride when that is made dense, and the page says what that does', async (page) => {
    await useBlob(page, 'a', '000070420000a04200000000020000000300000009');
    await page.click('#lab-sample');
    await done(page);
    const line = '#lab-rides > li[data-ride="1"]';
    await page.click(`${line} [data-do="compare"]`);
    assert.match(await page.text(`${line} [data-distance="all"]`), /^Refused by 13: kinds differ/);
    await page.click(`${line} [data-do="compare-dense"]`);
    assert.match(await page.text(`${line} .compared`), /2 readings became 3.*mistake 1/s);
    const [dense, ride] = ['00007042000000000000a042', '00007042000090420000a042'].map(fromHex);
    const patterns = DISTANCES.map((name) => module.distance(name, dense, ride).pattern);
    assert.deepEqual(await texts(page, `${line} .compared code`), patterns);
  });
});
