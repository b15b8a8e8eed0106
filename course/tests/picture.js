// node course/tests/picture.js: takes the picture of the page for the docs, docs/course.png: the cards of two rides and
// their chart. What stands between them on the page is left out, and so are buttons, hints and the length.

import { statSync } from 'node:fs';
import { join } from 'node:path';

import { ROOT, openCourse } from './course.js';
import { Browser } from './driver.js';

const PATH = join(ROOT, 'docs/course.png');
const LARGEST = 120_000;

/** The page is laid out so wide, and the picture is so wide. */
const PAGE_WIDTH = 1100;
const PICTURE_WIDTH = 780;

/** Leaves the cards and the chart on the page, one below the other. */
function leaveRides() {
  const shown = ['cards', 'pair-figure'].map((id) => document.getElementById(id));
  const frame = document.createElement('main');
  frame.id = 'picture';
  frame.style = 'max-width: none; padding: 20px 20px 0';
  frame.append(...shown);
  for (const rest of frame.querySelectorAll('.buttons, .hint, .facts > :last-child')) rest.remove();
  document.body.replaceChildren(frame);
}

const browser = await Browser.start();
try {
  await openCourse(browser);
  await browser.size(PAGE_WIDTH);
  await browser.script(leaveRides);
  await browser.picture(PATH, '#picture', { width: PICTURE_WIDTH });
} finally {
  await browser.close();
}
const { size } = statSync(PATH);
console.log(`${PATH}: ${size} bytes`);
if (size > LARGEST) throw new Error(`the picture has over ${LARGEST} bytes`);
