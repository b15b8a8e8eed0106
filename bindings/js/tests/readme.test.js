// The README: its code prints what it says, and it names what runs the module.
import assert from 'node:assert/strict';
import { test } from 'node:test';
import { RUNS_IN } from '../fulandewu.js';
import { FLAGS, fileOf, printedBy } from './common.js';

/** The indented blocks of a page, as texts. */
function blocksOf(page) {
  const blocks = page.match(/(^ {4}.*\n)+/gm) ?? [];
  return blocks.map((block) => block.replace(/^ {4}/gm, ''));
}

const README = fileOf('bindings/js/README.md').toString();

test('the README names what runs the module', () => {
  assert.ok(README.includes(RUNS_IN));
});

test('the ten lines of the README print what it says', () => {
  const blocks = blocksOf(README);
  const code = blocks.findIndex((block) => block.startsWith('import '));
  assert.equal(blocks[code].split('\n').length - 1, 10);
  assert.equal(printedBy(FLAGS, blocks[code]), blocks[code + 1]);
});
