// The page on paper: a hand-out.

import assert from 'node:assert/strict';
import { writeFileSync } from 'node:fs';

import { faultless, inBrowser, pictureFile } from './course.js';

/** How many questions the lessons have. */
const QUESTIONS = 13;

/** How many pages a PDF has. */
function pages(pdf) {
  return pdf.toString('latin1').match(/\/Type\s*\/Page\b/g)?.length ?? 0;
}

inBrowser('On paper', (it) => {
  for (const scheme of ['light', 'dark']) {
    it(`has the questions and no buttons, black on white, from a ${scheme} screen`, async (page) => {
      await page.look(scheme, 'print');
      await page.size(720);
      const inPage = (where) => [...document.querySelectorAll(where)].filter(inspect.seen).length;
      const seen = (css) => page.script(inPage, css);
      assert.equal(await seen('button, nav, input[type=file]'), 0, 'no buttons');
      assert.equal(await seen('.lesson legend'), QUESTIONS);
      assert.ok(await seen('.lesson .choice label') > 2 * QUESTIONS, 'choices for each question');
      assert.equal(await seen('.lesson .guess-line'), QUESTIONS, 'room for each guess');
      const paper = await page.script(() => inspect.rgba(getComputedStyle(document.body).backgroundColor));
      assert.deepEqual(paper, [255, 255, 255, 1], 'the paper is white');
      await faultless(page, ['faint', 'sideways'], 'on paper');
    });
  }

  it('prints', async (page) => {
    const { data } = await page.cdp('Page.printToPDF', { paperWidth: 8.27, paperHeight: 11.69 });
    const pdf = Buffer.from(data, 'base64');
    writeFileSync(pictureFile('paper.pdf'), pdf);
    assert.equal(pdf.subarray(0, 5).toString(), '%PDF-');
    assert.ok(pages(pdf) >= 3 && pages(pdf) <= 20, `${pages(pdf)} pages`);
  });
});
