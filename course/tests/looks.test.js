// Both colour schemes, wide and narrow: contrast, nothing sideways, and pictures of every section.

import { faultless, inBrowser, pictureFile } from './course.js';
import { throughStates } from './states.js';

const QUESTIONS = ['faint', 'edgeless', 'faintLines', 'crowded', 'sideways'];

/** The states in which pictures are taken: what each is called, and of what it is. */
const PICTURES = {
  'as opened': [['top', 'header'], ['rides', '#rides'], ['pair', '#pair'], ['conversions', '#conversions']],
  'the opening answered': [['opening', '#opening']],
  'no reading': [['rides-no-reading', '#rides']],
  'a blob read': [['reader', '#reader']],
  'a blob refused at an entry': [['reader-refused', '#reader']],
  'a long blob': [['reader-long', '#reader']],
  'a belt that stutters': [['rides-stutter', '#rides'], ['pair-refused', '#pair']],
  'no likeness': [['pair-no-likeness', '#pair']],
  'no guess': [['lessons', '#lessons']],
  'a damaged file': [['lab', '#lab']],
};

inBrowser('The page', (it) => {
  for (const scheme of ['light', 'dark']) {
    for (const width of [1200, 380]) {
      it(`is easily read in every state, ${scheme} and ${width} px wide`, async (page) => {
        await page.look(scheme);
        await page.size(width);
        await throughStates(page, async (state) => {
          await faultless(page, QUESTIONS, `in the state '${state}'`);
          for (const [name, css] of PICTURES[state] ?? []) {
            await page.picture(pictureFile(`${name}-${scheme}-${width}.png`), css, { margin: 20 });
          }
        });
      });
    }
  }
});
