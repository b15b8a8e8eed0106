// Starts the page: decodes the module inside it, and joins its sections.
import { BROWSERS, Kind, isSupported, load } from '../bindings/js/fulandewu.js';
import { showConversions } from './conversions.js';
import { byId } from './dom.js';
import { RideCard } from './editor.js';
import { Lab } from './lab.js';
import { makeLessons } from './lessons.js';
import { makeOpening } from './opening.js';
import { showChart, showPair } from './pair.js';
import { BlobReader } from './reader.js';

/** The rides that the page opens with. */
const FIRST_RIDES = {
  a: { kind: Kind.Float32Sparse, cells: ['60', 'none', '80'] },
  b: { kind: Kind.Float32Sparse, cells: ['120', '0', '160'] },
};

/** The module's bytes, which the build put into the page. */
function moduleBytes() {
  return Uint8Array.from(atob(byId('module-base64').textContent), (sign) => sign.charCodeAt(0));
}

function explain(words) {
  byId('unsupported-words').textContent = words;
  byId('unsupported').hidden = false;
}

async function start() {
  if (!isSupported()) {
    const missing = 'The proved module inside this page needs a memory of 64-bit addresses';
    explain(`${missing}, which this browser does not have. These have it: ${BROWSERS}.`);
    return;
  }
  try {
    makeSections(await load(moduleBytes()));
  } catch (error) {
    for (const id of ['sections', 'sections-nav']) byId(id).hidden = true;
    explain(`The module inside this page could not be started: ${error.message}`);
    throw error;
  }
}

function makeSections(module) {
  for (const id of ['sections', 'sections-nav']) byId(id).hidden = false;
  const cards = {};
  let lab = null;
  const reader = new BlobReader(module, (letter, bytes) => cards[letter].set({ kind: null, bytes }));
  const show = (letter) => {
    showPair(module, cards);
    if (letter !== 'a') return;
    showConversions(module, cards.a);
    lab?.rideChanged();
  };
  const on = { changed: show, toReader: (blob) => reader.putBlob(blob) };
  for (const letter of ['a', 'b']) cards[letter] = new RideCard(letter, module, FIRST_RIDES[letter], on);
  makeOpening(module);
  makeLessons(module, (letter, ride) => cards[letter].set(ride));
  lab = new Lab(module, cards);
  show('a');
  redrawWhenResized(() => showChart([cards.a, cards.b]));
}

/** Draws the chart anew where its width has changed. */
function redrawWhenResized(redraw) {
  const chart = byId('pair-chart');
  let width = chart.clientWidth;
  const check = () => {
    if (chart.clientWidth === width) return;
    width = chart.clientWidth;
    redraw();
  };
  new ResizeObserver(() => requestAnimationFrame(check)).observe(chart);
}

start();
