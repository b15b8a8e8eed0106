// The rides of a lab's file: listed some at a time, drawn small, and compared with ride A.
import { Kind } from '../bindings/js/fulandewu.js';
import { bounds, drawSmall } from './chart.js';
import { button, byId, make } from './dom.js';
import { kindName, refusedWords } from './kinds.js';
import { brief, counted, grouped, numbersOf } from './numbers.js';
import { DISTANCE_NAMES, distanceWords } from './pair.js';
import { asKind } from './ride.js';

/** How many rides are listed at a time, and how many readings of each are said. */
const RIDES_SHOWN = 50;
const READINGS_SAID = 8;

/** The refusal of a distance between two kinds. */
const KINDS_DIFFER = 13;

/** The list of rides. `unreadable` is called with an open file that cannot be read any more, and the error. */
export class LabList {
  #module;
  #cards;
  #unreadable;
  #open = null;
  #first = 0;

  constructor(module, cards, unreadable) {
    this.#module = module;
    this.#cards = cards;
    this.#unreadable = unreadable;
    byId('lab-previous').addEventListener('click', () => this.#showFrom(this.#first - RIDES_SHOWN));
    byId('lab-next').addEventListener('click', () => this.#showFrom(this.#first + RIDES_SHOWN));
  }

  clear() {
    this.#open = null;
    byId('lab-list').hidden = true;
    byId('lab-rides').replaceChildren();
  }

  /** Lists the rides of a file that has been read. */
  open(open) {
    this.#open = open;
    if (open.starts.length) this.#showFrom(0);
  }

  forgetComparisons() {
    for (const answer of document.querySelectorAll('#lab-rides .compared')) answer.replaceChildren();
  }

  /** Lists the rides from one on. */
  async #showFrom(first) {
    const open = this.#open;
    const last = Math.min(first + RIDES_SHOWN, open.starts.length);
    this.#first = first;
    try {
      const blobs = [];
      for (let index = first; index < last; index++) blobs.push(await open.ride(index));
      if (this.#open === open && this.#first === first) this.#show(open, blobs);
    } catch (error) {
      this.#unreadable(open, error);
    }
  }

  #show(open, blobs) {
    const first = this.#first;
    const [count, last] = [open.starts.length, first + blobs.length];
    const limits = bounds(blobs.map((blob) => numbersOf('f32', blob)));
    byId('lab-rides').replaceChildren(...blobs.map((blob, i) => this.#line(open, first + i, blob, limits)));
    byId('lab-page').textContent = `Rides ${grouped(first + 1)} to ${grouped(last)} of ${grouped(count)}`;
    byId('lab-previous').disabled = first === 0;
    byId('lab-next').disabled = last === count;
    byId('lab-list').hidden = false;
  }

  /** A ride: its number, dims and start, a drawing within the limits of all, and what can be done with it. */
  #line(open, index, blob, limits) {
    const [number, dims, start] = [index + 1, open.dims[index], open.starts[index]];
    const name = `Ride ${grouped(number)}`;
    const readings = numbersOf('f32', blob);
    const said = readingsSaid(readings);
    const compared = make('div', { class: 'compared', role: 'status' });
    return make(
      'li', { class: 'lab-ride card', 'data-ride': number, 'data-dims': dims, 'data-place': start },
      make('p', {}, make('b', {}, name), ` · ${counted(dims, 'place')} · starts at byte ${grouped(start)}`),
      drawSmall(readings, limits, `${name}: ${said}`), make('p', { class: 'hint' }, said),
      make(
        'p', { class: 'buttons' },
        rideButton('Compare with ride A', 'compare', name, () => this.#compare(compared, blob)),
        rideButton('Use as ride B', 'use', name, () => this.#use(compared, blob, name)),
      ),
      compared,
    );
  }

  #use(to, blob, name) {
    this.#cards.b.set({ kind: null, bytes: blob });
    to.replaceChildren(make('p', {}, `Ride B is now ${name.toLowerCase()} of this file.`));
  }

  /** The four distances of ride A and a ride of the file. Ride A is made Float32Dense only where that is asked for. */
  #compare(to, blob) {
    const { state, problem } = this.#cards.a;
    if (!state.blob) {
      to.replaceChildren(make('p', { class: 'error' }, problem ?? refusedWords(state.refusal)));
      return;
    }
    to.replaceChildren(...this.#compared(state.blob, blob));
    if (this.#module.distance('cos', state.blob, blob).refusal?.number !== KINDS_DIFFER) return;
    const again = button('Compare with ride A made Float32Dense', { 'data-do': 'compare-dense' }, () => {
      this.#compareDense(to, state, blob);
    });
    to.append(
      make('p', { class: 'hint' }, `Rides of the lab are Float32Dense, ride A is ${kindName(state.view.kind)}.`),
      make('p', { class: 'buttons' }, again),
    );
  }

  #compareDense(to, { blob, view }, other) {
    const dense = asKind(this.#module, blob, Kind.Float32Dense).blob;
    const remark = madeDenseWords(view, this.#module.read('plain', dense));
    to.replaceChildren(...this.#compared(dense, other), make('p', { class: 'remark' }, remark));
  }

  #compared(first, second) {
    const answers = Object.keys(DISTANCE_NAMES).map((name) => [name, this.#module.distance(name, first, second)]);
    const refused = answers.flatMap(([, { refusal }]) => (refusal ? [refusedWords(refusal)] : []));
    if (refused.length === answers.length && new Set(refused).size === 1) {
      return [make('p', { 'data-distance': 'all' }, refused[0])];
    }
    return [make('dl', { class: 'facts' }, ...answers.map(([name, answer]) => distanceLine(name, answer)))];
  }
}

/** A button for one ride, whose number is said to whoever hears the button alone. */
function rideButton(words, does, name, pressed) {
  return button(words, { 'data-do': does, 'aria-label': `${words}: ${name.toLowerCase()}` }, pressed);
}

function readingsSaid(readings) {
  if (!readings.length) return 'It has no place.';
  const first = readings.slice(0, READINGS_SAID).map((value) => brief(value));
  return first.join(', ') + (readings.length > READINGS_SAID ? ' …' : '');
}

function distanceLine(name, answer) {
  const pattern = make('small', {}, make('code', {}, answer.pattern ?? ''));
  const said = make('dd', {}, distanceWords(answer), ' ', pattern);
  return make('div', { 'data-distance': name }, make('dt', {}, DISTANCE_NAMES[name]), said);
}

/** What making ride A dense has done to it. */
function madeDenseWords(before, after) {
  const made = `Ride A was made Float32Dense for this, from ${kindName(before.kind)}`;
  if (before.readings === after.readings) return `${made}.`;
  const counts = `${counted(before.readings, 'reading')} became ${grouped(after.readings)}`;
  return `${made}: ${counts}. That is mistake 1, so mind it.`;
}
