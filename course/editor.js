// The card of one ride: its row of readings, its kind, and what is stored of it.
import { byId, make, say } from './dom.js';
import { KINDS, kindName, refusedWords } from './kinds.js';
import { lossWords } from './loss.js';
import { readingOf } from './numbers.js';
import { entryOf, partsOf, partsOfRefused } from './parts.js';
import { MOST_CELLS, cellsOf, rowOf, settled } from './ride.js';
import { readingsWords, showFacts, showParts, showRow, stateOf, stateWord } from './stored.js';

/** The parts of a card that its code names: ride-a-cells and so on. */
const CARD_PARTS = [
  'title', 'source', 'hint', 'as-stored', 'cells', 'error', 'add', 'remove', 'back', 'kind', 'kind-words', 'answer',
  'facts', 'dims', 'readings', 'length', 'loss', 'row', 'row-title', 'row-rest', 'blob', 'blob-title', 'parts',
  'to-reader',
];

/**
 * The card of ride a or b. Of `on`, `changed` is called with its letter after each change, `toReader` with a blob to
 * look at.
 */
export class RideCard {
  #module;
  #at;
  #letter;
  #isOwn = true;
  #kept = [];
  #on;

  constructor(letter, module, ride, on) {
    this.#module = module;
    this.#letter = letter;
    this.#on = on;
    byId('cards').append(cardFromTemplate(letter));
    this.#at = Object.fromEntries(CARD_PARTS.map((part) => [part, byId(`ride-${letter}-${part}`)]));
    this.#at.title.textContent = this.name;
    this.#at.kind.append(make('option', { value: '', hidden: true }, 'not known: refused'));
    for (const { kind, name } of KINDS) this.#at.kind.append(make('option', { value: kind }, name));
    this.#listen();
    this.#settle(ride, true);
  }

  get letter() {
    return this.#letter;
  }

  get name() {
    return `Ride ${this.#letter.toUpperCase()}`;
  }

  /** Replaces the ride. The user's own ones are kept for the button that brings them back. */
  set(ride) {
    if (this.#isOwn) this.#kept.push(this.ride);
    this.#isOwn = false;
    this.#take(ride, true);
  }

  /** Brings the last kept ride back. One that was typed in the meantime is kept in its place. */
  #bringBack() {
    const ride = this.#kept.pop();
    if (this.#isOwn) this.#kept.unshift(this.ride);
    this.#isOwn = true;
    this.#take(ride, true);
    this.#at.kind.focus();
  }

  #listen() {
    const at = this.#at;
    at.add.addEventListener('click', () => this.#resize([...this.#typedCells(), 'none'], at.add));
    at.remove.addEventListener('click', () => this.#resize(this.#typedCells().slice(0, -1), at.remove));
    at.kind.addEventListener('change', () => {
      this.#edit({ ...this.ride, kind: Number(at.kind.value) }, this.#isTaken());
    });
    at.cells.addEventListener('input', () => this.#edit({ kind: this.#kind(), cells: this.#typedCells() }, false));
    at['to-reader'].addEventListener('click', () => this.#on.toReader(this.state.blob));
    at.back.addEventListener('click', () => this.#bringBack());
  }

  #typedCells() {
    return [...this.#at.cells.querySelectorAll('input')].map((input) => input.value);
  }

  /** Whether the ride is bytes that were taken over, whose row is shown as stored. */
  #isTaken() {
    return this.ride.bytes !== undefined;
  }

  #kind() {
    return this.ride.kind ?? this.state.view.kind;
  }

  #resize(cells, pressed) {
    this.#edit({ kind: this.#kind(), cells }, true);
    if (!pressed.disabled) pressed.focus();
  }

  /** Takes over what the user changed. The fields stay as they are, or are made anew. */
  #edit(ride, anew) {
    this.#isOwn = true;
    this.#take(ride, anew);
  }

  #take(ride, anew) {
    this.#settle(ride, anew);
    this.#on.changed(this.#letter);
  }

  #settle(ride, anew) {
    this.ride = ride;
    this.state = settled(this.#module, ride);
    const { blob, view } = this.state;
    this.row = view ? rowOf(this.#module, blob, view) : null;
    if (anew) this.#makeCells();
    this.#showCells();
    this.#showSource();
    this.#showStored();
  }

  /** The fields of the row: as typed, or as stored where that can be edited. */
  #makeCells() {
    const stored = () => (this.row ? cellsOf(this.row, this.state.view.kind) : {});
    const { cells, why } = this.#isTaken() ? stored() : this.ride;
    this.why = why ?? '';
    this.editable = cells !== undefined;
    const id = (place) => `ride-${this.#letter}-cell-${place}`;
    this.#at.cells.replaceChildren(...(cells ?? []).map((text, place) => cellField(id(place), text, place)));
  }

  /** The word below each field, what is wrong, and what can be done. */
  #showCells() {
    const at = this.#at;
    for (const cell of at.cells.children) markCell(cell, at.error.id);
    const count = at.cells.children.length;
    const full = `The row takes up to ${MOST_CELLS} places. A longer ride can be pasted as a blob below.`;
    say(at.error, this.problem ?? (count >= MOST_CELLS ? full : ''));
    at.add.disabled = !this.editable || count >= MOST_CELLS;
    at.remove.disabled = !this.editable || count === 0;
    at.back.hidden = !this.#kept.length;
    at.hint.hidden = !this.editable;
    at['as-stored'].hidden = this.editable;
  }

  /** Why there is no ride to measure, in words; null where there is one. */
  get problem() {
    const [first, ...others] = this.state.wrong ?? [];
    if (!first) return null;
    const comma = first.words.startsWith('"') ? ',' : '';
    const count = others.length === 1 ? 'One more place is' : `${others.length} more places are`;
    const more = others.length ? ` ${count} not clear either.` : '';
    return `Not yet a ride: the reading at place ${first.place}${comma} ${first.words}.${more}`;
  }

  #showSource() {
    const { view, converted } = this.state;
    const held = `${converted ? 'Converted from' : 'Held as'} the bytes that were taken over.`;
    const edit = this.editable ? 'A change in its row writes it anew.' : this.why;
    say(this.#at.source, this.#isTaken() ? `${held} ${edit}`.trim() : '');
    const select = this.#at.kind;
    select.disabled = this.#isTaken() && !view;
    select.value = view?.kind ?? this.ride.kind ?? '';
    say(this.#at['kind-words'], KINDS.find(({ kind }) => kind === Number(select.value))?.keeps ?? '');
  }

  #showStored() {
    const { blob, view, refusal } = this.state;
    const at = this.#at;
    say(at.answer, this.#answerWords());
    at.answer.classList.toggle('off-screen', Boolean(view));
    showFacts(at, view, blob?.length ?? 0);
    showRow({ row: at.row, rest: at['row-rest'] }, this.row ?? [], view?.kind);
    for (const part of ['facts', 'row-title', 'row']) at[part].hidden = !view;
    for (const part of ['blob', 'blob-title', 'parts', 'to-reader']) at[part].hidden = !blob;
    at['row-rest'].hidden ||= !view;
    if (blob) {
      const parts = view ? partsOf(blob, view) : partsOfRefused(blob, refusal);
      const marked = view ? [] : entryOf(blob, refusal)?.starts;
      showParts({ hex: at.blob, legend: at.parts }, { blob, view, parts, marked });
    }
    say(at.loss, view && this.ride.cells ? lossWords(this.ride.cells, this.row, view.kind) : '');
  }

  #answerWords() {
    const { blob, view, refusal, wrong } = this.state;
    if (wrong) return 'Nothing is stored yet.';
    if (view) return `${kindName(view.kind)}: ${readingsWords(view)}.`;
    const entry = blob && entryOf(blob, refusal);
    return entry ? `${refusedWords(refusal)} Wrong is ${entry.words}.` : refusedWords(refusal);
  }
}

/** The template of a card with the ride's letter in its ids. */
function cardFromTemplate(letter) {
  const card = byId('ride-x-template').content.cloneNode(true);
  for (const node of card.querySelectorAll('*')) {
    for (const { name, value } of [...node.attributes]) {
      if (value.includes('ride-x')) node.setAttribute(name, value.replaceAll('ride-x', `ride-${letter}`));
    }
  }
  return card;
}

function cellField(id, text, place) {
  const input = make('input', { id, type: 'text', autocomplete: 'off', spellcheck: 'false' });
  input.value = text;
  const label = make('label', { for: id }, `place ${place}`);
  return make('li', { class: 'cell' }, label, input, make('span', { class: 'word', id: `${id}-word` }));
}

/** Says below a field whether it is a reading, zero or none; where it is wrong, the error describes it too. */
function markCell(cell, error) {
  const input = cell.querySelector('input');
  const { value, wrong } = readingOf(input.value);
  const state = wrong ? 'wrong' : stateOf(value === null ? [] : [value]);
  cell.dataset.state = state;
  cell.querySelector('.word').textContent = stateWord(state);
  input.setAttribute('aria-invalid', state === 'wrong');
  input.setAttribute('aria-describedby', `${input.id}-word${wrong ? ` ${error}` : ''}`);
}
