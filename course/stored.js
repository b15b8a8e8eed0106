// A ride as stored, drawn on the page: its bytes part by part with a legend, and its row.
import { make, say } from './dom.js';
import { hexOf } from './hex.js';
import { brief, counted, grouped, printed } from './numbers.js';
import { partName, partPlace, partWords } from './parts.js';
import { MOST_CELLS, widthOf } from './ride.js';

/** How many bytes of a long blob are shown, from its start and from its end. */
const FIRST_SHOWN = 512;
const LAST_SHOWN = 32;

/**
 * Shows a blob in hexadecimal with its parts coloured and numbered, and the legend of the parts.
 * @param {{hex: Element, legend: Element}} to
 * @param {{blob: Uint8Array, view?: object, parts: object[], marked?: number[]}} what marked: starts of marked groups
 */
export function showParts({ hex, legend }, { blob, view, parts, marked = [] }) {
  const shown = visibleParts(parts, blob.length, marked);
  hex.replaceChildren(...shown.flatMap((part) => partNodes(part, blob, marked)));
  if (!blob.length) hex.append('(no byte)');
  legend.replaceChildren(...parts.map((part, i) => legendLine(part, i + 1, blob, view)));
}

/** The parts with their numbers, cut to what is shown of a long blob; what is left out stands as a count. */
function visibleParts(parts, length, marked) {
  const numbered = parts.map((part, i) => ({ ...part, number: i + 1 }));
  let shown = 0;
  return visibleRanges(length, marked).flatMap(([start, end]) => {
    const leftOut = start > shown ? [{ leftOut: start - shown }] : [];
    shown = end;
    const cut = (part) => ({ ...part, start: Math.max(part.start, start), end: Math.min(part.end, end) });
    return [...leftOut, ...numbered.map(cut).filter((piece) => piece.start < piece.end)];
  });
}

/** The ranges of bytes that are shown: the first, the last, and some around each mark, in order and apart. */
function visibleRanges(length, marked) {
  const wanted = [[0, FIRST_SHOWN], ...marked.map((start) => [start - 16, start + 20]), [length - LAST_SHOWN, length]];
  const ranges = [];
  for (const [start, end] of wanted.sort(([one], [other]) => one - other)) {
    const last = ranges.at(-1);
    if (last && start <= last[1]) last[1] = Math.max(last[1], Math.min(end, length));
    else ranges.push([Math.max(0, start), Math.min(end, length)]);
  }
  return ranges;
}

/** A part as groups of bytes with spaces between them, so that lines can break. */
function partNodes(part, blob, marked) {
  if (part.leftOut) {
    return [make('span', { class: 'left-out' }, `… ${counted(part.leftOut, 'byte')} left out …`), ' '];
  }
  const groups = [];
  for (let start = part.start; start < part.end; ) {
    const end = Math.min(part.end, start + part.size - (start % part.size));
    const text = hexOf(blob.subarray(start, end));
    groups.push(marked.includes(start) ? make('mark', { 'data-start': start }, text) : text, ' ');
    start = end;
  }
  const attributes = { class: 'part', 'data-part': part.part, 'data-number': part.number, title: partName(part.part) };
  return [make('span', attributes, ...groups.slice(0, -1)), ' '];
}

function legendLine(part, number, blob, view) {
  const name = make('b', { class: 'part', 'data-part': part.part, 'data-number': number }, partName(part.part));
  const place = make('span', { class: 'place' }, partPlace(part));
  return make('li', { 'data-part': part.part }, name, ' ', place, ' ', make('span', {}, partWords(part, blob, view)));
}

/**
 * Shows what is stored, place by place: each with its value and in a word whether it is a reading, zero or none.
 * @param {{row: Element, rest: Element}} to
 */
export function showRow({ row: list, rest }, row, kind) {
  list.replaceChildren(...row.slice(0, MOST_CELLS).map((values, place) => rowPlace(values, place, kind)));
  say(rest, row.length > MOST_CELLS ? `and ${counted(row.length - MOST_CELLS, 'more place')} that are not shown` : '');
  if (!row.length) say(rest, 'The ride has no place.');
}

function rowPlace(values, place, kind) {
  const state = stateOf(values);
  const exact = values.map((value) => printed(value, widthOf(kind))).join(' and ');
  return make(
    'li', { class: 'stored-cell', 'data-state': state, title: exact || null },
    make('span', { class: 'place' }, `place ${place}`), ' ',
    make('span', { class: 'value' }, valuesWords(values, kind)), ' ',
    make('span', { class: 'word' }, STATE_WORDS[state]),
  );
}

/** What stands at a place, in a few words: '60', '1 and 2', 'none'. */
export function valuesWords(values, kind) {
  return values.map((value) => briefOf(value, kind)).join(' and ') || 'none';
}

/** A number of a row: exact where that is short. */
export function briefOf(value, kind) {
  const exact = printed(value, widthOf(kind));
  return exact.length <= 9 ? exact : brief(value);
}

/** What a place holds, in a word. */
const STATE_WORDS = {
  reading: 'reading',
  zero: 'zero',
  none: 'no reading',
  several: 'two or more',
  odd: 'not finite',
  wrong: 'not clear',
};

/** The state of a place with these values. */
export function stateOf(values) {
  if (!values.length) return 'none';
  if (values.length > 1) return 'several';
  if (!Number.isFinite(values[0])) return 'odd';
  return values[0] === 0 ? 'zero' : 'reading';
}

/** The word for a state. */
export function stateWord(state) {
  return STATE_WORDS[state];
}

/** '2 readings in 3 places' */
export function readingsWords(view) {
  return `${counted(view.readings, 'reading')} in ${counted(view.dims, 'place')}`;
}

/** Shows dims, readings and length in the facts of a card. */
export function showFacts(nodes, view, length) {
  nodes.dims.textContent = view ? grouped(view.dims) : '';
  nodes.readings.textContent = view ? readingsWords(view) : '';
  nodes.length.textContent = counted(length, 'byte');
}
