// A chart of rides in SVG: a gap breaks the line and has a tick of its own, a zero is a point on the zero line.
import { draw } from './dom.js';
import { brief, counted, grouped } from './numbers.js';
import { valuesWords } from './stored.js';

/** Sizes in pixels: of the chart, its edges, a line of ticks for places without a reading, a digit of a label. */
const HEIGHT = 300;
const EDGE = { left: 56, right: 18, top: 16, bottom: 56 };
const NONE_LINE = 20;
const DIGIT = 7.5;

/** Up to so many places each is drawn; of a longer ride as many groups of places. */
const MOST_DRAWN = 400;

/** Over so many places few marks are drawn, and those small. */
const CROWDED = 80;

/** How many places of a ride are told in words. */
const PLACES_TOLD = 12;

/** @typedef {{letter: string, kind: number, row: number[][]}} Series a ride: its values at each place */

/**
 * The chart of one or two rides, so many pixels wide.
 * @param {Series[]} series
 */
export function drawChart(series, width, title) {
  const scale = scales(series, width);
  const rides = series.map(({ letter, row }) => ({ letter, groups: groupsOf(row, scale.step) }));
  const gaps = rides.filter(({ groups }) => groups.some(({ lacks }) => lacks));
  const height = HEIGHT + NONE_LINE * gaps.length;
  return draw(
    'svg', { viewBox: `0 0 ${width} ${height}`, width, height, role: 'img', 'aria-label': title, class: 'plot' },
    ...axes(scale),
    ...rides.map((ride) => draw('g', { 'data-ride': ride.letter }, line(ride, scale))),
    ...rides.toReversed().map((ride) => draw('g', { 'data-ride': ride.letter }, ...points(ride, scale))),
    ...gaps.map((ride, i) => noneTicks(ride, scale, HEIGHT + NONE_LINE * i)),
  );
}

/** Where a place and a value are drawn, and how large a mark is. */
function scales(series, width) {
  const dims = Math.max(1, ...series.map(({ row }) => row.length));
  const ticks = ticksBetween(...bounds(series.flatMap(({ row }) => row)));
  const [low, high] = [ticks[0], ticks.at(-1)];
  const left = Math.max(EDGE.left, 32 + DIGIT * Math.max(...ticks.map((value) => brief(value).length)));
  const right = width - EDGE.right;
  const bottom = HEIGHT - EDGE.bottom;
  // halves, since the greatest number less the least may be over the largest
  const share = (value) => (value / 2 - low / 2) / (high / 2 - low / 2);
  return {
    dims, ticks, left, right, bottom,
    crowded: dims > CROWDED,
    mark: dims > CROWDED ? 2 : 5,
    step: groupSize(dims),
    x: (place) => left + ((right - left) * (place + 0.5)) / dims,
    y: (value) => bottom - (bottom - EDGE.top) * share(value),
  };
}

/** How many places are drawn as one group. */
function groupSize(dims) {
  return Math.max(1, Math.ceil(dims / MOST_DRAWN));
}

/** Round numbers from at or below the least to at or above the greatest; two or more of them, also where all is 0. */
function ticksBetween(least, greatest) {
  const span = greatest - least;
  if (span < 1e-300) return [0, 1];
  if (span > 1e307) return [...(least < 0 ? [-Number.MAX_VALUE] : []), 0, Number.MAX_VALUE];
  const step = roundStep(span / 5);
  const [first, last] = [Math.floor(least / step), Math.ceil(greatest / step)];
  return Array.from({ length: last - first + 1 }, (_, i) => (first + i) * step);
}

/** The next number up of the kind 1, 2, 5, 10, 20 .. */
function roundStep(least) {
  const power = 10 ** Math.floor(Math.log10(least));
  return [1, 2, 5, 10].map((times) => times * power).find((step) => step >= least) ?? 10 * power;
}

function label(x, y, anchor, words) {
  return draw('text', { x, y, 'text-anchor': anchor }, words);
}

function axes({ dims, ticks, left, right, bottom, x, y }) {
  const every = Math.max(1, roundStep(dims / Math.max(2, (right - left) / 64)));
  const places = Array.from({ length: Math.ceil(dims / every) }, (_, i) => i * every);
  return [
    ...ticks.flatMap((value) => [
      draw('path', { class: value === 0 ? 'zero-line' : 'grid', d: `M${left} ${y(value)}H${right}` }),
      label(left - 8, y(value) + 4, 'end', brief(value)),
    ]),
    ...places.map((place) => label(x(place), bottom + 25, 'middle', grouped(place))),
    label(right, bottom + 44, 'end', 'place'),
    draw('g', { transform: `translate(14 ${EDGE.top + 80}) rotate(-90)` }, label(0, 0, 'middle', 'reading')),
  ];
}

/** Groups of places: where each starts, whether one of its places lacks a reading, and the readings that are drawn. */
function groupsOf(row, step) {
  return Array.from({ length: Math.ceil(row.length / step) }, (_, i) => {
    const places = row.slice(i * step, (i + 1) * step);
    const readings = places.flatMap((values, j) => values.map((value) => ({ place: i * step + j, value })));
    const drawn = readings.filter(({ value }) => Number.isFinite(value));
    const lacks = places.some((values) => !values.length);
    return { place: i * step, lacks, drawn: step > 1 ? outermost(drawn) : drawn };
  });
}

/** The least and the greatest of some readings, in their order. */
function outermost(readings) {
  if (readings.length < 3) return readings;
  const least = readings.reduce((one, other) => (other.value < one.value ? other : one));
  const greatest = readings.reduce((one, other) => (other.value > one.value ? other : one));
  return [least, greatest].sort((one, other) => one.place - other.place);
}

/** The line between readings that stand beside each other: a gap breaks it. */
function line({ letter, groups }, { x, y }) {
  let path = '';
  let before = false;
  for (const { drawn } of groups) {
    for (const { place, value } of drawn) {
      path += `${before ? 'L' : 'M'}${x(place).toFixed(2)} ${y(value).toFixed(2)}`;
      before = true;
    }
    if (!drawn.length) before = false;
  }
  return draw('path', { class: `line ${letter}`, d: path });
}

/** Circles of ride A; squares of ride B, which are larger and so seen behind them. */
function points({ letter, groups }, { crowded, mark, x, y }) {
  const size = mark + (letter === 'b' ? 2 : 0);
  const point = ({ place, value }) => {
    const attributes = { class: `dot ${letter}${value === 0 ? ' zero' : ''}`, 'data-place': place };
    const [cx, cy] = [x(place), y(value)];
    if (letter === 'a') return draw('circle', { ...attributes, cx, cy, r: size });
    return draw('rect', { ...attributes, x: cx - size, y: cy - size, width: 2 * size, height: 2 * size });
  };
  // where it is crowded only zeros, and the readings that no line shows
  const alone = (i) => !groups[i - 1]?.drawn.length && !groups[i + 1]?.drawn.length;
  const marked = ({ drawn }, i) => drawn.filter(({ value }) => !crowded || alone(i) || value === 0);
  return groups.flatMap(marked).map(point);
}

/** A line of its own below the axis, with a cross at each place without a reading. */
function noneTicks({ letter, groups }, { mark, left, x }, y) {
  const arm = 0.8 * mark;
  const crosses = groups.filter(({ lacks }) => lacks).map(({ place }) => {
    const d = `M${x(place) - arm} ${y - arm}l${2 * arm} ${2 * arm}m0 ${-2 * arm}l${-2 * arm} ${2 * arm}`;
    return draw('path', { class: `none ${letter}`, 'data-place': place, d });
  });
  const name = label(left - 8, y + 4, 'end', `none ${letter.toUpperCase()}`);
  return draw('g', { class: 'no-reading' }, name, ...crosses);
}

/** A ride in words, for whoever does not see the chart. */
export function rideText(name, { row, kind }) {
  const gaps = row.filter((values) => !values.length).length;
  const told = row.slice(0, PLACES_TOLD).map((values) => valuesWords(values, kind)).join(', ');
  const rest = row.length > PLACES_TOLD ? ` and ${counted(row.length - PLACES_TOLD, 'more place')}` : '';
  const without = gaps ? ` (${counted(gaps, 'place')} without a reading)` : '';
  return row.length ? `${name}: ${told}${rest}${without}.` : `${name} has no place.`;
}

/** What is said where a ride is too long to draw every place. */
export function drawnWords(dims) {
  const step = groupSize(dims);
  return step > 1 ? ` Of each ${step} places the least and the greatest reading are drawn.` : '';
}

/** A small drawing of readings between two bounds, with the zero line. */
export function drawSmall(values, [least, greatest], title) {
  const [width, height] = [220, 48];
  const groups = groupsOf(values.map((value) => [value]), Math.max(1, Math.ceil(values.length / width)));
  const x = (place) => 4 + ((width - 8) * (place + 0.5)) / values.length;
  const y = (value) => height - 5 - ((height - 10) * (value - least)) / (greatest - least || 1);
  const ride = { letter: 'a', groups };
  return draw(
    'svg', { viewBox: `0 0 ${width} ${height}`, width, height, role: 'img', 'aria-label': title, class: 'small-plot' },
    draw('path', { class: 'zero-line', d: `M0 ${y(0)}H${width}` }),
    line(ride, { x, y }),
    ...points(ride, { crowded: values.length > width / 5, mark: 2, x, y }),
  );
}

/** The least and the greatest of rows of values, zero among them. */
export function bounds(rows) {
  let [least, greatest] = [0, 0];
  for (const row of rows) {
    for (const value of row) {
      if (!Number.isFinite(value)) continue;
      least = Math.min(least, value);
      greatest = Math.max(greatest, value);
    }
  }
  return [least, greatest];
}
