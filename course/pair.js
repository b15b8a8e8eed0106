// Two rides beside each other: the chart, and the four distances.
import { drawChart, drawnWords, rideText } from './chart.js';
import { byId, say } from './dom.js';
import { sameBytes } from './hex.js';
import { refusedShort, refusedWords } from './kinds.js';
import { counted, printed } from './numbers.js';

/** The four distances, by the names of the module. */
export const DISTANCE_NAMES = { cos: 'Cosine', l2: 'L2', dot: 'Dot', jaccard: 'Jaccard' };

/** What is said in the place of a number where there is none. */
export const NO_LIKENESS = 'no likeness to measure';

/** A distance in decimal, or in words where it is no number. */
export function distanceWords(answer) {
  if (answer.refusal) return refusedShort(answer.refusal);
  return Number.isNaN(answer.distance) ? NO_LIKENESS : printed(answer.distance);
}

/** Why a card has no blob to measure, in words; nothing where it has one. */
function withoutBlob(card) {
  if (card.state.blob) return [];
  return [`${card.name}: ${card.problem ?? refusedWords(card.state.refusal)}`];
}

/** Shows both rides: the chart, the readings and the distances. */
export function showPair(module, { a, b }) {
  showChart([a, b]);
  const problems = [a, b].flatMap(withoutBlob);
  const names = Object.keys(DISTANCE_NAMES);
  const answers = problems.length ? [] : names.map((name) => module.distance(name, a.state.blob, b.state.blob));
  const refused = answers.flatMap(({ refusal }) => (refusal ? [refusedWords(refusal)] : []));
  say(byId('pair-message'), [...problems, ...new Set(refused)].join(' '));
  byId('distances').hidden = problems.length > 0;
  const same = !problems.length && sameBytes(a.state.blob, b.state.blob);
  names.forEach((name, i) => showDistance(name, answers[i], same));
  showReadings(answers, [a, b]);
  const said = answers.map((answer, i) => `${DISTANCE_NAMES[names[i]]}: ${distanceWords(answer)}`);
  say(byId('pair-status'), said.join('. '));
}

/** The chart of the rides that there are. */
export function showChart(cards) {
  const there = cards.filter((card) => card.row);
  const series = there.map(({ letter, state, row }) => ({ letter, kind: state.view.kind, row }));
  const text = there.map((card, i) => rideText(card.name, series[i])).join(' ');
  const place = byId('pair-chart');
  const width = Math.max(280, Math.min(1080, place.clientWidth || 720));
  place.replaceChildren(...(series.length ? [drawChart(series, width, `Chart. ${text}`)] : []));
  byId('pair-figure').hidden = !series.length;
  for (const { letter, row } of cards) byId(`pair-key-${letter}`).hidden = !row;
  const dims = Math.max(0, ...series.map(({ row }) => row.length));
  say(byId('pair-chart-text'), text + drawnWords(dims));
}

/** The counts that the module answered with a distance; each ride's own where every distance was refused. */
function showReadings(answers, [a, b]) {
  const answer = answers.find(({ refusal }) => !refusal);
  const counts = [[a, answer?.readings], [b, answer?.otherReadings]];
  const said = counts.filter(([card]) => answers.length && card.state.view).map(([card, count]) => {
    const { dims, readings } = card.state.view;
    return `${card.name} holds ${counted(count ?? readings, 'reading')} in ${counted(dims, 'place')}.`;
  });
  say(byId('pair-readings'), said.join(' '));
}

/** Which sort of answer it is. */
function answerSort(answer) {
  if (!answer) return 'not asked';
  if (answer.refusal) return 'refused';
  return Number.isNaN(answer.distance) ? 'no likeness' : 'number';
}

function showDistance(name, answer, same) {
  byId(`distance-${name}`).textContent = answer ? distanceWords(answer) : '';
  byId(`distance-${name}-card`).dataset.answer = answerSort(answer);
  const pattern = byId(`distance-${name}-pattern`);
  pattern.textContent = answer?.pattern ?? '';
  pattern.parentNode.hidden = !answer?.pattern;
  say(byId(`distance-${name}-remark`), answer?.pattern ? remark(name, answer.distance, same) : '');
}

/** What is easily misread about an answer. */
function remark(name, distance, same) {
  if (Number.isNaN(distance)) return 'This is not far and not near: there is nothing to compare.';
  if (name === 'cos' && distance === 0 && !same) return 'Zero is not likeness: the blobs of these two rides differ.';
  if (Object.is(distance, -0)) return '-0 is a zero too, neither better nor worse than 0.';
  return '';
}
