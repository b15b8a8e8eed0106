// The lessons: rides are set up, the learner guesses, the module answers.
import { button, byId, make } from './dom.js';
import { bytesOfHex, hexOf } from './hex.js';
import { kindName } from './kinds.js';
import { LESSONS } from './lesson-texts.js';
import { rowOf, settled } from './ride.js';
import { stateOf, stateWord, valuesWords } from './stored.js';

/** Makes the three lessons. `setUp` puts a ride into card a or b. */
export function makeLessons(module, setUp) {
  LESSONS.forEach((lesson, i) => new Lesson(i + 1, lesson, module, setUp));
}

class Lesson {
  #module;
  #setUp;
  #number;
  #lesson;
  #steps;
  #end;
  #start;

  constructor(number, lesson, module, setUp) {
    this.#number = number;
    this.#lesson = lesson;
    this.#module = module;
    this.#setUp = setUp;
    const id = `lesson-${number}`;
    this.#steps = lesson.steps.map((step, i) => this.#makeStep(step, i + 1));
    this.#start = button(`Start lesson ${number}`, { 'data-do': 'start', class: 'main-button' }, () => this.#begin());
    this.#end = make(
      'div', { class: 'takeaway', 'data-step': 'end', hidden: true, tabindex: '-1' },
      make('p', {}, make('b', {}, 'What to take away: '), lesson.takeaway),
    );
    byId(id).append(
      make('h3', { id: `${id}-title` }, `Lesson ${number}. ${lesson.title}`), make('p', {}, lesson.intro),
      ...this.#steps.map(({ node }) => node), this.#end, make('p', { class: 'buttons' }, this.#start),
    );
  }

  #makeStep(step, number) {
    const name = `lesson-${this.#number}-step-${number}`;
    const last = number === this.#lesson.steps.length;
    const at = {
      rides: make('ul', { class: 'lesson-rides' }, ...this.#rideLines(step)),
      error: make('p', { class: 'error', id: `${name}-error`, role: 'status', hidden: true }),
      answer: make('div', { class: 'answer', id: `${name}-answer`, role: 'status', hidden: true }),
      ask: button('Ask the module', { 'data-do': 'answer', class: 'main-button' }, () => this.#answer(number - 1)),
    };
    const onward = last ? 'Finish the lesson' : 'Next step';
    at.next = button(onward, { 'data-do': 'next', hidden: true }, () => this.#go(number));
    at.title = make('h4', { tabindex: '-1' }, `Step ${number} of ${this.#lesson.steps.length}`);
    at.node = make(
      'section', { class: 'step waiting', 'data-step': number, 'aria-label': `Lesson ${this.#number}, step ${number}` },
      at.title, make('p', {}, step.setting), at.rides, choices(name, step),
      make('p', { class: 'for-paper' }, 'My guess, and why: ', make('span', { class: 'guess-line' })),
      at.error, make('p', { class: 'buttons' }, at.ask), at.answer, make('p', { class: 'buttons' }, at.next),
    );
    return at;
  }

  /** The rides of a step, each in a line. */
  #rideLines(step) {
    return step.rides.map((ride, i) => {
      const name = step.names?.[i] ?? `Ride ${'AB'[i]}`;
      const blob = this.#blob(ride);
      return ride.hex ? rideLine(name, [], null, blob) : this.#storedLine(name, blob);
    });
  }

  /** A ride in a line: its row, its kind and its blob. */
  #storedLine(name, blob) {
    const view = this.#module.read('plain', blob);
    return rideLine(name, rowOf(this.#module, blob, view), view.kind, blob);
  }

  #blob(ride) {
    return ride.hex ? bytesOfHex(ride.hex).bytes : settled(this.#module, ride).blob;
  }

  #begin() {
    this.#steps.forEach(({ node, rides, answer, next, error, ask }, i) => {
      rides.replaceChildren(...this.#rideLines(this.#lesson.steps[i]));
      node.classList.add('waiting');
      for (const part of [answer, next, error]) part.hidden = true;
      answer.replaceChildren();
      ask.hidden = false;
      for (const radio of node.querySelectorAll('input')) {
        radio.checked = false;
        radio.disabled = false;
      }
    });
    this.#end.hidden = true;
    this.#start.textContent = 'Start again';
    this.#start.classList.remove('main-button');
    this.#go(0);
  }

  /** Opens the step with this index, or the end. */
  #go(index) {
    this.#steps.forEach(({ node }, i) => node.classList.toggle('waiting', i !== index));
    if (index === this.#steps.length) {
      this.#end.hidden = false;
      this.#end.focus();
      return;
    }
    const held = (ride) => (ride.hex ? { kind: null, bytes: this.#blob(ride) } : ride);
    const [a, b = a] = this.#lesson.steps[index].rides.map(held);
    this.#setUp('a', a);
    this.#setUp('b', b);
    this.#steps[index].title.focus();
  }

  /** A ride that an answer has made becomes ride B, in its card and in the step. */
  #showB(at, blob) {
    this.#setUp('b', { kind: null, bytes: blob });
    at.rides.append(this.#storedLine('Ride B', blob));
  }

  /** Compares the guess with what the module answers. */
  #answer(index) {
    const step = this.#lesson.steps[index];
    const at = this.#steps[index];
    const guess = at.node.querySelector('input:checked');
    at.error.hidden = guess !== null;
    at.error.textContent = guess ? '' : 'Guess first: choose one of the answers.';
    if (!guess) {
      at.node.querySelector('input').focus();
      return;
    }
    const answer = step.ask(this.#module, step.rides.map((ride) => this.#blob(ride)));
    if (step.makesB) this.#showB(at, step.makesB(answer));
    for (const radio of at.node.querySelectorAll('input')) radio.disabled = true;
    at.ask.hidden = true;
    showVerdict(at.answer, step, guess.value, answer);
    at.next.hidden = false;
    at.next.focus();
  }
}

/** A ride in a line: its name, its row and kind where there are such, and its blob. */
function rideLine(name, row, kind, blob) {
  const chips = row.map((values) => {
    const state = stateOf(values);
    const word = make('small', {}, stateWord(state));
    return make('span', { class: 'chip', 'data-state': state }, valuesWords(values, kind), ' ', word);
  });
  const named = kind === null ? [] : [make('small', { class: 'kind' }, kindName(kind))];
  return make('li', {}, make('b', {}, name), ...chips, ...named, make('code', {}, hexOf(blob)));
}

function choices(name, step) {
  const lines = step.choices.map(([outcome, words], i) => {
    const id = `${name}-${i + 1}`;
    const radio = make('input', { type: 'radio', name, id, value: outcome, 'aria-describedby': `${name}-error` });
    return make('div', { class: 'choice' }, radio, ' ', make('label', { for: id }, words));
  });
  return make('fieldset', { class: 'choices' }, make('legend', {}, step.question), ...lines);
}

/** The module's answer, whether it was guessed, and its rule. */
function showVerdict(node, step, guess, answer) {
  const right = step.outcome(answer) === guess;
  const guessed = step.choices.find(([outcome]) => outcome === guess)[1];
  const verdict = right ? 'You guessed right.' : `Not quite. You guessed: ${guessed}.`;
  node.dataset.verdict = right ? 'right' : 'other';
  node.replaceChildren(
    make('p', {}, make('b', {}, verdict), ' ', right ? '' : (step.guesses[guess] ?? '')),
    make('p', {}, make('b', {}, 'The module: '), step.says(answer)),
    make('p', {}, step.rule),
  );
  node.hidden = false;
}
