// The three lessons: their rides, questions, choices and rules. What is right is not in them: the module is asked.
import { Kind } from '../bindings/js/fulandewu.js';
import { kindName, refusedWords } from './kinds.js';
import { counted, printed } from './numbers.js';
import { NO_LIKENESS } from './pair.js';
import { asKind } from './ride.js';
import { readingsWords } from './stored.js';

/**
 * @typedef {object} Step
 * @property {string} setting what the rides are
 * @property {object[]} rides ride A, perhaps ride B and one more: cells and kind, or a blob in hexadecimal
 * @property {string[]} [names] what the rides are called, if not ride A and ride B
 * @property {string} question
 * @property {[string, string][]} choices an outcome, and its words
 * @property {(module, blobs) => object} ask
 * @property {(answer) => string} outcome which choice the answer is
 * @property {(answer) => string} says the answer in words
 * @property {Object<string, string>} guesses what is said of a guess that is not the answer
 * @property {string} rule why
 */

const dense = (...cells) => ({ kind: Kind.Float32Dense, cells });
const sparse = (...cells) => ({ kind: Kind.Float32Sparse, cells });
const blobRide = (hex) => ({ hex });

/** Which choice a distance is. */
function distanceOutcome(answer) {
  if (answer.refusal) return 'refused';
  if (Number.isNaN(answer.distance)) return 'no likeness';
  return answer.distance === 0 ? 'zero' : 'above';
}

const DISTANCE_CHOICES = [
  ['zero', '0: they are as close as can be'],
  ['above', 'a number above 0'],
  ['no likeness', 'there is no likeness to measure'],
  ['refused', 'it is refused'],
];

function distanceSays(name) {
  return (answer) => {
    if (answer.refusal) return refusedWords(answer.refusal);
    return Number.isNaN(answer.distance) ? `${name}: ${NO_LIKENESS}.` : `${name} is ${printed(answer.distance)}.`;
  };
}

const cosine = {
  choices: DISTANCE_CHOICES,
  ask: (module, [a, b]) => module.distance('cos', a, b),
  outcome: distanceOutcome,
  says: distanceSays('Cosine'),
};

/** A question about the readings that are left when ride A is made another kind. */
function converted(kind, ...choices) {
  return {
    choices: choices.map((count) => [String(count), counted(count, 'reading')]),
    ask: (module, [a]) => ({ ...module.convert(a, kind), blob: asKind(module, a, kind).blob }),
    outcome: (answer) => String(answer.readings),
    says: (answer) => `As ${kindName(kind)} it has ${readingsWords(answer)}. It is now ride B.`,
    makesB: (answer) => answer.blob,
  };
}

const COUNT_THEM = 'Count the bits before the last byte, and leave out as many as the middle byte says.';

/** What is said of a wrong number of places of a 1-bit ride. */
const COUNT_BITS = {
  3: 'Bytes are not places: a 1-bit ride has eight of them in a byte.',
  7: COUNT_THEM,
  8: COUNT_THEM,
  9: COUNT_THEM,
  refused: 'There is room for all of its places, so it is accepted.',
};

/** A question about the number of places of ride A. */
const places = {
  choices: [['3', '3, one for each byte'], ['7', '7'], ['8', '8'], ['9', '9'], ['refused', 'it is refused']],
  ask: (module, [a]) => module.read('plain', a),
  outcome: (answer) => (answer.refusal ? 'refused' : String(answer.dims)),
  says: (answer) => {
    if (answer.refusal) return refusedWords(answer.refusal);
    return `It is a ride of kind ${kindName(answer.kind)} with ${counted(answer.dims, 'place')}.`;
  },
};

export const LESSONS = [
  {
    title: 'An absent reading is not a zero',
    intro:
      'A belt that loses contact sends nothing. A heart that stands still would send 0. A sparse ride stores only ' +
      'the readings that there were, so it keeps the two apart. A dense ride has a number at every place: it ' +
      'cannot.',
    takeaway: 'Ask how many readings a ride has before it is converted: afterwards nothing tells a gap from a zero.',
    steps: [
      {
        setting: 'Two dense rides of two places. Each holds two zeros.',
        rides: [dense('0', '0'), dense('0', '0')],
        question: 'What is the cosine distance of the two?',
        ...cosine,
        rule:
          'The rule for dense rides: where both norms are 0, cosine is 0. (A norm is the sum of the squared ' +
          'readings.) So zeros look like a perfect match.',
        guesses: {
          above: 'Nothing tells the two apart, so nothing lifts the distance above 0.',
          'no likeness':
            'That would be wise, and for sparse rides it is so. But a dense ride cannot say that nothing was ' +
            'measured.',
          refused: 'Both rides are well formed: two places, two numbers.',
        },
      },
      {
        setting: 'Two sparse rides of two places. Neither has a reading: the belts sent nothing.',
        rides: [sparse('none', 'none'), sparse('none', 'none')],
        question: 'And what is the cosine distance of these two?',
        ...cosine,
        rule:
          'The rule for sparse rides: where a norm is 0, there is nothing to compare. Whoever fills the gaps with ' +
          'zeros turns this answer into the one before, and a ride that was never ridden becomes the best match.',
        guesses: {
          zero: 'It was 0 for two rides of zeros. Here there are no zeros: there is nothing.',
          above: 'A number would say that they are apart, and there is nothing to say it from.',
          refused: 'A ride without a reading is not malformed. It is accepted, and the question is answered.',
        },
      },
      {
        setting: 'A sparse ride with 2 readings in 3 places: the belt lost contact in the middle.',
        rides: [sparse('60', 'none', '80')],
        question: 'Ride A is made Float32Dense. How many readings does the new ride count?',
        ...converted(Kind.Float32Dense, 1, 2, 3),
        rule:
          'The rule: from sparse, there are zeros where no entry is. The gap has become 0, and every zero of a dense ' +
          'ride counts as a reading.',
        guesses: {
          1: 'Both 60 and 80 are still there.',
          2: 'Two were measured. But a dense ride has no way to say so.',
        },
      },
      {
        setting: 'A dense ride of 3 places. Its 0 may have been a reading: nothing says so.',
        rides: [dense('60', '0', '80')],
        question: 'Ride A is made Float32Sparse. How many readings does the new ride count?',
        ...converted(Kind.Float32Sparse, 1, 2, 3),
        rule:
          'The rule: to sparse, elements equal to 0 are dropped. If that 0 was a reading, it is lost: the new ride ' +
          'says that nothing was measured there.',
        guesses: {
          1: 'Both 60 and 80 are still there.',
          3: 'The 0 counted as long as the ride was dense. It is not taken over.',
        },
      },
    ],
  },
  {
    title: 'Distance zero is not likeness',
    intro: 'The station looks for the smallest distance. A zero seems to be the best there is. What does it say?',
    takeaway:
      'Zero says that this distance sees no difference, not that there is none: look at L2 and at the count of ' +
      'readings too.',
    steps: [
      {
        setting: 'A resting patient, 60 and 80. A sprint, 120 and 160.',
        rides: [dense('60', '80'), dense('120', '160')],
        question: 'What is the cosine distance of the two?',
        ...cosine,
        rule:
          'Cosine looks at the direction alone, and a heart twice as fast points the same way. A station that copies ' +
          'settings at cosine 0 gives a resting patient the settings of a sprint.',
        guesses: {
          above: 'The readings differ. But cosine does not look at how high they are.',
          'no likeness': 'Both rides have readings, so there is something to measure.',
          refused: 'They are of one kind and have the same number of places, so they can be compared.',
        },
      },
      {
        setting: 'The same two rides: 60, 80 and 120, 160.',
        rides: [dense('60', '80'), dense('120', '160')],
        question: 'And what is their L2 distance?',
        choices: [['0', '0'], ['70', '70'], ['100', '100'], ['140', '140']],
        ask: (module, [a, b]) => module.distance('l2', a, b),
        outcome: (answer) => String(answer.distance),
        says: distanceSays('L2'),
        rule:
          'L2 is the root of the sum of the squared differences. Here these are 60 and 80, and 60 · 60 + 80 · 80 = ' +
          '10,000. It tells the rides apart.',
        guesses: {
          0: 'That was cosine. L2 looks at the differences.',
          70: 'That is the mean of the two differences. L2 squares them, adds them up and takes the root.',
          140: 'That is the sum of the two differences. L2 squares them first, and takes the root at the end.',
        },
      },
      {
        setting: 'Two rides of zeros. Perhaps nobody sat on the bike.',
        rides: [dense('0', '0', '0'), dense('0', '0', '0')],
        question: 'What is the cosine distance of the two?',
        ...cosine,
        rule:
          'Zero can also mean that there was nothing there: where both norms are 0, dense cosine is 0. Only for ' +
          '1-bit rides does cosine 0 mean that two rides are the same.',
        guesses: {
          above: 'Nothing tells the two apart, so nothing lifts the distance above 0.',
          'no likeness': 'A person would say so. The rule for dense rides gives a number.',
          refused: 'Both rides are well formed, and the zeros count as readings.',
        },
      },
      {
        setting: 'A sparse ride, 60 and 80, and two old rides. The first has no reading, the second lacks one.',
        rides: [sparse('60', '80'), sparse('none', 'none'), sparse('60', 'none')],
        names: ['Ride A, the new ride', 'Ride B, the first old ride', 'The second old ride'],
        question: 'Which old ride is nearer to ride A by cosine?',
        choices: [['first', 'the first: it is at no distance'], ['second', 'the second'], ['refused', 'it is refused']],
        ask: (module, [probe, first, second]) => module.nearer('cos', probe, first, second),
        outcome: (answer) => (answer.refusal ? 'refused' : answer.nearer),
        says: (answer) => {
          if (answer.refusal) return refusedWords(answer.refusal);
          const holds = `It holds ${counted(answer.readings, 'reading')}.`;
          return `The ${answer.nearer} old ride is nearer, at ${printed(answer.distance)}. ${holds}`;
        },
        rule:
          'Where there is no likeness to measure, a ride is not near: it loses to every number. How far a ride is ' +
          'and how much of it there was are two questions.',
        guesses: {
          first: 'It is at no distance, and that is not a small distance.',
          refused: 'It would be, if neither old ride had a likeness to measure. One of them has.',
        },
      },
    ],
  },
  {
    title: "A blob's length does not tell its dims",
    intro: 'Dims are the number of places of a ride. It is tempting to work them out from how many bytes there are.',
    takeaway:
      'Let the reader say how many places there are: two blobs of one length may be rides that do not belong ' +
      'together.',
    steps: [
      {
        setting:
          'A blob of three bytes. The last, 03, says that it is a 1-bit ride. The one before, 08, says how many of ' +
          'the bits before the last byte do not count.',
        rides: [blobRide('aa0803')],
        question: 'How many places has ride A?',
        ...places,
        rule: 'Two bytes stand before the last one: 16 bits. Eight of them do not count.',
        guesses: COUNT_BITS,
      },
      {
        setting: 'Three bytes again, beside the ones before. Only the middle byte of ride A is new: 09.',
        rides: [blobRide('aa0903'), blobRide('aa0803')],
        question: 'How many places has ride A?',
        ...places,
        rule: 'Sixteen bits, of which nine do not count. The length is the same, the number of places is not.',
        guesses: COUNT_BITS,
      },
      {
        setting: 'Three bytes once more, with 07 in the middle of ride A.',
        rides: [blobRide('aa0703'), blobRide('aa0803')],
        question: 'How many places has ride A?',
        ...places,
        rule:
          'With only seven of sixteen bits left out there would be nine places, and the one byte of the body has ' +
          'room for eight. It is refused, and nothing is guessed.',
        guesses: {
          3: 'Bytes are not places: eight bits of a 1-bit ride are in each.',
          7: 'That is what does not count. What is left of sixteen?',
          8: 'That is how many have room. What is left of sixteen?',
          9: 'Sixteen less seven is nine, well counted. But is there room for nine?',
        },
      },
      {
        setting: 'Two sparse rides of five bytes each. Neither has a reading.',
        rides: [blobRide('0200000009'), blobRide('0300000009')],
        question: 'How many places have they?',
        choices: [
          ['5 and 5', '5 and 5, one for each byte'],
          ['0 and 0', '0 and 0, since there is no reading'],
          ['2 and 3', '2 and 3'],
        ],
        ask: (module, [a, b]) => [a, b].map((blob) => module.read('plain', blob)),
        outcome: (answers) => answers.map(({ dims }) => dims).join(' and '),
        says: ([a, b]) => `Ride A has ${readingsWords(a)}, ride B ${readingsWords(b)}.`,
        rule:
          'A sparse ride stores its dims in the four bytes before the last. They count the places, with a reading or ' +
          'without.',
        guesses: {
          '5 and 5': 'Bytes are not places.',
          '0 and 0': 'There is no reading. But a place stays a place without one.',
        },
      },
      {
        setting: 'The first two blobs again, of three bytes each: aa0803 and aa0903.',
        rides: [blobRide('aa0803'), blobRide('aa0903')],
        question: 'What is their cosine distance?',
        ...cosine,
        rule:
          'Both blobs have three bytes, and still there is no distance between them: their length did not tell that ' +
          'one has a place more.',
        guesses: {
          zero: 'Their first bytes are equal. But one of them has a place more.',
          above: 'For a number every place of the one needs its place in the other.',
          'no likeness': 'That is said of rides that can be compared. These cannot.',
        },
      },
    ],
  },
];
