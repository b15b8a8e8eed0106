// The five kinds in the words of the rules, and refusals in words.
import { Kind } from '../bindings/js/fulandewu.js';

/** The kinds in the order of the page, each with what it keeps. */
export const KINDS = [
  {
    kind: Kind.Float32Sparse,
    name: 'Float32Sparse',
    keeps: 'Stores the readings that there were, each with its place. The one kind that can store none.',
  },
  {
    kind: Kind.Float32Dense,
    name: 'Float32Dense',
    keeps: 'Stores a number of four bytes for every place. It cannot store none.',
  },
  {
    kind: Kind.Float64Dense,
    name: 'Float64Dense',
    keeps: 'Stores a number of eight bytes for every place, more exactly. It cannot store none.',
  },
  {
    kind: Kind.Float1Bit,
    name: 'Float1Bit',
    keeps: 'Stores one bit for every place: above zero, or not. It reads back as 1 and -1.',
  },
  {
    kind: Kind.Float8,
    name: 'Float8',
    keeps: 'Stores one byte for every place, a step from 0 to 255 between the least and the greatest reading.',
  },
];

/** The name of a kind. */
export function kindName(kind) {
  return KINDS.find((each) => each.kind === kind).name;
}

/** What a refusal means to whoever has never seen one. */
const MEANS = {
  1: 'No ride is as long as that.',
  2: 'The last byte names a kind that exists but is not supported.',
  3: 'The last byte says of which kind a ride is, and no kind has this number. Perhaps the end of the blob is missing.',
  4: 'Only the type byte is there.',
  5: 'The byte before the last says how much of the ride does not count, and that is more than there is.',
  6: 'The byte before the last says how many bits do not count. What would be left has no room before it.',
  7: 'The ride has half a number in it, or no place at all where its kind needs one. Perhaps a part is missing.',
  8: 'A reading stands at a place that the ride does not have.',
  9: 'A ride has up to 65,536 places.',
  10: 'The places do not rise: one place has two readings, or the order is lost.',
  11: 'A bit that stands for no place is set, and a distance would count it.',
  12: 'The rides have different numbers of places, so they do not belong together.',
  13: 'The rides are stored in different ways. One of them has to be converted first.',
  14: 'Rides of kind Float1Bit have cosine, dot and Jaccard.',
  16: 'A ride of this kind has at least one place.',
  18: 'Neither has a likeness to measure, so neither is nearer.',
  19: 'Nothing is made up for what is missing.',
};

/** What the two blobs of a distance are called on the page. */
const PAIR_NAMES = { first: 'ride A', second: 'ride B' };

/** A refusal in short: 'Refused by 12: dims differ.' It names the ride that it is about. */
export function refusedShort({ number, which, words }) {
  return `Refused by ${number}${which ? ` (${PAIR_NAMES[which] ?? which})` : ''}: ${words}.`;
}

/** A refusal in words, with what it means. */
export function refusedWords(refusal) {
  return [refusedShort(refusal), MEANS[refusal.number] ?? ''].join(' ').trim();
}
