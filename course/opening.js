// The opening: what is answered for a patient with no pulse.
import { Kind } from '../bindings/js/fulandewu.js';
import { byId } from './dom.js';
import { refusedWords } from './kinds.js';
import { distanceWords } from './pair.js';
import { settled } from './ride.js';

/** Puts the two questions to the module when the button is pressed. */
export function makeOpening(module) {
  byId('opening-ask').addEventListener('click', () => {
    const [patient, first, second] = [['none', 'none'], ['60', '80'], ['60', 'none']].map(
      (cells) => settled(module, { kind: Kind.Float32Sparse, cells }).blob,
    );
    const likeness = module.distance('cos', patient, first);
    const nearer = module.nearer('cos', patient, first, second);
    byId('opening-cos').textContent = distanceWords(likeness);
    byId('opening-cos-pattern').textContent = likeness.pattern ?? '';
    byId('opening-near').textContent = nearer.refusal ? refusedWords(nearer.refusal) : `the ${nearer.nearer} old ride.`;
    byId('opening-end').textContent = nearer.refusal
      ? 'So the station copies no setting. What happens to the patient is for a person to decide, who is told at once.'
      : 'So the station copies the settings of that ride.';
    byId('opening-answer').hidden = false;
  });
}
