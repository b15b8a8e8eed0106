// A blob typed or pasted: read in either mode, shown part by part, or refused.
import { button, byId, say } from './dom.js';
import { bytesOfHex, hexOf } from './hex.js';
import { kindName, refusedWords } from './kinds.js';
import { counted } from './numbers.js';
import { entryOf, partsOf, partsOfRefused } from './parts.js';
import { rowOf } from './ride.js';
import { readingsWords, showFacts, showParts, showRow } from './stored.js';

/** Blobs to try, with what is special about them. */
const BLOB_EXAMPLES = [
  ['60, none, 80', '00007042 0000a042 00000000 02000000 03000000 09'],
  ['A reading at a place that is not there', '00007042 0000a042 01000000 05000000 02000000 09'],
  ['A belt that stutters', '0000803f 00000040 07000000 07000000 08000000 09'],
  ['An unused bit that is set', '03 0f 03'],
  ['A last byte that was cut off', '00007042 0000a042 00000000 01000000 020000'],
];

/** The section of the reader. `use` takes bytes over as ride a or b. */
export class BlobReader {
  #module;
  #typed = null;

  constructor(module, use) {
    this.#module = module;
    const text = byId('blob-text');
    text.value ||= BLOB_EXAMPLES[0][1];
    text.addEventListener('input', () => this.#typing());
    for (const id of ['mode-plain', 'mode-strict']) byId(id).addEventListener('change', () => this.#show());
    const examples = BLOB_EXAMPLES.map(([words, hex]) => {
      return button(words, { 'data-blob': hex.replaceAll(' ', '') }, () => this.put(hex));
    });
    byId('blob-examples').append(...examples);
    byId('blob-text-back').addEventListener('click', () => this.#putBack());
    for (const letter of ['a', 'b']) {
      byId(`blob-use-${letter}`).addEventListener('click', () => {
        use(letter, this.#bytes);
        say(byId('blob-used'), `Ride ${letter.toUpperCase()} is now held as these bytes.`);
      });
    }
    this.#show();
  }

  #bytes = null;

  /** Puts a text into the field, and keeps what was typed there. */
  put(hex) {
    const text = byId('blob-text');
    const isExample = BLOB_EXAMPLES.some(([, example]) => example === text.value);
    if (this.#typed === null && !isExample) this.#typed = text.value;
    text.value = hex;
    this.#show();
  }

  /** Puts a blob into the field, and goes there. */
  putBlob(blob) {
    this.put(hexOf(blob));
    byId('blob-text').focus();
  }

  #putBack() {
    byId('blob-text').value = this.#typed;
    this.#typing();
    byId('blob-text').focus();
  }

  #typing() {
    this.#typed = null;
    this.#show();
  }

  #show() {
    const text = byId('blob-text');
    const { bytes, wrong } = bytesOfHex(text.value);
    this.#bytes = bytes ?? null;
    say(byId('blob-text-error'), wrong ?? '');
    text.setAttribute('aria-invalid', wrong !== undefined);
    byId('blob-result').hidden = wrong !== undefined;
    byId('blob-text-back').hidden = this.#typed === null;
    say(byId('blob-used'), '');
    if (bytes) this.#showRead(bytes);
  }

  #showRead(blob) {
    const mode = byId('mode-strict').checked ? 'strict' : 'plain';
    const answer = this.#module.read(mode, blob);
    const { refusal } = answer;
    const view = refusal ? null : answer;
    const entry = refusal && entryOf(blob, refusal);
    say(byId('blob-answer'), refusal ? refusedWords(refusal) : acceptedWords(view, blob, mode));
    byId('blob-result').dataset.answer = refusal ? 'refused' : 'accepted';
    const marked = 'Entries are counted from 0; its value and its index are marked below.';
    say(byId('blob-entry'), entry ? `Wrong is ${entry.words}. ${marked}` : '');
    const at = (id) => byId(`blob-${id}`);
    at('facts').hidden = refusal !== null;
    at('stored').hidden = refusal !== null;
    at('kind').textContent = view ? kindName(view.kind) : '';
    showFacts({ dims: at('dims'), readings: at('readings'), length: at('length') }, view, blob.length);
    showRow({ row: at('row'), rest: at('row-rest') }, view ? rowOf(this.#module, blob, view) : [], view?.kind);
    const parts = view ? partsOf(blob, view) : partsOfRefused(blob, refusal);
    showParts({ hex: at('hex'), legend: at('parts') }, { blob, view, parts, marked: entry?.starts });
  }
}

function acceptedWords(view, blob, mode) {
  const empty = blob.length ? '' : ' Nothing is typed, and the empty blob is a ride too.';
  const length = counted(blob.length, 'byte');
  return `Accepted in the ${mode} mode: ${kindName(view.kind)}, ${readingsWords(view)}, ${length}.${empty}`;
}
