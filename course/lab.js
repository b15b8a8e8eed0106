// The lab's file on the page: chosen or dropped, and read piece by piece.
import { byId, say } from './dom.js';
import { LARGEST_FILE, LabFile, MOST_RIDES, formatOfName, sampleFile } from './lab-file.js';
import { LabList } from './lab-list.js';
import { refusedWords } from './kinds.js';
import { counted, grouped } from './numbers.js';

/** The choices of a format, by their ids. */
const LAB_FORMATS = ['lab-format-name', 'lab-format-fvecs', 'lab-format-bvecs'];

/** How often it is said how far the reading is, in milliseconds. */
const PROGRESS_EVERY = 300;

/** The section of the lab's file. */
export class Lab {
  #module;
  #list;
  #chosen = null;
  #open = null;
  #stopped = false;
  #saidAt = 0;

  constructor(module, cards) {
    this.#module = module;
    this.#list = new LabList(module, cards, (open, error) => this.#unreadable(open, error));
    const input = byId('lab-file');
    // so that the same file can be chosen again
    input.addEventListener('click', () => {
      input.value = '';
    });
    input.addEventListener('change', () => input.files[0] && this.#choose(input.files[0]));
    for (const id of LAB_FORMATS) byId(id).addEventListener('change', () => this.#chosen && this.#read());
    byId('lab-sample').addEventListener('click', () => this.#chooseSample(false));
    byId('lab-sample-cut').addEventListener('click', () => this.#chooseSample(true));
    byId('lab-stop').addEventListener('click', () => {
      this.#stopped = true;
    });
    this.#takeDrops();
  }

  /** Comparisons with a ride A that has changed go away. */
  rideChanged() {
    this.#list.forgetComparisons();
  }

  /** A file may be dropped anywhere: outside the zone the browser would leave the page for it. */
  #takeDrops() {
    const zone = byId('lab-drop');
    const holdsFile = (event) => event.dataTransfer?.types.includes('Files');
    document.addEventListener('dragover', (event) => {
      if (!holdsFile(event)) return;
      event.preventDefault();
      zone.classList.add('over');
    });
    document.addEventListener('dragleave', () => zone.classList.remove('over'));
    document.addEventListener('drop', (event) => {
      zone.classList.remove('over');
      if (!holdsFile(event)) return;
      event.preventDefault();
      const { files } = event.dataTransfer;
      if (files.length > 1) this.#refuse('More than one file was dropped. Drop one at a time.');
      else if (files.length) this.#choose(files[0]);
    });
  }

  #choose(file) {
    this.#chosen = file;
    showChosen(file);
    this.#read();
  }

  #chooseSample(cutOff) {
    byId('lab-format-name').checked = true;
    this.#choose(sampleFile(this.#module, cutOff));
  }

  /** Says what is wrong with the file, in the place of its rides. */
  #refuse(words) {
    this.#clear();
    say(byId('lab-error'), words);
  }

  #unreadable(open, error) {
    if (this.#open !== open) return;
    this.#refuse(`"${open.file.name}" could not be read: ${error.message}. Perhaps it is a folder, or it has changed.`);
  }

  #clear() {
    this.#open = null;
    for (const id of ['lab-error', 'lab-progress', 'lab-fault']) say(byId(id), '');
    byId('lab-stop').hidden = true;
    this.#list.clear();
  }

  /** Why the chosen file is not read, or its format. */
  #format({ name, size }) {
    const chosen = LAB_FORMATS.map(byId).find((radio) => radio.checked).value;
    const format = chosen || formatOfName(name);
    const limit = `Files up to 100 MB are read, which is ${grouped(LARGEST_FILE)} bytes.`;
    if (size > LARGEST_FILE) return { wrong: `"${name}" has ${grouped(size)} bytes. ${limit}` };
    if (format) return { format };
    const choose = 'Choose above which of the two it is; the file is kept.';
    return { wrong: `The name "${name}" ends neither in .fvecs nor in .bvecs. ${choose}` };
  }

  async #read() {
    const { format, wrong } = this.#format(this.#chosen);
    if (wrong) {
      this.#refuse(wrong);
      return;
    }
    this.#clear();
    const open = new LabFile(this.#module, this.#chosen, format);
    this.#open = open;
    this.#stopped = false;
    this.#saidAt = 0;
    byId('lab-stop').hidden = false;
    try {
      this.#progress(open);
      await open.walk(() => this.#open === open && !this.#stopped, () => this.#progress(open));
      if (this.#open === open) this.#done(open);
    } catch (error) {
      this.#unreadable(open, error);
    }
  }

  /** Says how far the reading is. */
  #progress(open) {
    const now = performance.now();
    if (this.#open !== open || now - this.#saidAt < PROGRESS_EVERY) return;
    this.#saidAt = now;
    const read = `${megabytes(open.next)} of ${megabytes(open.file.size)} MB`;
    const rides = counted(open.starts.length, 'ride');
    say(byId('lab-progress'), `Reading "${open.file.name}" as ${open.format}: ${read}, ${rides} so far.`);
  }

  #done(open) {
    byId('lab-stop').hidden = true;
    say(byId('lab-progress'), summaryWords(open, this.#stopped));
    say(byId('lab-fault'), open.refusal ? faultWords(open) : '');
    this.#list.open(open);
  }
}

/** Shows the name of a file that was dropped or made where the name of a chosen one stands. */
function showChosen(file) {
  const input = byId('lab-file');
  if (input.files[0] === file) return;
  const holder = new DataTransfer();
  holder.items.add(file);
  input.files = holder.files;
}

/** What was read, and how it ended. */
function summaryWords({ file, format, starts, refusal, next }, stopped) {
  if (file.size === 0) return `"${file.name}" is empty: it has no byte. So it holds no ride, and no fault.`;
  const read = `"${file.name}", read as ${format}: ${counted(starts.length, 'ride')}`;
  const at = `byte ${grouped(next)}`;
  if (refusal) return `${read} before the fault.`;
  if (stopped) return `${read}. Reading was stopped at ${at} of ${grouped(file.size)}.`;
  if (next < file.size) return `${read}. No more than ${grouped(MOST_RIDES)} are listed; the file goes on at ${at}.`;
  return `${read}, and nothing is wrong with it.`;
}

/** The refusal of a file: its number, words and place. */
function faultWords({ starts, next, refusal }) {
  const ride = `Ride ${grouped(starts.length + 1)}, which starts at byte ${grouped(refusal.place ?? next)}`;
  const before = starts.length ? 'The rides before it are whole, and listed below.' : 'There is no ride before it.';
  return `${ride}, its place in the file: ${refusedWords(refusal)} ${before}`;
}

function megabytes(bytes) {
  return (bytes / 1e6).toFixed(1);
}
