// Numbers as people write them, and as bytes: little-endian.

/** A number in decimal, as short as its width in bits allows. */
export function printed(value, width = 64) {
  if (Number.isNaN(value)) return 'no number';
  if (!Number.isFinite(value)) return value > 0 ? 'infinity' : '-infinity';
  if (Object.is(value, -0)) return '-0';
  return String(width === 32 ? shortest32(value) : value);
}

/** The shortest decimal that is this f32. */
function shortest32(value) {
  for (let digits = 1; digits < 9; digits++) {
    const candidate = Number(value.toPrecision(digits));
    if (Math.fround(candidate) === value) return candidate;
  }
  return Number(value.toPrecision(9));
}

/** A number in at most so many digits, six for a row or a chart. */
export function brief(value, digits = 6) {
  const keeps = Object.is(value, -0) || !Number.isFinite(value);
  return printed(keeps ? value : Number(value.toPrecision(digits)));
}

/** Two different numbers in as few digits, six or more, as tell them apart. */
export function apart(one, other) {
  for (let digits = 6; digits <= 17; digits++) {
    const texts = [brief(one, digits), brief(other, digits)];
    if (texts[0] !== texts[1]) return texts;
  }
  return [one, other].map((value) => printed(value));
}

/** A whole number with its thousands parted: 65,536. */
export function grouped(count) {
  return count.toLocaleString('en-GB');
}

/** So many of a thing: '1 reading', '2 readings'. */
export function counted(count, thing) {
  return `${grouped(count)} ${thing}${count === 1 ? '' : 's'}`;
}

const NUMBER = /^[+-]?(\d+\.?\d*|\.\d+)(e[+-]?\d+)?$/i;

/** What was typed for a place: a value, null for none; or what is wrong with it. */
export function readingOf(text) {
  const typed = text.trim();
  if (typed.toLowerCase() === 'none') return { value: null };
  if (typed === '') return { wrong: 'is empty: type a number, 0 or none' };
  const quoted = `"${typed.length > 30 ? `${typed.slice(0, 30)}…` : typed}"`;
  if (!NUMBER.test(typed)) return { wrong: `${quoted}, is no number${pointWords(typed)}` };
  if (!Number.isFinite(Number(typed))) return { wrong: `${quoted}, is too large for a number` };
  return { value: Number(typed) };
}

/** A hint for who writes a comma where a point belongs. */
function pointWords(typed) {
  const point = typed.replace(',', '.');
  return point !== typed && NUMBER.test(point) ? `: write a point, ${point}` : '';
}

const FORMS = {
  f32: { size: 4, get: 'getFloat32', set: 'setFloat32' },
  f64: { size: 8, get: 'getFloat64', set: 'setFloat64' },
  u32: { size: 4, get: 'getUint32', set: 'setUint32' },
};

/** The numbers that these bytes hold, of a form: f32, f64 or u32. */
export function numbersOf(form, bytes) {
  const { size, get } = FORMS[form];
  const from = new DataView(bytes.buffer, bytes.byteOffset, bytes.length);
  return Array.from({ length: bytes.length / size }, (_, i) => from[get](size * i, true));
}

/** The bytes of numbers. */
export function bytesOf(form, numbers) {
  const { size, set } = FORMS[form];
  const made = new Uint8Array(size * numbers.length);
  const to = new DataView(made.buffer);
  numbers.forEach((number, i) => to[set](size * i, number, true));
  return made;
}
