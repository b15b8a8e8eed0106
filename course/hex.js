// Bytes in hexadecimal, and back.

const DIGITS = Array.from({ length: 256 }, (_, byte) => byte.toString(16).padStart(2, '0'));

/** Bytes in hexadecimal. */
export function hexOf(bytes) {
  let text = '';
  for (const byte of bytes) text += DIGITS[byte];
  return text;
}

/** Whether two runs of bytes are the same. */
export function sameBytes(one, other) {
  return one.length === other.length && one.every((byte, i) => byte === other[i]);
}

/** The value of a digit's character code; -1 for white space, -2 for what is neither. */
const DIGIT_VALUES = new Int8Array(128).fill(-2);
for (const space of ' \t\r\n\f\v') DIGIT_VALUES[space.charCodeAt(0)] = -1;
for (let digit = 0; digit < 16; digit++) {
  for (const sign of [digit.toString(16), digit.toString(16).toUpperCase()]) DIGIT_VALUES[sign.charCodeAt(0)] = digit;
}

/** The bytes that a text in hexadecimal stands for, or what is wrong with it. Spaces and line breaks do not count. */
export function bytesOfHex(text) {
  const bytes = new Uint8Array(text.length >> 1);
  let digits = 0;
  for (let i = 0; i < text.length; i++) {
    const value = DIGIT_VALUES[text.charCodeAt(i)] ?? -2;
    if (value === -2) return wrongDigit(text, i);
    if (value < 0) continue;
    bytes[digits >> 1] |= digits & 1 ? value : value << 4;
    digits++;
  }
  if (digits & 1) return { wrong: 'The number of digits is odd: the last byte has only one of its two.' };
  return { bytes: bytes.slice(0, digits >> 1) };
}

function wrongDigit(text, at) {
  const sign = String.fromCodePoint(text.codePointAt(at));
  return { wrong: `Character ${at + 1}, "${sign}", is no hexadecimal digit: these are 0 to 9 and a to f.` };
}
