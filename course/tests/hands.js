// What a reader does on the page, and what it then shows, by the ids of course/index.html.

import { Kind } from '../../bindings/js/fulandewu.js';

/** The names of the four distances, as the module and the page call them. */
export const DISTANCES = ['cos', 'l2', 'dot', 'jaccard'];

/** Chooses an option of a list by its value. */
export function choose(page, css, value) {
  return page.click(`${css} option[value="${value}"]`);
}

/** How many elements there are. */
export function count(page, css) {
  return page.script((where) => document.querySelectorAll(where).length, css);
}

/** The texts of elements, spaces and line breaks made one space. */
export function texts(page, css) {
  return page.script((where) =>
    [...document.querySelectorAll(where)].map((element) =>
      (element.innerText ?? element.textContent).trim().replaceAll(/\s+/g, ' ')), css);
}

/** Whether a reader sees an element. */
export function isSeen(page, css) {
  return page.script((where) => {
    const element = document.querySelector(where);
    return element !== null && inspect.seen(element);
  }, css);
}

/** The values of fields. */
export function values(page, css) {
  return page.script((where) => [...document.querySelectorAll(where)].map((field) => field.value), css);
}

/** What is typed in a field. */
export async function typed(page, css) {
  return (await values(page, css))[0];
}

/** An attribute of an element. */
export function attribute(page, css, name) {
  return page.script((where, which) => document.querySelector(where).getAttribute(which), css, name);
}

/** Types a ride into the card of ride a or b: its cells, and its kind. */
export async function typeRide(page, letter, kind, cells) {
  const card = `#ride-${letter}`;
  const there = await count(page, `${card}-cells input`);
  for (let place = there; place < cells.length; place++) await page.click(`${card}-add`);
  for (let place = cells.length; place < there; place++) await page.click(`${card}-remove`);
  for (const [place, text] of cells.entries()) await page.fill(`${card}-cell-${place}`, text);
  await choose(page, `${card}-kind`, kind);
}

/** Pastes a blob into the reader, and has it read in a mode. */
export async function pasteBlob(page, hex, mode = 'plain') {
  await page.click(`#mode-${mode}`);
  await page.fill('#blob-text', hex);
}

/** Takes a blob over as ride a or b, byte for byte. */
export async function useBlob(page, letter, hex) {
  await pasteBlob(page, hex);
  await page.click(`#blob-use-${letter}`);
}

/** The digits of a blob that is shown. */
export function shownHex(page, css) {
  return page.script((where) => document.querySelector(where).innerText.replaceAll(/\s+/g, ''), css);
}

/** The parts of a blob that is shown: what each is called, and its digits. */
export function shownParts(page, hex, legend) {
  return page.script((hexAt, legendAt) => {
    const parts = [...document.querySelectorAll(`${hexAt} .part`)];
    const names = [...document.querySelectorAll(`${legendAt} li b`)];
    return names.map((name, i) => [name.innerText.trim(), parts[i]?.innerText.replaceAll(/\s+/g, '')]);
  }, hex, legend);
}

/** The blob of cells, of which null is none, as the module makes it. */
export function blobOf(module, kind, cells) {
  const sparse = kind === Kind.Float32Sparse || cells.includes(null);
  const first = sparse
    ? module.write(Kind.Float32Sparse, cells.length, sparseBody(cells))
    : module.write(Kind.Float64Dense, cells.length, new Uint8Array(Float64Array.from(cells).buffer));
  const { dims, body } = module.convert(first.blob, kind);
  return module.write(kind, dims, body).blob;
}

function sparseBody(cells) {
  const places = [...cells.keys()].filter((place) => cells[place] !== null);
  const values = Float32Array.from(places, (place) => cells[place]);
  return Uint8Array.from(Buffer.concat([Buffer.from(values.buffer), Buffer.from(Uint32Array.from(places).buffer)]));
}
