// Elements of the page: found, made and filled.

/** The element of the page with an id. */
export function byId(id) {
  return document.getElementById(id);
}

/** A new element: attributes by name (true: without a value; null or false: left out), then its children. */
export function make(tag, attributes = {}, ...children) {
  return fitted(document.createElement(tag), attributes, children);
}

/** The same in SVG. */
export function draw(tag, attributes = {}, ...children) {
  return fitted(document.createElementNS('http://www.w3.org/2000/svg', tag), attributes, children);
}

function fitted(node, attributes, children) {
  for (const [name, value] of Object.entries(attributes)) {
    if (value !== null && value !== false) node.setAttribute(name, value === true ? '' : value);
  }
  node.append(...children);
  return node;
}

/** A button with its words. */
export function button(words, attributes, pressed) {
  const made = make('button', { type: 'button', ...attributes }, words);
  if (pressed) made.addEventListener('click', pressed);
  return made;
}

/** Puts words into an element, which is hidden where there are none. */
export function say(node, words) {
  if (node.textContent !== words) node.textContent = words;
  node.hidden = words === '';
}
