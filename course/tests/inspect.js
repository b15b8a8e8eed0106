// What the tests ask inside the page: colours, widths, names, order, focus. The driver hands this text to Chromium,
// which runs it in every new document. Each question answers a list of faults, a line each.
'use strict';
{
  /** The contrast that text needs, and the one of large text and of the edges of fields (WCAG 2, level AA). */
  const TEXT = 4.5;
  const LARGE = 3;

  const FIELDS = 'input, select, textarea';
  const CONTROLS = `${FIELDS}, button, a[href], summary, [tabindex]`;

  const canvas = new OffscreenCanvas(1, 1).getContext('2d', { willReadFrequently: true });

  const known = new Map();

  /** A colour of CSS as red, green, blue (0 to 255) and opacity (0 to 1). */
  function rgba(colour) {
    if (!known.has(colour)) {
      canvas.clearRect(0, 0, 1, 1);
      canvas.fillStyle = colour;
      canvas.fillRect(0, 0, 1, 1);
      const [red, green, blue, opacity] = canvas.getImageData(0, 0, 1, 1).data;
      known.set(colour, [red, green, blue, opacity / 255]);
    }
    return known.get(colour);
  }

  /** A colour laid over an opaque one. */
  function over([red, green, blue, opacity], below) {
    const mixed = [red, green, blue].map((part, i) => part * opacity + below[i] * (1 - opacity));
    return [...mixed, 1];
  }

  function luminance(colour) {
    const [red, green, blue] = colour.slice(0, 3).map((part) => {
      const share = part / 255;
      return share <= 0.04045 ? share / 12.92 : ((share + 0.055) / 1.055) ** 2.4;
    });
    return 0.2126 * red + 0.7152 * green + 0.0722 * blue;
  }

  function contrast(one, other) {
    const [light, dark] = [luminance(one), luminance(other)].sort((a, b) => b - a);
    return (light + 0.05) / (dark + 0.05);
  }

  /** The colour of an empty page in its scheme. */
  function paper() {
    const { colorScheme } = getComputedStyle(document.documentElement);
    const dark = colorScheme.includes('dark') && matchMedia('(prefers-color-scheme: dark)').matches;
    return rgba(dark ? '#121212' : '#ffffff');
  }

  /** The styles of an element and of those around it, the outermost first. */
  function styles(element) {
    return element ? [...styles(element.parentElement), getComputedStyle(element)] : [];
  }

  /** Every colour that may stand behind an element's text: there are several where a pattern is drawn. */
  function behind(element) {
    const colours = styles(element).reduce((below, style) => {
      const stops = (style.backgroundImage.match(/\b(?:rgba?|color|oklch|oklab|lab)\([^)]*\)/g) ?? []).map(rgba);
      const plain = below.map((colour) => over(rgba(style.backgroundColor), colour));
      return [...plain, ...plain.flatMap((colour) => stops.map((stop) => over(stop, colour)))];
    }, [paper()]);
    return [...new Map(colours.map((colour) => [colour.join(), colour])).values()];
  }

  /** The least contrast of a colour drawn on an element. */
  function least(colour, element) {
    const opacity = styles(element).reduce((product, style) => product * style.opacity, 1);
    const [red, green, blue, alpha] = rgba(colour);
    const drawn = [red, green, blue, alpha * opacity];
    return Math.min(...behind(element).map((below) => contrast(over(drawn, below), below)));
  }

  /** Whether a reader sees an element: it is laid out, and no text for screen readers alone. */
  function seen(element) {
    if (!element.checkVisibility({ checkOpacity: true, checkVisibilityCSS: true })) return false;
    const box = element.getBoundingClientRect();
    return box.width > 1 && box.height > 1;
  }

  /** An element, as a person finds it in the page's text. */
  function named(element) {
    const id = element.closest('[id]')?.id;
    const classes = (element.getAttribute('class') ?? '').trim().split(/\s+/).filter(Boolean);
    const words = element.textContent.trim().replaceAll(/\s+/g, ' ').slice(0, 40);
    return `${id ? `in #${id}: ` : ''}${[element.localName, ...classes].join('.')} '${words}'`;
  }

  /** The elements that hold text of their own which a reader sees. */
  function texts() {
    const walker = document.createTreeWalker(document.body, NodeFilter.SHOW_TEXT);
    const found = new Set();
    while (walker.nextNode()) {
      const element = walker.currentNode.parentElement;
      if (walker.currentNode.data.trim() && !element.closest('script, style, :disabled, option')) found.add(element);
    }
    for (const field of document.querySelectorAll(FIELDS)) if (!field.disabled) found.add(field);
    return [...found].filter(seen);
  }

  /** The colours of the letters of an element. */
  function inks(element) {
    const style = getComputedStyle(element);
    const ink = element instanceof SVGElement ? style.fill : style.color;
    return element.placeholder ? [ink, getComputedStyle(element, '::placeholder').color] : [ink];
  }

  /** Text that is too faint. */
  function faint() {
    return texts().flatMap((element) => {
      const style = getComputedStyle(element);
      const size = parseFloat(style.fontSize);
      const needed = size >= 24 || (size >= 18.66 && style.fontWeight >= 700) ? LARGE : TEXT;
      const ratio = Math.min(...inks(element).map((ink) => least(ink, element)));
      return ratio < needed ? [`${ratio.toFixed(2)} below ${needed}: ${named(element)}`] : [];
    });
  }

  /** Fields whose edge cannot be told from what is inside or around them. */
  function edgeless() {
    const boxes = [...document.querySelectorAll(FIELDS)].filter((field) => seen(field) && !field.disabled);
    return boxes.filter((field) => !['radio', 'checkbox', 'file'].includes(field.type)).flatMap((field) => {
      const style = getComputedStyle(field);
      const edges = ['Top', 'Right', 'Bottom', 'Left'].map((side) => {
        const [width, line, ink] = ['Width', 'Style', 'Color'].map((part) => style[`border${side}${part}`]);
        const drawn = parseFloat(width) > 0 && line !== 'none';
        return drawn ? Math.max(least(ink, field), least(ink, field.parentElement)) : 1;
      });
      const ratio = Math.max(...edges, least(style.backgroundColor, field.parentElement));
      return ratio < LARGE ? [`${ratio.toFixed(2)} below ${LARGE}: ${named(field)}`] : [];
    });
  }

  /** Lines and marks of drawings that are too faint. A grid may be faint: it says nothing by itself. */
  function faintLines() {
    const shapes = [...document.querySelectorAll('svg :is(path, circle, rect):not(.grid)')];
    return shapes.filter((shape) => shape.checkVisibility()).flatMap((shape) => {
      const { stroke, fill } = getComputedStyle(shape);
      const drawn = (shape.matches('circle, rect') ? [stroke, fill] : [stroke]).filter((ink) => ink !== 'none');
      const ratio = Math.max(...drawn.map((ink) => least(ink, shape.closest('svg'))));
      return drawn.length && ratio < LARGE ? [`${ratio.toFixed(2)} below ${LARGE}: ${named(shape)}`] : [];
    });
  }

  /** Texts of drawings that stand one over the other, or outside the drawing. */
  function crowded() {
    return [...document.querySelectorAll('svg')].filter(seen).flatMap((drawing) => {
      const edge = drawing.getBoundingClientRect();
      const boxes = [...drawing.querySelectorAll('text')].map((text) => [text, text.getBoundingClientRect()]);
      const outside = boxes.filter(([, box]) =>
        box.left < edge.left - 1 || box.right > edge.right + 1 || box.bottom > edge.bottom + 1);
      const over = boxes.filter(([, one], i) => boxes.slice(0, i).some(([, other]) =>
        one.left < other.right && other.left < one.right && one.top < other.bottom && other.top < one.bottom));
      return [...new Set([...outside, ...over])].map(([text]) => named(text));
    });
  }

  /** What makes the page, or a part of it, scroll sideways. */
  function sideways() {
    const root = document.scrollingElement;
    const wide = root.scrollWidth > innerWidth ? [`the page: ${root.scrollWidth} of ${innerWidth}`] : [];
    for (const element of document.body.querySelectorAll('*')) {
      if (element.matches(FIELDS) || element.closest('svg') || !seen(element)) continue;
      const scrolls = ['auto', 'scroll'].includes(getComputedStyle(element).overflowX);
      if (scrolls && element.scrollWidth > element.clientWidth) wide.push(`scrolls: ${named(element)}`);
      if (element.getBoundingClientRect().right > innerWidth + 1) wide.push(`sticks out: ${named(element)}`);
    }
    return wide;
  }

  /** Ids that stand twice, and references to ids that are not there. */
  function ids() {
    const all = [...document.querySelectorAll('[id]')].map((element) => element.id);
    const twice = all.filter((id, i) => all.indexOf(id) !== i).map((id) => `twice: ${id}`);
    const asked = ['for', 'aria-labelledby', 'aria-describedby', 'aria-controls'].flatMap((name) =>
      [...document.querySelectorAll(`[${name}]`)].flatMap((element) => element.getAttribute(name).split(/\s+/)));
    const links = [...document.querySelectorAll('a[href^="#"]')].map((link) => link.getAttribute('href').slice(1));
    return [...twice, ...[...asked, ...links].filter((id) => id && !all.includes(id)).map((id) => `missing: ${id}`)];
  }

  /** Headings that leave out a level, and a page that has not one first heading. */
  function headings() {
    const all = [...document.querySelectorAll('h1, h2, h3, h4, h5, h6')].filter(seen);
    const levels = all.map((heading) => Number(heading.localName[1]));
    const skips = all.filter((_, i) => levels[i] > (levels[i - 1] ?? 0) + 1);
    const first = levels.filter((level) => level === 1).length;
    return [...skips.map((heading) => `skips: ${named(heading)}`), ...(first === 1 ? [] : [`${first} of level 1`])];
  }

  /** Drawings without a text that stands for them. */
  function pictures() {
    const told = (drawing) => drawing.closest('[aria-hidden="true"]') || drawing.alt
      || drawing.getAttribute('aria-label') || drawing.getAttribute('aria-labelledby')
      || drawing.querySelector(':scope > title')?.textContent.trim();
    return [...document.querySelectorAll('svg, img, canvas')].filter((drawing) => !told(drawing)).map(named);
  }

  /** What a control looks like as far as the focus may change it: itself, and what is drawn around it. */
  function look(control) {
    const shown = [control, control.parentElement, ...(control.labels ?? [])];
    return shown.map((element) => {
      const style = getComputedStyle(element);
      const outlined = style.outlineStyle !== 'none' && parseFloat(style.outlineWidth) > 0;
      return `${outlined ? `${style.outlineWidth} ${style.outlineColor}` : 'no outline'}; ${style.boxShadow}`;
    }).join(' | ');
  }

  const atRest = new WeakMap();

  /** Keeps what the controls look like without the focus, and lets Tab start at the first of them. */
  function rest() {
    const first = document.querySelector(CONTROLS);
    first.focus();
    first.blur();
    for (const control of document.querySelectorAll(CONTROLS)) atRest.set(control, look(control));
  }

  /** Where the focus is, and whether one sees it there. */
  function focus() {
    const control = document.activeElement;
    if (control === document.body) return null;
    return { where: named(control), seen: atRest.get(control) !== look(control) && seen(control) };
  }

  globalThis.inspect = {
    rgba, seen, rest, focus, faint, edgeless, faintLines, crowded, sideways, ids, headings, pictures,
  };
}
