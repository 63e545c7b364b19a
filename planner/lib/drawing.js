// What the pictures share: the picture itself, texts, lines, a legend. Attributes alone, so that a page's policy and a file both show them.
import { element } from './markup.js';

const FONT = 'system-ui, Segoe UI, Helvetica, Arial, sans-serif';
export const INK = '#111111';
const NARROW = 'iljtfrI.,:;|!()[] \'';
const WIDE = 'mwMW@%';

// About how wide a text is, in units of its size; a picture cannot measure it.
export function textWidth(text, size) {
  let width = 0;
  for (const character of text) {
    if (character.codePointAt(0) >= 0x1100) width += 1.05;
    else if (NARROW.includes(character)) width += 0.36;
    else width += WIDE.includes(character) ? 0.92 : character >= 'A' && character <= 'Z' ? 0.7 : 0.58;
  }
  return width * size;
}

export function textAt(x, y, size, text, attributes = {}) {
  return element('text', { x, y, 'font-size': size, fill: 'currentColor', ...attributes }, text);
}

// Dark letters with a light rim, for texts that lie on a pattern.
export function textOnPattern(x, y, size, text, rim, attributes = {}) {
  const rimmed = { fill: INK, stroke: rim, 'stroke-width': 3, 'stroke-linejoin': 'round', 'paint-order': 'stroke' };
  return textAt(x, y, size, text, { ...rimmed, ...attributes });
}

export function lineAt(x1, y1, x2, y2, attributes = {}) {
  return element('line', { x1, y1, x2, y2, stroke: 'currentColor', ...attributes });
}

const CLOCK = 4;

// The mark of a register around a place: a box with the notch of its clock.
export function registerMark({ x, y }, width, height) {
  const left = x - width / 2;
  return [
    element('rect', { x: left, y: y - height / 2, width, height, fill: 'currentColor', 'fill-opacity': 0.08, stroke: 'currentColor' }),
    element('path', { d: `M${left},${y - CLOCK} l${CLOCK},${CLOCK} l${-CLOCK},${CLOCK}`, fill: 'none', stroke: 'currentColor' }),
  ];
}

// A part that tells what it is when it is pointed at, focused or read aloud.
export function toldPart(text, attributes, ...children) {
  return element('g', { tabindex: 0, role: 'img', 'aria-label': text, ...attributes }, element('title', {}, text), ...children);
}

// A picture: its title and description are read aloud. With background it stands on white, for files.
export function picture({ width, height, prefix, title, description, background }, ...children) {
  return element(
    'svg',
    {
      xmlns: 'http://www.w3.org/2000/svg',
      viewBox: `0 0 ${width} ${height}`,
      width,
      height,
      role: 'group',
      'aria-labelledby': `${prefix}-title ${prefix}-description`,
      'font-family': FONT,
      color: background ? '#000000' : null,
    },
    element('title', { id: `${prefix}-title` }, title),
    element('desc', { id: `${prefix}-description` }, description),
    background && element('rect', { width, height, fill: '#ffffff' }),
    ...children,
  );
}

// How much wider a text is in the weight of a title.
const BOLD = 1.15;

// A picture that has only something to say.
export function messagePicture(prefix, background, title, message) {
  const width = Math.ceil(Math.max(320, BOLD * textWidth(title, 15) + 24, textWidth(message, 13) + 24));
  return picture(
    { width, height: 64, prefix, title, description: message, background },
    textAt(12, 24, 15, title, { 'font-weight': 600 }),
    textAt(12, 48, 13, message),
  );
}

const SWATCH = 26;
const LEGEND_LINE = 20;
const LEGEND_TEXT = 12;

// Items (a text, and `draw(x, y)` for what stands before it, 26 wide and 12 high) in lines of at most a width, from a place on.
export function legend(items, left, top, most) {
  let x = left;
  let y = top;
  const drawn = items.map((item) => {
    const width = SWATCH + 6 + textWidth(item.text, LEGEND_TEXT) + 18;
    if (x > left && x + width > left + most) [x, y] = [left, y + LEGEND_LINE];
    const part = element('g', {}, item.draw(x, y), textAt(x + SWATCH + 6, y + 10, LEGEND_TEXT, item.text));
    x += width;
    return part;
  });
  return { drawn, bottom: items.length > 0 ? y + LEGEND_LINE : top };
}
