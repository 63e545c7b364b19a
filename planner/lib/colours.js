// A colour and a pattern for each circuit, 0 to 63, as fills of a picture. Circuits can be told apart without colour: sixteen that follow
// each other have sixteen patterns, and no two of the 64 have both alike.
import { element } from './markup.js';

// Colours that colour-blind readers can tell apart (those of Okabe and Ito, the black and the yellow made readable on black and on white),
// each with the light tint that lies under its pattern, so that dark letters can be read on it in any page.
const COLOURS = [
  ['#0072b2', '#78abe5'],
  ['#c85200', '#fb9a75'],
  ['#008f68', '#6fe5a8'],
  ['#b5608f', '#e8b5cf'],
  ['#8f7d00', '#f5ee30'],
  ['#2c8fc7', '#b1eeff'],
  ['#606060', '#9e9e9e'],
  ['#b87400', '#ebbb36'],
];

const TILE = 8;
const DOTS = 'M2,2 h0.01 M6,6 h0.01';

// The lines of each pattern in a tile of 8 by 8; null is a plain fill.
const PATTERNS = [
  null,
  'M-2,2 L2,-2 M0,8 L8,0 M6,10 L10,6',
  'M-2,6 L2,10 M0,0 L8,8 M6,-2 L10,2',
  DOTS,
  'M0,2 H8 M0,6 H8',
  'M2,0 V8 M6,0 V8',
  'M0,4 H8 M4,0 V8',
  'M0,0 L8,8 M0,8 L8,0',
  'M0,6 L4,2 L8,6',
  'M2,4 a2,2 0 1 0 4,0 a2,2 0 1 0 -4,0',
  'M0,2 H4 M4,6 H8',
  'M2,0 V4 M6,4 V8',
  'M0,0 H4 V4 H8 V8 M0,8 V4 H4 V8',
  'M0,4 H8',
  'M4,0 V8',
  'M4,1 L7,6 H1 Z',
];

const colourAt = (circuit) => COLOURS[(circuit + Math.floor(circuit / PATTERNS.length)) % COLOURS.length];

export const colourOf = (circuit) => colourAt(circuit)[0];
export const tintOf = (circuit) => colourAt(circuit)[1];
export const fillOf = (circuit, prefix) => `url(#${prefix}-circuit-${circuit})`;

// The patterns of circuits, for the <defs> of a picture. The prefix keeps the pictures of one page apart.
export function patternsOf(circuits, prefix) {
  return circuits.map((circuit) => {
    const lines = PATTERNS[circuit % PATTERNS.length];
    const [stroke, tint] = colourAt(circuit);
    return element(
      'pattern',
      { id: `${prefix}-circuit-${circuit}`, width: TILE, height: TILE, patternUnits: 'userSpaceOnUse' },
      element('rect', { width: TILE, height: TILE, fill: tint }),
      lines && element('path', { d: lines, fill: 'none', stroke, 'stroke-width': lines === DOTS ? 3 : 1.4, 'stroke-linecap': 'round' }),
    );
  });
}
