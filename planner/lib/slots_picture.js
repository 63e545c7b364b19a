// The picture of a mode's slots: a row for each wire that some slot uses, a column for each cycle of two periods and the tail behind.
import { colourOf, fillOf, patternsOf, tintOf } from './colours.js';
import { cut } from './document.js';
import { INK, legend, lineAt, messagePicture, picture, registerMark, textAt, textOnPattern, textWidth, toldPart } from './drawing.js';
import { element } from './markup.js';
import { partsOf } from './sheet.js';
import { isGrid } from './grid.js';
import { kindOfWire, lateText, rowKey, sharedText, slotsScene, slotText } from './slots_scene.js';

const LONGEST_PERIOD = 1024;
const GUTTER = 230;
const RIGHT = 20;
const PERIODS_TOP = 36;
const ROWS_TOP = 92;
const ROW = 22;
const BOX = 18;
const RED = '#d00000';
const PALE = 0.35;
const LONG_TEXT = 'long link: what comes behind it is one cycle later';
// The mark before a long link's name, and the room that it takes from all rows of such a picture.
const LONG_MARK = { at: 19, width: 11, height: 14, room: 24 };

// The picture of mode number `mode`. The prefix keeps its ids apart from those of other pictures; with background it stands on white.
export function slotsPicture(document, mode, { prefix = `slots-${mode}`, background = false } = {}) {
  const parts = document.words ? partsOf(document.words) : null;
  const message = (title, text) => messagePicture(prefix, background, title, text);
  if (!parts) return message('No slots to draw', 'The file does not divide into circuits and modes.');
  const schedule = parts.schedules[mode];
  if (!schedule) return message('No slots to draw', `The file has no mode number ${mode}, counted from 0.`);
  const { period } = schedule;
  const title = `Mode ${cut(document.modeNames[mode] ?? `schedule ${mode}`, 60)}: slots on the wires, period of ${period} cycles`;
  if (schedule.entries.length === 0) return message(title, 'This mode has no slots: no circuit sends in it.');
  if (!isGrid(parts)) return message(title, `No grid has ${parts.columns} columns and ${parts.rows} rows: each is 2 to 4.`);
  if (period < 1 || period > LONGEST_PERIOD) return message(title, `No period has ${period} cycles: it is 9 to ${LONGEST_PERIOD}.`);
  const scene = slotsScene(document, parts, mode);
  if (scene.uses.length === 0) return message(title, 'No slot can be drawn: its circuit is not there, or it lies beyond the period.');
  const gutter = GUTTER + (hasLong(scene) ? LONG_MARK.room : 0);
  return drawn({ ...scene, prefix, gutter, width: Math.max(3, Math.min(24, Math.floor(1200 / scene.cycles))) }, background, title);
}

const hasLong = ({ rows }) => rows.some(({ long }) => long);
const left = (scene, cycle) => scene.gutter + cycle * scene.width;
const top = (scene, use) => ROWS_TOP + scene.rowOf.get(rowKey(use)) * ROW;
const bottom = (scene) => ROWS_TOP + scene.rows.length * ROW;

function drawn(scene, background, title) {
  const { prefix } = scene;
  const width = Math.max(760, left(scene, scene.cycles) + RIGHT);
  const room = Math.min(width, 1400) - 24;
  const circuits = legend(circuitItems(scene), 12, bottom(scene) + 34, room);
  const marks = legend(markItems(scene), 12, circuits.bottom + 2, room);
  return picture(
    { width, height: marks.bottom + 6, prefix, title, description: descriptionOf(scene), background },
    element('defs', {}, patternsOf(scene.circuits, prefix), scene.shared.length > 0 && sharedPattern(prefix)),
    textAt(12, 22, 15, title, { 'font-weight': 600 }),
    wireRows(scene),
    timeAxis(scene),
    endLines(scene),
    scene.uses.map((use) => slotOnWire(scene, use)),
    scene.late.map((use) => redBox(scene, use, lateText(scene, use), 'none')),
    scene.shared.map((stretch) => redBox(scene, stretch, sharedText(scene, stretch), `url(#${prefix}-shared)`)),
    circuits.drawn,
    marks.drawn,
  );
}

function descriptionOf(scene) {
  const told = [
    `${scene.rows.length} wires, from the sources by the links to the memories, in cycles 0 to ${scene.cycles - 1}.`,
    'Each slot is drawn whole, whether its circuit has words for it or not.',
  ];
  if (scene.shared.length > 0) told.push('Slots share a wire in a cycle; these cycles are hatched in red.');
  if (scene.late.length > 0) told.push('Slots are on links later than number 10 allows; these cycles are outlined in red.');
  if (hasLong(scene)) told.push('Links to the north and the south are long: what comes behind them is one cycle later.');
  return told.join(' ');
}

// The names of the wires, each on its row; every second row is shaded, and a line lies between sources, links and memories.
function wireRows(scene) {
  const right = left(scene, scene.cycles);
  return scene.rows.flatMap((row, at) => {
    const y = ROWS_TOP + at * ROW;
    return [
      at % 2 === 0 && element('rect', { x: 12, y, width: right - 12, height: ROW, fill: 'currentColor', opacity: 0.05 }),
      at > 0 && kindOfWire(row) !== kindOfWire(scene.rows[at - 1]) && lineAt(12, y, right, y, { opacity: 0.5 }),
      row.long && registerMark({ x: LONG_MARK.at, y: y + ROW / 2 }, LONG_MARK.width, LONG_MARK.height),
      textAt(scene.gutter - 8, y + 15, 12, scene.wireName(row), { 'text-anchor': 'end' }),
    ];
  });
}

// The periods, the cycles counted from the picture's begin, and the cycles counted from each period's begin.
function timeAxis(scene) {
  const { period, width, cycles } = scene;
  const room = (number) => 6 + 6 * String(number).length;
  const step = [1, 2, 5, 10, 20, 50, 100, 200].find((one) => one * width >= room(cycles));
  const names = [['period 0', 0, period], ['period 1', period, 2 * period], ['the tail behind', 2 * period, cycles]];
  const number = (cycle, y, text, opacity) => textAt(left(scene, cycle) + width / 2, y, 10, text, { 'text-anchor': 'middle', opacity });
  const parts = [
    textAt(scene.gutter - 8, PERIODS_TOP + 32, 10, 'cycle', { 'text-anchor': 'end' }),
    textAt(scene.gutter - 8, PERIODS_TOP + 48, 10, 'cycle of the period', { 'text-anchor': 'end', opacity: 0.75 }),
  ];
  for (const [text, begin, end] of names) {
    if (textWidth(text, 11) > (end - begin) * width) continue;
    parts.push(textAt(left(scene, (begin + end) / 2), PERIODS_TOP + 14, 11, text, { 'text-anchor': 'middle', 'font-weight': 600 }));
  }
  for (let cycle = 0; cycle < cycles; cycle++) {
    const x = left(scene, cycle);
    if (cycle % step === 0) {
      parts.push(lineAt(x, ROWS_TOP, x, bottom(scene), { opacity: 0.14 }), number(cycle, PERIODS_TOP + 32, cycle, null));
    }
    const within = cycle % period;
    // A number that the next period's 0 would touch is left out.
    const crowded = within > 0 && (period - within) * width < room(within);
    if (within % step === 0 && !crowded) parts.push(number(cycle, PERIODS_TOP + 48, within, 0.75));
  }
  return parts;
}

const lookOf = (circuit, prefix) => ({ fill: fillOf(circuit, prefix), stroke: colourOf(circuit) });

// A slot on one wire, as long as it is on it; a wedge marks the cycle of the header.
function slotOnWire(scene, use) {
  const { circuit } = use.packet;
  const x = left(scene, use.from);
  const y = top(scene, use) + 2;
  const width = (use.to - use.from + 1) * scene.width;
  const name = scene.circuitName(circuit);
  const wedge = use.begin >= 0 ? Math.min(scene.width, 8) : 0;
  const fits = textWidth(name, 11) <= width - wedge - 4;
  const pale = use.period < 0;
  const label = pale ? textAt(x + wedge + 2, y + 13, 11, name) : textOnPattern(x + wedge + 2, y + 13, 11, name, tintOf(circuit));
  return toldPart(
    slotText(scene, use),
    {},
    element('rect', { x, y, width, height: BOX, ...lookOf(circuit, scene.prefix), opacity: pale ? PALE : null }),
    wedge > 0 && element('path', { d: `M${x},${y} l${wedge},${BOX / 2} l${-wedge},${BOX / 2} Z`, fill: pale ? 'currentColor' : INK }),
    fits && label,
  );
}

// Cycles on a wire that the rules do not allow.
function redBox(scene, stretch, text, fill) {
  const width = (stretch.to - stretch.from + 1) * scene.width;
  const place = { x: left(scene, stretch.from), y: top(scene, stretch) + 1, width, height: BOX + 2 };
  return toldPart(text, {}, element('rect', { ...place, fill, 'pointer-events': 'all', stroke: RED, 'stroke-width': 2 }));
}

function sharedPattern(prefix) {
  return element(
    'pattern',
    { id: `${prefix}-shared`, width: 6, height: 6, patternUnits: 'userSpaceOnUse' },
    element('rect', { width: 6, height: 6, fill: '#ffffff' }),
    element('path', { d: 'M-1,1 L1,-1 M0,6 L6,0 M5,7 L7,5', stroke: RED, 'stroke-width': 2 }),
  );
}

const PERIOD_LINE = { 'stroke-width': 2 };
const LIMIT_LINE = { 'stroke-width': 1.5, 'stroke-dasharray': '5 3' };

// The end of each period, and behind cycle P + 2 the end that number 10 sets to its slots on the links.
function endLines(scene) {
  return [scene.period, 2 * scene.period].flatMap((end) => {
    const [x, limit] = [left(scene, end), left(scene, end + 3)];
    const text = `number 10: to cycle ${end + 2}`;
    return [
      lineAt(x, PERIODS_TOP + 2, x, PERIODS_TOP + 20, PERIOD_LINE),
      lineAt(x, ROWS_TOP - 6, x, bottom(scene) + 4, PERIOD_LINE),
      lineAt(limit, ROWS_TOP - 6, limit, bottom(scene) + 18, LIMIT_LINE),
      textWidth(text, 11) <= scene.period * scene.width && textAt(limit - 4, bottom(scene) + 16, 11, text, { 'text-anchor': 'end' }),
    ];
  });
}

const questionMark = (x, y) => textAt(x + 9, y + 11, 13, '?');
const box = (attributes) => (x, y) => element('rect', { x, y, width: 26, height: 12, ...attributes });

function circuitItems({ circuits, circuitName, prefix }) {
  return circuits.map((circuit) => ({ text: circuitName(circuit), draw: box(lookOf(circuit, prefix)) }));
}

function markItems({ circuits, rows, uses, shared, late, missing, prefix }) {
  const upright = (attributes) => (x, y) => lineAt(x + 13, y - 2, x + 13, y + 14, attributes);
  const pale = { ...lookOf(circuits[0], prefix), opacity: PALE };
  const red = { fill: 'none', stroke: RED, 'stroke-width': 2 };
  const isLong = hasLong({ rows });
  const onLinks = `on links${isLong ? ' and in their registers' : ''}`;
  return [
    { text: 'cycle of the header', draw: (x, y) => element('path', { d: `M${x + 9},${y} l8,6 l-8,6 Z`, fill: 'currentColor' }) },
    uses.some((use) => use.period < 0) && { text: 'paler: slots of the period before', draw: box(pale) },
    { text: 'end of a period', draw: upright(PERIOD_LINE) },
    { text: `number 10: up to here the period's slots may be ${onLinks}`, draw: upright(LIMIT_LINE) },
    isLong && { text: LONG_TEXT, draw: (x, y) => registerMark({ x: x + 13, y: y + 6 }, LONG_MARK.width, LONG_MARK.height) },
    shared.length > 0 && { text: 'slots that share a wire in a cycle', draw: box({ ...red, fill: `url(#${prefix}-shared)` }) },
    late.length > 0 && { text: `on a link${isLong ? ' or in its register' : ''} later than number 10 allows`, draw: box(red) },
    missing > 0 && { text: `slots not drawn (no such circuit or node, no length, or beyond these cycles): ${missing}`, draw: questionMark },
  ].filter((item) => item);
}
