// The picture of the grid in one cycle: what is on each wire and what lands, from a frame of a run; and many frames as an animation.
import { colourOf, fillOf, patternsOf, tintOf } from './colours.js';
import { cut } from './document.js';
import { legend, lineAt, messagePicture, picture, registerMark, textAt, textOnPattern, toldPart } from './drawing.js';
import { isGrid } from './grid.js';
import { corner, gridSize, LANDING_BASELINE, placeOf, standing } from './grid_layout.js';
import { element } from './markup.js';
import { MARKS } from './run.js';
import { partsOf } from './sheet.js';
import { circuitFinder, wireName } from './slots.js';

export const MOST_FRAMES = 400;
const NO_GRID = 'The file does not divide into circuits and modes on a grid of 2 to 4 columns and 2 to 4 rows.';
const LETTERS = ['', 'H', 'P', 'L'];
const NEUTRAL = { fill: '#e4e4e4', stroke: '#666666', rim: '#e4e4e4' };

// The grid in the cycle of a frame; without a frame the grid alone. `mode` is the number of the mode in the document where the frame is of
// a run of that mode alone; `modeBefore` the mode of the period before, where it is known: it tells the circuits of words under way.
export function gridPicture(document, frame, { prefix = 'grid', background = false, mode = null, modeBefore = null } = {}) {
  const scene = sceneOf(document, prefix);
  if (!scene) return messagePicture(prefix, background, 'No grid to draw', NO_GRID);
  const shown = frame && { ...frame, mode: mode ?? frame.mode };
  return whole(scene, background, captionOf(scene, shown), shown ? moving(scene, shown, mode ?? modeBefore) : caption('no cycle yet'));
}

// Frames one after another, each for so many seconds, again and again; for files, so on white.
export function gridAnimation(document, frames, { seconds = 0.5, prefix = 'grid', background = true, mode = null } = {}) {
  if (frames.length > MOST_FRAMES) throw new RangeError(`an animation has at most ${MOST_FRAMES} cycles, and these are ${frames.length}`);
  const scene = sceneOf(document, prefix);
  if (!scene || frames.length === 0) return gridPicture(document, null, { prefix, background });
  const shown = frames.map((frame) => ({ ...frame, mode: mode ?? frame.mode }));
  const before = modesBefore(shown);
  const title = `Cycles ${frames[0].cycle} to ${frames[frames.length - 1].cycle}, one after another`;
  const groups = shown.map((frame, at) =>
    element(
      'g',
      { display: at === 0 ? 'inline' : 'none' },
      frames.length > 1 && turnOf(at, frames.length, seconds),
      moving(scene, frame, mode ?? before[at]),
    ),
  );
  return whole(scene, background, title, groups);
}

// Shows one frame in its turn.
function turnOf(at, count, seconds) {
  const times = [...new Set([0, at, at + 1])].filter((time) => time < count);
  return element('animate', {
    attributeName: 'display',
    calcMode: 'discrete',
    values: times.map((time) => (time === at ? 'inline' : 'none')).join(';'),
    keyTimes: times.map((time) => Number((time / count).toFixed(6))).join(';'),
    dur: `${Number((count * seconds).toFixed(3))}s`,
    repeatCount: 'indefinite',
  });
}

// For each frame the mode of the period before its own, null where no frame shows it.
function modesBefore(frames) {
  let before = null;
  return frames.map((frame, at) => {
    if (at > 0 && frames[at - 1].period !== frame.period) before = frames[at - 1].mode;
    return before;
  });
}

function sceneOf(document, prefix) {
  const parts = document.words ? partsOf(document.words) : null;
  if (!parts || !isGrid(parts)) return null;
  const sending = parts.schedules.flatMap((schedule) => schedule.entries.map((entry) => entry.words[2]));
  return {
    prefix,
    columns: parts.columns,
    rows: parts.rows,
    long: parts.long,
    circuits: [...new Set(sending)].filter((circuit) => circuit < parts.circuits.length).sort((a, b) => a - b),
    circuitName: (circuit) => cut(document.circuitNames[circuit] ?? `circuit ${circuit}`, 60),
    modeName: (mode) => cut(document.modeNames[mode] ?? `schedule ${mode}`, 60),
    circuitOf: circuitFinder(parts),
  };
}

// The picture around what moves; its size is that of the document, so that frames do not jump.
function whole(scene, background, title, shown) {
  const { columns, rows, long, prefix, circuits } = scene;
  const size = gridSize(scene);
  const width = Math.max(size.width, 760);
  const marks = legend(markItems(scene), 12, size.height, width - 24);
  const names = legend(circuits.map((circuit) => circuitItem(scene, circuit)), 12, marks.bottom + 2, width - 24);
  const links = `links lead both ways, and those at the border wrap round${long ? '; vertical links have a register' : ''}`;
  const description = `A grid of ${columns} columns and ${rows} rows; ${links}.`;
  return picture(
    { width, height: names.bottom + 8, prefix, title, description, background },
    element('defs', {}, patternsOf(circuits, prefix)),
    standing(scene),
    shown,
    marks.drawn,
    names.drawn,
  );
}

function circuitItem({ prefix, circuitName }, circuit) {
  const draw = (x, y) => element('rect', { x, y, width: 26, height: 12, fill: fillOf(circuit, prefix), stroke: colourOf(circuit) });
  return { text: circuitName(circuit), draw };
}

function markItems({ long }) {
  const words = [1, 2, 3].map((mark) => ({
    text: ['', 'header (at: the address it writes to)', 'payload word', "a packet's last payload word"][mark],
    draw: (x, y) => token(x + 13, y + 6, mark, NEUTRAL),
  }));
  const drawRegister = (x, y) => registerMark({ x: x + 13, y: y + 6 }, 18, 14);
  return long ? [...words, { text: 'register of a long vertical link: one cycle more', draw: drawRegister }] : words;
}

function captionOf(scene, frame) {
  if (!frame) return 'The grid';
  return `cycle ${frame.cycle} (cycle ${frame.cycleInPeriod} of period ${frame.period}, mode ${scene.modeName(frame.mode)})`;
}

const caption = (text) => textAt(12, 26, 16, text, { 'font-weight': 600 });

// What a frame shows: the caption, the words on the wires, the landings.
function moving(scene, frame, modeBefore) {
  return [
    caption(captionOf(scene, frame)),
    frame.wires.map((cell) => wordOnWire(scene, cell, scene.circuitOf(frame, cell, modeBefore))),
    frame.registers.map((cell) => wordOnWire(scene, cell, scene.circuitOf(cycleBefore(frame), cell, modeBefore), true)),
    frame.landings.map((landing) => landingAt(scene, landing)),
  ];
}

// A word in a register was on its link's wire in the cycle before.
const cycleBefore = (frame) => ({ ...frame, cycle: frame.cycle - 1, cycleInPeriod: frame.cycleInPeriod - 1 });

// A word on a wire, or in the register behind it: its token, the word beside it; a header shows the address that it writes to.
function wordOnWire(scene, { node, wire, mark, word }, circuit, inRegister = false) {
  const place = placeOf(scene, node, wire, inRegister);
  const colours = circuit === null ? NEUTRAL : { fill: fillOf(circuit, scene.prefix), stroke: colourOf(circuit), rim: tintOf(circuit) };
  const address = (word >>> 16) & 0x3fff;
  const whose = circuit === null ? '' : ` of ${scene.circuitName(circuit)}`;
  const what = mark === 1 ? `word ${word}: it writes from address ${address} on` : `word ${word}`;
  return toldPart(
    `${wireName(scene.columns, scene.rows, node, wire)}${inRegister ? ', in its register' : ''}: ${MARKS[mark]}${whose}, ${what}`,
    {},
    place.line && lineAt(...place.line, { stroke: colours.stroke, 'stroke-width': 3 }),
    token(place.token.x, place.token.y, mark, colours),
    textAt(place.text.x, place.text.y, 12, mark === 1 ? `at ${address}` : word, { 'text-anchor': place.text.anchor }),
  );
}

// A header is a square, a payload word a circle, a packet's last one a diamond; each has its letter.
function token(x, y, mark, { fill, stroke, rim }) {
  const look = { fill, stroke, 'stroke-width': 2 };
  const shapes = [
    null,
    () => element('rect', { x: x - 9, y: y - 9, width: 18, height: 18, ...look }),
    () => element('circle', { cx: x, cy: y, r: 9.5, ...look }),
    () => element('path', { d: `M${x},${y - 12} L${x + 12},${y} L${x},${y + 12} L${x - 12},${y} Z`, ...look }),
  ];
  return element('g', {}, shapes[mark](), textOnPattern(x, y + 4, 11, LETTERS[mark], rim, { 'text-anchor': 'middle', 'font-weight': 700 }));
}

// What landed, written in the node's box under its memory.
function landingAt(scene, { node, kind, address, word }) {
  const { x, y } = corner(scene, node);
  const how = kind === 2 ? 'interrupt' : 'landed';
  return toldPart(
    `node ${node}: the word ${word} ${kind === 2 ? 'of an interrupt ' : ''}landed at address ${address}`,
    {},
    textAt(x + 10, y + LANDING_BASELINE, 10.5, `${how} at ${address}: ${word}`, { 'font-weight': 600 }),
  );
}
