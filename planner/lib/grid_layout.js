// Where the parts of a grid's picture lie, and what of it stands still: nodes, links with their registers, the stubs of links that wrap
// round. A grid is its columns, its rows and whether its vertical links are long.
import { lineAt, registerMark, textAt } from './drawing.js';
import { element } from './markup.js';
import { isVertical, neighbour, opposite } from './route.js';
import { MEMORY_WIRE, SOURCE_WIRE } from './run.js';
import { wireName } from './slots.js';

const NODE = { width: 168, height: 104 };
const GAP = { across: 100, down: 76 };
const MARGIN = { across: 144, top: 126, down: 88 };
const STUB = 56;
// A long vertical link is drawn longer by so much, for a word on its wire and another in its register.
const LONGER = 30;
const REGISTER = { width: 30, height: 26 };
// How far along a link the word on its wire stands; on a long link that word, and the register.
const ALONG = { wire: 0.5, wireOfLong: 0.24, register: 0.64 };
const LANES = { across: 26, down: 16 };
const ARROW = 7;
const PORT = { left: 8, height: 24, source: 24, memory: 51, token: 66 };
export const LANDING_BASELINE = 93;

// A step to each side, and the lane beside the middle that its link takes.
const DIRECTIONS = [
  { across: 0, down: -1, lane: [-LANES.across, 0] },
  { across: 1, down: 0, lane: [0, -LANES.down] },
  { across: 0, down: 1, lane: [LANES.across, 0] },
  { across: -1, down: 0, lane: [0, LANES.down] },
];

const isLong = ({ long }, side) => Boolean(long) && isVertical(side);
const stubLength = (grid, side) => STUB + (isLong(grid, side) ? LONGER : 0);
const gapDown = ({ long }) => GAP.down + (long ? LONGER : 0);

// The left upper corner of a node's box.
export function corner(grid, node) {
  return {
    x: MARGIN.across + (node % grid.columns) * (NODE.width + GAP.across),
    y: MARGIN.top + (grid.long ? LONGER : 0) + Math.floor(node / grid.columns) * (NODE.height + gapDown(grid)),
  };
}

// The size of the grid without its legend.
export function gridSize(grid) {
  const { columns, rows, long } = grid;
  return {
    width: 2 * MARGIN.across + columns * NODE.width + (columns - 1) * GAP.across,
    height: MARGIN.top + MARGIN.down + (long ? 2 * LONGER : 0) + rows * NODE.height + (rows - 1) * gapDown(grid),
  };
}

// Whether a node's link to a side leaves the grid at its border and comes in again at the other.
function wraps({ columns, rows }, node, side) {
  const [column, row] = [node % columns, Math.floor(node / columns)];
  return [row === 0, column === columns - 1, row === rows - 1, column === 0][side];
}

// The ends of a node's link to a side as it is drawn: to the neighbour's box, or as a stub at the border.
function linkEnds(grid, node, side) {
  const { x, y } = corner(grid, node);
  const { across, down, lane } = DIRECTIONS[side];
  const from = {
    x: x + NODE.width / 2 + (across * NODE.width) / 2 + lane[0],
    y: y + NODE.height / 2 + (down * NODE.height) / 2 + lane[1],
  };
  const length = wraps(grid, node, side) ? stubLength(grid, side) : across !== 0 ? GAP.across : gapDown(grid);
  return { from, to: { x: from.x + across * length, y: from.y + down * length } };
}

const between = (from, to, along) => ({ x: from.x + (to.x - from.x) * along, y: from.y + (to.y - from.y) * along });

// Where a long link's register stands, and where the link's line meets it.
function registerOf({ from, to }, side) {
  const centre = between(from, to, ALONG.register);
  const half = (DIRECTIONS[side].down * REGISTER.height) / 2;
  return { centre, enters: { x: centre.x, y: centre.y - half }, leaves: { x: centre.x, y: centre.y + half } };
}

// Where the word on a wire stands: the place of its token, of the text beside it, and of the link's line up to its arrow; with `inRegister`
// that of the word in a long link's register.
export function placeOf(grid, node, wire, inRegister = false) {
  if (wire === SOURCE_WIRE || wire === MEMORY_WIRE) {
    const { x, y } = corner(grid, node);
    const token = { x: x + PORT.left + PORT.token, y: y + (wire === SOURCE_WIRE ? PORT.source : PORT.memory) + PORT.height / 2 };
    return { token, text: { x: token.x + 15, y: token.y + 4, anchor: 'start' } };
  }
  const ends = linkEnds(grid, node, wire);
  const register = isLong(grid, wire) ? registerOf(ends, wire) : null;
  const token = inRegister ? register.centre : between(ends.from, ends.to, register ? ALONG.wireOfLong : ALONG.wire);
  const beside = inRegister ? REGISTER.width / 2 + 5 : 15;
  const texts = [
    { x: token.x - beside, y: token.y + 4, anchor: 'end' },
    { x: token.x, y: token.y - 15, anchor: 'middle' },
    { x: token.x + beside, y: token.y + 4, anchor: 'start' },
    { x: token.x, y: token.y + 23, anchor: 'middle' },
  ];
  const { across, down } = DIRECTIONS[wire];
  const tip = { x: ends.to.x - across * ARROW, y: ends.to.y - down * ARROW };
  const [begin, end] = inRegister ? [register.leaves, tip] : [ends.from, register ? register.enters : tip];
  return { token, text: texts[wire], line: [begin.x, begin.y, end.x, end.y] };
}

function arrow({ x, y }, side) {
  const { across, down } = DIRECTIONS[side];
  const [backX, backY] = [x - across * ARROW, y - down * ARROW];
  const [wideX, wideY] = [(down * ARROW) / 2, (across * ARROW) / 2];
  return element('path', { d: `M${x},${y} L${backX + wideX},${backY + wideY} L${backX - wideX},${backY - wideY} Z`, fill: 'currentColor' });
}

// The text at the outer end of a stub; above and below the grid it keeps away from the text of the other lane.
function stubText(end, side, leftLane, text) {
  const [shift, away] = leftLane ? [8, 'end'] : [-8, 'start'];
  const places = [
    [end.x + shift, end.y - 6, away],
    [end.x + 5, end.y + 4, 'start'],
    [end.x + shift, end.y + 14, away],
    [end.x - 5, end.y + 4, 'end'],
  ];
  const [x, y, anchor] = places[side];
  return textAt(x, y, 11, text, { 'text-anchor': anchor });
}

const linkLine = (from, to) => lineAt(from.x, from.y, to.x, to.y, { opacity: 0.55 });

// The line of a long link, with its register.
function longLine(grid, node, side, ends) {
  const { centre, enters, leaves } = registerOf(ends, side);
  const told = `register of the link from ${wireName(grid.columns, grid.rows, node, side)}`;
  const mark = registerMark(centre, REGISTER.width, REGISTER.height);
  return [linkLine(ends.from, enters), element('g', {}, element('title', {}, told), mark), linkLine(leaves, ends.to)];
}

// A node's link to a side; one that wraps round is a stub that says where it leads, and a paler one where it comes in says from where.
function link(grid, node, side) {
  const ends = linkEnds(grid, node, side);
  const { from, to } = ends;
  const next = neighbour(grid.columns, grid.rows, node, side);
  const parts = [isLong(grid, side) ? longLine(grid, node, side, ends) : linkLine(from, to), arrow(to, side)];
  if (!wraps(grid, node, side)) return parts;
  const back = opposite(side);
  const { across, down, lane } = DIRECTIONS[side];
  const beside = linkEnds(grid, next, back);
  const enters = { x: beside.from.x + 2 * lane[0], y: beside.from.y + 2 * lane[1] };
  const stub = stubLength(grid, side);
  const outer = { x: enters.x - across * stub, y: enters.y - down * stub };
  return [
    ...parts,
    stubText(to, side, side === 0, `to node ${next}`),
    element(
      'g',
      { opacity: 0.5 },
      lineAt(outer.x, outer.y, enters.x, enters.y, { 'stroke-dasharray': '3 3' }),
      arrow(enters, side),
      stubText(outer, back, side === 0, `from node ${node}`),
    ),
  ];
}

// A node's box with its number, its source and its memory.
function nodeBox(grid, node) {
  const { x, y } = corner(grid, node);
  const port = (top, text) => [
    element('rect', {
      x: x + PORT.left,
      y: y + top,
      width: NODE.width - 2 * PORT.left,
      height: PORT.height,
      rx: 3,
      fill: 'none',
      stroke: 'currentColor',
      opacity: 0.4,
    }),
    textAt(x + PORT.left + 5, y + top + 16, 10.5, text),
  ];
  return [
    element('rect', { x, y, ...NODE, rx: 6, fill: 'currentColor', 'fill-opacity': 0.04, stroke: 'currentColor' }),
    textAt(x + 8, y + 17, 13, `node ${node}`, { 'font-weight': 600 }),
    ...port(PORT.source, 'source'),
    ...port(PORT.memory, 'memory'),
  ];
}

// All that stands still.
export function standing(grid) {
  const nodes = Array.from({ length: grid.columns * grid.rows }, (_, node) => node);
  return nodes.flatMap((node) => [nodeBox(grid, node), [0, 1, 2, 3].map((side) => link(grid, node, side))]);
}
