// What the picture of a mode's slots shows, before it is drawn: slots on wires in cycles, the rows, shared and late cycles, and the texts.
import { cut } from './document.js';
import { isVertical } from './route.js';
import { MEMORY_WIRE, SOURCE_WIRE } from './run.js';
import { packetsOf, sharedCycles, wireName } from './slots.js';

const TAIL_CYCLES = 6;
// Cycles behind a period's end in which its slots may still be on links (number 10).
const LINK_TAIL = 3;

// The slots of the period before, of period 0 and of period 1 on their wires, cut to the cycles of the picture. `begin` and `end` are the
// cycles of the whole slot on the wire, `from` and `to` those that are drawn.
export function slotsScene(document, parts, mode) {
  const { period } = parts.schedules[mode];
  const packets = packetsOf(parts, mode);
  const cycles = 2 * period + TAIL_CYCLES;
  const isLong = ({ wire }) => Boolean(parts.long) && isVertical(wire);
  const usesIn = (number) => packets.flatMap((packet) => packet.wires.map((wire) => placed(packet, wire, number, period, isLong(wire))));
  const uses = [-1, 0, 1].flatMap(usesIn);
  const drawn = uses.filter((use) => use.begin <= use.end).flatMap((use) => clipped(use, cycles));
  const rows = new Map(drawn.map((use) => [rowKey(use), { node: use.node, wire: use.wire, long: use.long }]));
  const order = [...rows.keys()].sort((a, b) => a - b);
  return {
    period,
    cycles,
    uses: drawn,
    shared: sharedCycles(drawn),
    late: drawn.filter((use) => isLink(use)).flatMap((use) => clipped({ ...use, from: Math.max(use.from, use.limit) }, cycles)),
    missing: packets.length - new Set(drawn.map((use) => use.packet)).size,
    circuits: [...new Set(drawn.map((use) => use.packet.circuit))].sort((a, b) => a - b),
    rows: order.map((key) => rows.get(key)),
    rowOf: new Map(order.map((key, at) => [key, at])),
    circuitName: (circuit) => cut(document.circuitNames[circuit] ?? `circuit ${circuit}`, 60),
    wireName: ({ node, wire }) => wireName(parts.columns, parts.rows, node, wire),
  };
}

const isLink = (use) => use.wire < MEMORY_WIRE;

// A packet's wire in a period; `limit` is the first cycle in which number 10 does not let it be on a link. On a long one that is a cycle
// earlier, since the link's register comes behind.
function placed(packet, wire, number, period, long) {
  const begin = wire.from + number * period;
  const end = wire.to + number * period;
  const limit = (number + 1) * period + LINK_TAIL - (long ? 1 : 0);
  return { ...wire, packet, long, period: number, begin, end, from: begin, to: end, limit };
}

function clipped(use, cycles) {
  const [from, to] = [Math.max(use.from, 0), Math.min(use.to, cycles - 1)];
  return from <= to ? [{ ...use, from, to }] : [];
}

// Sources come first, then links, then memories; each by node.
export function rowKey({ node, wire }) {
  return (kindOfWire({ wire }) * 16 + node) * 8 + wire;
}

export const kindOfWire = ({ wire }) => (wire === SOURCE_WIRE ? 0 : wire === MEMORY_WIRE ? 2 : 1);

const cyclesText = (from, to) => (from === to ? `cycle ${from}` : `cycles ${from} to ${to}`);
const ownerText = (use) => (use.period < 0 ? 'of the period before' : `of period ${use.period}`);

export function slotText(scene, use) {
  const { packet } = use;
  const words = packet.length - 1;
  const header = use.begin >= 0 ? `header in cycle ${use.begin}, ` : '';
  return (
    `${scene.circuitName(packet.circuit)}: ${scene.wireName(use)}, ${cyclesText(use.from, use.to)} ` +
    `(${header}at most ${words} payload word${words === 1 ? '' : 's'}); ` +
    `slot ${ownerText(use)}, offset ${packet.offset}, length ${packet.length}`
  );
}

export function sharedText(scene, stretch) {
  const named = stretch.uses.map((use) => `${scene.circuitName(use.packet.circuit)} (slot ${ownerText(use)})`);
  return `Shared: ${named.join(' and ')} are both on one wire, ${scene.wireName(stretch)}, in ${cyclesText(stretch.from, stretch.to)}`;
}

export function lateText(scene, use) {
  const [link, register] = use.long ? ['long link', ', and in their registers one more'] : ['link', ''];
  return (
    `Late: ${scene.circuitName(use.packet.circuit)} (slot ${ownerText(use)}) is on a ${link}, ${scene.wireName(use)}, in ` +
    `${cyclesText(use.from, use.to)}; number 10 lets slots ${ownerText(use)} be on ${link}s up to cycle ${use.limit - 1}${register}`
  );
}
