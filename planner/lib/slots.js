// The slots of a mode on the wires: which wire each packet uses in which cycles, reckoned from the sheet for display.
// Whether a sheet may have such slots is the checker's to say; a refused sheet is reckoned as far as its words go.
import { ROUTER_CYCLES, verticalHopsOf } from './flight.js';
import { isGrid } from './grid.js';
import { neighbour, SIDES, walk } from './route.js';
import { MEMORY_WIRE, SOURCE_WIRE } from './run.js';

const DRAWN_HOPS = 8;

// One item an entry of a schedule. Cycles are counted from the period's begin; `to` is the last one. An entry whose circuit, source or
// grid is not there has no wires; a route that never comes out has `out` null and is followed for eight hops. `verticalHops` cost
// a cycle more each, which is spent behind the hop's own output.
export function packetsOf(parts, mode) {
  return parts.schedules[mode].entries.map((entry) => {
    const [offset, length, circuit, route] = entry.words;
    const packet = { schedule: mode, entry: entry.number, circuit, offset, length, hops: 0, verticalHops: 0, out: null, wires: [] };
    const source = parts.circuits[circuit]?.words[0];
    if (!isGrid(parts) || source === undefined || source >= parts.columns * parts.rows) return packet;
    const way = walk(parts.columns, parts.rows, source, route);
    const steps = way.steps.slice(0, DRAWN_HOPS);
    const uses = [{ node: source, wire: SOURCE_WIRE }, ...steps.map((step) => ({ node: step.from, wire: step.side }))];
    if (way.out !== null) uses.push({ node: way.out, wire: MEMORY_WIRE });
    const wires = uses.map((use, at) => {
      const from = offset + ROUTER_CYCLES * at + verticalHopsOf(parts, steps.slice(0, Math.max(0, at - 1)));
      return { ...use, from, to: from + length - 1 };
    });
    return { ...packet, hops: steps.length, verticalHops: verticalHopsOf(parts, steps), out: way.out, wires };
  });
}

// The stretches of cycles in which two or more uses of wires (node, wire, from, to) share a wire, each with those uses.
export function sharedCycles(uses) {
  const byWire = new Map();
  for (const use of uses) {
    const wire = use.node * (SOURCE_WIRE + 1) + use.wire;
    if (byWire.has(wire)) byWire.get(wire).push(use);
    else byWire.set(wire, [use]);
  }
  return [...byWire.values()].flatMap(sharedOnWire);
}

// The same for the uses of one wire. Between two neighbouring ends the uses that lie there do not change.
function sharedOnWire(uses) {
  const found = [];
  const sorted = [...uses].sort((a, b) => a.from - b.from);
  const ends = [...new Set(sorted.flatMap((use) => [use.from, use.to + 1]))].sort((a, b) => a - b);
  let present = [];
  let next = 0;
  ends.forEach((begin, at) => {
    present = present.filter((use) => use.to >= begin);
    for (; next < sorted.length && sorted[next].from === begin; next++) if (sorted[next].to >= begin) present.push(sorted[next]);
    if (present.length < 2) return;
    found.push({ node: present[0].node, wire: present[0].wire, from: begin, to: ends[at + 1] - 1, uses: present });
  });
  return found;
}

// A wire in words: source of node 2, node 1 to the west (to node 0), memory of node 0.
export function wireName(columns, rows, node, wire) {
  if (wire === SOURCE_WIRE) return `source of node ${node}`;
  if (wire === MEMORY_WIRE) return `memory of node ${node}`;
  return `node ${node} to the ${SIDES[wire]} (to node ${neighbour(columns, rows, node, wire)})`;
}

// A finder of the circuit of a word on a wire, by the slot that it fits: one of the present period, or the tail of one of the period
// before. Where the mode of the period before is not known, the slots of all modes have to agree. Null where none fits, or several do.
export function circuitFinder(parts) {
  const packets = parts.schedules.map((_, mode) => packetsOf(parts, mode));
  const fitting = (mode, cycle, node, wire) =>
    (packets[mode] ?? [])
      .filter((packet) => packet.wires.some((use) => use.node === node && use.wire === wire && use.from <= cycle && cycle <= use.to))
      .map((packet) => packet.circuit);
  return ({ mode, cycle, cycleInPeriod }, { node, wire }, modeBefore = null) => {
    const found = new Set(fitting(mode, cycleInPeriod, node, wire));
    const before = cycle === cycleInPeriod ? [] : modeBefore === null ? parts.schedules.map((_, number) => number) : [modeBefore];
    for (const other of before) {
      for (const circuit of fitting(other, cycleInPeriod + parts.schedules[other].period, node, wire)) found.add(circuit);
    }
    return found.size === 1 ? [...found][0] : null;
  };
}
