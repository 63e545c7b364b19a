// Why a sheet is refused by number 11: the wire and the cycle that two slots share.
import { ROUTER_CYCLES } from './flight.js';
import { freeSlotOffsets } from './free_offsets.js';
import { capital, circuitName, counted, longLinksLine, modeName, slotName, valueAt } from './naming.js';
import { routeChange, routesOf } from './explain_routes.js';
import { SIDES, routeOfLetters } from './route.js';
import { MEMORY_WIRE, SOURCE_WIRE } from './run.js';
import { partsOf } from './sheet.js';
import { packetsOf } from './slots.js';
import { bestTrial } from './trials.js';

const [LENGTH, ROUTE] = [1, 3];

// Number 11: the first cycle in which both slots use a wire.
export function explainClash(context) {
  const { document, found } = context;
  const [first, second] = found.entries;
  const packets = packetsOf(partsOf(document.words), first.schedule);
  const pair = [packets[first.number], packets[second.number]];
  const { wire, cycle, uses } = firstShared(pair);
  const described = found.entries.map((entry, at) => packetLine(document, entry, pair[at], uses[at]));
  const isLonger = pair.some((packet, at) => verticalBefore(packet, uses[at]) > 0);
  const others = [second, first];
  return {
    marks: found.entries.flatMap(({ at }) => [at, at + LENGTH].map((place) => ({ at: place, text: `${wireText(wire)}, cycle ${cycle}` }))),
    lines: [
      `Two slots of ${modeName(document, first.schedule)} use ${wireText(wire)} in cycle ${cycle} of the period (counted from 0).`,
      ...described,
      ...(isLonger ? [longLinksLine(document)] : []),
    ],
    help: [...others.flatMap((entry) => freeSlotOffsets(context, entry)), ...others.flatMap((entry) => otherRoutes(context, entry))],
  };
}

// The earliest cycle that two packets share on a wire, with the cycles of both there.
function firstShared([one, other]) {
  const shared = one.wires.flatMap((use) =>
    other.wires
      .filter(({ node, wire }) => node === use.node && wire === use.wire)
      .map((partner) => ({ wire: use, cycle: Math.max(use.from, partner.from), last: Math.min(use.to, partner.to), uses: [use, partner] })),
  );
  return shared.filter(({ cycle, last }) => cycle <= last).sort((a, b) => a.cycle - b.cycle)[0];
}

// A wire in words.
function wireText({ node, wire }) {
  if (wire === SOURCE_WIRE) return `the source wire of node ${node}`;
  return wire === MEMORY_WIRE ? `the wire to the memory of node ${node}` : `the link from node ${node} to the ${SIDES[wire]}`;
}

// The vertical hops before a wire of a packet that cost it a cycle each.
const verticalBefore = (packet, use) => use.from - packet.offset - ROUTER_CYCLES * packet.wires.indexOf(use);

function packetLine(document, entry, packet, use) {
  const cells = `offset ${valueAt(document, entry.at)} and length ${valueAt(document, entry.at + LENGTH)}`;
  const before = verticalBefore(packet, use);
  const cycles = `cycles ${use.from} to ${use.to}${before > 0 ? `, behind ${counted(before, 'vertical hop')}` : ''}`;
  return `${capital(slotName(document, entry, packet.circuit))} has ${cells}; it is on that wire in ${cycles}.`;
}

// Another shortest route for a slot, where the sheet passes with it.
function otherRoutes({ document, verdict, found }, entry) {
  const at = entry.at + ROUTE;
  const circuit = circuitName(document, document.words[entry.at + 2]);
  const others = routesOf(document, entry).filter((letters) => routeOfLetters(letters) !== document.words[at]);
  const changes = others.map((letters) => routeChange(document, at, letters, `another shortest route for ${circuit}`));
  return bestTrial(document, found.number, changes, verdict).filter((trial) => trial.number !== found.number);
}
