// Offsets at which a slot shares no wire with the others of its mode: reckoned here, tried with the proved checker.
import { circuitName } from './naming.js';
import { LENGTH_LIMITS } from './limits.js';
import { placeOfWord } from './document.js';
import { ROUTER_CYCLES } from './flight.js';
import { routeOfLetters, shortestRoutes } from './route.js';
import { packetsOf } from './slots.js';
import { MOST_ENTRIES, partsOf } from './sheet.js';
import { withEntries } from './shrink.js';
import { bestTrial, nearest, put } from './trials.js';

const WIRES = 6;
const CYCLES = 4096;

// The nearest free offset that passes, or the nearest free one with the number that the checker gives then.
export function freeSlotOffsets({ document, verdict, found }, entry) {
  const parts = partsOf(document.words);
  const [present, , circuit] = parts.schedules[entry.schedule].entries[entry.number].words;
  const offsets = freeOffsets(parts, entry).filter((offset) => offset !== present);
  const what = `an offset at which the slot of ${circuitName(document, circuit)} has its wires to itself`;
  const text = (word) => `Put ${word} into ${placeOfWord(document, entry.at)}: ${what}`;
  const changes = nearest(offsets, present).map((word) => ({ text: text(word), change: put(entry.at, word) }));
  return bestTrial(document, found.number, changes, verdict);
}

// Slots for a circuit that has none: for each mode that can have one more and each shortest route, one of the least length at the first
// offset at which it has its wires to itself; and the number that it gets among the mode's slots.
export function newSlots(parts, circuit) {
  const [source, destination] = parts.circuits[circuit].words;
  const routes = shortestRoutes(parts.columns, parts.rows, source, destination);
  return parts.schedules.filter(({ entries }) => entries.length < MOST_ENTRIES).flatMap(({ number: schedule, entries }) =>
    routes.flatMap((letters) => {
      const slot = [LENGTH_LIMITS[0], circuit, routeOfLetters(letters)];
      const last = { schedule, number: entries.length };
      const more = withEntries(parts, schedule, [...entries, { number: last.number, words: [0, ...slot] }]);
      const isBefore = (offset) => ({ words }) => words[0] < offset || (words[0] === offset && words[2] < circuit);
      return freeOffsets(more, last).slice(0, 1).map((offset) => {
        return { schedule, number: entries.filter(isBefore(offset)).length, words: [offset, ...slot], letters };
      });
    }),
  );
}

// The offsets at which a slot shares no wire with the others of its mode and ends in time, its own among them.
function freeOffsets(parts, { schedule, number }) {
  const { period } = parts.schedules[schedule];
  const packets = packetsOf(parts, schedule);
  const own = packets[number];
  const taken = new Set(packets.filter((packet) => packet.entry !== number).flatMap((packet) => [...cellsOf(packet.wires, 0)]));
  const last = Math.min(period - 1, period + 2 - (own.length - 1) - ROUTER_CYCLES * own.hops - own.verticalHops);
  const offsets = [];
  for (let offset = 0; offset <= last; offset++) {
    if (![...cellsOf(own.wires, offset - own.offset)].some((cell) => taken.has(cell))) offsets.push(offset);
  }
  return offsets;
}

// Each wire and cycle that a packet uses, when it is shifted, as one number.
function* cellsOf(wires, shift) {
  for (const { node, wire, from, to } of wires) {
    for (let cycle = from + shift; cycle <= to + shift; cycle++) yield (node * WIRES + wire) * CYCLES + cycle;
  }
}
