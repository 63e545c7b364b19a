// Why a sheet is refused by the numbers 9 and 10: where a slot's route leads, and when its packet ends.
import { placeOfWord } from './document.js';
import { ROUTER_CYCLES, verticalHopsOf } from './flight.js';
import { LENGTH_LIMITS, PERIOD_LIMITS } from './limits.js';
import { capital, counted, longLinksLine, slotName, typedAt, valueAt } from './naming.js';
import { LETTERS, SIDES, distance, routeOfLetters, shortestRoutes, walk } from './route.js';
import { keepsRules1To11 } from './served.js';
import { partsOf } from './sheet.js';
import { freeSlotOffsets } from './free_offsets.js';
import { bestTrial, entryAt, put, tried } from './trials.js';

const [OFFSET, LENGTH, ROUTE] = [0, 1, 3];

// Number 9: the way that a route takes, and the shortest one.
export function explainRoute(context) {
  const { document, found } = context;
  const [entry] = found.entries;
  const parts = partsOf(document.words);
  const [, , circuit, route] = entryAt(parts, entry).words;
  const [source, destination] = parts.circuits[circuit].words;
  const way = walk(parts.columns, parts.rows, source, route);
  const needed = distance(parts.columns, parts.rows, source, destination);
  const name = `${capital(slotName(document, entry, circuit))} goes from node ${source} to node ${destination}`;
  const fault = routeFault(way, destination, needed);
  return {
    marks: [{ at: entry.at + ROUTE, text: fault.mark }],
    lines: [
      `${name}, at a distance of ${counted(needed, 'hop')}.`,
      `Its route ${typedAt(document, entry.at + ROUTE)} leads ${wayText(source, route, way)}: ${fault.text}.`,
    ],
    help: routeHelp(context, entry),
  };
}

// The steps of a way in words. Behind a route's last bits every code is 0, which is north.
function wayText(source, route, way) {
  const own = way.out === null ? Math.max(1, Math.ceil(Math.log2(route + 1) / 2)) : way.steps.length;
  const steps = way.steps.slice(0, own).map((step) => `${SIDES[step.side]} to node ${step.to}`).join(', ');
  const end = way.out === null ? 'and on to the north without end' : `and out to the memory of node ${way.out}`;
  return `from node ${source} ${steps}, ${end}`;
}

function routeFault(way, destination, needed) {
  const hops = counted(way.steps.length, 'hop');
  if (way.out === null) return { mark: 'never comes out', text: 'it never comes out to a memory' };
  if (way.out !== destination) {
    return { mark: `comes out at node ${way.out}`, text: `it comes out at node ${way.out}, not at the destination, node ${destination}` };
  }
  if (way.steps.length > needed) return { mark: `${hops}, ${needed} would do`, text: `it takes ${hops}, and ${needed} would do` };
  return { mark: 'bits left above its end', text: `bits are left above the code that leads out: ${way.rest}, and it has to be 0` };
}

// A shortest route, one after which the sheet passes if there is one.
export function routeHelp({ document, verdict, found }, entry) {
  const at = entry.at + ROUTE;
  const changes = routesOf(document, entry).map((letters) => routeChange(document, at, letters, 'a shortest route'));
  return bestTrial(document, found.number, changes, verdict);
}

// A change of a route's cell; a plan has letters there.
export function routeChange(document, at, letters, what) {
  const route = routeOfLetters(letters);
  const typed = document.kind === 'plan' ? letters : `${route} (${letters})`;
  return { text: `Put ${typed} into ${placeOfWord(document, at)}: ${what}`, change: put(at, route) };
}

// The shortest routes of a slot's circuit, as letters; those that begin as the slot's own route does come first.
export function routesOf(document, entry) {
  const parts = partsOf(document.words);
  const [, , circuit, route] = entryAt(parts, entry).words;
  const [source, destination] = parts.circuits[circuit].words;
  const own = walk(parts.columns, parts.rows, source, route).steps.map((step) => LETTERS[step.side]);
  const alike = (letters) => [...letters, null].findIndex((letter, at) => letter !== own[at]);
  return shortestRoutes(parts.columns, parts.rows, source, destination).sort((a, b) => alike(b) - alike(a));
}

// Number 10: the sum that exceeds the period.
export function explainEnd(context) {
  const { document, found } = context;
  const [entry] = found.entries;
  const parts = partsOf(document.words);
  const [offset, length, circuit, route] = entryAt(parts, entry).words;
  const [source] = parts.circuits[circuit].words;
  const { steps } = walk(parts.columns, parts.rows, source, route);
  const verticalHops = verticalHopsOf(parts, steps);
  const period = found.schedules[0].at;
  const sum = offset + length - 1 + ROUTER_CYCLES * steps.length + verticalHops;
  const most = document.words[period] + 2;
  const [offsetCell, lengthCell] = [OFFSET, LENGTH].map((place) => valueAt(document, entry.at + place));
  const hops = `${ROUTER_CYCLES} x ${counted(steps.length, 'hop')}${verticalHops > 0 ? ` + ${counted(verticalHops, 'vertical hop')}` : ''}`;
  const terms = `offset ${offsetCell} + length ${lengthCell} - 1 + ${hops} = ${sum}`;
  return {
    marks: [
      { at: entry.at, text: `ends ${counted(sum - most, 'cycle')} too late` },
      { at: entry.at + LENGTH, text: `ends ${counted(sum - most, 'cycle')} too late` },
      { at: period, text: `a slot may reach up to ${most}` },
    ],
    lines: [
      `${capital(slotName(document, entry, circuit))} ends too late, so that its packet could meet those of the next period.`,
      `${capital(terms)}; with period ${valueAt(document, period)} it may be at most ${most} (the period + 2): ${sum - most} too much.`,
      ...(verticalHops > 0 ? [longLinksLine(document)] : []),
    ],
    help: endHelp(context, entry),
  };
}

// The last offset, the greatest length and the least period that pass number 10, found by the checker for this slot alone.
function endHelp(context, entry) {
  const { document, verdict, found } = context;
  const { left } = found;
  const [offsetAt, periodAt] = [left.length - 4, left.length - 6];
  const search = (at, last, step) => {
    for (let word = left[at] + step; step < 0 ? word >= last : word <= last; word += step) {
      const words = [...left];
      words[at] = word;
      if (verdict(words) !== found.number) return [word];
    }
    return [];
  };
  const change = (at, what) => (word) => tried(document, `Put ${word} into ${placeOfWord(document, at)}: ${what}`, put(at, word), verdict);
  const offsets = search(offsetAt, 0, -1).map(change(entry.at + OFFSET, 'the last offset at which this slot ends in time'));
  return [
    ...offsets,
    ...(offsets.some((trial) => keepsRules1To11(trial.number)) ? [] : freeSlotOffsets(context, entry)),
    ...search(offsetAt + LENGTH, LENGTH_LIMITS[0], -1).map(change(entry.at + LENGTH, 'the greatest length at this offset')),
    ...search(periodAt, PERIOD_LIMITS[1], 1).map(change(found.schedules[0].at, 'the least period for this slot')),
  ];
}
