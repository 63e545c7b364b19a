// Why a sheet is refused by the numbers 7 and 8: the ranges of periods and slots, and the order of slots.
import { placeOfWord } from './document.js';
import { capital, circuitName, modeName, slotName, typedAt, valueAt } from './naming.js';
import { routeHelp, routesOf } from './explain_routes.js';
import { HARMLESS_ENTRY, HARMLESS_RECORD, LENGTH_LIMITS, PERIOD_LIMITS } from './limits.js';
import { lettersOfRoute, routeOfLetters } from './route.js';
import { CIRCUIT_WORDS, HEAD_WORDS, partsOf } from './sheet.js';
import { entryAt, isSortedByTool, nearest, put, tried } from './trials.js';

const [OFFSET, LENGTH, CIRCUIT, ROUTE] = [0, 1, 2, 3];

// Number 7: the period, or the words of a slot that are out of range.
export function explainRanges(context) {
  return context.found.entries.length === 0 ? explainPeriod(context) : explainSlot(context);
}

function explainPeriod({ document, verdict, found }) {
  const { number, at } = found.schedules[0];
  const [word] = nearest(PERIOD_LIMITS, document.words[at]);
  return {
    marks: [{ at, text: 'a period is 9 to 1,024' }],
    lines: [`${capital(modeName(document, number))}: period ${valueAt(document, at)} is out of range; it may be 9 to 1,024 cycles.`],
    help: [tried(document, `Put ${word} into ${placeOfWord(document, at)}: the nearest period in range`, put(at, word), verdict)],
  };
}

// The words of the one slot left that get number 7 beside harmless ones.
function slotFaults({ verdict, found }) {
  const { left } = found;
  const count = left[3];
  const head = left.slice(0, 3);
  const circuits = left.slice(HEAD_WORDS, HEAD_WORDS + count * CIRCUIT_WORDS);
  const [period, , ...entry] = left.slice(HEAD_WORDS + count * CIRCUIT_WORDS);
  return [OFFSET, LENGTH, CIRCUIT, ROUTE].filter((at) => {
    const words = HARMLESS_ENTRY.map((word, place) => (place === at ? entry[place] : word));
    // Where no circuit is left, the harmless number 0 needs one; the slot's own number is judged among those that are there.
    const records = at === CIRCUIT || count > 0 ? circuits : HARMLESS_RECORD;
    return verdict([...head, records.length / CIRCUIT_WORDS, 1, ...records, period, 1, ...words]) === found.number;
  });
}

function explainSlot(context) {
  const { document, found } = context;
  const [entry] = found.entries;
  const faults = slotFaults(context);
  const period = found.schedules[0].at;
  const name = capital(slotName(document, entry, document.words[entry.at + CIRCUIT]));
  const last = document.words[period] - 1;
  const circuits = circuitLimit(document.words[3]);
  const value = (at) => valueAt(document, entry.at + at);
  const limits = [`an offset is 0 to ${last}`, 'a length is 2 to 16', circuits, 'a route is 0 to 65,535'];
  const wrong = [
    `offset ${value(OFFSET)} does not lie within the period of ${valueAt(document, period)} cycles; it may be 0 to ${last}`,
    `length ${value(LENGTH)} is out of range; it may be 2 to 16 words, the header included`,
    `there is no circuit ${value(CIRCUIT)}; ${circuits}`,
    `route ${typedAt(document, entry.at + ROUTE)} is too long; its number may be 0 to 65,535, and a shortest route has at most 4 letters`,
  ];
  return {
    marks: faults.map((at) => ({ at: entry.at + at, text: limits[at] })),
    lines: faults.map((at) => `${name}: ${wrong[at]}.`),
    help: slotHelp(context, entry, faults),
  };
}

function circuitLimit(count) {
  if (count < 2) return count === 0 ? 'the sheet has no circuits' : 'the sheet has circuit 0 only';
  return `circuits are 0 to ${count - 1}`;
}

// Values in range for every word at fault, put in together; which circuit is meant cannot be known.
function slotHelp(context, entry, faults) {
  const { document, verdict, found } = context;
  if (faults.includes(CIRCUIT)) return [];
  if (faults.length === 1 && faults[0] === ROUTE) return routeHelp(context, entry);
  const alone = [...found.left];
  const begin = alone.length - HARMLESS_ENTRY.length;
  const changes = [];
  const change = (at, word, what) => {
    alone[begin + at] = word;
    const cell = placeOfWord(document, entry.at + at);
    const typed = at === ROUTE && document.kind === 'plan' ? lettersOfRoute(word) : word;
    changes.push({ at: entry.at + at, word, text: `put ${typed} into ${cell}: ${what}` });
  };
  if (faults.includes(LENGTH)) change(LENGTH, nearest(LENGTH_LIMITS, alone[begin + LENGTH])[0], 'the nearest length in range');
  if (faults.includes(ROUTE)) change(ROUTE, routeOfLetters(routesOf(document, entry)[0]), 'a shortest route');
  if (faults.includes(OFFSET)) change(OFFSET, ...lastOffset(alone, begin, verdict));
  const text = capital(changes.map((one) => one.text).join('; '));
  return [tried(document, text, { put: changes.map(({ at, word }) => ({ at, word })) }, verdict)];
}

// The last offset at which the slot, alone in the sheet, passes; else the last one of the period.
function lastOffset(alone, begin, verdict) {
  const last = alone[begin - 2] - 1;
  for (let offset = last; offset >= 0; offset--) {
    const words = [...alone];
    words[begin] = offset;
    if (verdict(words) === 0) return [offset, 'the last offset at which this slot ends in time'];
  }
  return [last, 'the last offset of the period'];
}

// Number 8: two slots out of order, or equal in what orders them.
export function explainSlotOrder({ document, verdict, found }) {
  const [first, second] = found.entries;
  const parts = partsOf(document.words);
  const [one, other] = [first, second].map((entry) => entryAt(parts, entry).words);
  const sameOffset = one[OFFSET] === other[OFFSET];
  const isEqual = sameOffset && one[CIRCUIT] === other[CIRCUIT];
  const places = sameOffset ? [OFFSET, CIRCUIT] : [OFFSET];
  const sorting = 'Sort the slots of every mode by offset and, at one offset, by circuit';
  const help = isEqual
    ? tried(document, `Take out ${slotName(document, second, other[CIRCUIT])}`, { drop: [second.at] }, verdict)
    : tried(document, sorting, { sort: true }, verdict);
  const text = isEqual ? 'the same twice' : 'out of order';
  return {
    marks: [first, second].flatMap(({ at }) => places.map((place) => ({ at: at + place, text }))),
    lines: isEqual ? equalLines(document, [first, second], one) : orderLines(document, [first, second], [one, other]),
    help: [help],
  };
}

function equalLines(document, [first, second], words) {
  const [one, other] = [first, second].map(({ at }) => placeOfWord(document, at));
  const name = capital(circuitName(document, words[CIRCUIT]));
  const mode = modeName(document, first.schedule);
  const lines = [`${name} has two slots with offset ${words[OFFSET]} in ${mode} (${one} and ${other}): both would begin in one cycle.`];
  if (isSortedByTool(document)) lines.push('The order of the rows is free here: slots are sorted before the sheet is checked.');
  return lines;
}

function orderLines(document, [first, second], [one, other]) {
  const described = (entry, words) => `${slotName(document, entry, words[CIRCUIT])} has offset ${valueAt(document, entry.at)}`;
  const [later, earlier] = [one, other].map((words) => circuitName(document, words[CIRCUIT]));
  const circuits = one[OFFSET] === other[OFFSET] ? `: ${earlier} comes before ${later}` : '';
  return [
    `The slots of ${modeName(document, first.schedule)} stand in the order of their offsets and, at one offset, of their circuits.`,
    `${capital(described(first, one))}; ${described(second, other)} and should stand before it${circuits}.`,
  ];
}
