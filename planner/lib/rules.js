// The numbers of a refusal, 1 to 21, 26, 31 and 32, in a planner's words; and why a call of a run was refused.
import { cellName } from './cells.js';
import { ROWS } from './calls.js';
import { rowsOfWord } from './grid.js';
import { capital, circuitName, counted, modeName } from './naming.js';
import { KINDS } from './plan.js';
import { partsOf } from './sheet.js';
import { underWay } from './under_way.js';

const rule = (title, text) => ({ title, text });

// RULES[number] is the rule of that number.
export const RULES = {
  1: rule(
    'The head of the sheet is not whole',
    'A sheet begins with five words: columns, rows, memory words of a node, number of circuits, number of schedules. No words at all are an idle network.',
  ),
  2: rule(
    'A number of the head is out of range',
    'Columns and rows are 2 to 4 each, the memory of a node 1 to 16,384 words; there are 0 to 64 circuits and 1 to 8 modes. A grid with ' +
      'long vertical links has 2 long to 4 long as its rows, in words 258 to 260.',
  ),
  3: rule(
    'The words do not divide into circuits and modes',
    'The sheet ends too early, has words left over, or states more than 256 slots for a mode.',
  ),
  4: rule(
    'A circuit does not fit the network',
    'Source and destination are two nodes of the grid; the read and the receive region have at least one word and end within the memory.',
  ),
  5: rule(
    'Two circuits are out of order or the same',
    'Circuits stand in the order of their destinations and, at one destination, of their receive offsets; no two have both the same.',
  ),
  6: rule(
    'Two regions share words of a memory',
    'What a circuit receives must not lie where another circuit receives or reads: each receive region has its addresses to itself.',
  ),
  7: rule(
    'A period or a slot has a number out of range',
    'A period is 9 to 1,024 cycles, an offset lies within it, a length is 2 to 16 words with the header, and a route is at most 65,535.',
  ),
  8: rule(
    'Two slots are out of order or the same',
    'The slots of a mode stand in the order of their offsets and, at one offset, of their circuits; no two have both the same.',
  ),
  9: rule(
    'A route does not lead to the destination by a shortest way',
    "A slot's route leads from its circuit's source to its destination in the fewest hops, and has no bits left behind its end.",
  ),
  10: rule(
    'A slot ends too late for the next period',
    'Offset + length - 1 + 3 x hops is at most the period + 2, so that no packet meets those of the next period, whatever its mode. Where ' +
      'vertical links are long, each hop north or south counts one more.',
  ),
  11: rule(
    'Two slots use one wire in one cycle',
    'Each wire carries one word in a cycle: slots of one mode must not be on the same wire at the same time.',
  ),
  12: rule('The state of the run is too short', 'The words lent for the state of the network are fewer than the calls need.'),
  13: rule('The state of the run is not sound', 'The words lent for the state of the network are not those that a run leaves.'),
  14: rule('The memory has the wrong size', 'The memory has to have columns x rows x memory words of a node.'),
  15: rule(
    'Something that is named does not exist',
    'There is no such circuit, node, address, mode or kind; a transfer sends data or an interrupt.',
  ),
  16: rule(
    'A transfer does not fit its circuit',
    'A transfer has at least one word, an interrupt exactly one; all are read in the read region and written in the receive region.',
  ),
  17: rule(
    'The last transfer of the circuit has not landed',
    'A transfer can start when the last word of the one before has landed; until then words of it are left to send or under way.',
  ),
  18: rule('A switch is ordered already', 'One order can be pending; the next can be given when its period has begun.'),
  19: rule(
    'A switch is ordered for a period that is too near or past',
    'A switch is ordered for a period at least three after the present one, and less than 2,147,483,648 after it.',
  ),
  20: rule(
    'Words meet on a wire, or a word is lost',
    'Two words want one wire, a word has no header, or a word would land beyond the memory; a run of a sheet that passes never gets there.',
  ),
  21: rule(
    'A list of transfers cannot be taken',
    'At most 64 transfers are started together, with a word for the answer to each; a run of a plan starts no more at once.',
  ),
  26: rule(
    'A circuit has no slot',
    'Every circuit has a slot in at least one mode: what a circuit without any sends would never leave.',
  ),
  31: rule(
    'The windows do not make a timetable',
    'A timetable has at most 64 windows in the order of their starts: a start is 0 to 10,079, a length at least 1 minute, a mode one of ' +
      'the first eight; each window ends with the week at the latest, and no two share a minute.',
  ),
  32: rule('The minute is not one of the week', 'The minutes of a week are 0 to 10,079, counted from Monday 00:00.'),
};

// A change that was tried against a refusal by the number `before`, with what was said then, as one line; `right` says that nothing was refused.
export function triedLine({ text, number }, before, right) {
  if (number === 0) return `${text}. Then ${right}.`;
  return `${text}. Then number ${number} is ${number === before ? 'still ' : ''}found: ${RULES[number].title}.`;
}

// The numbers by which a sheet is refused, in checking order; the others are those of calls.
export const SHEET_NUMBERS = [1, 2, 3, 4, 5, 6, 7, 8, 9, 10, 11, 26];

// The columns of the cells of a row, as plan.js reads them.
const START = { cycle: 1, circuit: 3, read: 4, write: 5, count: 6, kind: 7 };
const STORE = { node: 3, address: 4 };
const MEMORY = { node: 1, address: 2 };
const ORDER = { mode: 3, period: 4 };
const PERIODS = 4294967296;

// Why a call of a run was refused, as one sentence. `refused` is as run.js gives it; with that run's calls it says what is left, under way
// or pending.
export function callLine(document, refused, calls = null) {
  const { what, number, row } = refused;
  const reasons = Object.hasOwn(REASONS, what) ? REASONS[what](document, refused, calls) : [];
  const why = reasons.length > 0 ? reasons.join('; and ') : lowered(RULES[number].title);
  const begin = row === null || row === undefined ? '' : `Row ${row + 1}: `;
  const asked = `${askedText(document, refused)} is refused by number ${number}: ${why}.`;
  return begin === '' ? capital(asked) : begin + asked;
}

// The cells of a refused call's row that its sentence names, or the cell that says what is asked.
export function callMarks(document, refused, calls = null) {
  const { row, column } = refused;
  if (row === null || row === undefined) return [];
  const text = callLine(document, refused, calls);
  const columns = Array.from({ length: Math.max(START.kind, column) + 1 }, (_, at) => at);
  const named = columns.filter((at) => text.includes(`(${cellName(row, at)})`));
  return (named.length > 0 ? named : [column]).map((at) => ({ row, column: at, text }));
}

const lowered = (text) => text[0].toLowerCase() + text.slice(1);
const cellText = (row, column) => (row === null || row === undefined ? '' : ` (${cellName(row, column)})`);
const isMemoryRow = (refused) => refused.column >= 3;

// What was asked.
function askedText(document, { what, arguments: values, cycle, column }) {
  if (what === 'start') {
    const [circuit, , , count, kind] = values;
    const words = kind === KINDS.interrupt ? 'an interrupt' : counted(count, 'word');
    return `the start of ${words} by ${knownCircuit(document, circuit)} in cycle ${cycle}`;
  }
  if (what === 'store') {
    const [node, address, word] = values;
    return `the word ${word} for address ${address} of node ${node}${isMemoryRow({ column }) ? '' : ` in cycle ${cycle}`}`;
  }
  if (what === 'order') return `the order of ${knownMode(document, values[0])} for period ${values[1]} in cycle ${cycle}`;
  return what === 'cycle' ? 'a cycle' : 'the sheet';
}

const knownCircuit = (document, number) => (number < document.circuitNames.length ? circuitName(document, number) : `circuit ${number}`);
const knownMode = (document, number) => (number < document.modeNames.length ? modeName(document, number) : `schedule ${number}`);

const REASONS = {
  start(document, refused, calls) {
    if (refused.number === 15) return unknownInStart(document, refused);
    if (refused.number === 16) return unfitStart(document, refused);
    return refused.number === 17 ? [busyText(document, refused, calls)] : [];
  },
  store(document, refused) {
    if (refused.number !== 15) return [];
    const [node, address] = refused.arguments;
    const columns = isMemoryRow(refused) ? MEMORY : STORE;
    // The words of a memory row lie at one address after the other; the last that does not fit is told by its own cell.
    const addressColumn = isMemoryRow(refused) && refused.column > 3 ? refused.column : columns.address;
    const unknown = unknownAddress(document, 'address', address, refused.row, addressColumn);
    return [...unknownNode(document, node, refused.row, columns.node), ...unknown];
  },
  order(document, refused, calls) {
    const [mode, period] = refused.arguments;
    if (refused.number === 15) return [`there is no ${knownMode(document, mode)}${cellText(refused.row, ORDER.mode)}`];
    if (refused.number === 18) return [pendingText(document, calls)];
    return refused.number === 19 ? [periodText(period, refused, calls)] : [];
  },
};

function unknownNode(document, node, row, column) {
  const [columns, rowsWord] = document.words;
  const nodes = columns * rowsOfWord(rowsWord).rows;
  return node < nodes ? [] : [`there is no node ${node}${cellText(row, column)}, nodes are 0 to ${nodes - 1}`];
}

function unknownAddress(document, what, address, row, column) {
  const memory = document.words[2];
  return address < memory ? [] : [`${what} ${address}${cellText(row, column)} does not exist, addresses are 0 to ${memory - 1}`];
}

function unknownInStart(document, { arguments: [circuit, read, write, , kind], row }) {
  const count = document.words[3];
  const reasons = circuit < count ? [] : [`there is no circuit ${circuit}${cellText(row, START.circuit)}`];
  reasons.push(...unknownAddress(document, 'read address', read, row, START.read));
  reasons.push(...unknownAddress(document, 'write address', write, row, START.write));
  const isKind = Object.values(KINDS).includes(kind);
  if (!isKind) reasons.push(`kind ${kind}${cellText(row, START.kind)} cannot be sent, it is data (0) or interrupt (2)`);
  return reasons;
}

function unfitStart(document, { arguments: [circuit, read, write, count, kind], row }) {
  const cell = cellText(row, START.count);
  if (count === 0) return [`the count is 0${cell}, and a transfer has at least one word`];
  if (kind === KINDS.interrupt && count !== 1) return [`the count is ${count}${cell}, and an interrupt has exactly one word`];
  const [, , readOffset, readLength, receiveOffset, receiveLength] = partsOf(document.words).circuits[circuit].words;
  return [
    ...outside('read', read, count, readOffset, readLength, cellText(row, START.read), 'read region'),
    ...outside('write', write, count, receiveOffset, receiveLength, cellText(row, START.write), 'receive region'),
  ];
}

function outside(what, address, count, offset, length, cell, region) {
  if (address >= offset && address + count <= offset + length) return [];
  const words = `${counted(count, 'word')} from ${what} address ${address}${cell} on end at address ${address + count - 1}`;
  return [`${words}, and the ${region} of the circuit is ${offset} to ${offset + length - 1}`];
}

// A circuit is busy while words of its last transfer are left to send, and then until the last of them has landed.
function busyText(document, refused, calls) {
  const [number] = refused.arguments;
  const circuit = `${knownCircuit(document, number)}${cellText(refused.row, START.circuit)}`;
  if (!calls) return `${circuit} has words of its last transfer that were not sent or have not landed`;
  const left = calls.wordsLeft(number).value;
  if (left === 0) return underWayText(circuit, refused, underWay(calls, document.words, refused));
  const free = `the next can start when ${left === 1 ? 'it' : 'the last of them'} has landed`;
  return `${circuit} has ${counted(left, 'word')} of its last transfer left to send; ${free}`;
}

// All words were sent; `found` is what the proved calls say of those that have not landed.
function underWayText(circuit, { cycle, row }, found) {
  if (!found) return `${circuit} has sent its last transfer, but words of it have not landed`;
  const [words, last] = found.count === 1 ? ['1 word of it has', 'it'] : [`${found.count} words of it have`, 'the last'];
  const early = `cycle ${cycle}${cellText(row, START.cycle)} is too early`;
  const landing = `${last} lands in cycle ${found.cycle - 1}, so that the earliest cycle for this start is ${found.cycle}`;
  return `${early}: ${circuit} has sent its last transfer, but ${words} not landed; ${landing}`;
}

function pendingText(document, calls) {
  if (!calls) return 'an earlier order is pending; the next can be given when its period has begun';
  const [mode, period] = [4, 5].map((place) => calls.register(ROWS.clock, place));
  return `${knownMode(document, mode)} is ordered for period ${period} already; the next order can be given when that period has begun`;
}

function periodText(period, { row }, calls) {
  const ordered = `period ${period}${cellText(row, ORDER.period)}`;
  if (!calls) return `${ordered} is not at least three periods ahead`;
  const present = calls.periodNumber().value;
  const isBehind = (period - present + PERIODS) % PERIODS >= PERIODS / 2;
  const known = `the present period is ${present}, and the earliest that can be ordered is ${(present + 3) % PERIODS}`;
  return `${ordered} ${isBehind ? 'is past' : 'is too near'}: ${known}`;
}
