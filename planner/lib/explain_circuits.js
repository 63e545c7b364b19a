// Why a sheet is refused by the numbers 4 and 5: its circuits and their order.
import { placeOfWord } from './document.js';
import { DESTINATION, READ_OFFSET, RECEIVE_OFFSET, REGION_NAMES, SOURCE, freeReceiveOffsets, recordIn } from './explain_regions.js';
import { rowsOfWord } from './grid.js';
import { HARMLESS_RECORD } from './limits.js';
import { capital, circuitName, circuitWithRow, counted, valueAt } from './naming.js';
import { keepsRules1To11 } from './served.js';
import { CIRCUIT_WORDS, HEAD_WORDS, compareCircuits } from './sheet.js';
import { NEW_NUMBERS, isSortedByTool, put, tried } from './trials.js';

// Number 4: the circuit's nodes or regions, found by putting harmless values beside each.
export function explainCircuit(context) {
  const { document, verdict, found } = context;
  const [circuit] = found.circuits;
  const record = recordIn(found.left, HEAD_WORDS);
  // Whether these words of the record get number 4 beside harmless ones.
  const isFault = (kept) => {
    const changed = HARMLESS_RECORD.map((word, at) => kept[at] ?? word);
    return verdict([...found.left.slice(0, HEAD_WORDS), ...changed, ...found.left.slice(HEAD_WORDS + CIRCUIT_WORDS)]) === found.number;
  };
  const told = [nodeFaults(document, circuit, record, isFault)];
  for (const at of [READ_OFFSET, RECEIVE_OFFSET]) told.push(regionFaults(context, circuit, record, at, isFault));
  return { marks: told.flatMap((one) => one.marks), lines: told.flatMap((one) => one.lines), help: told.flatMap((one) => one.help) };
}

function nodeFaults(document, circuit, record, isFault) {
  const [source, destination] = record;
  if (!isFault({ [SOURCE]: source, [DESTINATION]: destination })) return { marks: [], lines: [], help: [] };
  const [columns, rowsWord] = document.words;
  const { rows } = rowsOfWord(rowsWord);
  const name = capital(circuitName(document, circuit.number));
  const outside = [SOURCE, DESTINATION].filter((at) => isFault({ [at]: record[at], [1 - at]: record[at] === 0 ? 1 : 0 }));
  const grid = `the grid of ${columns} columns and ${rows} rows, whose nodes are 0 to ${columns * rows - 1}`;
  const [from, to] = [SOURCE, DESTINATION].map((at) => `${at === SOURCE ? 'source' : 'destination'} ${valueAt(document, circuit.at + at)}`);
  if (outside.length === 0) {
    const marks = [SOURCE, DESTINATION].map((at) => ({ at: circuit.at + at, text: 'source and destination are one node' }));
    return { marks, lines: [`${name}: ${from} and ${to} are one node; a circuit joins two.`], help: [] };
  }
  return {
    marks: outside.map((at) => ({ at: circuit.at + at, text: `nodes are 0 to ${columns * rows - 1}` })),
    lines: outside.map((at) => `${name}: ${at === SOURCE ? from : to} is outside ${grid}.`),
    help: [],
  };
}

// A region's fault: its length, its offset, or both together.
function regionFaults(context, circuit, record, at, isFault) {
  const { document } = context;
  const [offset, length] = [record[at], record[at + 1]];
  if (!isFault({ [at]: offset, [at + 1]: length })) return { marks: [], lines: [], help: [] };
  const alone = [at, at + 1].filter((place) => isFault({ [place]: record[place] }));
  const places = alone.length === 0 ? [at, at + 1] : alone;
  const text = (place) => (place > at && length === 0 ? 'a region has at least 1 word' : `the memory ends at ${document.words[2] - 1}`);
  return {
    marks: places.map((place) => ({ at: circuit.at + place, text: text(place) })),
    lines: [regionLine(document, circuit, at, offset, length)],
    help: regionHelp(context, circuit, at, offset, length),
  };
}

function regionLine(document, circuit, at, offset, length) {
  const name = `${capital(circuitName(document, circuit.number))}: its ${REGION_NAMES[at]}`;
  const [offsetCell, lengthCell] = [valueAt(document, circuit.at + at), valueAt(document, circuit.at + at + 1)];
  const words = counted(document.words[2], 'word');
  const memory = `a node's memory has ${words} (${placeOfWord(document, 2)}), addresses 0 to ${document.words[2] - 1}`;
  if (length > 0) {
    const end = `its last address is ${offset + length - 1}`;
    return `${name} begins at address ${offsetCell} and has length ${lengthCell}, so ${end}; ${memory}.`;
  }
  const beyond = offset >= document.words[2] ? ` Its offset ${offsetCell} lies beyond the memory as well: ${memory}.` : '';
  return `${name} has length ${lengthCell}; a region has at least one word.${beyond}`;
}

// The largest length at this offset, the largest offset for this length, and a receive offset that is free.
function regionHelp(context, circuit, at, offset, length) {
  const { document, verdict } = context;
  const memory = document.words[2];
  const changes = [];
  const change = (place, word, what) => {
    const cell = placeOfWord(document, circuit.at + place);
    changes.push(tried(document, `Put ${word} into ${cell}: ${what}`, put(circuit.at + place, word), verdict));
  };
  if (offset < memory) {
    if (length === 0) change(at + 1, 1, 'the least length');
    else change(at + 1, memory - offset, 'the largest length at this offset');
  }
  if (length > 0 && length <= memory) change(at, memory - length, 'the largest offset for this length');
  const fits = changes.some((trial) => keepsRules1To11(trial.number));
  return at === RECEIVE_OFFSET && length > 0 && !fits ? [...changes, ...freeReceiveOffsets(context, circuit)] : changes;
}

// Number 5: two circuits that are out of order, or equal in what orders them.
export function explainOrder(context) {
  const { document, verdict, found } = context;
  const [first, second] = found.circuits;
  const [one, other] = [first, second].map(({ at }) => recordIn(document.words, at));
  const isEqual = compareCircuits(one, other) === 0;
  const sameNode = one[DESTINATION] === other[DESTINATION];
  const places = sameNode ? [DESTINATION, RECEIVE_OFFSET] : [DESTINATION];
  const lines = isEqual ? equalLines(document, first, second) : orderLines(document, first, second);
  const text = isEqual ? 'the same twice' : 'out of order';
  const sorting = 'Sort the circuits by destination and receive offset, and the slots by offset and circuit';
  const numbers = document.kind === 'plan' ? '' : `, ${NEW_NUMBERS}`;
  const sorted = () => tried(document, sorting + numbers, { sort: true }, verdict);
  return {
    marks: [first, second].flatMap(({ at }) => places.map((place) => ({ at: at + place, text }))),
    lines,
    help: isEqual ? [second, first].flatMap((circuit) => freeReceiveOffsets(context, circuit)) : [sorted()],
  };
}

function equalLines(document, first, second) {
  const [one, other] = [first, second].map((circuit) => circuitWithRow(document, circuit));
  const cells = (place) => [first, second].map(({ at }) => placeOfWord(document, at + place)).join(' and ');
  const { words } = document;
  const lines = [
    `${capital(one)} and ${other} have the same destination, node ${words[first.at + DESTINATION]} (${cells(DESTINATION)}), and the same ` +
      `receive offset ${words[first.at + RECEIVE_OFFSET]} (${cells(RECEIVE_OFFSET)}): what they send would land at the same addresses.`,
  ];
  if (isSortedByTool(document)) lines.push('The order of the rows is free here: circuits are sorted before the sheet is checked.');
  return lines;
}

function orderLines(document, first, second) {
  const described = (circuit) => {
    const [destination, offset] = [DESTINATION, RECEIVE_OFFSET].map((place) => valueAt(document, circuit.at + place));
    return `${circuitWithRow(document, circuit)} has destination ${destination} and receive offset ${offset}`;
  };
  return [
    'Circuits stand in the order of their destinations and, at one destination, of their receive offsets.',
    `${capital(described(first))}; ${described(second)} and should stand before it.`,
  ];
}
