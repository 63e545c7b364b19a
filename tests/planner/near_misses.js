// Near misses: sheets that pass but for one fault of a given number, planted in known cells.
import { LETTERS, routeOfLetters } from '../../planner/lib/route.js';
import { copyOf, documentOf, inOrder, labelledWords, nodesOf, slotsInOrder, swap, wordsOfSheet } from './passing_sheets.js';

const LARGEST = 4294967295;
const RECORD = { source: 0, destination: 1, readOffset: 2, readLength: 3, receiveOffset: 4, receiveLength: 5 };
const FORMS = ['plan', 'exam', 'words'];

// The faults of each number: each changes a copy of a sheet and gives the cells, or null where it cannot be planted there.
const FAULTS = {
  1: (random) => {
    const length = random.between(1, 4);
    return { forms: ['words'], cells: [{ at: length - 1 }], changeWords: (words) => words.slice(0, length) };
  },
  2: (random, sheet) => random.choose([headSize, headSize, manyCircuits, manyModes, noModes, headCounts])(random, sheet),
  3: (random, sheet) => random.choose([manySlots, cutWords, surplusWords, largeCount])(random, sheet),
  4: (random, sheet) => random.choose([outsideNode, oneNode, emptyRegion, longRegion, farRegion])(random, sheet),
  5: (random, sheet) => random.choose([swappedCircuits, equalCircuits])(random, sheet),
  6: (random, sheet) => sharedRegion(random, sheet),
  7: (random, sheet) => random.choose([wrongPeriod, wrongOffset, wrongLength, wrongCircuit, wrongRoute])(random, sheet),
  8: (random, sheet) => random.choose([swappedSlots, equalSlots])(random, sheet),
  9: (random, sheet) => {
    const { slot } = someSlot(random, sheet);
    const bitsAbove = (slot.route + random.between(1, 60) * 1024) % 65536;
    slot.route = random.choose([random.below(65536), bitsAbove, slot.route ^ random.between(1, 63)]);
    return { cells: [{ of: slot, field: 'route' }] };
  },
  10: (random, sheet) => {
    const { mode, slot } = someSlot(random, sheet);
    const what = random.choose(['offset', 'length', 'period']);
    if (what === 'period') mode.period -= random.between(1, mode.period - 9);
    else if (what === 'offset') slot.offset = random.between(slot.offset, mode.period - 1);
    else slot.length = random.between(slot.length, 16);
    return { cells: [{ of: what === 'period' ? mode : slot, field: what }], what };
  },
  11: (random, sheet) => {
    const { mode, slot } = someSlot(random, sheet);
    slot.offset = random.below(mode.period);
    return { cells: [{ of: slot, field: 'offset' }] };
  },
  26: (random, sheet) => random.choose([addedCircuit, circuitWithoutSlots])(random, sheet),
};

// Some near misses of a number: `{ form, what, document, planted }`.
export function nearMisses(random, verdict, number, count, sheets) {
  const found = [];
  for (let tries = 0; found.length < count; tries++) {
    if (tries > 200 * count) throw new Error(`too few near misses of number ${number}`);
    const sheet = copyOf(random.choose(sheets));
    const fault = FAULTS[number](random, sheet);
    if (!fault) continue;
    const form = random.choose(fault.forms ?? FORMS);
    const near = documentOf(random, form, sheet, fault.cells, fault.changeWords);
    if (near.document.problems.length > 0) throw new Error(JSON.stringify(near.document.problems[0]));
    if (verdict(near.document.words) === number) found.push({ form, what: fault.what ?? null, ...near });
  }
  return found;
}

function someSlot(random, sheet) {
  const mode = random.choose(sheet.modes);
  return { mode, slot: random.choose(mode.slots) };
}

function headSize(random, sheet) {
  const fields = random.chance(0.2) ? [0, 1, 2].filter(() => random.chance(0.6)) : [random.below(3)];
  const values = [[0, 1, 5, 7, 258, 260, LARGEST], [0, 1, 5, 6, 100, 256, 257, 261, 512, 514], [0, 16385, LARGEST]];
  for (const field of fields) sheet.head[field] = random.choose(values[field]);
  return { cells: fields.map((field) => ({ of: sheet, field })) };
}

function manyCircuits(random, sheet) {
  const length = random.between(65, 70);
  while (sheet.circuits.length < length) sheet.circuits.push({ name: `more ${sheet.circuits.length}`, record: [0, 1, 0, 1, 0, 1] });
  sheet.asTheyStand = true;
  const form = random.choose(FORMS);
  return { forms: [form], cells: [form === 'words' ? { at: 3 } : { of: sheet.circuits[64], column: 0 }] };
}

function manyModes(random, sheet) {
  const length = random.between(9, 12);
  while (sheet.modes.length < length) sheet.modes.push({ name: `more ${sheet.modes.length}`, period: 9, slots: [] });
  const form = random.choose(FORMS);
  return { forms: [form], cells: [form === 'words' ? { at: 4 } : { of: sheet.modes[8], column: 0 }] };
}

function noModes(random, sheet) {
  sheet.modes = [];
  const form = random.choose(FORMS);
  return { forms: [form], cells: [form === 'words' ? { at: 4 } : { of: sheet, column: 0 }] };
}

function headCounts(random) {
  const [at, word] = random.choose([[3, 65], [3, LARGEST], [4, 0], [4, 9], [4, LARGEST]]);
  return { forms: ['words'], cells: [{ at }], changeWords: (words) => words.map((old, place) => (place === at ? word : old)) };
}

function manySlots(random, sheet) {
  const mode = random.choose(sheet.modes);
  const length = random.between(257, 270);
  while (mode.slots.length < length) mode.slots.push({ ...mode.slots[0], offset: mode.slots.length });
  const form = random.choose(FORMS);
  if (form === 'words') return { forms: [form], cells: [{ of: mode, field: 'count' }] };
  return { forms: [form], cells: [{ of: mode, field: 'count' }, { of: mode, slotRow: 256 }] };
}

function cutWords(random, sheet) {
  const length = random.between(5, wordsOfSheet(sheet).length - 1);
  return { forms: ['words'], cells: [{ at: length - 1 }], changeWords: (words) => words.slice(0, length) };
}

function surplusWords(random, sheet) {
  const surplus = Array.from({ length: random.between(1, 9) }, () => random.below(100));
  return { forms: ['words'], cells: [{ at: wordsOfSheet(sheet).length }], changeWords: (words) => [...words, ...surplus] };
}

function largeCount(random, sheet) {
  const mode = random.choose(sheet.modes);
  const at = labelledWords(sheet).findIndex(({ of, field }) => of === mode && field === 'count');
  const count = random.choose([257, 300, LARGEST]);
  return { forms: ['words'], cells: [{ at }], changeWords: (words) => words.map((old, place) => (place === at ? count : old)) };
}

const recordCell = (of, name) => ({ of, field: RECORD[name] });

function outsideNode(random, sheet) {
  const circuit = random.choose(sheet.circuits);
  const name = random.choose(['source', 'destination']);
  circuit.record[RECORD[name]] = nodesOf(sheet) + random.choose([0, 1, 50, 4294967000]);
  return { cells: [recordCell(circuit, name)] };
}

function oneNode(random, sheet) {
  const circuit = random.choose(sheet.circuits);
  circuit.record[RECORD.source] = circuit.record[RECORD.destination];
  return { cells: [recordCell(circuit, 'source'), recordCell(circuit, 'destination')] };
}

function emptyRegion(random, sheet) {
  const circuit = random.choose(sheet.circuits);
  const name = random.choose(['readLength', 'receiveLength']);
  circuit.record[RECORD[name]] = 0;
  return { cells: [recordCell(circuit, name)] };
}

function longRegion(random, sheet) {
  const circuit = random.choose(sheet.circuits);
  const name = random.choose(['readLength', 'receiveLength']);
  circuit.record[RECORD[name]] = sheet.head[2] - circuit.record[RECORD[name] - 1] + random.choose([1, 2, 40, 4294960000]);
  return { cells: [recordCell(circuit, name)] };
}

function farRegion(random, sheet) {
  const circuit = random.choose(sheet.circuits);
  const name = random.choose(['readOffset', 'receiveOffset']);
  const field = RECORD[name];
  // The last of these would wrap round in 32 bits.
  const [memory, length] = [sheet.head[2], circuit.record[field + 1]];
  circuit.record[field] = random.choose([memory, memory - length + 1, LARGEST, LARGEST - length + 1]);
  return { cells: [recordCell(circuit, name)] };
}

function swappedCircuits(random, sheet) {
  sheet.circuits = inOrder(sheet.circuits);
  for (const mode of sheet.modes) mode.slots = slotsInOrder(mode.slots, sheet.circuits);
  sheet.asTheyStand = true;
  const at = random.below(sheet.circuits.length - 1);
  const [first, second] = [sheet.circuits[at], sheet.circuits[at + 1]];
  swap(sheet.circuits, at, at + 1);
  const name = first.record[1] === second.record[1] ? 'receiveOffset' : 'destination';
  return { forms: ['exam', 'words'], cells: [recordCell(first, name), recordCell(second, name)] };
}

function equalCircuits(random, sheet) {
  const [first, second] = [random.choose(sheet.circuits), random.choose(sheet.circuits)];
  if (first === second || second.record[0] === first.record[1]) return null;
  second.record[1] = first.record[1];
  second.record[4] = first.record[4];
  return { cells: [recordCell(first, 'receiveOffset'), recordCell(second, 'receiveOffset')] };
}

// A receive offset moved into another region of its node.
function sharedRegion(random, sheet) {
  const circuit = random.choose(sheet.circuits);
  circuit.record[4] = random.below(sheet.head[2]);
  return { cells: [recordCell(circuit, 'receiveOffset')] };
}

function wrongPeriod(random, sheet) {
  const mode = random.choose(sheet.modes);
  mode.period = random.choose([0, 1, 8, 1025, 5000, LARGEST]);
  return { cells: [{ of: mode, field: 'period' }] };
}

function wrongOffset(random, sheet) {
  const { mode, slot } = someSlot(random, sheet);
  slot.offset = random.choose([mode.period, mode.period + 1, 1024, LARGEST]);
  return { cells: [{ of: slot, field: 'offset' }] };
}

function wrongLength(random, sheet) {
  const { slot } = someSlot(random, sheet);
  slot.length = random.choose([0, 1, 17, 100, LARGEST]);
  return { cells: [{ of: slot, field: 'length' }] };
}

function wrongCircuit(random, sheet) {
  const { slot } = someSlot(random, sheet);
  slot.number = sheet.circuits.length + random.choose([0, 1, 60, 4294960000]);
  return { forms: ['words'], cells: [{ of: slot, field: 'circuit' }] };
}

function wrongRoute(random, sheet) {
  const { slot } = someSlot(random, sheet);
  slot.route = random.choose([65536, 65536 + slot.route, LARGEST]);
  if (random.chance(0.5)) {
    slot.letters = random.choose([...LETTERS]);
    // Letters that lead straight back are no route.
    const length = random.between(9, 15);
    const goesOn = (letter) => routeOfLetters(slot.letters + letter) !== null;
    while (slot.letters.length < length) slot.letters += random.choose([...LETTERS].filter(goesOn));
    slot.route = routeOfLetters(slot.letters);
  }
  return { cells: [{ of: slot, field: 'route' }] };
}

function swappedSlots(random, sheet) {
  sheet.circuits = inOrder(sheet.circuits);
  for (const mode of sheet.modes) mode.slots = slotsInOrder(mode.slots, sheet.circuits);
  sheet.asTheyStand = true;
  const { slots } = random.choose(sheet.modes);
  if (slots.length < 2) return null;
  const at = random.below(slots.length - 1);
  const field = slots[at].offset === slots[at + 1].offset ? 'circuit' : 'offset';
  swap(slots, at, at + 1);
  return { forms: ['exam', 'words'], cells: [{ of: slots[at], field }, { of: slots[at + 1], field }] };
}

function equalSlots(random, sheet) {
  const { mode, slot } = someSlot(random, sheet);
  const twin = { ...slot, length: random.between(2, 6) };
  mode.slots.push(twin);
  return { cells: [{ of: slot, field: 'offset' }, { of: twin, field: 'offset' }] };
}

// The cell of a circuit's name; in a file of words its record's first word.
const circuitCell = (of) => ({ of, field: RECORD.source, column: 1 });

// A circuit without a slot, its regions behind all others in a memory that is made larger.
export function addedCircuit(random, sheet) {
  const nodes = nodesOf(sheet);
  const [source, offset] = [random.below(nodes), sheet.head[2]];
  const length = random.between(1, 4);
  const destination = (source + random.between(1, nodes - 1)) % nodes;
  sheet.head[2] += length;
  const circuit = { name: `added ${sheet.circuits.length}`, record: [source, destination, offset, length, offset, length] };
  sheet.circuits.splice(random.below(sheet.circuits.length + 1), 0, circuit);
  return { cells: [circuitCell(circuit)] };
}

function circuitWithoutSlots(random, sheet) {
  const circuit = random.choose(sheet.circuits);
  for (const mode of sheet.modes) mode.slots = mode.slots.filter((slot) => slot.circuit !== circuit);
  return { cells: [circuitCell(circuit)] };
}
