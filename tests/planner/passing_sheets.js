// Sheets that pass, as objects that a test can change, and documents of them as a plan, as an exam's plan or as words.
import { documentOfRows, documentOfWords } from '../../planner/lib/document.js';
import { lettersOfRoute, routeOfLetters, shortestRoutes } from '../../planner/lib/route.js';

const ENTRY_FIELDS = ['offset', 'length', 'circuit', 'route'];

const LONG = 256;

// Columns and rows of a sheet; where vertical links are long, 256 is added to its word for the rows.
export const gridOf = ({ head: [columns, rows] }) => [columns, rows >= LONG ? rows - LONG : rows];
export const nodesOf = (sheet) => gridOf(sheet)[0] * gridOf(sheet)[1];

// A sheet as objects: circuits with a record, modes with slots that point at their circuit. It passes by `verdict`.
export function passingSheet(random, verdict) {
  const rows = random.between(2, 4) + (random.chance(0.4) ? LONG : 0);
  const sheet = { head: [random.between(2, 4), rows, 0], circuits: [], modes: [] };
  const nodes = nodesOf(sheet);
  const used = new Array(nodes).fill(0);
  const count = random.between(3, 14);
  for (let number = 0; number < count; number++) {
    const source = random.below(nodes);
    const destination = (source + random.between(1, nodes - 1)) % nodes;
    const region = (node) => {
      const [offset, length] = [used[node] + random.below(3), random.between(1, 6)];
      used[node] = offset + length;
      return [offset, length];
    };
    sheet.circuits.push({ name: `way ${number}`, record: [source, destination, ...region(source), ...region(destination)] });
  }
  sheet.head[2] = Math.max(...used) + random.below(4);
  const modes = random.between(1, 3);
  for (let number = 0; number < modes; number++) sheet.modes.push({ name: `mode ${number}`, period: random.between(14, 60), slots: [] });
  for (const mode of sheet.modes) addSlots(random, verdict, sheet, mode);
  // A circuit for which no offset was found is left out: number 26 wants a slot of each.
  sheet.circuits = sheet.circuits.filter((circuit) => sheet.modes.some(({ slots }) => slots.some((slot) => slot.circuit === circuit)));
  if (verdict(wordsOfSheet(sheet)) !== 0) throw new Error('the generator made a sheet that does not pass');
  return sheet;
}

// Slots for the circuits of a mode, at offsets that keep the rules 1 to 11.
function addSlots(random, verdict, sheet, mode) {
  for (const circuit of sheet.circuits) {
    const [source, destination] = circuit.record;
    for (let turn = random.between(1, 2); turn > 0; turn--) {
      const route = routeOfLetters(random.choose(shortestRoutes(...gridOf(sheet), source, destination)));
      const slot = { circuit, length: random.between(2, 6), route, offset: 0 };
      for (let tries = 0; tries < 8; tries++) {
        slot.offset = random.below(mode.period);
        const alone = { ...sheet, modes: [{ ...mode, slots: [...mode.slots, slot] }] };
        if (![0, 26].includes(verdict(wordsOfSheet(alone)))) continue;
        mode.slots.push(slot);
        break;
      }
    }
  }
  // A mode without slots has none to plant a fault in.
  if (mode.slots.length === 0) mode.slots.push({ circuit: sheet.circuits[0], length: 2, route: firstRoute(sheet), offset: 0 });
}

function firstRoute(sheet) {
  const [source, destination] = sheet.circuits[0].record;
  return routeOfLetters(shortestRoutes(...gridOf(sheet), source, destination)[0]);
}

export function copyOf(sheet) {
  const circuits = sheet.circuits.map((circuit) => ({ ...circuit, record: [...circuit.record] }));
  const twin = (circuit) => circuits[sheet.circuits.indexOf(circuit)];
  const modes = sheet.modes.map((mode) => ({ ...mode, slots: mode.slots.map((slot) => ({ ...slot, circuit: twin(slot.circuit) })) }));
  return { head: [...sheet.head], circuits, modes };
}

// Circuits and slots in the order that the rules want.
export const inOrder = (circuits) => [...circuits].sort((a, b) => a.record[1] - b.record[1] || a.record[4] - b.record[4]);
export function slotsInOrder(slots, circuits) {
  return [...slots].sort((a, b) => a.offset - b.offset || circuits.indexOf(a.circuit) - circuits.indexOf(b.circuit));
}

// The sheet with circuits and slots as the rules want them, or as they stand.
function ordered(sheet) {
  if (sheet.asTheyStand) return sheet;
  const circuits = inOrder(sheet.circuits);
  return { ...sheet, circuits, modes: sheet.modes.map((mode) => ({ ...mode, twin: mode, slots: slotsInOrder(mode.slots, circuits) })) };
}

// The sheet's words, and what each stands for.
export function labelledWords(sheet) {
  const { head, circuits, modes } = ordered(sheet);
  const labelled = [0, 1, 2].map((field) => ({ word: head[field], of: sheet, field }));
  labelled.push({ word: circuits.length, of: sheet, field: 3 }, { word: modes.length, of: sheet, field: 4 });
  for (const circuit of circuits) circuit.record.forEach((word, field) => labelled.push({ word, of: circuit, field }));
  for (const mode of modes) {
    const of = mode.twin ?? mode;
    labelled.push({ word: mode.period, of, field: 'period' }, { word: mode.slots.length, of, field: 'count' });
    for (const slot of mode.slots) {
      const words = { ...slot, circuit: slot.number ?? circuits.indexOf(slot.circuit) };
      for (const field of ENTRY_FIELDS) labelled.push({ word: words[field], of: slot, field });
    }
  }
  return labelled;
}

export const wordsOfSheet = (sheet) => labelledWords(sheet).map(({ word }) => word);

// A table of the sheet, its rows shuffled where their order is free; `rowOf` says which row an object has.
function tableOf(random, sheet, exam) {
  const { head, circuits, modes } = exam ? ordered(sheet) : sheet;
  const rowOf = new Map();
  const rows = [];
  const add = (object, cells) => {
    rowOf.set(object, rows.length);
    rows.push(cells.map(String));
  };
  rows.push(['# a plan']);
  const [, rowsOfGrid] = gridOf(sheet);
  add(sheet, ['network', head[0], head[1] >= LONG && random.chance(0.5) ? `${rowsOfGrid} long` : head[1], head[2]]);
  for (const circuit of circuits) add(circuit, ['circuit', circuit.name, ...circuit.record]);
  for (const mode of modes) add(mode.twin ?? mode, ['mode', mode.name, mode.period]);
  const slots = modes.flatMap((mode) => mode.slots.map((slot) => ({ mode, slot })));
  if (!exam) for (let at = slots.length - 1; at > 0; at--) swap(slots, at, random.below(at + 1));
  for (const { mode, slot } of slots) {
    const letters = random.chance(0.5) ? lettersOfRoute(slot.route) : null;
    add(slot, ['slot', mode.name, slot.circuit.name, slot.offset, slot.length, slot.letters ?? letters ?? slot.route]);
  }
  return { rows, rowOf };
}

export function swap(list, a, b) {
  [list[a], list[b]] = [list[b], list[a]];
}

const COLUMNS = { period: 2, count: 0, offset: 3, length: 4, circuit: 2, route: 5 };

// The row of a mode's slot, counted from 0 in the order of the rows.
function rowOfSlot(rows, mode, count) {
  const own = rows.map((cells, row) => ({ cells, row })).filter(({ cells }) => cells[0] === 'slot' && cells[1] === mode);
  return own[count].row;
}

// A document of a sheet in a form ('plan', 'exam' or 'words'), and the places (row and column) of the planted cells.
export function documentOf(random, form, sheet, planted, changeWords = (words) => words) {
  if (form === 'words') {
    const labelled = labelledWords(sheet);
    const words = changeWords(labelled.map(({ word }) => word));
    const perLine = random.between(1, 9);
    const lines = [];
    for (let at = 0; at < words.length; at += perLine) lines.push(words.slice(at, at + perLine).join(' '));
    const document = documentOfWords('near.sheet', lines.join('\n'));
    const places = planted.map((cell) => cell.at ?? labelled.findIndex(({ of, field }) => of === cell.of && field === cell.field));
    return { document, planted: places.map((at) => document.places[at]) };
  }
  const { rows, rowOf } = tableOf(random, sheet, form === 'exam');
  const places = planted.map(({ of, field, column, slotRow }) => {
    if (slotRow !== undefined) return { row: rowOfSlot(rows, of.name, slotRow), column: COLUMNS.offset };
    const shift = of === sheet ? 1 : 2;
    return { row: rowOf.get(of), column: column ?? (typeof field === 'number' ? field + shift : COLUMNS[field]) };
  });
  return { document: documentOfRows('near.csv', rows, form === 'exam'), planted: places };
}
