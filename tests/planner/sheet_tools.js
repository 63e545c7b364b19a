// A second reading of sheets for the tests of explanations: dropping a part, and trying a change, without the code that is tested.
import { documentOfRows } from '../../planner/lib/document.js';

// A sheet's words as nested lists.
export function read(words) {
  const [columns, rows, memory, circuitCount, scheduleCount] = words;
  let at = 5;
  const take = (count) => words.slice(at, (at += count));
  const circuits = Array.from({ length: circuitCount }, () => take(6));
  const schedules = Array.from({ length: scheduleCount }, () => {
    const [period, count] = take(2);
    return { period, entries: Array.from({ length: count }, () => take(4)) };
  });
  return { head: [columns, rows, memory], circuits, schedules };
}

export function write({ head, circuits, schedules }) {
  const tail = schedules.flatMap(({ period, entries }) => [period, entries.length, ...entries.flat()]);
  return [...head, circuits.length, schedules.length, ...circuits.flat(), ...tail];
}

// Every sheet that lacks one circuit (with its entries), one entry or one schedule.
export function fewerByOne(words) {
  const sheet = read(words);
  const found = sheet.schedules.map((_, gone) => ({ ...sheet, schedules: sheet.schedules.filter((_one, at) => at !== gone) }));
  sheet.schedules.forEach((schedule, of) =>
    schedule.entries.forEach((_, gone) => {
      const entries = schedule.entries.filter((_one, at) => at !== gone);
      found.push({ ...sheet, schedules: sheet.schedules.map((one, at) => (at === of ? { ...one, entries } : one)) });
    }),
  );
  sheet.circuits.forEach((_, gone) => {
    const number = (circuit) => (circuit > gone && circuit < sheet.circuits.length ? circuit - 1 : circuit);
    const renumbered = ([offset, length, circuit, route]) => [offset, length, number(circuit), route];
    const others = (entries) => entries.filter((entry) => entry[2] !== gone).map(renumbered);
    const schedules = sheet.schedules.map(({ period, entries }) => ({ period, entries: others(entries) }));
    found.push({ ...sheet, circuits: sheet.circuits.filter((_one, at) => at !== gone), schedules });
  });
  return found.map(write);
}

// The words of a document with a change carried out as a reader of the help would: in the cells of a plan, in the words of a file.
export function carriedOut(document, change) {
  return document.kind === 'plan' ? changedPlan(document, change) : changedWords(document.words, change);
}

function changedPlan(document, { put = [], drop = [], add = [], sort = false }) {
  let rows = document.rows.map((cells) => [...cells]);
  for (const { at, word } of put) rows[document.places[at].row][document.places[at].column] = String(word);
  for (const at of drop) rows = withoutRow(rows, document.places[at].row);
  for (const entry of add) rows = withSlotRow(document, rows, entry);
  return documentOfRows(document.name, rows, document.exam && !sort).words;
}

// Rows without a slot's or a circuit's; what starts the circuit goes with it.
function withoutRow(rows, gone) {
  const [keyword, name] = rows[gone];
  const starts = (cells) => cells[0] === 'at' && cells[2] === 'start' && cells[3] === name;
  return rows.map((cells, row) => (row === gone || (keyword === 'circuit' && starts(cells)) ? ['# taken out'] : cells));
}

// Rows with a slot's row more: directly below the row of the slot that it follows in its mode, else above all slots.
function withSlotRow(document, rows, { schedule, number, words: [offset, length, circuit, route] }) {
  const mode = document.modeNames[schedule];
  const row = ['slot', mode, document.circuitNames[circuit], offset, length, route].map(String);
  const own = rows.map((cells, at) => ({ cells, at })).filter(({ cells }) => cells[0] === 'slot' && cells[1] === mode);
  const sorted = document.exam ? own : own.sort((a, b) => a.cells[3] - b.cells[3]);
  const place = number > 0 ? sorted[number - 1].at + 1 : rows.findIndex((cells) => cells[0] === 'slot');
  return place < 0 ? [...rows, row] : [...rows.slice(0, place), row, ...rows.slice(place)];
}

function changedWords(words, { put = [], drop = [], add = [], length = words.length, sort = false }) {
  let changed = words.map((word, at) => put.find((one) => one.at === at)?.word ?? word).slice(0, length);
  // From the end on, so that the places before stay.
  for (const at of [...drop].sort((a, b) => b - a)) {
    changed = at < 5 + 6 * changed[3] ? withoutCircuit(changed, at) : withoutEntry(changed, at);
  }
  for (const entry of add) changed = withEntry(changed, entry);
  return sort ? write(inOrder(read(changed))) : changed;
}

// Words without the circuit of a place, whose entries must be none.
function withoutCircuit(words, place) {
  const sheet = read(words);
  const gone = (place - 5) / 6;
  const renumbered = ([offset, length, circuit, route]) => [offset, length, circuit > gone ? circuit - 1 : circuit, route];
  const schedules = sheet.schedules.map(({ period, entries }) => ({ period, entries: entries.map(renumbered) }));
  return write({ ...sheet, circuits: sheet.circuits.filter((_, at) => at !== gone), schedules });
}

function withEntry(words, { schedule, number, words: entry }) {
  const sheet = read(words);
  sheet.schedules[schedule].entries.splice(number, 0, entry);
  return write(sheet);
}

function withoutEntry(words, place) {
  let at = 5 + 6 * words[3];
  while (at + 2 + 4 * words[at + 1] <= place) at += 2 + 4 * words[at + 1];
  const changed = [...words.slice(0, place), ...words.slice(place + 4)];
  changed[at + 1]--;
  return changed;
}

function inOrder({ head, circuits, schedules }) {
  const order = circuits.map((_, at) => at).sort((a, b) => circuits[a][1] - circuits[b][1] || circuits[a][4] - circuits[b][4]);
  const number = (circuit) => (order.includes(circuit) ? order.indexOf(circuit) : circuit);
  const renumbered = ([offset, length, circuit, route]) => [offset, length, number(circuit), route];
  const inOrderOf = (entries) => entries.map(renumbered).sort((a, b) => a[0] - b[0] || a[2] - b[2]);
  const sorted = schedules.map(({ period, entries }) => ({ period, entries: inOrderOf(entries) }));
  return { head, circuits: order.map((at) => circuits[at]), schedules: sorted };
}
