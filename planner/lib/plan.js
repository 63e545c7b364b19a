// A plan: the rows of a table, read by their keywords. Every cell that cannot be read is told at once; ranges and rules are the checker's.
import { LONG_LINKS } from './grid.js';
import { routeOfLetters, MOST_LETTERS } from './route.js';
import { MINUTE_FORMS, minuteOfTime } from './week.js';

export const LARGEST_WORD = 4294967295;
export const MOST_NAME = 60;
export const MOST_PROBLEMS = 10000;
export const KINDS = { data: 0, interrupt: 2 };

// The cells behind each keyword, as spreadsheets would head them; a third cell tells the rows of 'at' apart.
export const COLUMNS = {
  network: ['columns', 'rows', 'memory'],
  circuit: ['name', 'source', 'destination', 'read offset', 'read length', 'receive offset', 'receive length'],
  mode: ['name', 'period'],
  slot: ['mode', 'circuit', 'offset', 'length', 'route'],
  window: ['start', 'length', 'mode'],
  memory: ['node', 'address', 'words'],
  start: ['cycle', 'start', 'circuit', 'read', 'write', 'count', 'data or interrupt'],
  store: ['cycle', 'store', 'node', 'address', 'word'],
  order: ['cycle', 'order', 'mode', 'period'],
};

const KEYWORD = 'a keyword: network, circuit, mode, slot, window, memory or at (a comment begins with #)';
const NETWORK = 'a network row: network, columns, rows, memory words a node';
const NUMBER = `a whole number from 0 to ${LARGEST_WORD}`;
const LONG_ROWS = /^([0-9]+)\s*long$/i;

// Characters that show nothing or turn the order of others round: two names could look alike.
const UNSEEN = /[\p{Cf}\p{Cc}\p{Co}\p{Zl}\p{Zp}\u115f\u1160\u3164\uffa0]/u;

// A name as it is compared: blanks at its ends and runs of blanks count for nothing.
export function nameOf(text) {
  return text.normalize('NFC').trim().replace(/\s+/g, ' ');
}

// The number of a cell, or null.
export function numberOf(text) {
  const digits = text.trim();
  if (!/^[0-9]+$/.test(digits)) return null;
  const plain = digits.replace(/^0+(?=.)/, '');
  return plain.length <= 10 && Number(plain) <= LARGEST_WORD ? Number(plain) : null;
}

const formulaNote = (text) => (text.startsWith('=') ? '; a formula is not worked out, write its value' : '');

// Where a comment begins in a row; the row's length where none does.
function commentAt(row) {
  const comment = row.findIndex((cell) => cell.trimStart().startsWith('#'));
  return comment < 0 ? row.length : comment;
}

// The names of circuits or of modes: the index of each, the one that differs in capitals alone, and some of them in a text.
function lookUp(what, list) {
  const known = list.map((item) => item.name).filter((name) => name !== null);
  const some = `the ${what}s are ${known.slice(0, 8).join(', ')}${known.length > 8 ? ', ..' : ''}`;
  return {
    index: new Map(list.map((item, index) => [item.name, index]).reverse()),
    near: new Map(known.map((name) => [name.toLowerCase(), name]).reverse()),
    text: known.length === 0 ? `there is no ${what} row` : some,
  };
}

// A reader of one row, which puts what it cannot read on the list of problems. Names are those that the rows before have given.
function rowReader(whole, row, problems, names = {}) {
  const comment = commentAt(whole);
  const cells = whole.slice(0, comment);
  let told = false;
  const text = (column) => (cells[column] ?? '').trim();
  // `depends` tells a problem that another row may be the cause of.
  const problem = (column, wanted, depends = false) => {
    // What a comment hides is told once, where the comment begins.
    const hidden = column >= comment && comment < whole.length;
    const place = hidden ? comment : column;
    const found = whole[place] ?? '';
    if (problems.length < MOST_PROBLEMS && !(hidden && told)) {
      const said = hidden ? `${wanted}; here # makes a comment of the rest of the row` : wanted;
      problems.push({ row, column: place, found, wanted: said, depends });
    }
    told ||= hidden;
    return null;
  };
  const number = (column, what) => {
    const value = numberOf(text(column));
    if (value !== null) return value;
    return problem(column, `${what}: ${NUMBER}${formulaNote(text(column))}`);
  };
  const name = (column, what) => {
    const value = nameOf(text(column));
    if (UNSEEN.test(value)) return problem(column, `${what} without characters that cannot be seen`);
    return value !== '' && value.length <= MOST_NAME ? value : problem(column, `${what}, of 1 to ${MOST_NAME} characters`);
  };
  // The index of the circuit or mode of a name; a name that differs in capitals is offered.
  const named = (column, what) => {
    const value = nameOf(text(column));
    const { index, near, text: known } = names[what];
    if (index.has(value)) return index.get(value);
    const offered = near.get(value.toLowerCase());
    return problem(column, `the name of a ${what}; ${offered ? `did you mean ${offered}?` : known}`, true);
  };
  const end = (column, keyword) => {
    for (let at = column; at < cells.length; at++) {
      if (text(at) !== '') problem(at, `nothing: a ${keyword} row ends before this cell (a comment begins with #)`);
    }
  };
  return { text, problem, number, name, named, end };
}

// Reads the rows of a grid: a number; where its vertical links are long, with long behind it or 256 added.
function readRows(reader, column) {
  const text = reader.text(column);
  const long = LONG_ROWS.exec(text);
  const rows = numberOf(long ? long[1] : text);
  const most = LARGEST_WORD - LONG_LINKS;
  if (rows !== null && !(long && rows > most)) return long ? rows + LONG_LINKS : rows;
  if (long) return reader.problem(column, `rows before long: a whole number from 0 to ${most}`);
  return reader.problem(column, `rows: ${NUMBER}, with long behind it where vertical links are long${formulaNote(text)}`);
}

// Reads the columns of a grid, which have one kind only.
function readColumns(reader, column) {
  if (!LONG_ROWS.test(reader.text(column))) return reader.number(column, 'columns');
  return reader.problem(column, `columns: ${NUMBER}; long stands behind the rows, since vertical links alone can be long`);
}

// Reads a route: letters as ES, or its number.
function readRoute(reader, column) {
  const text = reader.text(column);
  const value = numberOf(text) ?? routeOfLetters(text);
  const letters = `letters N, E, S, W in the order of the way, as ES (at most ${MOST_LETTERS}, none straight back)`;
  return value ?? reader.problem(column, `a route: ${letters}, or its number`);
}

// Reads a minute of the week: a day and a time as Mo 08:30, or its number.
function readMinute(reader, column) {
  const text = reader.text(column);
  return numberOf(text) ?? minuteOfTime(text) ?? reader.problem(column, `a start: ${MINUTE_FORMS}${formulaNote(text)}`);
}

function readKind(reader, column) {
  const text = reader.text(column).toLowerCase();
  if (Object.hasOwn(KINDS, text)) return KINDS[text];
  return numberOf(text) ?? reader.problem(column, 'data or interrupt');
}

const readers = {
  network(reader, row, plan) {
    const [columns, rowsWord, memory] = [readColumns(reader, 1), readRows(reader, 2), reader.number(3, 'memory')];
    reader.end(4, 'network');
    if (plan.network) reader.problem(0, `one network row; row ${plan.network.row + 1} is one already`);
    else plan.network = { row, columns, rowsWord, memory };
  },
  circuit(reader, row, plan) {
    const name = reader.name(1, 'a name for the circuit');
    const record = [2, 3, 4, 5, 6, 7].map((at) => reader.number(at, COLUMNS.circuit[at - 1]));
    reader.end(8, 'circuit');
    const twin = plan.circuits.find((circuit) => name !== null && circuit.name === name);
    if (twin) reader.problem(1, `a name of its own: row ${twin.row + 1} has a circuit of this name`);
    plan.circuits.push({ row, name, record });
  },
  mode(reader, row, plan) {
    const name = reader.name(1, 'a name for the mode');
    const period = reader.number(2, 'period');
    reader.end(3, 'mode');
    const twin = plan.modes.find((mode) => name !== null && mode.name === name);
    if (twin) reader.problem(1, `a name of its own: row ${twin.row + 1} has a mode of this name`);
    plan.modes.push({ row, name, period });
  },
};

// Rows that name modes and circuits; they are read when all names are known.
const laterReaders = {
  slot(reader, row, plan) {
    const mode = reader.named(1, 'mode');
    const circuit = reader.named(2, 'circuit');
    const [offset, length] = [reader.number(3, 'offset'), reader.number(4, 'length')];
    const route = readRoute(reader, 5);
    reader.end(6, 'slot');
    plan.slots.push({ row, mode, circuit, offset, length, route });
  },
  window(reader, row, plan) {
    const [start, length] = [readMinute(reader, 1), reader.number(2, 'length in minutes')];
    const mode = reader.named(3, 'mode');
    reader.end(4, 'window');
    plan.windows.push({ row, start, length, mode });
  },
  memory(reader, row, plan, cells) {
    const [node, address] = [reader.number(1, 'node'), reader.number(2, 'address')];
    let last = cells.length - 1;
    while (last > 3 && reader.text(last) === '') last--;
    const words = [];
    for (let at = 3; at <= Math.max(last, 3); at++) words.push(reader.number(at, 'a word'));
    plan.memory.push({ row, node, address, words });
  },
  at(reader, row, plan) {
    const cycle = reader.number(1, 'cycle');
    const what = reader.text(2).toLowerCase();
    if (what === 'start') {
      const circuit = reader.named(3, 'circuit');
      const [read, write, count] = [4, 5, 6].map((at) => reader.number(at, COLUMNS.start[at - 1]));
      plan.acts.push({ row, cycle, what, circuit, read, write, count, kind: readKind(reader, 7) });
      reader.end(8, 'start');
    } else if (what === 'store') {
      const [node, address, word] = [3, 4, 5].map((at) => reader.number(at, COLUMNS.store[at - 1]));
      plan.acts.push({ row, cycle, what, node, address, word });
      reader.end(6, 'store');
    } else if (what === 'order') {
      const mode = reader.named(3, 'mode');
      plan.acts.push({ row, cycle, what, mode, period: reader.number(4, 'period') });
      reader.end(5, 'order');
    } else reader.problem(2, 'start, store or order');
  },
};

// Reads the rows of a table. Parts that could not be read are null, and problems has each such cell, as many as MOST_PROBLEMS.
export function readPlan(rows) {
  const plan = { network: null, circuits: [], modes: [], slots: [], windows: [], memory: [], acts: [], problems: [] };
  const later = [];
  rows.forEach((cells, row) => {
    const kept = cells.slice(0, commentAt(cells));
    const keyword = (kept[0] ?? '').trim().toLowerCase();
    const reader = rowReader(cells, row, plan.problems);
    if (Object.hasOwn(readers, keyword)) readers[keyword](reader, row, plan);
    else if (Object.hasOwn(laterReaders, keyword)) later.push([keyword, row, cells, kept]);
    else if (kept.some((cell) => cell.trim() !== '')) reader.problem(0, KEYWORD);
  });
  const names = { circuit: lookUp('circuit', plan.circuits), mode: lookUp('mode', plan.modes) };
  for (const [keyword, row, cells, kept] of later) laterReaders[keyword](rowReader(cells, row, plan.problems, names), row, plan, kept);
  if (!plan.network) plan.problems.push({ row: 0, column: 0, found: rows[0]?.[0] ?? '', wanted: NETWORK, depends: true });
  plan.problems.sort((a, b) => a.row - b.row || a.column - b.column);
  return plan;
}
