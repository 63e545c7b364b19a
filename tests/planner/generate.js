// Plans for tests, from a seeded generator: rows of cell texts that can be read, with odd names and odd ways to write them.
import { lettersOfRoute } from '../../planner/lib/route.js';
import { sheetParts } from './sheets.js';
import { timetable, windowRows } from './timetables.js';

export const ODD_NAMES = [
  'say "hi"', '"', 'a;b', 'a,b', 'a\tb', 'two  blanks', 'line\nbreak', 'line\r\nbreak', '=1+1', '+5', '-x', '@cmd', "'=1", "''=1",
  "'quoted", "O'Neil", ' =2', '<script>alert(1)</script>', '</script>', '&amp;', 'größe', 'é', 'e\u0301', '日本', '🚡', 'שלום', '12',
  '0', 'NES', 'network', 'circuit', 'start', 'cabin #2',
  'constructor', '__proto__', 'toString', ' padded ', '\u00a0hard\u00a0', '%s', '${x}', '\\', 'sep=;', 'a'.repeat(60),
];

// Names that stay apart when blanks at the ends and runs of blanks count for nothing.
function namesOf(random, count, plain, odd) {
  const names = new Map();
  while (names.size < count) {
    const name = odd && random.chance(0.5) ? random.choose(ODD_NAMES) : `${plain} ${random.below(1000)}`;
    const compared = name.normalize('NFC').trim().replace(/\s+/g, ' ');
    if (!names.has(compared)) names.set(compared, name);
  }
  return [...names.values()];
}

function shuffled(random, list) {
  const mixed = [...list];
  for (let at = mixed.length - 1; at > 0; at--) {
    const other = random.below(at + 1);
    [mixed[at], mixed[other]] = [mixed[other], mixed[at]];
  }
  return mixed;
}

// A text in capitals, in small letters, or as it is.
const anyCase = (random, text) => random.choose([text, text, text.toUpperCase(), text.toLowerCase()]);

// A route as its letters or as its number.
function routeCell(random, route) {
  const letters = lettersOfRoute(route);
  return letters !== null && random.chance(0.7) ? anyCase(random, letters) : String(route);
}

// The rows of a grid; where vertical links are long, in words or with what is added for them.
function rowsCell(random, { rows, long }) {
  if (!long) return String(rows);
  return random.choose([String(rows + 256), `${rows} ${anyCase(random, 'long')}`, `${rows}  long`, `${rows}long`]);
}

// The rows of the sheet itself: circuits and slots in any order, the modes in theirs.
function sheetRows(random, parts, circuitNames, modeNames) {
  const circuits = parts.circuits.map(({ words }, number) => ['circuit', circuitNames[number], ...words.map(String)]);
  const modes = parts.schedules.map(({ period }, number) => ['mode', modeNames[number], String(period)]);
  const slots = parts.schedules.flatMap(({ entries }, mode) =>
    entries.map(({ words: [offset, length, circuit, route] }) =>
      ['slot', modeNames[mode], circuitNames[circuit], String(offset), String(length), routeCell(random, route)],
    ),
  );
  const network = ['network', String(parts.columns), rowsCell(random, parts), String(parts.memory)];
  const rows = [network, ...shuffled(random, circuits), ...modes, ...shuffled(random, slots)];
  return random.chance(0.3) ? [...shuffled(random, [...circuits, ...slots]), ...modes, network] : rows;
}

// Rows for what the nodes hold and do, and for the week.
function actRows(random, parts, circuitNames, modeNames) {
  const node = () => random.below(parts.columns * parts.rows);
  const rows = [];
  for (let count = random.below(3); count > 0; count--) {
    rows.push(['memory', node(), random.below(parts.memory), ...Array.from({ length: random.between(1, 6) }, () => random.word())]);
  }
  for (let count = random.below(5); count > 0; count--) {
    const cycle = random.below(100);
    const what = random.choose(circuitNames.length > 0 ? ['start', 'store', 'order'] : ['store', 'order']);
    if (what === 'store') rows.push(['at', cycle, 'store', node(), random.below(parts.memory), random.word()]);
    else if (what === 'order') rows.push(['at', cycle, 'order', random.choose(modeNames), random.below(10)]);
    else {
      const number = random.below(circuitNames.length);
      const [, , read, readLength, receive, receiveLength] = parts.circuits[number].words;
      const kind = random.choose(['data', 'interrupt', 'Data', '0', '2']);
      rows.push(['at', cycle, 'start', circuitNames[number], read, receive, random.between(1, Math.min(readLength, receiveLength)), kind]);
    }
  }
  const windows = windowRows(random, timetable(random, { most: 3, modes: modeNames.length }), modeNames);
  return [...rows, ...windows].map((row) => row.map(String));
}

// Changes one number of the sheet, so that most sheets no longer pass.
function spoil(random, rows) {
  const numbers = rows.flatMap((row, at) => row.map((cell, column) => ({ at, column })).slice(row[0] === 'network' ? 1 : 2))
    .filter(({ at, column }) => /^[0-9]+$/.test(rows[at][column]) && !(rows[at][0] === 'slot' && column === 2));
  const { at, column } = random.choose(numbers);
  const changed = random.choose([0, Number(rows[at][column]) + 1, random.below(40), 4294967295]);
  rows[at][column] = String(Math.min(changed, 4294967295));
}

// The columns of a row that hold names.
function nameColumns([keyword, , what]) {
  if (keyword === 'circuit' || keyword === 'mode') return [1];
  if (keyword === 'slot') return [1, 2];
  if (keyword === 'window') return [3];
  return keyword === 'at' && what !== 'store' ? [3] : [];
}

// A row with capitals in its keyword, and with zeros and blanks that count for nothing.
function dressed(random, row) {
  const names = nameColumns(row);
  return row.map((cell, column) => {
    if (column === 0) return anyCase(random, cell);
    if (names.includes(column)) return random.chance(0.1) ? ` ${cell} ` : cell;
    return random.chance(0.1) ? random.choose([`0${cell}`, ` ${cell}`, `${cell} `].slice(/^[0-9]+$/.test(cell) ? 0 : 1)) : cell;
  });
}

// Rows with comments, empty rows and empty cells among them.
function decorated(random, rows) {
  const made = [];
  for (const row of rows) {
    if (random.chance(0.05)) made.push(random.choose([[''], ['', '', ''], ['# a note; with, "signs"'], [' #', 'circuit', 'x']]));
    const ending = random.chance(0.2) ? random.choose([[''], ['', '', ''], ['# note'], ['', '#note', 'more']]) : [];
    made.push([...dressed(random, row), ...ending]);
  }
  return made;
}

// The rows of a plan that can be read; over half of them pass. `passes` says whether the words of a sheet do; with `spoilt`, one number is
// changed; with `odd`, names and cells are written in odd ways.
export function plan(random, { passes, spoilt = random.chance(0.5), odd = true, ...most }) {
  const parts = sheetParts(random, passes, most);
  const circuitNames = namesOf(random, parts.circuits.length, 'circuit', odd);
  const modeNames = namesOf(random, parts.schedules.length, 'mode', odd);
  const rows = sheetRows(random, parts, circuitNames, modeNames);
  if (spoilt) spoil(random, rows);
  const all = [...rows, ...actRows(random, parts, circuitNames, modeNames)];
  return odd ? decorated(random, all) : all;
}
