// The readers: text to cells, cells to a plan, a plan to the words of a sheet with the cell of each, and files of words.
import test from 'node:test';
import assert from 'node:assert/strict';
import { readFileSync, readdirSync } from 'node:fs';
import { dirname, join } from 'node:path';
import { fileURLToPath } from 'node:url';
import { openProved } from '../../planner/command/proved.js';
import { cellName, decodeText, readTable, writeTable } from '../../planner/lib/cells.js';
import { documentOfRows, documentOfText, placeOfWord, readFile } from '../../planner/lib/document.js';
import { nameOf } from '../../planner/lib/plan.js';
import { meant, partsOf, wordsOf } from '../../planner/lib/sheet.js';
import { rowsOfWords } from '../../planner/lib/words.js';
import { plan } from './generate.js';
import { random as seeded } from './random.js';
import { nearMiss, sheetParts } from './sheets.js';

const examples = join(dirname(fileURLToPath(import.meta.url)), '..', '..', 'examples');
const calls = await openProved();
const passes = (words) => calls.verdict(words) === 0;
const utf8 = (text) => new TextEncoder().encode(text);

// Rows as a table keeps them: without empty ones at the end.
function kept(rows) {
  const last = rows.findLastIndex((row) => row.some((cell) => cell.trim() !== ''));
  return rows.slice(0, last + 1);
}

function readable(document) {
  assert.deepEqual(document.problems, []);
  return document;
}

test('1,000 plans written and read back with each separator', () => {
  const random = seeded(1);
  let passed = 0;
  for (let turn = 0; turn < 1000; turn++) {
    const rows = plan(random, { passes });
    const first = readable(documentOfRows('a.csv', rows));
    if (passes(first.words)) passed++;
    for (const separator of [';', ',', '\t']) {
      const table = readTable(writeTable(rows, separator));
      assert.deepEqual([table.rows, table.separator, table.problems], [kept(rows), separator, []]);
      const again = readable(documentOfText('a.csv', writeTable(rows, separator)));
      assert.deepEqual([again.words, again.circuitNames, again.modeNames], [first.words, first.circuitNames, first.modeNames]);
    }
  }
  assert.ok(passed > 400 && passed < 800, `${passed} of 1,000 plans passed`);
});

// The bytes of a text in UTF-16, behind its BOM.
function utf16(text, big) {
  const bytes = new Uint8Array(2 * text.length + 2);
  const view = new DataView(bytes.buffer);
  const marked = '\ufeff' + text;
  for (let at = 0; at < marked.length; at++) view.setUint16(2 * at, marked.charCodeAt(at), !big);
  return bytes;
}

test('line ends, BOMs and encodings give the same rows', () => {
  const random = seeded(2);
  for (let turn = 0; turn < 200; turn++) {
    const rows = plan(random, { passes }).map((row) => row.map((cell) => cell.replace(/[\r\n]/g, ' ')));
    const text = writeTable(rows);
    const { words } = readable(documentOfRows('a.csv', rows));
    const same = (bytes) => {
      const document = readable(readFile('a.csv', bytes));
      assert.deepEqual([document.rows, document.words], [kept(rows), words]);
    };
    for (const end of ['\r\n', '\n', '\r']) {
      same(utf8(text.replaceAll('\r\n', end)));
      same(utf8(text.replaceAll('\r\n', end).slice(0, -end.length)));
    }
    same(utf8('\ufeff' + text));
    same(utf16(text, false));
    same(utf16(text, true));
  }
});

test('names in the code page of Western Europe', () => {
  const text = 'network;2;2;8\ncircuit;Größe \x80 5;0;1;0;1;0;1\nmode;été;9\nslot;été;Größe \x80 5;0;2;E\n';
  const document = readable(readFile('a.csv', Uint8Array.from(text, (character) => character.charCodeAt(0))));
  assert.deepEqual([document.circuitNames, document.modeNames], [['Größe € 5'], ['été']]);
  assert.equal(passes(document.words), true);
});

test('what a table takes as it comes', () => {
  const read = (text) => readTable(text).rows;
  const rows = [['network', '2', '2', '8'], ['circuit', 'a', '0']];
  for (const text of ['network;2;2;8\ncircuit;a;0', '"network";2;"2";8\n"circuit";"a";"0"\n\n\n', 'network;2;2;8\ncircuit; "a";0\n;;\n']) {
    assert.deepEqual(read(text), rows);
  }
  assert.deepEqual(read('sep=|\nnetwork|2|2|8'), [[''], ['network', '2', '2', '8']]);
  assert.deepEqual(read('"sep=,"\nmode,a;b,9'), [[''], ['mode', 'a;b', '9']]);
  assert.deepEqual(read('mode;"two\r\nlines";9\nmode;"a ""b""";9'), [['mode', 'two\r\nlines', '9'], ['mode', 'a "b"', '9']]);
  assert.deepEqual(read('mode;5" disk;9\nmode;a "b";9'), [['mode', '5" disk', '9'], ['mode', 'a "b"', '9']]);
  assert.equal(writeTable([['mode', ' a', 'b;c']]), 'mode;" a";"b;c"\r\n');
  assert.deepEqual(read('\n# a note\n\nmode;a;9\n'), [[''], ['# a note'], [''], ['mode', 'a', '9']]);
  const odd = 'NETWORK; 2;2 ;008;;\n Circuit ;\u00e9 b;0;1;0;1;0;1;# a note;more\nmode;m;9;;;\nSLOT;m; e\u0301  b ;0;2; e \n';
  assert.deepEqual(readable(documentOfText('a.csv', odd)).words, [2, 2, 8, 1, 1, 0, 1, 0, 1, 0, 1, 9, 1, 0, 2, 0, 13]);
});

test('texts that a spreadsheet would reckon with are saved as texts and read back as typed', () => {
  for (const cell of ['=1+1', '+5', '-x', '@cmd', "'=1", "''=1", ' =1', '\t=1', "' +1", '=', '-']) {
    for (const separator of [';', ',', '\t']) {
      const text = writeTable([['mode', cell, '9']], separator);
      assert.match(text, /^mode[;,\t]"'/);
      assert.deepEqual(readTable(text).rows, [['mode', cell, '9']]);
    }
  }
  for (const cell of ["'quoted", "O'Neil", '1=2', 'a-b']) assert.equal(writeTable([['mode', cell, '9']]), `mode;${cell};9\r\n`);
});

// The row and the column of a cell's name, reckoned here.
function cellOf(name) {
  const [, letters, row] = /^([A-Z]+)([0-9]+)$/.exec(name);
  return [Number(row) - 1, [...letters].reduce((sum, letter) => sum * 26 + letter.charCodeAt(0) - 64, 0) - 1];
}

test('names of cells', () => {
  for (const [row, column, name] of [[8, 3, 'D9'], [0, 25, 'Z1'], [0, 26, 'AA1'], [9, 701, 'ZZ10'], [9, 702, 'AAA10']]) {
    assert.equal(cellName(row, column), name);
  }
  for (let column = 0; column < 20000; column += 7) assert.deepEqual(cellOf(cellName(column, column)), [column, column]);
});

// The route of letters, reckoned here: two bits a router, lowest first, and the side that the last one comes in by.
function routeOfText(text) {
  const codes = [...text.toUpperCase()].map((letter) => 'NESW'.indexOf(letter));
  return [...codes, (codes[codes.length - 1] + 2) % 4].reduce((route, code, at) => route + code * 4 ** at, 0);
}

// What a word of a sheet should be by the cell that it names.
function wordOfCell(document, parts, at) {
  const [row, column] = cellOf(placeOfWord(document, at));
  const [keyword, text] = [document.rows[row][0].trim().toLowerCase(), document.rows[row][column].trim()];
  if (keyword === 'network' && column === 0) return [parts.circuits.length, parts.schedules.length][at - 3];
  if (keyword === 'mode' && column === 0) return parts.schedules.find((schedule) => schedule.at + 1 === at).entries.length;
  if (keyword === 'slot' && column === 2) return document.circuitNames.indexOf(nameOf(text));
  if (keyword === 'slot' && column === 5 && /^[a-z]/i.test(text)) return routeOfText(text);
  if (keyword === 'network' && column === 2 && /long$/i.test(text)) return 256 + Number(text.slice(0, -4));
  return Number(text);
}

test('every word of 1,000 sheets has the value of the cell that it names, in the order that was asked for', () => {
  const random = seeded(3);
  for (let turn = 0; turn < 1000; turn++) {
    const exam = random.chance(0.3);
    const document = readable(documentOfRows('a.csv', plan(random, { passes }), exam));
    const parts = partsOf(document.words);
    document.words.forEach((word, at) => assert.equal(word, wordOfCell(document, parts, at), `word ${at}, ${placeOfWord(document, at)}`));
    const rowsOf = (list) => list.map(({ at }) => cellOf(placeOfWord(document, at))[0]);
    const lists = [rowsOf(parts.circuits), ...parts.schedules.map((schedule) => rowsOf(schedule.entries))];
    const told = document.rows.filter(([keyword]) => /^(circuit|slot|mode)$/i.test(keyword.trim()));
    assert.equal(lists.flat().length + parts.schedules.length, told.length);
    if (exam) for (const list of lists) assert.deepEqual(list, [...list].sort((a, b) => a - b));
    else assertSorted(parts);
  }
});

// The orders that the rules want, but for equal ones.
function assertSorted({ circuits, schedules }) {
  const ascends = (list, first, second) =>
    list.slice(1).every(({ words }, at) => {
      const before = list[at].words;
      return before[first] < words[first] || (before[first] === words[first] && before[second] <= words[second]);
    });
  assert.ok(ascends(circuits, 1, 4));
  for (const { entries } of schedules) assert.ok(ascends(entries, 0, 2));
}

test('an exam keeps the order of the rows, and the checker marks it', () => {
  const rows = [
    ['network', '2', '2', '8'], ['circuit', 'b', '0', '3', '0', '1', '0', '1'], ['circuit', 'a', '0', '1', '0', '1', '0', '1'],
    ['mode', 'm', '20'], ['slot', 'm', 'a', '9', '2', 'E'], ['slot', 'm', 'b', '0', '2', 'ES'],
  ];
  assert.equal(calls.verdict(documentOfRows('a.csv', rows).words), 0);
  assert.equal(calls.verdict(documentOfRows('a.csv', rows, true).words), 5);
  const ordered = [rows[0], rows[2], rows[1], ...rows.slice(3)];
  assert.equal(calls.verdict(documentOfRows('a.csv', ordered, true).words), 8);
  assert.deepEqual(documentOfRows('a.csv', ordered, true).circuitNames, ['a', 'b']);
});

test('the shipped files of words get the verdicts that they expect, and their rows read back', () => {
  const names = readdirSync(examples).filter((name) => name.endsWith('.sheet'));
  assert.ok(names.length >= 13);
  for (const name of names) {
    const bytes = readFileSync(join(examples, name));
    const [, expected] = /^# expected: (passes|refused \d+)$/m.exec(bytes.toString());
    const { words } = readable(readFile(name, bytes));
    const number = calls.verdict(words);
    assert.equal(number === 0 ? 'passes' : `refused ${number}`, expected, name);
    const rows = rowsOfWords(words);
    if (rows) assert.deepEqual(readable(documentOfRows(name, rows, true)).words, meant(words));
    else assert.ok([1, 3].includes(number), name);
  }
});

test('no words stand for the idle network that is shipped as a plan, and for no other', () => {
  const idle = readable(readFile('idle.csv', readFileSync(join(examples, 'idle.csv')))).words;
  for (const text of ['', '\n \t\n', '# nothing\n', '\ufeff# nothing']) {
    const none = readable(readFile('a.sheet', utf8(text)));
    assert.deepEqual([none.words, meant(none.words), none.modeNames, none.circuitNames], [[], idle, ['schedule 0'], []]);
    assert.deepEqual(rowsOfWords(none.words), [['network', '2', '2', '1'], ['mode', 'schedule 0', '9']]);
  }
  for (const words of [[0], [2], [2, 2, 1, 0], idle]) assert.equal(meant(words), words);
  // The proved calls see no difference, down to the state.
  const loaded = (words) => [calls.verdict(words), calls.load(words, [5, 6, 7, 8]), [...calls.lentState()]];
  assert.deepEqual(loaded([]), loaded(idle));
  assert.equal(calls.verdict([]), 0);
  assert.deepEqual([calls.entries([], 0), calls.entries([], 1)], [{ number: 0, place: 0, count: 0 }, { number: 15, place: 0, count: 0 }]);
  for (const length of [0, 3, 5]) assert.equal(calls.load([], new Array(length).fill(1)), 14);
});

test('words of sheets that nearly pass, as text and as rows', () => {
  const random = seeded(4);
  let shown = 0;
  for (let turn = 0; turn < 2000; turn++) {
    const words = nearMiss(random, wordsOf(sheetParts(random, passes)));
    const between = () => random.choose([' ', '\t', '\n', '\r\n', ' # note 5\n']);
    const text = words.map((word) => (random.chance(0.1) ? `00${word}` : String(word)) + between()).join('');
    const document = readable(readFile('a.sheet', utf8(text)));
    assert.deepEqual(document.words, words);
    const lines = text.split('\n');
    words.forEach((word, at) => {
      const [, line, place] = /^line (\d+), word (\d+)$/.exec(placeOfWord(document, at));
      assert.equal(Number(lines[line - 1].split('#')[0].trim().split(/\s+/)[place - 1]), word);
    });
    const rows = rowsOfWords(words);
    if (rows) assert.deepEqual(readable(documentOfRows('a.csv', rows, true)).words, meant(words));
    if (rows) shown++;
  }
  assert.ok(shown > 1000, `${shown} sheets of 2,000 divide`);
});

test('decoding', () => {
  assert.deepEqual(decodeText(utf8('a')), { text: 'a' });
  assert.deepEqual(decodeText(utf16('aé日', true)), { text: 'aé日' });
  assert.match(decodeText(Uint8Array.of(0x50, 0x4b, 3, 4)).wrong, /save it as CSV/);
  assert.deepEqual(decodeText(utf8('PK is a name')), { text: 'PK is a name' });
});
