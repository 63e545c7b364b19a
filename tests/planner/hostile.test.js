// Files that cannot be read: every such cell is named with what stands there and what is wanted, nothing throws, and nothing takes long.
import test from 'node:test';
import assert from 'node:assert/strict';
import { openProved } from '../../planner/command/proved.js';
import { MOST_BYTES, MOST_ROWS, readTable, writeTable } from '../../planner/lib/cells.js';
import { cut, placeOfWord, problemLine, readFile } from '../../planner/lib/document.js';
import { MOST_PROBLEMS } from '../../planner/lib/plan.js';
import { rowsOfWords } from '../../planner/lib/words.js';
import { plan } from './generate.js';
import { random as seeded } from './random.js';
import { largestSheet } from './sheets.js';
import { leastMilliseconds } from './time.js';

const MOST_MILLISECONDS = 1000;
const calls = await openProved();
const passes = (words) => calls.verdict(words) === 0;
const bytesOf = (text) => (typeof text === 'string' ? new TextEncoder().encode(text) : text);

// Reads a file within the time; each problem has a place, what was found and what is wanted, and can be said in one line.
function read(text, name = 'a.csv') {
  const bytes = bytesOf(text);
  const document = readFile(name, bytes);
  const time = leastMilliseconds(() => readFile(name, bytes), MOST_MILLISECONDS);
  assert.ok(time < MOST_MILLISECONDS, `${time} ms`);
  assert.equal(document.words === null, document.problems.length > 0);
  for (const problem of document.problems.slice(0, 100)) {
    const line = problemLine(name, problem);
    assert.ok(line.startsWith(name) && !/[\u0000-\u001f\u007f-\u009f\u202a-\u202e\u2066-\u2069]/.test(line), JSON.stringify(line));
    assert.ok(line.length < 800, line);
  }
  return document;
}

// The places of the problems of a text, with what is wanted there.
const wanted = (text, name) => read(text, name).problems.map((problem) => `${problem.place}: ${problem.wanted}`);
const places = (text) => read(text).problems.map((problem) => problem.place).join(' ');
const NUMBER = 'a whole number from 0 to 4294967295';
const LONG = 'with long behind it where vertical links are long';
const END = 'nothing: a network row ends before this cell (a comment begins with #)';

const HEAD = 'network;2;2;8\ncircuit;a;0;1;0;4;0;4\nmode;m;9\n';

test('every kind of cell that cannot be read, each alone', () => {
  const cases = [
    ...['x', 'long', 'long 2', '2 longer', '-2 long', '2 2 long'].map((rows) => [`network;2;${rows};8\n`, [`C1: rows: ${NUMBER}, ${LONG}`]]),
    ['network;2;=2;8\n', [`C1: rows: ${NUMBER}, ${LONG}; a formula is not worked out, write its value`]],
    ['network;2;4294967040 long;8\n', ['C1: rows before long: a whole number from 0 to 4294967039']],
    [`network;2;${'9'.repeat(30)} long;8\n`, ['C1: rows before long: a whole number from 0 to 4294967039']],
    ['network;2 long;2;8\n', [`B1: columns: ${NUMBER}; long stands behind the rows, since vertical links alone can be long`]],
    ['network;2;2;8 long\n', ['D1: memory: ' + NUMBER]],
    ['network;2;2\n', ['D1: memory: ' + NUMBER]],
    ['network;2;2;8;9;;7\n', ['E1: ' + END, 'G1: ' + END]],
    ['network;2;2;8\n\nnetwork;3;3;8\n', ['A3: one network row; row 1 is one already']],
    ['mode;m;9\n', ['A1: a network row: network, columns, rows, memory words a node']],
    ['', ['A1: a network row: network, columns, rows, memory words a node']],
    [HEAD + 'circuits;b;1;0;0;1;4;1\n', ['A4: a keyword: network, circuit, mode, slot, window, memory or at (a comment begins with #)']],
    [HEAD + 'circuit;;1;0;0;1;4;1\n', ['B4: a name for the circuit, of 1 to 60 characters']],
    [HEAD + `circuit;${'n'.repeat(61)};1;0;0;1;4;1\n`, ['B4: a name for the circuit, of 1 to 60 characters']],
    [HEAD + 'circuit; a ;1;0;0;1;4;1\n', ['B4: a name of its own: row 2 has a circuit of this name']],
    [HEAD + 'mode;m;9\n', ['B4: a name of its own: row 3 has a mode of this name']],
    [HEAD + 'circuit;b;-1;1.0;1e3;1,5;0x1;\n', ['C4', 'D4', 'E4', 'F4', 'G4', 'H4'].map((place, at) =>
      `${place}: ${['source', 'destination', 'read offset', 'read length', 'receive offset', 'receive length'][at]}: ${NUMBER}`)],
    [HEAD + 'mode;n;4294967296\n', ['C4: period: ' + NUMBER]],
    [HEAD + 'mode;n;=A1\n', ['C4: period: ' + NUMBER + '; a formula is not worked out, write its value']],
    [HEAD + `mode;n;${'9'.repeat(30)}\n`, ['C4: period: ' + NUMBER]],
    [HEAD + 'slot;M;A;0;2;E\n', ['B4: the name of a mode; did you mean m?', 'C4: the name of a circuit; did you mean a?']],
    [HEAD + 'slot;x;;0;2;E\n', ['B4: the name of a mode; the modes are m', 'C4: the name of a circuit; the circuits are a']],
    ['network;2;2;8\nslot;x;y;0;2;E\n',
      ['B2: the name of a mode; there is no mode row', 'C2: the name of a circuit; there is no circuit row']],
    [HEAD + 'at;0;begin;a\n', ['C4: start, store or order']],
    [HEAD + 'at;0;start;a;0;0;1;words\n', ['H4: data or interrupt']],
    [HEAD + 'at;x;order;m;\n', ['B4: cycle: ' + NUMBER, 'E4: period: ' + NUMBER]],
    [HEAD + 'at;0;store;0;0;1;1\n', ['G4: nothing: a store row ends before this cell (a comment begins with #)']],
    [HEAD + 'memory;0;0\n', ['D4: a word: ' + NUMBER]],
    [HEAD + 'memory;0;0;1;;2\n', ['E4: a word: ' + NUMBER]],
    [HEAD + 'mode;"n;9\n', ['B4: a closing quote: none follows up to the end of the file']],
  ];
  for (const [text, expected] of cases) assert.deepEqual(wanted(text), expected, text);
});

test('routes of letters', () => {
  const route = 'a route: letters N, E, S, W in the order of the way, as ES (at most 15, none straight back), or its number';
  for (const cell of ['', 'EX', 'E S', 'NS', 'EWE', 'N'.repeat(16), '-1', '3.0', '４', '4294967296']) {
    assert.deepEqual(wanted(HEAD + `slot;m;a;0;2;${cell}\n`), ['F4: ' + route], cell);
  }
  for (const [cell, word] of [['E', 13], ['w', 7], ['13', 13], ['65536', 65536], ['N'.repeat(15), 2 * 4 ** 15], ['ES', 9]]) {
    assert.equal(read(HEAD + `slot;m;a;0;2;${cell}\n`).words.at(-1), word);
  }
});

test('all cells that cannot be read are told at once, in the order of the file', () => {
  assert.equal(places('mode;;x\nslot;y;z;a;b;c\nnetwork;1;2\ncircuit;c;1;2;3;4;5\nnothing\n'), 'B1 C1 B2 C2 D2 E2 F2 D3 H4 A5');
  const many = 'network;2;2;8\n' + 'circuit;;x;x;x;x;x;x\n'.repeat(1000);
  assert.equal(read(many).problems.length, 7000);
  assert.equal(read('network;2;2;8\n' + 'circuit;;x;x;x;x;x;x\n'.repeat(5000)).problems.length, MOST_PROBLEMS);
});

test('what has a number is read, and the checker says it', () => {
  const verdict = (text) => calls.verdict(read(text).words);
  assert.equal(verdict('network;2;2;8\n'), 2);
  assert.equal(verdict('network;5;2;8\nmode;m;9\n'), 2);
  assert.equal(verdict('network;2;2;8\nmode;m;0\n'), 7);
  const circuits = Array.from({ length: 65 }, (_, at) => `circuit;c${at};0;1;0;1;${at};1\n`).join('');
  const document = read('network;2;2;80\nmode;m;9\n' + circuits);
  assert.deepEqual([calls.verdict(document.words), placeOfWord(document, 3)], [2, 'A67']);
  const modes = Array.from({ length: 9 }, (_, at) => `mode;m${at};9\n`).join('');
  assert.equal(placeOfWord(read('network;2;2;8\n' + modes), 4), 'A10');
  assert.equal(verdict(HEAD + 'slot;m;a;0;2;E\n'.repeat(257)), 3);
});

test('files that are no text or too large', () => {
  const random = seeded(1);
  const first = (text, name) => read(text, name).problems[0].wanted;
  for (const name of ['a.csv', 'a.sheet']) {
    for (let turn = 0; turn < 300; turn++) {
      const noise = Uint8Array.from({ length: random.below(2000) }, () => random.below(256));
      assert.ok(read(noise, name).problems.length > 0 || name === 'a.sheet');
    }
    assert.match(first(new Uint8Array(10 * 1024 * 1024).fill(65), name), /^it has 10485760 bytes, and a plan has at most 4194304$/);
    assert.match(first('network;2;2;8\u0000', name), /character 14 is a control character \(code 00\)/);
    assert.match(first('a\u001b[31m', name), /control character \(code 1b\)/);
    assert.match(first(Uint8Array.of(0x50, 0x4b, 3, 4, 9, 9), name), /save it as CSV/);
    assert.match(first(Uint8Array.of(0xff, 0xfe, 0x00, 0xd8, 0x41, 0x00), name), /begins as UTF-16 and is broken/);
    assert.match(first(Uint8Array.of(0xfe, 0xff, 0x00), name), /begins as UTF-16 and is broken/);
  }
});

test('files of words that are none', () => {
  assert.deepEqual(wanted('2 2 8\nx -1 # y\n4294967296 1.0', 'a.sheet'), [
    'line 2, word 1: a word: digits, from 0 to 4294967295', 'line 2, word 2: a word: digits, from 0 to 4294967295',
    'line 3, word 1: a word: digits, from 0 to 4294967295', 'line 3, word 2: a word: digits, from 0 to 4294967295',
  ]);
  assert.match(wanted('# old line ends\r2 2 8 1 1\r', 'a.sheet')[0], /^line 1, word 1: lines that end by LF or CRLF/);
  assert.deepEqual([read('', 'a.sheet').words, placeOfWord(read('', 'a.sheet'), 0)], [[], 'the file']);
  assert.equal(read('1 '.repeat(100000), 'a.sheet').words.length, 100000);
  assert.deepEqual(wanted('1 '.repeat(2000000), 'a.sheet'), ['line 1, word 100001: the end: a file of words has at most 100000']);
  assert.ok(wanted('x '.repeat(2000000), 'a.sheet').length > 1000);
  assert.match(wanted('\n'.repeat(4000000), 'a.csv')[0], /a network row/);
  assert.equal(rowsOfWords([2, 2, 8, 4294967295, 4294967295]), null);
});

test('hostile shapes of tables', () => {
  const names = Array.from({ length: 5000 }, (_, at) => `circuit;Name of a circuit ${at};0;1;0;1;${at};1\n`).join('');
  const shapes = {
    'many rows': ['network;2;2;8\n' + '# x\n'.repeat(100000), [`A${MOST_ROWS + 1}`]],
    'many empty rows': ['network;2;2;8\nmode;m;9\n' + '\n'.repeat(100000), []],
    'a wide row': ['network;2;2;8' + ';x'.repeat(500000), null],
    'wide memory': [HEAD + 'memory;0;0' + ';x'.repeat(500000), null],
    'blanks before a cell': [' '.repeat(1000000) + 'x;1\n', ['A1', 'A1']],
    'quotes in a cell': ['x' + '"'.repeat(1000000), ['A1', 'A1']],
    'quotes never closed': [HEAD + 'mode;"' + 'a""\n'.repeat(300000), ['B4']],
    'a long name': [HEAD + `mode;${'a'.repeat(2000000)};9\n`, ['B4']],
    'a long number': [HEAD + `mode;n;${'0'.repeat(1000000)}9\n`, []],
    'names that are not there': [HEAD + names + 'slot;m;Other name;0;2;E\n'.repeat(4000), null],
    'names that differ in capitals': [HEAD + names + 'slot;m;NAME OF A CIRCUIT 1;0;2;E\n'.repeat(4000), null],
    'names that are there twice': [HEAD + 'mode;m;9\n'.repeat(9000), null],
    'separators alone': [';'.repeat(1000000), ['A1']],
    'line ends in quotes before a comment': ['"' + '\n'.repeat(1048576) + '"#x', ['A1']],
    'a quote as the separator': ['sep="\nnetwork"2"2"8\n', []],
  };
  for (const [name, [text, expected]] of Object.entries(shapes)) {
    assert.ok(text.length < MOST_BYTES);
    const found = read(text).problems.map((problem) => problem.place);
    if (expected) assert.deepEqual(found, expected, name);
    else assert.ok(found.length > 0, name);
  }
});

test('names that would do harm elsewhere are names', () => {
  for (const name of ['<script>alert(1)</script>', '__proto__', 'constructor', '=cmd|x', 'toString', '\ud800']) {
    const rows = [
      ['network', '2', '2', '8'], ['circuit', name, '0', '1', '0', '4', '0', '4'], ['mode', name, '9'], ['slot', name, name, '0', '3', 'E'],
    ];
    const document = read(writeTable(rows));
    assert.equal(passes(document.words), true);
    assert.deepEqual(document.circuitNames, [new TextDecoder().decode(bytesOf(name))]);
    // A message names the names that there are, without what would move a terminal's cursor.
    read(writeTable([...rows, ['slot', 'x', name.toUpperCase() + 'y', '0', '3', 'E']]));
  }
  assert.equal(cut('a\u001b[2Jb\u202ec'), 'a [2Jb c');
  for (const name of ['\u202eabc', '\u009b31m', 'spe\u200bed', 'speed\u00ad']) {
    assert.deepEqual(wanted(`network;2;2;8\nmode;${name};9\n`), ['B2: a name for the mode without characters that cannot be seen']);
  }
});

test('a file of the largest sheet, whole and broken', () => {
  const random = seeded(2);
  const words = largestSheet(random, passes);
  const rows = rowsOfWords(words);
  const whole = read(writeTable(rows));
  assert.deepEqual([words.length, whole.words], [8597, words]);
  for (let turn = 0; turn < 10; turn++) {
    const broken = rows.map((row) => row.map((cell) => (random.chance(0.2) ? random.choose(['', 'x', '"', '-1', cell + ' ']) : cell)));
    assert.ok(read(writeTable(broken)).problems.length > 1000);
  }
});

test('plans with characters changed, cut and doubled are read or told, never thrown', () => {
  const random = seeded(3);
  const characters = [';', ',', '"', "'", '\n', '\r', '\t', ' ', '#', '=', '0', '9', 'é', '\ufeff', '\ud83d', 'N', '-'];
  for (let turn = 0; turn < 2000; turn++) {
    let text = writeTable(plan(random, { passes }), random.choose([';', ',', '\t']));
    for (let edit = random.between(1, 6); edit > 0; edit--) {
      const at = random.below(text.length);
      text = text.slice(0, at) + random.choose(['', text.slice(at, at + 20), ...characters]) + text.slice(at + random.below(3));
    }
    const document = read(text, random.choose(['a.csv', 'a.csv', 'a.sheet']));
    if (document.words) document.words.forEach((word) => assert.ok(Number.isInteger(word) && word >= 0 && word <= 4294967295));
  }
});

test('what a comment hides, and quotes in comments', () => {
  const head = 'network;2;2;8\n';
  assert.deepEqual(wanted(`${head}circuit;#1;0;1;0;4;0;4\n`), [
    'B2: a name for the circuit, of 1 to 60 characters; here # makes a comment of the rest of the row',
  ]);
  assert.match(problemLine('a.csv', read(`${head}circuit;#1;0;1;0;4;0;4\n`).problems[0]), /^a\.csv, B2: "#1" stands here/);
  // A quote in a comment swallows no row; one that closes in its line is a quote.
  const quotes = read(`${head}# see; "note\nmode;m;9\n# a;"b;c"\n`);
  assert.deepEqual([quotes.modeNames, quotes.rows[1], quotes.rows[3]], [['m'], ['# see', ' "note'], ['# a', 'b;c']]);
  for (const rows of [[['# x', 'a;b']], [['# "x', 'y']], [['# x', '=1', '"']], [['#']], [['# a\nb', 'c']]]) {
    assert.deepEqual(readTable(writeTable(rows)).rows, rows);
  }
  assert.deepEqual(wanted(`${head}mode;m;x\nmode;"n;9\nmode;k;y\n`), [
    'B3: a closing quote: none follows up to the end of the file', 'C2: period: a whole number from 0 to 4294967295',
  ]);
  assert.deepEqual(wanted(`${head}mode;m;9\ncircuit;c;0;1;0;4;0;4\nslot;m;c;0;2;\u00df\n`).length, 1);
});
