// Grids with long vertical links: how they are written and shown back, what is refused and how it is explained, times of flight and of
// wires, and that they are compared with their own kind alone. The cases are reckoned by hand; the proved calls judge and run them.
import assert from 'node:assert/strict';
import { readFileSync } from 'node:fs';
import test from 'node:test';
import { openProved } from '../../planner/command/proved.js';
import { documentOfText, documentOfWords } from '../../planner/lib/document.js';
import { explain } from '../../planner/lib/explain.js';
import { answerText, circuitsOf, compareDocuments, hopsText } from '../../planner/lib/isolation.js';
import { landingsOf } from '../../planner/lib/listing.js';
import { svgFile } from '../../planner/lib/markup.js';
import { MEMORY_WIRE, SOURCE_WIRE } from '../../planner/lib/run.js';
import { partsOf, wordsOf } from '../../planner/lib/sheet.js';
import { packetsOf } from '../../planner/lib/slots.js';
import { slotsPicture } from '../../planner/lib/slots_picture.js';
import { rowsOfWords } from '../../planner/lib/words.js';
import { checkedPicture, everyItem, textIn, toldParts } from './picture_checks.js';

const calls = await openProved();
const example = (name) => readFileSync(new URL(`../../examples/${name}`, import.meta.url), 'utf8');
const LONG_SHEET = documentOfWords('long.sheet', example('long.sheet'));

// Circuit 0 to 2 by south, length 3, period 9: the plan of document 02's sum.
const southRows = (rows, offset) => `network;2;${rows};8\ncircuit;a;0;2;0;4;0;4\nmode;m;9\nslot;m;a;${offset};3;S\n`;
const south = (rows, offset) => documentOfText('south.csv', southRows(rows, offset));

// 0 to 3 by south and east at offset 0, and 2 to 3 by east at offset s, both of length 2.
const crossed = (rows, s) => {
  const entries = [[0, 2, 0, 54], [s, 2, 1, 13]].sort((a, b) => a[0] - b[0] || a[2] - b[2]);
  return [2, rows, 8, 2, 1, 0, 3, 0, 4, 0, 4, 2, 3, 0, 4, 4, 4, 20, 2, ...entries.flat()];
};

test('rows are written as a number, with 256 added or with long behind them, and shown back with long', () => {
  for (const [texts, word] of [
    [['2', '02', ' 2 '], 2], [['258', '2 long', '2 LONG', '2  long', '2long', ' 02 Long '], 258],
    [['259', '3 long'], 259], [['260', '4 long'], 260], [['261', '5 long'], 261], [['256', '0 long'], 256], [['514', '258 long'], 514],
  ]) {
    for (const text of texts) {
      const { words, problems } = south(text, 5);
      assert.deepEqual([problems, words[1]], [[], word], text);
      const { rows, long } = partsOf(words);
      assert.deepEqual([rows, long], word < 256 ? [word, false] : [word - 256, true]);
      assert.deepEqual(wordsOf(partsOf(words)), words);
    }
  }
  const shown = [2, 3, 4, 5, 256, 257, 258, 259, 260, 261, 514].map((word) => rowsOfWords([2, word, 8, 0, 1, 9, 0])[0][2]);
  assert.deepEqual(shown, ['2', '3', '4', '5', '256', '257', '2 long', '3 long', '4 long', '261', '514']);
});

test('the checker takes 258 to 260 and no other sum, and columns never carry it', () => {
  for (let word = 0; word <= 600; word++) {
    const isRows = (word >= 2 && word <= 4) || (word >= 258 && word <= 260);
    assert.equal(calls.verdict([2, word, 8, 0, 1, 9, 0]), isRows ? 0 : 2, `rows ${word}`);
    assert.equal(calls.verdict([word, 2, 8, 0, 1, 9, 0]), word >= 2 && word <= 4 ? 0 : 2, `columns ${word}`);
  }
});

test('number 2 is explained by what the 256 has to do with it, and a size of the same kind is offered', () => {
  const told = (document) => {
    const { number, lines, help, marks } = explain(document, calls.verdict);
    return { number, line: lines[0], help: help.map(({ text }) => text), marks: marks.map(({ at }) => at) };
  };
  const idle = (columns, rows) => documentOfWords('a.sheet', `${columns} ${rows} 8 0 1 9 0`);
  const sums = [[256, '0 rows', 258], [257, '1 row', 258], [261, '5 rows', 260], [512, '256 rows', 260], [514, '258 rows', 258]];
  for (const [word, states, better] of sums) {
    assert.deepEqual(told(idle(2, word)), {
      number: 2,
      line:
        `Rows: ${word} (line 1, word 2) is out of range: without the 256 for long vertical links it states ${states}; ` +
        'it may be 2 to 4, or 258 to 260 for long vertical links.',
      help: [`Put ${better} into line 1, word 2 (rows)`],
      marks: [1],
    });
  }
  const twice = ': long itself adds the 256';
  for (const [text, reason, better] of [['5', '', '4'], ['5 long', '', '4 long'], ['1 long', '', '2 long'], ['258 long', twice, '2 long']]) {
    const { line, help } = told(documentOfText('a.csv', `network;2;${text};8\nmode;m;9\n`));
    assert.equal(line, `Rows: ${text} (C1) is out of range${reason}; it may be 2 to 4, or 2 long to 4 long for long vertical links.`);
    assert.deepEqual(help, [`Put ${better} into C1 (rows)`]);
  }
  assert.deepEqual(told(documentOfText('a.csv', 'network;259;4;8\nmode;m;9\n')), {
    number: 2,
    line: 'Columns: 259 (B1) is out of range: the 256 for long vertical links is added to the rows alone; it may be 2 to 4.',
    help: ['Put 3 into B1 (columns)', 'Put 3 into B1 (columns) and put 4 long into C1 (rows)'],
    marks: [0],
  });
  assert.equal(told(idle(261, 2)).line, 'Columns: 261 (line 1, word 1) is out of range; it may be 2 to 4.');
});

test('by south, length 3, period 9: offset 6 is the last of a short grid, 5 of a long one', () => {
  const offsets = (rows) => [0, 1, 2, 3, 4, 5, 6, 7, 8].filter((offset) => calls.verdict(south(rows, offset).words) === 0);
  assert.deepEqual(offsets('2'), [0, 1, 2, 3, 4, 5, 6]);
  for (const rows of ['258', '2 long']) assert.deepEqual(offsets(rows), [0, 1, 2, 3, 4, 5]);
  const { number, lines, help } = explain(south('2 long', 6), calls.verdict);
  assert.equal(number, 10);
  assert.deepEqual(lines.slice(1), [
    'Offset 6 (D4) + length 3 (E4) - 1 + 3 x 1 hop + 1 vertical hop = 12; ' +
      'with period 9 (C3) it may be at most 11 (the period + 2): 1 too much.',
    'The rows are 2 long (C1), so the vertical links are long: each hop north or south takes one cycle more.',
  ]);
  const helps = help.map(({ text, number: then }) => [text.split(':')[0], then]);
  assert.deepEqual(helps, [['Put 5 into D4', 0], ['Put 2 into E4', 0], ['Put 10 into C3', 0]]);
  const short = explain(south('2', 7), calls.verdict);
  assert.ok(!/vertical|long/.test(short.lines.join(' ')), 'a short grid is not told of long links');
});

test('sheet A, which goes east, lands the same words in the same cycles on either kind', () => {
  const key = example('key.csv');
  const landed = (text) => landingsOf(calls, documentOfText('key.csv', text), 20).frames.map(({ cycle, landings }) => [cycle, landings]);
  const long = key.replace('network;2;2;', 'network;2;2 long;');
  assert.notEqual(long, key);
  assert.deepEqual(landed(long), landed(key));
  const words = documentOfWords('a.sheet', example('a.sheet')).words;
  assert.equal(calls.verdict([words[0], words[1] + 256, ...words.slice(2)]), 0);
});

test('by south and east against east: number 11 for offsets 2, 3, 4 of a short grid, and 3, 4, 5 of a long one', () => {
  const refused = (rows) => Array.from({ length: 15 }, (_, s) => s).filter((s) => calls.verdict(crossed(rows, s)) === 11);
  assert.deepEqual(refused(2), [2, 3, 4]);
  assert.deepEqual(refused(258), [3, 4, 5]);
  const lines = (rows, s) => explain(documentOfWords('a.sheet', crossed(rows, s).join(' ')), calls.verdict).lines;
  assert.match(lines(258, 5)[0], /^Two slots of schedule 0 use the link from node 2 to the east in cycle 8 /);
  assert.match(lines(258, 5)[1], /it is on that wire in cycles 7 to 8, behind 1 vertical hop\.$/);
  assert.match(lines(258, 5)[2], /it is on that wire in cycles 8 to 9\.$/);
  assert.match(lines(258, 5)[3], /^The rows are 258 \(line 1, word 2\), so the vertical links are long: each hop north or south /);
  assert.ok(!/vertical|long/.test(lines(2, 4).join(' ')));
});

test('slots on the wires: the cycle more is spent behind the output of a vertical hop', () => {
  const [first] = packetsOf(partsOf(crossed(258, 9)), 0);
  assert.deepEqual([first.hops, first.verticalHops], [2, 1]);
  assert.deepEqual(first.wires, [
    { node: 0, wire: SOURCE_WIRE, from: 0, to: 1 },
    { node: 0, wire: 2, from: 3, to: 4 },
    { node: 2, wire: 1, from: 7, to: 8 },
    { node: 3, wire: MEMORY_WIRE, from: 10, to: 11 },
  ]);
  assert.deepEqual(packetsOf(partsOf(crossed(2, 9)), 0)[0].wires.map(({ from }) => from), [0, 3, 6, 9]);
});

test('flight times: 3 x (hops + 1), and one more for each vertical hop of a long grid', () => {
  const flights = (rows) => {
    const far = [[0, 1, 'E'], [0, 4, 'S'], [0, 5, 'SE'], [0, 10, 'EESS'], [0, 8, 'NN']];
    const circuits = far.map(([from, to]) => `circuit;c${to};${from};${to};0;4;0;4`);
    const slots = far.map(([, to, route], at) => `slot;m;c${to};${40 * at};3;${route}`);
    const document = documentOfText('a.csv', [`network;4;${rows};8`, ...circuits, 'mode;m;300', ...slots].join('\n'));
    assert.equal(calls.verdict(document.words), 0);
    return Object.fromEntries(circuitsOf(document).map((circuit) => [circuit.name, `${hopsText(circuit)}: ${circuit.flight}`]));
  };
  assert.deepEqual(flights('4'), { c1: '1 hop: 6', c4: '1 hop: 6', c5: '2 hops: 9', c8: '2 hops: 9', c10: '4 hops: 15' });
  assert.deepEqual(flights('4 long'), {
    c1: '1 hop: 6',
    c4: '1 hop (1 vertical): 7',
    c5: '2 hops (1 vertical): 10',
    c8: '2 hops (2 vertical): 11',
    c10: '4 hops (2 vertical): 17',
  });
});

test('the shipped sheet lands as its comments say, and says why it needs the long links', () => {
  assert.equal(calls.verdict(LONG_SHEET.words), 0);
  assert.deepEqual(circuitsOf(LONG_SHEET).map(({ flight }) => flight), [7, 10, 6]);
  const short = [2, 2, ...LONG_SHEET.words.slice(2)];
  assert.equal(calls.verdict(short), 11);
  const late = [...LONG_SHEET.words];
  late[late.length - 4] = 9;
  assert.equal(calls.verdict(late), 10);
  // One word of each circuit, whose slots begin in cycles 8, 0 and 2: the header leaves first.
  const rows = rowsOfWords(LONG_SHEET.words).map((cells) => cells.join(';'));
  const starts = [[0, 0, 0], [1, 4, 0], [2, 4, 4]].map(([number, read, write]) => `at;0;start;circuit ${number};${read};${write};1;data`);
  const { frames } = landingsOf(calls, documentOfText('long.csv', [...rows, ...starts].join('\n')), 30);
  assert.deepEqual(frames.map(({ cycle, landings: [{ node }] }) => [cycle, node]), [[9, 3], [11, 3], [16, 2]]);
});

test('sheets are compared with their own kind alone', () => {
  const one = south('2', 0);
  for (const rows of ['2 long', '258']) {
    const other = south(rows, 0);
    const found = compareDocuments(one, other);
    assert.deepEqual([found.comparable, found.circuits], [false, []]);
    assert.equal(
      found.reason,
      'Nothing can be said: the grids are of two kinds (the vertical links of the new sheet are long, those of the old sheet are not).',
    );
    assert.match(compareDocuments(other, one, ['x', 'y']).reason, /the vertical links of x are long, those of y are not/);
    const same = compareDocuments(south('2 long', 0), other);
    assert.deepEqual(same.circuits.map(({ modes }) => modes.map(answerText)), [['undisturbed']]);
  }
});

test('the picture of slots marks long links, and a slot that its register makes late', () => {
  const drawn = (document) => checkedPicture(svgFile(slotsPicture(document, 0)));
  const legend = 'long link: what comes behind it is one cycle later';
  const texts = (root) => everyItem(root).filter((item) => item.name === 'text').map(textIn);
  const late = (root) => toldParts(root).map((part) => part.attributes['aria-label']).filter((text) => text.startsWith('Late: '));
  assert.ok(texts(drawn(south('2 long', 5))).includes(legend) && !texts(drawn(south('2', 5))).includes(legend));
  assert.deepEqual(late(drawn(south('2 long', 5))), []);
  // At offset 6 the last word is on the link in cycle 11, which number 10 allows, and in its register in cycle 12.
  assert.deepEqual(late(drawn(south('2', 6))), []);
  const [, ofPeriod0] = late(drawn(south('2 long', 6)));
  assert.match(ofPeriod0, /is on a long link, .* in cycle 11; .* on long links up to cycle 10, and in their registers one more$/);
});
