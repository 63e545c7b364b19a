// Explanations of refusals: near misses of each number, and the largest sheets.
import assert from 'node:assert/strict';
import test from 'node:test';
import { openProved } from '../../planner/command/proved.js';
import { cellOfMark, documentOfRows, documentOfWords, placeOfMark } from '../../planner/lib/document.js';
import { explain } from '../../planner/lib/explain.js';
import { RULES, SHEET_NUMBERS } from '../../planner/lib/rules.js';
import { ELSEWHERE, UNSERVED, holdHelp, holdPart, passesWithHelp } from './explanation_checks.js';
import { nearMisses } from './near_misses.js';
import { passingSheet } from './passing_sheets.js';
import { random } from './random.js';
import { leastMilliseconds } from './time.js';

const NEAR_MISSES = 200;
const SHEETS = 60;
const { verdict } = await openProved();
const source = random(20261);
const sheets = Array.from({ length: SHEETS }, () => passingSheet(source, verdict));

const key = ({ row, column }) => `${row} ${column}`;

function holdMarks(document, found, planted) {
  const marked = new Set(found.marks.map((mark) => key(cellOfMark(document, mark))));
  for (const place of planted) assert.ok(marked.has(key(place)), `row ${place.row}, column ${place.column} is not marked`);
  assert.ok(found.marks.every(({ text }) => text.length > 0 && text.length < 60), 'a mark has a short text');
  // Where one row is at fault, no other is marked.
  const rows = new Set(planted.map(({ row }) => row));
  if (document.kind === 'plan' && [4, 7, 9, UNSERVED].includes(found.number)) {
    assert.ok(found.marks.every(({ at }) => rows.has(document.places[at].row)), 'a mark stands in another row');
  }
}

function holdLines(document, found) {
  assert.equal(found.title, RULES[found.number].title);
  assert.ok(found.lines.length > 0);
  for (const line of found.lines) assert.match(line, /^[A-Z].*\.$/);
  assert.ok(!/undefined|null|NaN|\[object/.test(found.lines.join(' ')), found.lines.join(' '));
  const cells = found.marks.map((mark) => placeOfMark(document, mark));
  const isNamed = (cell) => found.lines.some((line) => line.includes(`(${cell})`));
  if (found.number > 3) assert.ok(cells.some((cell) => found.lines.some((line) => line.includes(cell))), 'no cell is named');
  if (found.number === UNSERVED) assert.ok(cells.length === 1 && isNamed(cells[0]), "the circuit's cell is not named");
  // Each near miss has one fault; where that is a cell of one row, no other cell breaks the rule.
  if ([4, 7, 9, UNSERVED].includes(found.number)) assert.ok(!found.lines.includes(ELSEWHERE));
}

for (const number of SHEET_NUMBERS) {
  test(`near misses of number ${number}`, () => {
    const near = nearMisses(source, verdict, number, NEAR_MISSES, sheets);
    for (const one of near) {
      const { document, planted } = one;
      const found = explain(document, verdict);
      assert.equal(found.number, number);
      try {
        holdPart(document, found);
        holdMarks(document, found, planted);
        holdLines(document, found);
        holdHelp(document, found);
        if (passesWithHelp(one, number)) assert.ok(found.help.some((help) => help.number === 0), 'nothing helps');
      } catch (error) {
        error.message += `\n${one.form}: ${document.words.join(' ')}\n${JSON.stringify({ ...found, left: found.left.join(' ') }, null, 1)}`;
        throw error;
      }
    }
    const forms = new Set(near.map(({ form }) => form));
    assert.deepEqual([...forms].sort(), number === 1 ? ['words'] : ['exam', 'plan', 'words']);
  });
}

test('a sheet that passes has no explanation', () => {
  const near = nearMisses(source, (words) => (verdict(words) === 0 ? 11 : 0), 11, 20, sheets);
  for (const { document } of near) assert.equal(explain(document, verdict), null);
});

// The largest sheet that passes: every node sends over 4 circuits to its neighbour in the east, 16 slots a mode.
function largestRows() {
  const rows = [['network', '4', '4', '16384']];
  const east = (node) => node - (node % 4) + ((node + 1) % 4);
  for (let number = 0; number < 64; number++) {
    const [node, own] = [Math.floor(number / 4), number % 4];
    rows.push(['circuit', `c${number}`, node, east(node), 100 + own, 1, own, 1].map(String));
  }
  for (let mode = 0; mode < 8; mode++) rows.push(['mode', `m${mode}`, '1024']);
  for (let mode = 0; mode < 8; mode++) {
    for (let slot = 0; slot < 256; slot++) {
      const circuit = 4 * (slot % 16) + (Math.floor(slot / 16) % 4);
      rows.push(['slot', `m${mode}`, `c${circuit}`, 10 * Math.floor(slot / 16), 2, 'E'].map(String));
    }
  }
  return rows;
}

const withoutSlots = (rows, isGone) => rows.splice(0, rows.length, ...rows.filter((cells) => cells[0] !== 'slot' || !isGone(cells)));
const everySlot = (rows, change) => rows.filter((cells) => cells[0] === 'slot').forEach(change);

// Changes of the largest sheet's rows: one slot, or every slot, so that there are thousands of faults.
const LARGE_FAULTS = [
  [9, 'one route', (rows) => (rows[rows.length - 1][5] = 'N')],
  [9, 'every route', (rows) => everySlot(rows, (cells) => (cells[5] = 'W'))],
  [10, 'one offset', (rows) => (rows[rows.length - 1][3] = '1023')],
  [10, 'every offset', (rows) => everySlot(rows, (cells) => (cells[3] = String(1023 - Number(cells[3]) / 10)))],
  [11, 'one offset', (rows) => (rows[rows.length - 1][3] = '141')],
  [11, 'every offset', (rows) => everySlot(rows, (cells) => (cells[3] = String(Number(cells[3]) / 10)))],
  [UNSERVED, 'one circuit', (rows) => withoutSlots(rows, (cells) => cells[2] === 'c63')],
  // Every mode keeps its 256 slots, so that none can be added.
  [UNSERVED, 'one circuit, no room', (rows) => everySlot(rows, (cells) => (cells[2] = cells[2] === 'c63' ? 'c62' : cells[2]))],
  [UNSERVED, 'every second circuit', (rows) => withoutSlots(rows, (cells) => Number(cells[2].slice(1)) % 2 === 1)],
  [UNSERVED, 'every circuit', (rows) => withoutSlots(rows, () => true)],
];

test('the largest sheet passes before a fault is planted', () => {
  assert.equal(verdict(documentOfRows('large.csv', largestRows()).words), 0);
});

for (const [number, what, plant] of LARGE_FAULTS) {
  test(`the largest sheet, refused by ${number} (${what}), is explained within a second`, () => {
    const rows = largestRows();
    plant(rows);
    const plan = documentOfRows('large.csv', rows);
    for (const document of [plan, documentOfWords('large.sheet', plan.words.join('\n'))]) {
      const found = explain(document, verdict);
      assert.equal(found.number, number);
      const time = leastMilliseconds(() => explain(document, verdict), 1000);
      assert.ok(time < 1000, `it took ${time} ms`);
      holdPart(document, found);
      holdHelp(document, found);
      assert.equal(found.lines.includes(ELSEWHERE), what.startsWith('every'));
      if (number === UNSERVED) assert.ok(found.help.some((help) => help.number === 0), 'nothing helps');
      assert.equal(/no (mode|schedule) has room for one/.test(found.lines.join(' ')), what.endsWith('no room'));
    }
  });
}

test('a fault in two places is said to be in more than one', () => {
  const nine = nearMisses(source, verdict, 9, 60, sheets).filter(({ form }) => form === 'plan');
  for (const { document, planted } of nine) {
    const rows = document.rows.map((cells) => [...cells]);
    const other = rows.findIndex((cells, row) => cells[0] === 'slot' && row !== planted[0].row);
    if (other < 0) continue;
    rows[other][5] = '0';
    const found = explain(documentOfRows('two.csv', rows), verdict);
    assert.ok(found.lines.includes(ELSEWHERE));
  }
});

test('sheets with several faults', () => {
  const odd = [0, 1, 2, 5, 9, 17, 257, 1025, 16385, 65536, 4294967290, 4294967295];
  for (const number of SHEET_NUMBERS) {
    for (const { document } of nearMisses(source, verdict, number, 40, sheets)) {
      const words = [...document.words];
      for (let turn = source.between(1, 4); turn > 0 && words.length > 0; turn--) words[source.below(words.length)] = source.choose(odd);
      const changed = documentOfWords('several.sheet', words.join(' '));
      const found = explain(changed, verdict);
      assert.equal(found?.number ?? 0, verdict(words));
      if (found === null) continue;
      holdPart(changed, found);
      holdHelp(changed, found);
      assert.ok(found.lines.every((line) => /^[A-Z].*\.$/.test(line) && !/undefined|null|NaN|object/.test(line)), found.lines.join(' '));
    }
  }
});
