// Explanations of number 26: circuits without a slot, one or several, with room for one and without, and beside other faults.
import assert from 'node:assert/strict';
import test from 'node:test';
import { openProved } from '../../planner/command/proved.js';
import { documentOfRows } from '../../planner/lib/document.js';
import { explain } from '../../planner/lib/explain.js';
import { routeOfLetters, shortestRoutes } from '../../planner/lib/route.js';
import { wordsOf } from '../../planner/lib/sheet.js';
import { rowsOfWords } from '../../planner/lib/words.js';
import { ELSEWHERE, UNSERVED, holdHelp, holdPart, passesWithHelp } from './explanation_checks.js';
import { addedCircuit, nearMisses } from './near_misses.js';
import { copyOf, documentOf, passingSheet } from './passing_sheets.js';
import { random } from './random.js';
import { read, write } from './sheet_tools.js';
import { sheetParts } from './sheets.js';

// The most of each thing in a sheet in which most wires are taken.
const DENSE = { circuits: 30, modes: 2, slots: 60, period: 14, memory: 100, length: 4 };
const { verdict } = await openProved();
const source = random(20262);
const sheets = Array.from({ length: 40 }, () => passingSheet(source, verdict));

test('of several circuits without a slot the first is explained, and that there are more is said', () => {
  for (let turn = 0; turn < 100; turn++) {
    const sheet = copyOf(source.choose(sheets));
    const count = source.between(1, 4);
    for (let added = 0; added < count; added++) addedCircuit(source, sheet);
    const { document } = documentOf(source, source.choose(['plan', 'exam', 'words']), sheet, []);
    const found = explain(document, verdict);
    const served = new Set(read(document.words).schedules.flatMap(({ entries }) => entries.map(([, , circuit]) => circuit)));
    const numbers = Array.from({ length: document.words[3] }, (_, number) => number).filter((number) => !served.has(number));
    assert.deepEqual([found.number, found.circuits.map(({ number }) => number), numbers.length], [UNSERVED, [numbers[0]], count]);
    assert.equal(found.lines.includes(ELSEWHERE), count > 1);
    holdPart(document, found);
    holdHelp(document, found);
    assert.equal(found.help.at(-1).number, 0, 'without all of them the sheet passes');
  }
});

// Whether a slot of the least length for a circuit fits into some mode, by trying every offset and every shortest route with the checker.
function hasRoom(words, number) {
  const sheet = read(words);
  const [source, destination] = sheet.circuits[number];
  const fits = (schedule, offset, route) => {
    const entries = [...schedule.entries, [offset, 2, number, route]].sort((a, b) => a[0] - b[0] || a[2] - b[2]);
    const schedules = sheet.schedules.map((one) => (one === schedule ? { ...one, entries } : one));
    return [0, UNSERVED].includes(verdict(write({ ...sheet, schedules })));
  };
  // Without the 256 of long vertical links, which routes do not depend on.
  const routes = shortestRoutes(words[0], words[1] % 256, source, destination).map(routeOfLetters);
  const offsets = (schedule) => Array.from({ length: schedule.period }, (_, offset) => offset);
  return sheet.schedules.some((schedule) => routes.some((route) => offsets(schedule).some((offset) => fits(schedule, offset, route))));
}

test('a slot is offered exactly where there is room for one, and that there is none is said', () => {
  const seen = { room: 0, none: 0 };
  for (let turn = 0; turn < 100; turn++) {
    const parts = sheetParts(source, (words) => verdict(words) === 0, DENSE);
    const [nodes, end] = [parts.columns * parts.rows, parts.memory];
    const [network, ...rows] = rowsOfWords(wordsOf(parts));
    const node = source.below(nodes);
    const added = ['circuit', 'added', node, (node + source.between(1, nodes - 1)) % nodes, end, 1, end, 1].map(String);
    const document = documentOfRows('dense.csv', [[...network.slice(0, 3), String(end + 1)], ...rows, added]);
    const found = explain(document, verdict);
    assert.equal(found.number, UNSERVED);
    const room = hasRoom(document.words, found.circuits[0].number);
    assert.equal(found.help.some(({ change }) => change.add !== undefined), room);
    assert.equal(/no mode has room for one/.test(found.lines.join(' ')), !room);
    seen[room ? 'room' : 'none']++;
  }
  assert.ok(seen.room >= 10 && seen.none >= 10, JSON.stringify(seen));
});

test('what helps against the other numbers is found also where circuits have no slot yet', () => {
  const planned = sheets.map((sheet) => {
    const more = copyOf(sheet);
    addedCircuit(source, more);
    return more;
  });
  for (const number of [6, 9, 10, 11]) {
    for (const one of nearMisses(source, verdict, number, 60, planned)) {
      const found = explain(one.document, verdict);
      holdPart(one.document, found);
      holdHelp(one.document, found);
      if (passesWithHelp(one, number)) assert.ok(found.help.some((help) => help.number === UNSERVED), 'nothing helps');
    }
  }
});
