// The rules in words, and the sentences for refused calls of a run, word for word.
import assert from 'node:assert/strict';
import test from 'node:test';
import { openProved } from '../../planner/command/proved.js';
import { callsOfPlan, openRun } from '../../planner/lib/run.js';
import { RULES, SHEET_NUMBERS, callLine } from '../../planner/lib/rules.js';
import { plan, words } from './cable_car.js';

const CYCLES = 200;
const calls = await openProved();

// The first refused call of the cable car's plan with more rows.
function refusedRun(more) {
  const document = plan({}, more);
  assert.deepEqual(document.problems, []);
  const run = openRun(calls, document.words, callsOfPlan(document));
  while (run.refused === null && run.cycle < CYCLES) run.step();
  assert.notEqual(run.refused, null, 'nothing was refused');
  return { document, refused: run.refused };
}

// Row 12 is the first that a case adds.
const CASES = [
  [
    ['memory;4;0;1'],
    15,
    'Row 12: the word 1 for address 0 of node 4 is refused by number 15: there is no node 4 (B12), nodes are 0 to 3.',
  ],
  [
    ['memory;1;16;1'],
    15,
    'Row 12: the word 1 for address 16 of node 1 is refused by number 15: address 16 (C12) does not exist, addresses are 0 to 15.',
  ],
  [
    ['memory;1;14;5;6;7'],
    15,
    'Row 12: the word 7 for address 16 of node 1 is refused by number 15: address 16 (F12) does not exist, addresses are 0 to 15.',
  ],
  [
    ['at;5;store;9;99;1'],
    15,
    'Row 12: the word 1 for address 99 of node 9 in cycle 5 is refused by number 15: there is no node 9 (D12), nodes are 0 to 3; ' +
      'and address 99 (E12) does not exist, addresses are 0 to 15.',
  ],
  [
    ['at;0;start;speed;16;0;1;data'],
    15,
    'Row 12: the start of 1 word by circuit speed in cycle 0 is refused by number 15: read address 16 (E12) does not exist, addresses ' +
      'are 0 to 15.',
  ],
  [
    ['at;0;start;speed;0;70;4;1'],
    15,
    'Row 12: the start of 4 words by circuit speed in cycle 0 is refused by number 15: write address 70 (F12) does not exist, addresses ' +
      'are 0 to 15; and kind 1 (H12) cannot be sent, it is data (0) or interrupt (2).',
  ],
  [
    ['at;0;start;speed;0;0;0;data'],
    16,
    'Row 12: the start of 0 words by circuit speed in cycle 0 is refused by number 16: the count is 0 (G12), and a transfer has at ' +
      'least one word.',
  ],
  [
    ['at;0;start;speed;0;0;2;interrupt'],
    16,
    'Row 12: the start of an interrupt by circuit speed in cycle 0 is refused by number 16: the count is 2 (G12), and an interrupt has ' +
      'exactly one word.',
  ],
  [
    ['at;7;start;speed;2;0;4;data'],
    16,
    'Row 12: the start of 4 words by circuit speed in cycle 7 is refused by number 16: 4 words from read address 2 (E12) on end at ' +
      'address 5, and the read region of the circuit is 0 to 3.',
  ],
  [
    ['at;0;start;brake;11;1;4;data'],
    16,
    'Row 12: the start of 4 words by circuit brake in cycle 0 is refused by number 16: 4 words from read address 11 (E12) on end at ' +
      'address 14, and the read region of the circuit is 12 to 15; and 4 words from write address 1 (F12) on end at address 4, and the ' +
      'receive region of the circuit is 0 to 3.',
  ],
  [
    ['at;0;start;speed;0;0;4;data', 'at;13;start;speed;0;0;1;data'],
    17,
    'Row 13: the start of 1 word by circuit speed in cycle 13 is refused by number 17: circuit speed (D13) has 3 words of its last ' +
      'transfer left to send; the next can start when the last of them has landed.',
  ],
  [
    ['at;0;order;high wind;5', 'at;13;order;normal;6'],
    18,
    'Row 13: the order of mode normal for period 6 in cycle 13 is refused by number 18: mode high wind is ordered for period 5 already; ' +
      'the next order can be given when that period has begun.',
  ],
  [
    ['at;25;order;high wind;4'],
    19,
    'Row 12: the order of mode high wind for period 4 in cycle 25 is refused by number 19: period 4 (E12) is too near: the present ' +
      'period is 2, and the earliest that can be ordered is 5.',
  ],
  [
    ['at;25;order;high wind;0'],
    19,
    'Row 12: the order of mode high wind for period 0 in cycle 25 is refused by number 19: period 0 (E12) is past: the present ' +
      'period is 2, and the earliest that can be ordered is 5.',
  ],
];

// Words that left in cycles 3 to 5 land 6 cycles later: rows directly before and behind the landings, and one that is the last to be sent.
CASES.push(
  [
    ['at;0;start;cabin;0;4;3;data', 'at;5;start;cabin;0;4;1;data'],
    17,
    'Row 13: the start of 1 word by circuit cabin in cycle 5 is refused by number 17: circuit cabin (D13) has 1 word of its last transfer ' +
      'left to send; the next can start when it has landed.',
  ],
  [
    ['at;0;start;cabin;0;4;3;data', 'at;6;start;cabin;0;4;1;data'],
    17,
    'Row 13: the start of 1 word by circuit cabin in cycle 6 is refused by number 17: cycle 6 (B13) is too early: circuit cabin (D13) has ' +
      'sent its last transfer, but 3 words of it have not landed; the last lands in cycle 11, so that the earliest cycle for this start ' +
      'is 12.',
  ],
  [
    ['at;0;start;cabin;0;4;3;data', 'at;11;start;cabin;0;4;1;interrupt'],
    17,
    'Row 13: the start of an interrupt by circuit cabin in cycle 11 is refused by number 17: cycle 11 (B13) is too early: circuit cabin ' +
      '(D13) has sent its last transfer, but 1 word of it has not landed; it lands in cycle 11, so that the earliest cycle for this start ' +
      'is 12.',
  ],
  [
    // Number 16 comes before 17, also where words are under way.
    ['at;0;start;cabin;0;4;3;data', 'at;11;start;cabin;0;4;0;data'],
    16,
    'Row 13: the start of 0 words by circuit cabin in cycle 11 is refused by number 16: the count is 0 (G13), and a transfer has at ' +
      'least one word.',
  ],
);

for (const [more, number, line] of CASES) {
  test(`${number}: ${more.join(' ')}`, () => {
    const { document, refused } = refusedRun(more);
    assert.equal(refused.number, number);
    assert.equal(callLine(document, refused, calls), line);
  });
}

test('without the calls of the run, what is left or pending is not told', () => {
  const lines = [CASES[10], CASES[11], CASES[12]].map(([more]) => {
    const { document, refused } = refusedRun(more);
    return callLine(document, refused);
  });
  assert.match(lines[0], /circuit speed \(D13\) has words of its last transfer that were not sent or have not landed\.$/);
  assert.match(lines[1], /an earlier order is pending; the next can be given when its period has begun\.$/);
  assert.match(lines[2], /period 4 \(E12\) is not at least three periods ahead\.$/);
});

test('calls that have no row', () => {
  const sheet = words('2 2 8 1 1 0 1 0 4 0 4 9 1 0 3 0 13');
  const call = { number: 15, what: 'start', arguments: [3, 0, 0, 1, 0], cycle: 0, row: null, column: null };
  assert.equal(callLine(sheet, call), 'The start of 1 word by circuit 3 in cycle 0 is refused by number 15: there is no circuit 3.');
  const order = { number: 15, what: 'order', arguments: [4, 9], cycle: 2, row: null, column: null };
  assert.equal(callLine(sheet, order), 'The order of schedule 4 for period 9 in cycle 2 is refused by number 15: there is no schedule 4.');
  const cycle = { number: 20, what: 'cycle', row: null, column: null };
  assert.equal(callLine(sheet, cycle), 'A cycle is refused by number 20: words meet on a wire, or a word is lost.');
  const load = { number: 14, what: 'load', row: null, column: null };
  assert.equal(callLine(sheet, load), 'The sheet is refused by number 14: the memory has the wrong size.');
  const unserved = { number: 26, what: 'load', row: null, column: null };
  assert.equal(callLine(sheet, unserved), 'The sheet is refused by number 26: a circuit has no slot.');
});

test('every number has a rule in words', () => {
  const numbers = [...Array.from({ length: 21 }, (_, at) => at + 1), 26, 31, 32];
  assert.deepEqual(Object.keys(RULES).map(Number), numbers);
  assert.deepEqual(SHEET_NUMBERS, numbers.filter((number) => number < 12 || number === 26));
  for (const { title, text } of Object.values(RULES)) {
    assert.match(title, /^[A-Z][^.]{10,70}$/);
    assert.match(text, /^[A-Z].{20,}\.$/);
  }
});
