// Starts while words of a circuit's last transfer are under way: refused with 17 up to the cycle in which the last one lands, carried out
// from the next on; and that the planner's words for it say when.
import test from 'node:test';
import assert from 'node:assert/strict';
import { readFileSync } from 'node:fs';
import { openProved } from '../../planner/command/proved.js';
import { documentOfText } from '../../planner/lib/document.js';
import { circuitOfLanding } from '../../planner/lib/landings.js';
import { landingsOf } from '../../planner/lib/listing.js';
import { callLine, callMarks } from '../../planner/lib/rules.js';
import { openRun } from '../../planner/lib/run.js';
import { wordsOf } from '../../planner/lib/sheet.js';
import { underWay } from '../../planner/lib/under_way.js';
import { random as seeded } from './random.js';
import { sheetParts } from './sheets.js';

const calls = await openProved();
const passes = (words) => calls.verdict(words) === 0;
const KEY = readFileSync(new URL('../../examples/key.csv', import.meta.url), 'utf8');
const CYCLES = 80;
const PLANS = 600;

// The key's plan with a first transfer of two words, which land in cycles 7 and 8, and further starts of two words in some cycles.
function restarted(...cycles) {
  const rows = cycles.map((cycle) => `at;${cycle};start;first;0;0;2;data\n`);
  return documentOfText('key.csv', KEY.replace(';3;data', ';2;data') + rows.join(''));
}

const cyclesOf = ({ frames }) => frames.flatMap(({ cycle, landings }) => landings.map(({ word }) => `${cycle}:${word}`));

test('sheet A, two words from cycle 0: a start gets 17 after cycle 7 and is taken after cycle 8', () => {
  const early = landingsOf(calls, restarted(8), 20);
  assert.deepEqual([early.refused.number, early.refused.row, early.refused.cycle], [17, 7, 8]);
  assert.deepEqual(callMarks(restarted(8), early.refused, calls).map(({ row, column }) => [row, column]), [[7, 1], [7, 3]]);
  const line = callLine(restarted(8), early.refused, calls);
  assert.match(line, /^Row 8: .* cycle 8 \(B8\) is too early: circuit first \(D8\) .* it lands in cycle 8,/);
  assert.deepEqual(cyclesOf(landingsOf(calls, restarted(9), 20)), ['7:11', '8:22', '16:11', '17:22']);
});

test('a circuit that is restarted in the first possible cycle each time sends in every period', () => {
  const landed = cyclesOf(landingsOf(calls, restarted(9, 18, 27, 36), 60));
  assert.deepEqual(landed, [7, 16, 25, 34, 43].flatMap((cycle) => [`${cycle}:11`, `${cycle + 1}:22`]));
  for (const cycles of [[8, 18], [9, 17], [9, 18, 26], [9, 18, 27, 35]]) {
    const { refused } = landingsOf(calls, restarted(...cycles), 60);
    assert.equal(refused.number, 17);
  }
});

test('two starts of a circuit in one cycle in which it is free: the second is refused with what the first has left', () => {
  const document = restarted(9, 9);
  const { refused } = landingsOf(calls, document, 20);
  assert.equal(refused.row, 8);
  assert.match(callLine(document, refused, calls), /circuit first \(D9\) has 2 words of its last transfer left to send; the next can start/);
});

// A transfer of a circuit before cycle 0, and a start of it in a later cycle, which is refused with 17 where it is too early.
function twoStarts(random, parts, cycle) {
  const { number, words: [, , read, readLength, receive, receiveLength] } = random.choose(parts.circuits);
  const most = Math.min(readLength, receiveLength);
  const start = (at, count, kind) => ({ row: at, column: 2, cycle: at, what: 'start', arguments: [number, read, receive, count, kind] });
  return [start(0, random.between(1, most), 0), random.chance(0.5) ? start(cycle, 1, 2) : start(cycle, random.between(1, most), 0)];
}

// The first act of a run that is refused, and the landings of a circuit.
function played(words, parts, acts) {
  const run = openRun(calls, words, { acts });
  const landed = [];
  while (run.cycle < CYCLES && !run.refused) {
    const { cycle, landings } = run.step() ?? { landings: [] };
    landed.push(...landings.filter((landing) => circuitOfLanding(parts, landing) === acts[0].arguments[0]).map(() => cycle));
  }
  return { refused: run.refused, landed };
}

test(`${PLANS} plans: the cycle that is said to be the earliest is, and nothing is changed by asking`, () => {
  const random = seeded(21);
  const seen = { one: 0, several: 0, left: 0, carriedOut: 0 };
  for (let turn = 0; turn < PLANS; turn++) {
    const parts = sheetParts(random, passes, { circuits: 8, period: 16, slots: 12, memory: 24 });
    if (parts.circuits.length === 0) continue;
    const [words, acts] = [wordsOf(parts), twoStarts(random, parts, random.between(1, 20))];
    const { refused } = played(words, parts, acts);
    if (!refused || calls.wordsLeft(acts[0].arguments[0]).value > 0) {
      seen[refused ? 'left' : 'carriedOut']++;
      continue;
    }
    const before = [calls.lentState().slice(), calls.lentMemory().slice()];
    const { count, cycle } = underWay(calls, words, refused);
    assert.deepEqual([calls.lentState().slice(), calls.lentMemory().slice()], before);
    const { landed } = played(words, parts, [acts[0]]);
    assert.deepEqual([count, cycle], [landed.filter((at) => at >= refused.cycle).length, Math.max(...landed) + 1]);
    const moved = (at) => played(words, parts, [acts[0], { ...acts[1], cycle: at }]).refused?.number ?? 0;
    assert.deepEqual([moved(cycle - 1), moved(cycle)], [17, 0]);
    seen[count === 1 ? 'one' : 'several']++;
  }
  for (const [what, plans] of Object.entries(seen)) assert.ok(plans >= 20, `${what}: ${plans} plans`);
});

test('the longest flights, over four hops, are told from their first cycle on', () => {
  for (const [grid, landing] of [['4', 16], ['4 long', 18]]) {
    const rows = [`network;4;${grid};8`, 'circuit;far;0;10;0;1;0;1', 'mode;only;20', 'slot;only;far;0;2;EESS'];
    const plan = (cycle) => documentOfText('far.csv', [...rows, 'at;0;start;far;0;0;1;data', `at;${cycle};start;far;0;0;1;data`].join('\n'));
    const { refused } = landingsOf(calls, plan(2), 20);
    const said = new RegExp(`1 word of it has not landed; it lands in cycle ${landing}, .* for this start is ${landing + 1}\\.$`);
    assert.match(callLine(plan(2), refused, calls), said);
    assert.equal(landingsOf(calls, plan(landing), 30).refused.number, 17);
    assert.deepEqual(cyclesOf(landingsOf(calls, plan(landing + 1), 40)), [landing, landing + 20].map((cycle) => `${cycle}:0`));
  }
});

test('where the calls tell no cycle, none is said', () => {
  const document = restarted(8);
  const { refused } = landingsOf(calls, document, 20);
  const line = callLine(document, refused, { ...calls, start: () => 17 });
  assert.match(line, /number 17: circuit first \(D8\) has sent its last transfer, but words of it have not landed\.$/);
  assert.equal(underWay({ ...calls, cycle: () => 20 }, document.words, refused), null);
});
