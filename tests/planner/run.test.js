// A run's starts: those of one cycle go through one list of the proved call, and all is as if each act were a call of its own, in the
// order of the file, until one is refused.
import test from 'node:test';
import assert from 'node:assert/strict';
import { openProved } from '../../planner/command/proved.js';
import { openRun } from '../../planner/lib/run.js';
import { partsOf, wordsOf } from '../../planner/lib/sheet.js';
import { random as seeded } from './random.js';
import { largestSheet, sheetParts } from './sheets.js';

const calls = await openProved();
const passes = (words) => calls.verdict(words) === 0;
const RUNS = 400;
const CYCLES = 30;
const SENDING_RUNS = 100;
const SENDING_CYCLES = 60;

// The same calls, by which every start that is made is noted: alone, or with how many others and how it was answered.
function watched() {
  const made = { alone: 0, lists: [], answers: [] };
  const startAll = (transfers) => {
    const told = calls.startAll(transfers);
    made.lists.push(transfers.length);
    made.answers.push(...told.answers);
    return told;
  };
  const start = (...words) => {
    made.alone++;
    return calls.start(...words);
  };
  return { made, calls: { ...calls, start, startAll } };
}

// A start of a circuit, mostly right.
function start(random, { number, words }, memory) {
  const [, , read, readLength, receive, receiveLength] = words;
  const count = random.between(1, Math.min(readLength, receiveLength)) + (random.chance(0.05) ? 100 : 0);
  return ['start', number, random.chance(0.03) ? memory : read, receive, count, 0];
}

// Acts of a run: starts, and between them stores and orders, some of each wrong.
function someActs(random, parts) {
  const nodes = parts.columns * parts.rows;
  const acts = [];
  // Circuits that were not started yet are taken mostly: another is often busy.
  const fresh = parts.circuits.map((circuit) => [random.word(), circuit]).sort(([a], [b]) => a - b).map(([, circuit]) => circuit);
  const circuit = () => (fresh.length > 0 && random.chance(0.9) ? fresh.pop() : random.choose(parts.circuits));
  for (let cycle = 0; cycle < CYCLES; cycle++) {
    for (let count = random.chance(0.1) ? random.below(6) : 0; count > 0; count--) {
      const others = [
        ['store', random.below(nodes) + (random.chance(0.03) ? nodes : 0), random.below(parts.memory), random.word()],
        ['order', random.below(parts.schedules.length), random.choose([7, 9])],
      ];
      const [what, ...words] = random.chance(0.6) ? start(random, circuit(), parts.memory) : random.choose(others);
      acts.push({ row: acts.length, column: 2, cycle, what, arguments: words });
    }
  }
  return acts;
}

// All frames of a run, and the call that ended it.
function played(run) {
  const frames = [];
  for (let frame = run.step(); frame && frames.length < CYCLES; frame = run.step()) frames.push(frame);
  return { frames, refused: run.refused };
}

// What a run would be if every act were a call of its own: the run is stepped without acts, which are made between its cycles.
function actByAct(words, acts) {
  const run = openRun(calls, words);
  const frames = [];
  for (const cycle of Array(CYCLES).keys()) {
    for (const act of acts.filter((other) => other.cycle === cycle)) {
      const number = calls[act.what](...act.arguments);
      if (number !== 0) return { frames, refused: { number, ...act } };
    }
    frames.push(run.step());
  }
  return { frames, refused: null };
}

test(`${RUNS} runs are as if each act were a call of its own`, () => {
  const random = seeded(16);
  const ends = new Map();
  for (let turn = 0; turn < RUNS; turn++) {
    const parts = sheetParts(random, passes, { circuits: 8, period: 16, slots: 12, memory: 24 });
    if (parts.circuits.length === 0) continue;
    const [words, acts] = [wordsOf(parts), someActs(random, parts)];
    const { made, calls: noted } = watched();
    const found = played(openRun(noted, words, { acts }));
    assert.deepEqual(found, actByAct(words, acts));
    const reached = (cycle) => cycle < found.frames.length || cycle === found.refused?.cycle;
    const cycles = new Set(acts.filter(({ what, cycle }) => what === 'start' && reached(cycle)).map(({ cycle }) => cycle));
    assert.deepEqual([made.alone, made.lists.length], [0, cycles.size]);
    const end = found.refused ? `${found.refused.what} ${found.refused.number}` : 'none';
    ends.set(end, (ends.get(end) ?? 0) + 1);
  }
  for (const end of ['none', 'start 15', 'start 16', 'start 17', 'store 15', 'order 18']) assert.ok(ends.get(end) >= 5, `${end}: ${ends.get(end)} runs`);
});

test('more starts in a cycle than a list may have are two lists, and the first that is refused is named', () => {
  const words = largestSheet(seeded(17), passes);
  const parts = partsOf(words);
  assert.equal(parts.circuits.length, 64);
  const act = ({ number, words: [, , read, , receive] }, row) => ({ row, column: 2, cycle: 0, what: 'start', arguments: [number, read, receive, 1, 0] });
  const rows = [...parts.circuits, ...parts.circuits.slice(5, 11)].map(act);
  const { made, calls: noted } = watched();
  const run = openRun(noted, words, { acts: rows });
  assert.equal(run.step(), null);
  assert.deepEqual(made.lists, [64, 6]);
  assert.deepEqual({ number: run.refused.number, row: run.refused.row }, { number: 17, row: 64 });
});

test('where every circuit sends, the free ones of a cycle are one list', () => {
  const words = largestSheet(seeded(18), passes);
  const { made, calls: noted } = watched();
  const run = openRun(noted, words, { sending: true });
  for (let cycle = 0; cycle < 40; cycle++) assert.ok(run.step());
  assert.equal(made.alone, 0);
  assert.equal(made.lists[0], 64);
  assert.ok(made.lists.length <= 40, `${made.lists.length} lists`);
  assert.deepEqual(new Set(made.answers), new Set([0]), 'of 64 circuits with so many words no busy one is tried');
});

// The transfers with which circuits are kept sending, and what their nodes hold.
function traffic(parts) {
  const transfers = parts.circuits.map(({ number, words: [, , read, readLength, receive, receiveLength] }) => {
    return [number, read, receive, Math.min(readLength, receiveLength), 0];
  });
  const stores = parts.circuits.flatMap(({ number, words: [source, , read, readLength] }) =>
    Array.from({ length: readLength }, (_, at) => ({ what: 'store', arguments: [source, read + at, (number + 1) * 100 + at] })),
  );
  return { transfers, stores };
}

// What a run would be if every circuit were tried before every cycle by a call of its own, 17 being not yet.
function triedAlways(other, words, seen) {
  const { transfers, stores } = traffic(partsOf(words));
  const run = openRun(other, words, { stores });
  return Array.from({ length: SENDING_CYCLES }, () => {
    for (const transfer of transfers) {
      const number = other.start(...transfer);
      assert.ok(number === 0 || number === 17, `number ${number}`);
      if (number === 17 && other.wordsLeft(transfer[0]).value === 0) seen.underWay++;
      seen.tried++;
    }
    return run.step();
  });
}

test('where every circuit sends, it is as if each were tried before every cycle, and few are tried in vain', async () => {
  const random = seeded(19);
  const other = await openProved();
  const seen = { tried: 0, underWay: 0, started: 0, inVain: 0 };
  for (let turn = 0; turn < SENDING_RUNS; turn++) {
    const words = wordsOf(sheetParts(random, passes, { circuits: 8, period: 16, slots: 12, memory: 24 }));
    const { made, calls: noted } = watched();
    const run = openRun(noted, words, { sending: true });
    assert.deepEqual(Array.from({ length: SENDING_CYCLES }, () => run.step()), triedAlways(other, words, seen));
    for (const number of made.answers) seen[number === 0 ? 'started' : 'inVain']++;
  }
  assert.ok(seen.started > 1000 && seen.underWay > 1000 && seen.inVain < seen.underWay / 10, JSON.stringify(seen));
});
