// The proved calls as WebAssembly against the native archive that is built of the same proved source: answers and all lent words.
import test from 'node:test';
import assert from 'node:assert/strict';
import { provedBytes, openProved } from '../../planner/command/proved.js';
import { SHEET_NUMBERS } from '../../planner/lib/rules.js';
import { wordsOf } from '../../planner/lib/sheet.js';
import { recordOf } from './native.js';
import { random as seeded } from './random.js';
import { largestSheet, nearMiss, randomWords, sheetParts } from './sheets.js';
import { playSession } from './sessions.js';
import { severalFaults, timetable } from './timetables.js';

const VERDICTS = 20000;
const SESSION_CALLS = 100000;
const HOURS = 5000;
const calls = await openProved();
const passes = (words) => calls.verdict(words) === 0;

// How often each number was given.
function counter() {
  const counts = new Array(33).fill(0);
  return { counts, add: (number) => counts[number]++, sum: () => counts.reduce((sum, count) => sum + count) };
}

// The most of each thing in a sheet. In a dense one most wires are taken, so that each step of a route decides number 11.
const USUAL = { circuits: 6 };
const DENSE = { circuits: 40, modes: 1, slots: 90, period: 24, memory: 200, length: 4 };

// Sheets without end: some pass, most nearly do, and some are words at random.
function* sheets(random) {
  const large = largestSheet(random, passes);
  for (let turn = 0; ; turn++) {
    const words = turn % 100 === 99 ? large : wordsOf(sheetParts(random, passes, random.choose([USUAL, DENSE])));
    yield words;
    for (let edit = 0; edit < 12; edit++) yield nearMiss(random, words);
    yield randomWords(random);
  }
}

test('20,000 verdicts, and where entries lie', () => {
  const random = seeded(1);
  const record = recordOf(calls);
  const [numbers, found, long] = [counter(), counter(), counter()];
  for (const words of sheets(random)) {
    const number = record.verdict(words);
    numbers.add(number);
    if (words[1] >= 256) long.add(number);
    if (random.chance(0.2)) found.add(record.entries(words, random.choose([0, 0, 1, 2, 7, 8, 0xffffffff])));
    if (numbers.sum() === VERDICTS) break;
  }
  assert.equal(record.difference(), null);
  for (const number of [0, ...SHEET_NUMBERS]) assert.ok(numbers.counts[number] >= 100, `number ${number}: ${numbers.counts[number]} sheets`);
  for (const number of [0, 2, 9, 10, 11, 26]) assert.ok(long.counts[number] >= 50, `number ${number}: ${long.counts[number]} long grids`);
  for (const number of [0, 2, 7, 11, 15]) assert.ok(found.counts[number] > 0, `entries: number ${number}`);
  assert.equal(found.counts[26], 0, 'entries are handed back by 1 to 11 alone');
});

test('100,000 calls on sessions, with words of the state poked', () => {
  const random = seeded(2);
  const record = recordOf(calls);
  const numbers = counter();
  const seen = { landed: 0, inRegisters: 0, switched: 0, crowded: 0, none: 0, underWay: 0, listedUnderWay: 0, listed: counter() };
  while (numbers.sum() < SESSION_CALLS) playSession(random, record, passes, numbers, seen);
  assert.equal(record.difference(), null);
  const { counts } = numbers;
  assert.ok(counts[0] >= numbers.sum() / 3, `${counts[0]} of ${numbers.sum()} calls were carried out`);
  for (let number = 13; number <= 21; number++) assert.ok(counts[number] >= 100, `number ${number}: ${counts[number]} calls`);
  assert.ok(counts[26] >= 20, `${counts[26]} loads were refused with number 26`);
  for (const number of [0, 15, 16, 17]) assert.ok(seen.listed.counts[number] >= 100, `${number} answers ${seen.listed.counts[number]} transfers`);
  assert.ok(seen.underWay >= 100, `${seen.underWay} starts got 17 by words under way`);
  assert.ok(seen.listedUnderWay >= 100, `${seen.listedUnderWay} transfers of lists got 17 by words under way`);
  assert.ok(seen.landed >= 1000, `${seen.landed} landings were seen`);
  assert.ok(seen.inRegisters >= 1000, `${seen.inRegisters} words were seen in registers of long vertical links`);
  assert.ok(seen.switched >= 100, `${seen.switched} switches were seen`);
  assert.ok(seen.crowded >= 20, `${seen.crowded} sessions had 16 circuits or more`);
  assert.ok(seen.none >= 10, `${seen.none} sessions were loaded by no words`);
});

// A list for argo_hours: windows that make a timetable, ones that nearly do, and words that are no windows.
function hoursList(random) {
  const windows = timetable(random, { modes: 8 });
  const words = (random.chance(0.4) ? severalFaults(random, windows) : windows).flatMap(({ start, length, mode }) => [start, length, mode]);
  if (random.chance(0.1)) words.splice(random.below(words.length + 1), 1);
  const odd = [0, 7, 8, 10079, 10080, 4294967295, random.word()];
  if (random.chance(0.2) && words.length > 0) words[random.below(words.length)] = random.choose(odd);
  return words;
}

test('5,000 asks of timetables, with all fields', () => {
  const random = seeded(3);
  const record = recordOf(calls);
  const [numbers, seen] = [counter(), { changes: 0, never: 0, nextWeek: 0, none: 0 }];
  while (numbers.sum() < HOURS) {
    const list = hoursList(random);
    const edges = list.filter((_, at) => at % 3 < 2);
    for (let asks = 0; asks < 10; asks++) {
      const minute = random.choose([random.below(10080), random.below(10080), 0, 10079, 10080, random.word(), ...edges]);
      const answer = record.hours(list, minute);
      assert.deepEqual(answer, calls.hours(list, minute));
      numbers.add(answer.number);
      if (answer.number !== 0) continue;
      seen[answer.changes ? 'changes' : 'never']++;
      if (answer.changes && answer.minute < minute) seen.nextWeek++;
      if (list.length === 0) seen.none++;
    }
  }
  assert.equal(record.difference(), null);
  for (const number of [0, 31, 32]) assert.ok(numbers.counts[number] >= 100, `number ${number}: ${numbers.counts[number]} asks`);
  for (const [what, count] of Object.entries(seen)) assert.ok(count >= 10, `${what}: ${count} asks`);
});

// The calls with as many words of the state lent as are told; the planner always lends the published length.
async function callsOfLength() {
  const { exports: exported } = (await WebAssembly.instantiate(provedBytes(), {})).instance;
  exported.memory.grow(8);
  const place = (exported.__heap_base.value + 3) >> 2;
  const words = () => new Uint32Array(exported.memory.buffer);
  const [memoryPlace, sheetPlace] = [place + 16384, place + 17000];
  let [stateLength, memoryLength] = [exported.argo_state_words(), 0];
  const state = () => [place * 4, BigInt(stateLength)];
  const memory = () => [memoryPlace * 4, BigInt(memoryLength)];
  const value = (answer) => ({ number: Number(BigInt.asUintN(64, answer) >> 32n), value: Number(answer & 0xffffffffn) });
  // The words for answers lie behind every list.
  const answersPlace = sheetPlace + 1000;
  const lentAnswers = (answers) => [answersPlace * 4, BigInt(answers.length)];
  function answered(lists, answers, call) {
    const lent = lists.map((list, at) => [sheetPlace + 100 * at, list]);
    for (const [at, list] of [...lent, [answersPlace, answers]]) words().set(list, at);
    const number = call(lent.map(([at, list]) => [at * 4, BigInt(list.length)]));
    return { number, answers: [...words().subarray(answersPlace, answersPlace + answers.length)] };
  }
  return {
    lendState: (length) => (stateLength = length),
    lentState: () => words().subarray(place, place + stateLength),
    lentMemory: () => words().subarray(memoryPlace, memoryPlace + memoryLength),
    load(sheet, contents) {
      words().set(sheet, sheetPlace);
      words().set(contents, memoryPlace);
      memoryLength = contents.length;
      return exported.argo_load(sheetPlace * 4, BigInt(sheet.length), ...state(), ...memory());
    },
    start: (...list) => exported.argo_start(...state(), ...list),
    startAll: (transfers, answers) =>
      answered([transfers.flat()], answers, ([[at]]) => exported.argo_start_all(...state(), at, BigInt(transfers.length), ...lentAnswers(answers))),
    startLists: (lists, answers) => answered(lists, answers, (lent) => exported.argo_start_lists(...state(), ...lent.flat(), ...lentAnswers(answers))),
    store: (...list) => exported.argo_store(...state(), ...memory(), ...list),
    fetch: (...list) => value(exported.argo_fetch(...state(), ...memory(), ...list)),
    wordsLeft: (...list) => value(exported.argo_words_left(...state(), ...list)),
    periodNumber: () => value(exported.argo_period_number(...state())),
    landedField: (...list) => value(exported.argo_landed(...state(), ...list)),
    order: (...list) => exported.argo_order(...state(), ...list),
    cycle: () => exported.argo_cycle(...state(), ...memory()),
  };
}

test('states that are too short, and longer ones', async () => {
  const sheetA = [2, 2, 8, 1, 1, 0, 1, 0, 4, 0, 4, 9, 1, 0, 3, 0, 13];
  const list = [
    ['start', 0, 0, 0, 3, 0], ['store', 0, 0, 11], ['fetch', 0, 0], ['wordsLeft', 0],
    ['periodNumber'], ['landedField', 1, 0], ['order', 0, 3], ['cycle'],
    ['startAll', [[0, 0, 0, 3, 0]], [7, 8]], ['startLists', [[0], [0], [0], [3], [0]], [7, 8]],
  ];
  const record = recordOf(await callsOfLength());
  const published = calls.stateWords;
  for (const length of [published, 0, 1, 1839, 1840, 1841, published - 1, published, published + 1, 16000]) {
    record.lendState(length);
    for (const [name, ...words] of [['load', sheetA, new Array(32).fill(7)], ...list]) {
      const { number } = record.call(name, ...words);
      assert.equal(number === 12, length < published, `${name} with ${length} words: ${number}`);
    }
  }
  assert.equal(record.difference(), null);
});
