// Isolation by hand: the cable car, a case for each answer and each reason, and comparisons of two sheets.
import test from 'node:test';
import assert from 'node:assert/strict';
import { readFileSync } from 'node:fs';
import { openProved } from '../../planner/command/proved.js';
import { documentOfText, documentOfWords } from '../../planner/lib/document.js';
import { PREMISE, answerText, circuitsOf, compareDocuments, modePairs, slotsText } from '../../planner/lib/isolation.js';
import { landingsOf } from '../../planner/lib/listing.js';

const calls = await openProved();
const example = (name) => readFileSync(new URL(`../../examples/${name}`, import.meta.url), 'utf8');
const cableCar = example('cable-car.csv');

// A plan that passes: two circuits, each with a slot in some mode and with room for all slots that are asked for.
function plan({ grid = '2;2', memory = 40, circuits = ['circuit;a;0;1;0;20;0;20', 'circuit;b;2;3;0;20;0;20'], modes }) {
  const rows = [`network;${grid};${memory}`, ...circuits];
  for (const [name, period, ...slots] of modes) {
    rows.push(`mode;${name};${period}`, ...slots.map((slot) => `slot;${name};${slot}`));
  }
  const document = documentOfText('plan.csv', rows.join('\n'));
  assert.deepEqual(document.problems, []);
  assert.equal(calls.verdict(document.words), 0);
  return document;
}

const pairsOf = (document, circuit) => modePairs(document).filter((pair) => document.circuitNames[pair.circuit] === circuit);

test('cable car: speed is undisturbed in all three pairs of modes', () => {
  const document = documentOfText('cable-car.csv', cableCar);
  const speed = pairsOf(document, 'speed');
  assert.deepEqual(speed.map(({ first, second, answer, reasons }) => [first, second, answer, reasons]), [
    [0, 1, 'undisturbed', []],
    [0, 2, 'undisturbed', []],
    [1, 2, 'undisturbed', []],
  ]);
  assert.deepEqual(pairsOf(document, 'cabin').map(answerText), [
    'differs: slots 2+4 and 2+2',
    'differs: slots 2+4 in normal, silent in evacuation',
    'differs: slots 2+2 in high wind, silent in evacuation',
  ]);
  assert.equal(answerText(pairsOf(document, 'brake')[0]), 'differs: silent in normal, slots 4+2 in high wind');
});

test('cable car: flight times and shares', () => {
  const [speed, cabin, brake] = circuitsOf(documentOfText('cable-car.csv', cableCar));
  assert.deepEqual([speed.hops, speed.flight, cabin.flight, brake.hops, brake.flight], [1, 6, 6, 2, 9]);
  const shares = cabin.modes.map((mode) => [mode.name, mode.period, mode.wordsAPeriod]);
  assert.deepEqual(shares, [['normal', 12, 3], ['high wind', 12, 1], ['evacuation', 12, 0]]);
  assert.equal(brake.modes[2].wordsACycle, 4 / 12);
  assert.deepEqual(brake.modes[2].slots, [{ offset: 4, length: 5 }]);
  assert.deepEqual([brake.source, brake.destination, brake.record], [0, 3, [0, 3, 12, 4, 0, 4]]);
});

test('each answer, and each reason for a difference', () => {
  const document = plan({
    modes: [
      ['one', 20, 'a;0;2;E', 'a;5;2;E'],
      ['other route', 20, 'a;0;2;W', 'a;5;2;E', 'b;0;2;W'],
      ['longer period', 21, 'a;0;2;E', 'a;5;2;E'],
      ['fewer slots', 20, 'a;0;2;E'],
      ['longer slot', 20, 'a;0;3;E', 'a;5;2;E'],
      ['silent', 20],
      ['silent, longer', 30],
    ],
  });
  const both = ({ first, second }) => `${document.modeNames[first]}/${document.modeNames[second]}`;
  const answers = new Map(pairsOf(document, 'a').map((pair) => [both(pair), answerText(pair)]));
  assert.equal(answers.get('one/other route'), 'undisturbed');
  assert.equal(answers.get('one/longer period'), 'differs: period 20 and 21');
  assert.equal(answers.get('one/fewer slots'), 'differs: slots 0+2, 5+2 and 0+2');
  assert.equal(answers.get('one/longer slot'), 'differs: slots 0+2, 5+2 and 0+3, 5+2');
  assert.equal(answers.get('one/silent'), 'differs: slots 0+2, 5+2 in one, silent in silent');
  assert.equal(answers.get('one/silent, longer'), 'differs: period 20 and 30; slots 0+2, 5+2 in one, silent in silent, longer');
  assert.match(answers.get('silent/silent, longer'), /^silent in both/);
  assert.equal(answers.size, 21);
});

test('many slots are told by the first that differs', () => {
  const slots = (lengths) => lengths.map((length, at) => `a;${4 * at};${length};E`);
  const lengths = { p: [2, 2, 2, 2, 2, 2, 2], q: [2, 2, 2, 3, 2, 2, 2, 2], r: [2, 2, 2, 2, 2, 2, 2, 2] };
  const circuits = ['circuit;a;0;1;0;20;0;20'];
  const document = plan({ circuits, modes: Object.entries(lengths).map(([name, own]) => [name, 60, ...slots(own)]) });
  const [one, two] = pairsOf(document, 'a');
  assert.equal(answerText(one), 'differs: slots part at the 4th: 12+2 and 12+3 (7 slots and 8)');
  assert.equal(answerText(two), 'differs: slots part at the 8th: none and 28+2 (7 slots and 8)');
  assert.equal(slotsText(circuitsOf(document)[0].modes[0].slots), '0+2, 4+2, 8+2, 12+2, 16+2, 20+2, .. (7 slots)');
});

test('comparison: what may differ, and what may not', () => {
  const modes = [['m', 20, 'a;0;2;E', 'b;0;2;E'], ['n', 20, 'b;3;2;E']];
  const old = plan({ modes });
  const answer = (changed, circuit = 'a', mode = 'm') => {
    const found = compareDocuments(old, changed);
    assert.equal(found.comparable, true);
    return answerText(found.circuits.find(({ name }) => name === circuit).modes.find(({ name }) => name === mode));
  };
  const b = 'circuit;b;2;3;0;20;0;20';
  // Another circuit's number (c comes first), route and memory, and all of b.
  const free = plan({
    memory: 50,
    circuits: ['circuit;c;3;0;30;2;30;2', 'circuit;a;0;1;0;20;0;20', 'circuit;b;2;3;0;10;5;9'],
    modes: [['other', 9], ['m', 20, 'a;0;2;W', 'b;7;3;E', 'c;2;2;NE']],
  });
  assert.notEqual(free.circuitNames.indexOf('a'), old.circuitNames.indexOf('a'));
  assert.equal(answer(free), 'undisturbed');
  assert.equal(answer(free, 'b'), 'differs: read length 20 and 10; receive offset 0 and 5; receive length 20 and 9; slots 0+2 and 7+3');
  assert.equal(answer(plan({ circuits: ['circuit;a;0;1;1;19;0;20', b], modes })), 'differs: read offset 0 and 1; read length 20 and 19');
  const elsewhere = plan({ circuits: ['circuit;a;3;1;20;20;0;20', b], modes: [['m', 20, 'a;0;2;N', 'b;0;2;E']] });
  assert.equal(answer(elsewhere), 'differs: source 0 and 3; read offset 0 and 20');
  const rest = ['o', 20, 'a;0;2;E', 'b;0;2;E'];
  assert.equal(answer(plan({ modes: [['m', 22, 'a;0;2;E'], rest] })), 'differs: period 20 and 22');
  assert.equal(answer(plan({ modes: [['m', 20, 'a;1;2;E'], rest] })), 'differs: slots 0+2 and 1+2');
  assert.equal(answer(plan({ modes: [['m', 20], rest] })), 'differs: slots 0+2 in the old sheet, silent in the new sheet');
  assert.match(answer(plan({ modes: [['n', 30], rest] }), 'a', 'n'), /^silent in both/);
  const shorter = plan({ circuits: ['circuit;a;0;1;0;20;0;19', b], modes: [['n', 30], rest] });
  assert.equal(answer(shorter, 'a', 'n'), 'differs: receive length 20 and 19');
});

test('comparison: what is in one sheet alone, and grids that differ', () => {
  const old = plan({ modes: [['m', 20, 'a;0;2;E', 'b;0;2;E'], ['n', 20]] });
  const circuits = ['circuit;b;2;3;0;20;0;20', 'circuit;c;0;1;0;20;0;20'];
  const changed = plan({ circuits, modes: [['n', 20, 'b;0;2;E', 'c;0;2;E'], ['o', 20]] });
  const found = compareDocuments(old, changed);
  assert.deepEqual(found.circuits.map(({ name, modes }) => [name, modes.map((mode) => mode.name)]), [['b', ['n']]]);
  assert.deepEqual([found.circuitsInOldAlone, found.circuitsInNewAlone], [['a'], ['c']]);
  assert.deepEqual([found.modesInOldAlone, found.modesInNewAlone], [['m'], ['o']]);
  const wider = compareDocuments(old, plan({ grid: '3;2', modes: [['m', 20, 'a;0;2;E', 'b;0;2;ES']] }));
  assert.deepEqual([wider.comparable, wider.circuits.length], [false, 0]);
  assert.match(wider.reason, /grids differ \(2 by 2 and 3 by 2 nodes\)/);
  assert.equal(compareDocuments(old, plan({ grid: '2;3', modes: [['m', 20, 'a;0;2;E', 'b;0;2;E']] })).comparable, false);
});

test('files of words are matched by records and numbers', () => {
  const words = documentOfWords('modes.sheet', example('modes.sheet'));
  const found = compareDocuments(words, documentOfText('cable-car.csv', cableCar));
  const both = found.circuits.map(({ name, newName }) => [name, newName]);
  assert.deepEqual(both, [['circuit 0', 'speed'], ['circuit 1', 'cabin'], ['circuit 2', 'brake']]);
  assert.ok(found.circuits.every(({ modes }) => modes.every(({ answer }) => answer !== 'differs')));
});

test('the premise is needed: other starts of the circuit give other landings', () => {
  const run = (text) => landingsOf(calls, documentOfText('x.csv', text), 60).frames.flatMap(({ cycle, landings }) =>
    landings.filter(({ node, address }) => node === 0 && address < 4).map(({ word }) => `${cycle}:${word}`));
  const fewer = cableCar.replace('at;0;start;cabin;0;4;8;data', '').replace('at;0;order;high wind;3', '');
  const others = fewer.replace(/^memory;2.*$/m, 'memory;2;0;1;2');
  assert.ok(others.length < fewer.length && fewer.length < cableCar.length);
  assert.deepEqual(run(others), run(cableCar));
  assert.notDeepEqual(run(cableCar.replace('at;0;start;speed', 'at;1;start;speed')), run(cableCar));
  assert.match(PREMISE, /same starts of the circuit and the same stores into its two regions/);
});
