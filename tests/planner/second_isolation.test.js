// The isolation table, the comparison and the figures against a second table that was written from the documents alone.
import test from 'node:test';
import assert from 'node:assert/strict';
import { openProved } from '../../planner/command/proved.js';
import { documentOfRows, documentOfWords } from '../../planner/lib/document.js';
import { circuitsOf, compareDocuments, modePairs } from '../../planner/lib/isolation.js';
import { routeOfLetters, shortestRoutes } from '../../planner/lib/route.js';
import { openRun, sheetBeginningIn } from '../../planner/lib/run.js';
import { wordsOf } from '../../planner/lib/sheet.js';
import { random } from './random.js';
import { comparisonTable, figures, isolationTable } from './second_isolation.js';
import { sheetParts } from './sheets.js';

const calls = await openProved();
const passes = (words) => calls.verdict(words) === 0;
const byOffset = (a, b) => a.words[0] - b.words[0] || a.words[2] - b.words[2];

// A schedule changed a little, or not at all: a route, an offset, a length, the period, an entry less.
function changed(random, parts, schedule) {
  const entries = schedule.entries.map(({ words }) => ({ words: [...words] }));
  const period = random.chance(0.15) ? schedule.period + 1 : schedule.period;
  for (const entry of entries) {
    const [source, destination] = parts.circuits[entry.words[2]].words;
    if (random.chance(0.3)) entry.words[3] = routeOfLetters(random.choose(shortestRoutes(parts.columns, parts.rows, source, destination)));
    if (random.chance(0.1)) entry.words[0] += 1;
    if (random.chance(0.1)) entry.words[1] = Math.max(2, entry.words[1] - 1);
  }
  if (entries.length > 0 && random.chance(0.15)) entries.splice(random.below(entries.length), 1);
  return { period, entries: entries.sort(byOffset) };
}

// A sheet that passes and has a mode that is like another one.
function withLikeModes(seeded) {
  for (;;) {
    const parts = sheetParts(seeded, passes, { circuits: 6, modes: 2, slots: 8 });
    if (parts.circuits.length === 0) continue;
    const schedules = [...parts.schedules, ...parts.schedules.map((schedule) => changed(seeded, parts, schedule))];
    const more = { ...parts, schedules };
    if (passes(wordsOf(more))) return more;
  }
}

// The same sheet with a circuit less (so that others are renumbered), another memory size, modes or a record changed.
function changedSheet(seeded, parts) {
  for (let tries = 0; tries < 50; tries++) {
    const gone = seeded.chance(0.5) ? seeded.below(parts.circuits.length) : -1;
    const kept = parts.circuits.map((_, number) => number).filter((number) => number !== gone);
    const circuits = kept.map((number) => ({ words: [...parts.circuits[number].words] }));
    if (seeded.chance(0.2) && circuits.length > 0) seeded.choose(circuits).words[seeded.choose([3, 5])] += 1;
    const schedules = parts.schedules.map((schedule) => {
      const own = { period: schedule.period, entries: schedule.entries.filter(({ words }) => words[2] !== gone) };
      const renumbered = own.entries.map(({ words }) => ({ words: [words[0], words[1], kept.indexOf(words[2]), words[3]] }));
      return changed(seeded, { ...parts, circuits }, { ...own, entries: renumbered });
    });
    const other = { ...parts, memory: parts.memory + seeded.below(3), circuits, schedules };
    if (passes(wordsOf(other))) return { other, kept };
  }
  return { other: parts, kept: parts.circuits.map((_, number) => number) };
}

// The rows of parts as a plan, the circuits named by what they were.
function planOf(parts, names) {
  const rows = [['network', parts.columns, parts.long ? `${parts.rows} long` : parts.rows, parts.memory]];
  parts.circuits.forEach(({ words }, number) => rows.push(['circuit', names[number], ...words]));
  parts.schedules.forEach(({ period, entries }, mode) => {
    rows.push(['mode', `m${mode}`, period]);
    for (const { words } of entries) rows.push(['slot', `m${mode}`, names[words[2]], words[0], words[1], words[3]]);
  });
  return documentOfRows('plan.csv', rows.map((row) => row.map(String)));
}

test('pairs of modes and figures of 600 sheets', () => {
  const seeded = random(41);
  const kinds = { 0: 0, 1: 0, 2: 0 };
  const seen = { undisturbed: 0, silent: 0, differs: 0 };
  for (let sheet = 0; sheet < 600; sheet++) {
    const words = wordsOf(withLikeModes(seeded));
    const document = documentOfWords('a.sheet', words.join(' '));
    const ours = modePairs(document).map(({ circuit, first, second, answer }) => ({ circuit, first, second, answer }));
    assert.deepEqual(ours, isolationTable(words));
    for (const { answer } of ours) seen[answer]++;
    const flat = circuitsOf(document).flatMap(({ number, hops, verticalHops, flight, modes }) =>
      modes.map(({ mode, wordsAPeriod, period }) => ({ circuit: number, schedule: mode, hops, verticalHops, flight, wordsAPeriod, period })),
    );
    assert.deepEqual(flat, figures(words));
    for (const { verticalHops } of flat) kinds[verticalHops]++;
  }
  for (const [hops, count] of Object.entries(kinds)) assert.ok(count > 200, `${hops} vertical hops are met ${count} times`);
  for (const [answer, count] of Object.entries(seen)) assert.ok(count > 200, `${answer} is met ${count} times`);
});

// What lands in a circuit's receive region in four periods of a mode, every circuit sending, by the proved session.
function landings(words, mode, circuit, cycles) {
  const [, destination, , , offset, length] = circuit.words;
  const run = openRun(calls, sheetBeginningIn(words, mode), { sending: true });
  const found = [];
  while (run.cycle < cycles) {
    const { cycle, landings } = run.step();
    for (const { node, address, word, kind } of landings) {
      if (node === destination && address >= offset && address < offset + length) found.push(`${cycle} ${address} ${word} ${kind}`);
    }
  }
  return found;
}

test('what is undisturbed lands the same words in the same cycles in the proved session', () => {
  const seeded = random(43);
  const seen = { undisturbed: 0, silent: 0, differs: 0, words: 0, different: 0 };
  for (let sheet = 0; sheet < 60; sheet++) {
    const parts = withLikeModes(seeded);
    const words = wordsOf(parts);
    for (const { circuit, first, second, answer } of modePairs(documentOfWords('a.sheet', words.join(' ')))) {
      const cycles = 4 * parts.schedules[first].period;
      const [one, other] = [first, second].map((mode) => landings(words, mode, parts.circuits[circuit], cycles));
      if (answer !== 'differs') assert.deepEqual(one, other);
      if (answer === 'silent') assert.equal(one.length, 0);
      seen[answer]++;
      seen.words += one.length;
      if (one.join() !== other.join()) seen.different++;
    }
  }
  assert.ok(seen.undisturbed > 50 && seen.words > 1000 && seen.different > seen.differs / 2, JSON.stringify(seen));
});

test('comparisons of 600 pairs of sheets, by name and by record', () => {
  const seeded = random(42);
  const seen = { undisturbed: 0, silent: 0, differs: 0 };
  for (let sheet = 0; sheet < 600; sheet++) {
    const parts = withLikeModes(seeded);
    const { other, kept } = changedSheet(seeded, parts);
    const modes = parts.schedules.map((_, mode) => [mode, mode]);
    const names = parts.circuits.map((_, number) => `c${number}`);
    const named = compareDocuments(planOf(parts, names), planOf(other, kept.map((number) => names[number])));
    const pairs = kept.map((number, at) => [number, at]);
    const row = (circuit, mode) => ({ circuit: circuit.old, other: circuit.new, first: mode.old, second: mode.new, answer: mode.answer });
    const flat = ({ circuits }) => circuits.flatMap((circuit) => circuit.modes.map((mode) => row(circuit, mode)));
    const ours = flat(named);
    assert.deepEqual(ours, comparisonTable(wordsOf(parts), wordsOf(other), pairs, modes));
    for (const { answer } of ours) seen[answer]++;
    const [first, second] = [parts, other].map((one) => documentOfWords('a.sheet', wordsOf(one).join(' ')));
    const record = compareDocuments(first, second);
    const same = pairs.filter(([c, d]) => parts.circuits[c].words.join() === other.circuits[d].words.join());
    assert.deepEqual(flat(record), comparisonTable(wordsOf(parts), wordsOf(other), same, modes));
  }
  for (const [answer, count] of Object.entries(seen)) assert.ok(count > 200, `${answer} is met ${count} times`);
});

test('grids that differ, in size or in kind', () => {
  const circuit = [0, 1, 0, 1, 0, 1];
  const sheet = (columns, rows) => [columns, rows, 8, 1, 1, ...circuit, 9, 1, 0, 2, 0, 13];
  const sizes = [[[2, 3], [3, 2]], [[2, 258], [2, 3]]].map((pair) => [...pair, /grids differ/]);
  const kinds = [[[2, 3], [2, 259]], [[2, 258], [2, 2]]].map((pair) => [...pair, /two kinds/]);
  for (const [one, other, reason] of [...sizes, ...kinds]) {
    const [first, second] = [sheet(...one), sheet(...other)];
    const ours = compareDocuments(documentOfWords('a.sheet', first.join(' ')), documentOfWords('b.sheet', second.join(' ')));
    assert.deepEqual([ours.comparable, ours.circuits], [false, []]);
    assert.match(ours.reason, reason);
    assert.deepEqual(comparisonTable(first, second, [[0, 0]], [[0, 0]]).map(({ answer }) => answer), ['grids differ']);
  }
  for (const grid of [[2, 2], [2, 258]]) {
    const [document, words] = [documentOfWords('a.sheet', sheet(...grid).join(' ')), sheet(...grid)];
    assert.equal(compareDocuments(document, document).comparable, true);
    assert.deepEqual(comparisonTable(words, words, [[0, 0]], [[0, 0]]).map(({ answer }) => answer), ['undisturbed']);
  }
});
