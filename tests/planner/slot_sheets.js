// Sheets for the tests of the pictures: circuits without fault, and slots that pass, that clash or that end late.
import assert from 'node:assert/strict';
import { routeOfLetters, shortestRoutes } from '../../planner/lib/route.js';
import { openRun } from '../../planner/lib/run.js';
import { wordsOf } from '../../planner/lib/sheet.js';
import { lastOffset, served } from './sheets.js';

const MEMORY = 2048;
// As many words as a source can send in three periods of 30 cycles.
const MANY = 90;

// Circuits on a grid, sorted as the rules want them, their regions apart. Each has one length of slot; with `full` its regions hold all
// words of a test, so that a circuit that is kept sending fills each slot: the next transfer would have to wait for the last landing.
export function circuitsOn(random, columns, rows, count, full) {
  const nodes = columns * rows;
  const free = new Array(nodes).fill(0);
  const take = (node, size) => (free[node] += size) - size;
  const circuits = [];
  for (let number = 0; number < count; number++) {
    const source = random.below(nodes);
    const destination = (source + random.between(1, nodes - 1)) % nodes;
    const length = random.between(2, 7);
    const size = full ? MANY : random.between(1, 9);
    circuits.push({ length, words: [source, destination, take(source, size), size, take(destination, size), size] });
  }
  circuits.sort((a, b) => a.words[1] - b.words[1] || a.words[4] - b.words[4]);
  return circuits.map((circuit, number) => ({ ...circuit, number }));
}

export function gridOf(random, count, full) {
  const [columns, rows] = [random.between(2, 4), random.between(2, 4)];
  const grid = { columns, rows, long: random.chance(0.5), memory: MEMORY };
  return { ...grid, circuits: circuitsOn(random, columns, rows, count, full), schedules: [] };
}

// An entry of a circuit by some shortest route; `late` allows offsets that number 10 does not.
function entryOf(random, parts, period, late) {
  const { number, length, words } = random.choose(parts.circuits);
  const letters = random.choose(shortestRoutes(parts.columns, parts.rows, words[0], words[1]));
  const last = late ? period - 1 : lastOffset(parts, period, length, letters);
  return last < 0 ? null : { words: [random.between(0, last), length, number, routeOfLetters(letters)] };
}

function sorted(entries) {
  const list = [...entries].sort((a, b) => a.words[0] - b.words[0] || a.words[2] - b.words[2]);
  return list.filter((entry, at) => at === 0 || entry.words[0] !== list[at - 1].words[0] || entry.words[2] !== list[at - 1].words[2]);
}

// A schedule of entries that nothing but their clashes (and, with `late`, their ends) speaks against.
export function anySchedule(random, parts, period, count, late) {
  const entries = Array.from({ length: count }, () => entryOf(random, parts, period, late)).filter((entry) => entry);
  return { period, entries: sorted(entries) };
}

// A schedule that passes: entry after entry is added where the verdict upon the sheet stays 0.
export function passingSchedule(random, calls, parts, period, tries) {
  let schedule = { period, entries: [] };
  for (let one = 0; one < tries; one++) {
    const entry = entryOf(random, parts, period, false);
    const more = entry && { period, entries: sorted([...schedule.entries, entry]) };
    if (more && calls.verdict(wordsOf(served({ ...parts, schedules: [more] }))) === 0) schedule = more;
  }
  return schedule;
}

// A document of words whose circuits and modes have names of a form.
export function documentOf(words, circuitName, modeName) {
  const names = (most, name) => Array.from({ length: most }, (_, number) => name(number));
  const named = { circuitNames: names(64, circuitName), modeNames: names(8, modeName) };
  return { name: 'generated', kind: 'words', plan: null, problems: [], words, ...named };
}

// The frames of so many cycles in which every circuit is kept sending; `between` is called before each.
export function sendingFrames(calls, words, cycles, between = () => {}) {
  const run = openRun(calls, words, { sending: true });
  const frames = [];
  for (let cycle = 0; cycle < cycles; cycle++) {
    between(cycle);
    frames.push(run.step());
  }
  assert.equal(run.refused, null);
  return frames;
}
