// Sheets for tests, from a seeded generator: parts that pass, words that nearly do, and words at random.
import { routeOfLetters, shortestRoutes } from '../../planner/lib/route.js';
import { compareCircuits, partsOf, wordsOf } from '../../planner/lib/sheet.js';

const LARGE = [0x7fffffff, 0x80000000, 0xfffffffe, 0xffffffff];
// What is added to the rows where vertical links are long.
const LONG = 256;

// The last offset that number 10 lets a slot have: each hop takes three cycles, and one north or south a fourth where links there are long.
export function lastOffset({ long }, period, length, letters) {
  const vertical = long ? letters.replace(/[EW]/g, '').length : 0;
  return Math.min(period - 1, period + 2 - (length - 1) - 3 * letters.length - vertical);
}

// A place for a region at a node, behind those that lie there already; null where there is no room.
function region(random, free, node, memory, most) {
  const offset = free[node] + (random.chance(0.3) ? random.below(3) : 0);
  const length = random.between(1, most);
  if (offset + length > memory) return null;
  free[node] = offset + length;
  return [offset, length];
}

// Circuits whose regions lie apart, sorted; two may read from one region.
function circuitsOf(random, { columns, rows, memory }, count, most) {
  const nodes = columns * rows;
  const free = new Array(nodes).fill(0);
  const reads = new Map();
  const circuits = [];
  for (let number = 0; number < count; number++) {
    const source = random.below(nodes);
    const destination = (source + random.between(1, nodes - 1)) % nodes;
    const shared = random.chance(0.2) ? reads.get(source) : undefined;
    const read = shared ?? region(random, free, source, memory, most);
    const receive = region(random, free, destination, memory, most);
    if (!read || !receive) continue;
    reads.set(source, read);
    circuits.push([source, destination, ...read, ...receive]);
  }
  return circuits.sort(compareCircuits).map((words, number) => ({ number, words }));
}

const byOffset = (a, b) => a.words[0] - b.words[0] || a.words[2] - b.words[2];

// Parts without the circuits that no schedule has an entry for, the others numbered anew: number 26 asks for an entry of each.
export function served(parts) {
  const sending = new Set(parts.schedules.flatMap(({ entries }) => entries.map(({ words }) => words[2])));
  const kept = parts.circuits.map((_, number) => number).filter((number) => sending.has(number));
  const renumbered = ({ words: [offset, length, circuit, route] }) => ({ words: [offset, length, kept.indexOf(circuit), route] });
  const schedules = parts.schedules.map((schedule) => ({ ...schedule, entries: schedule.entries.map(renumbered) }));
  return { ...parts, circuits: kept.map((circuit, number) => ({ ...parts.circuits[circuit], number })), schedules };
}

// The words of one schedule with the circuits that it serves.
const wordsOfOne = (parts, schedule) => wordsOf(served({ ...parts, schedules: [schedule] }));

// A schedule with one more slot of a circuit, where `passes` takes it; else as it is.
function withSlot(random, parts, passes, schedule, { number, words }, longest) {
  const { period } = schedule;
  const letters = random.choose(shortestRoutes(parts.columns, parts.rows, words[0], words[1]));
  const length = random.between(2, longest);
  const last = lastOffset(parts, period, length, letters);
  if (last < 0) return schedule;
  const offset = random.chance(0.2) ? last : random.between(0, last);
  const entries = [...schedule.entries, { words: [offset, length, number, routeOfLetters(letters)] }].sort(byOffset);
  return passes(wordsOfOne(parts, { period, entries })) ? { period, entries } : schedule;
}

// A schedule to which slot after slot is added.
function scheduleOf(random, parts, passes, period, slots, longest) {
  let schedule = { period, entries: [] };
  for (let slot = 0; slot < slots && parts.circuits.length > 0; slot++) {
    schedule = withSlot(random, parts, passes, schedule, random.choose(parts.circuits), longest);
  }
  return schedule;
}

const TRIES = 4;

// The schedules with slots for the circuits that have none, as far as some tries find them.
function withAllServed(random, parts, passes) {
  const schedules = [...parts.schedules];
  for (const circuit of parts.circuits) {
    const isServed = () => schedules.some(({ entries }) => entries.some(({ words }) => words[2] === circuit.number));
    for (let tries = 0; tries < TRIES && !isServed(); tries++) {
      const mode = random.below(schedules.length);
      schedules[mode] = withSlot(random, parts, passes, schedules[mode], circuit, 3);
    }
  }
  return schedules;
}

// The parts of a sheet that passes; `passes` says whether words do. The options are the most of each thing. A circuit that gets no slot is
// left out.
export function sheetParts(random, passes, most = {}) {
  const { circuits = 6, modes = 3, slots = 6, period = 30, memory = 32, length = 6, region: words = 6 } = most;
  const grid = { columns: random.between(2, 4), rows: random.between(2, 4), long: random.chance(0.4) };
  const parts = { ...grid, memory: random.between(Math.min(8, memory), memory), schedules: [] };
  parts.circuits = circuitsOf(random, parts, random.below(circuits + 1), words);
  const count = random.between(1, modes);
  for (let mode = 0; mode < count; mode++) {
    const schedule = scheduleOf(random, parts, passes, random.between(9, period), random.below(slots + 1), random.between(2, length));
    parts.schedules.push(schedule);
  }
  parts.schedules = withAllServed(random, parts, passes);
  return served(parts);
}

// The words of a sheet that is as large as sheets can be; among 2,048 slots every circuit has some.
export function largestSheet(random, passes) {
  const parts = { columns: 4, rows: 4, long: random.chance(0.5), memory: 16384, schedules: [] };
  parts.circuits = circuitsOf(random, parts, 64, 100);
  for (let mode = 0; mode < 8; mode++) {
    const schedule = { period: 1024, entries: [] };
    while (schedule.entries.length < 256) schedule.entries = withOneMore(random, parts, passes, schedule);
    parts.schedules.push(schedule);
  }
  return wordsOf(parts);
}

// A schedule's entries with one more, where `passes` takes it.
function withOneMore(random, parts, passes, { period, entries }) {
  const { number, words } = random.choose(parts.circuits);
  const route = routeOfLetters(random.choose(shortestRoutes(parts.columns, parts.rows, words[0], words[1])));
  const more = [...entries, { words: [random.below(1000), 2, number, route] }].sort(byOffset);
  return passes(wordsOfOne(parts, { period, entries: more })) ? more : entries;
}

// A word near to another, or at a limit, or anything.
function otherWord(random, word) {
  const small = [0, 1, 2, 3, 4, 5, 8, 9, 15, 16, 17, 64, 65, 256, 257, 258, 260, 261, 514, 1024, 1025, 16384, 16385, 65535, 65536];
  return random.choose([word + 1, word - 1, random.choose(small), random.choose(LARGE), random.below(40), random.word()]) >>> 0;
}

function set(words, at, word) {
  const changed = [...words];
  changed[at] = word >>> 0;
  return changed;
}

// Words with two parts of one length exchanged, or with the second made like the first.
function exchanged(words, first, second, length, copied) {
  const changed = [...words];
  for (let at = 0; at < length; at++) {
    changed[second + at] = words[first + at];
    if (!copied) changed[first + at] = words[second + at];
  }
  return changed;
}

// An entry with its schedule, or undefined.
function anyEntry(random, parts) {
  return random.choose(parts.schedules.flatMap((schedule) => schedule.entries.map((entry) => ({ ...entry, schedule }))));
}

// One edit for each way in which a sheet can nearly pass. An edit that a sheet has no place for gives undefined.
const EDITS = [
  (random, words) => words.slice(0, random.below(5)),
  (random, words) => set(words, random.below(5), otherWord(random, words[random.below(5)])),
  // The same rows with vertical links of the other kind, and 256 where it does not belong.
  (random, words) => set(words, 1, words[1] < LONG ? words[1] + LONG : words[1] - LONG),
  (random, words) => set(words, random.below(2), random.choose([words[0] + LONG, words[1] + LONG, LONG, LONG + 1, LONG + 5, 2 * LONG])),
  (random, words) => words.slice(0, words.length - random.between(1, 4)),
  (random, words) => [...words, random.below(3)],
  (random, words, parts) => {
    const { at } = random.choose(parts.schedules);
    return set(words, at + 1, random.choose([words[at + 1] + 1, words[at + 1] - 1, 256, 257, 0xffffffff]));
  },
  (random, words, parts) => {
    const circuit = random.choose(parts.circuits);
    const field = random.below(6);
    const limits = field < 2 ? [parts.columns * parts.rows, words[circuit?.at + 1 - field]] : [0, parts.memory, parts.memory + 1];
    return circuit && set(words, circuit.at + field, random.choose([...limits, ...LARGE, random.below(parts.memory)]));
  },
  (random, words, parts) => {
    const [first, second] = [random.choose(parts.circuits), random.choose(parts.circuits)];
    return first && exchanged(words, first.at, second.at, 6, random.chance(0.5));
  },
  // A receive region is moved onto another region of its node.
  (random, words, parts) => {
    const circuit = random.choose(parts.circuits);
    const others = parts.circuits.filter((other) => other !== circuit && other.words.slice(0, 2).includes(circuit.words[1]));
    if (others.length === 0) return undefined;
    const other = random.choose(others).words;
    const [offset, length] = other[1] === circuit.words[1] ? other.slice(4) : other.slice(2);
    const moved = { ...circuit, words: [...circuit.words.slice(0, 4), offset + random.below(length), circuit.words[5]] };
    const circuits = parts.circuits.map((one) => (one === circuit ? moved : one)).sort((a, b) => compareCircuits(a.words, b.words));
    return wordsOf({ ...parts, circuits });
  },
  (random, words, parts) => set(words, random.choose(parts.schedules).at, random.choose([0, 8, 9, 1024, 1025, ...LARGE])),
  (random, words, parts) => {
    const entry = anyEntry(random, parts);
    if (!entry) return undefined;
    const { period } = entry.schedule;
    const limits = [[period, period - 1], [0, 1, 16, 17], [parts.circuits.length], [65536, 65536 + entry.words[3]]];
    const field = random.below(4);
    return set(words, entry.at + field, random.choose([...limits[field], random.choose(LARGE)]));
  },
  (random, words, parts) => {
    const { entries } = random.choose(parts.schedules);
    const [first, second] = [random.choose(entries), random.choose(entries)];
    return first && exchanged(words, first.at, second.at, 4, random.chance(0.5));
  },
  (random, words, parts) => {
    const entry = anyEntry(random, parts);
    const routes = [entry?.words[3] ^ (1 << random.below(16)), random.below(1024), random.below(65536)];
    return entry && set(words, entry.at + 3, random.choose(routes));
  },
  // The last entry of a schedule as late as may be, or one cycle later.
  (random, words, parts) => {
    const { entries, period } = random.choose(parts.schedules);
    const entry = entries[entries.length - 1];
    if (!entry) return undefined;
    const [source, destination] = parts.circuits[entry.words[2]].words;
    const [letters] = shortestRoutes(parts.columns, parts.rows, source, destination);
    return set(words, entry.at, lastOffset(parts, period, entry.words[1], letters) + random.below(2));
  },
  // An entry at another offset, or longer, with the order kept.
  (random, words, parts) => {
    const schedule = random.choose(parts.schedules);
    const entry = random.choose(schedule.entries);
    if (!entry) return undefined;
    const changed = set(entry.words, random.below(2), random.between(2, schedule.period - 1));
    const entries = schedule.entries.map((one) => (one === entry ? { words: changed } : one)).sort(byOffset);
    return wordsOf({ ...parts, schedules: parts.schedules.map((one) => (one === schedule ? { ...one, entries } : one)) });
  },
  // A circuit without its entries.
  (random, words, parts) => {
    const gone = random.choose(parts.circuits)?.number;
    const schedules = parts.schedules.map((one) => ({ ...one, entries: one.entries.filter((entry) => entry.words[2] !== gone) }));
    return gone === undefined ? undefined : wordsOf({ ...parts, schedules });
  },
  (random, words) => {
    const at = random.below(words.length);
    return set(words, at, otherWord(random, words[at]));
  },
];

// Words that a small edit has made of words that pass.
export function nearMiss(random, words) {
  return random.choose(EDITS)(random, words, partsOf(words)) ?? words;
}

// Words at random, some with a head as sheets have it.
export function randomWords(random) {
  const length = random.below(random.chance(0.1) ? 400 : 40);
  const words = Array.from({ length }, () => (random.chance(0.8) ? random.below(20) : random.word()));
  if (random.chance(0.3)) return words;
  const rows = random.between(2, 4) + (random.chance(0.4) ? LONG : 0);
  return [random.between(2, 4), rows, random.between(1, 64), random.below(4), random.between(1, 2), ...words.slice(5)];
}
