// Sessions for the comparison with the native archive: calls with right and wrong arguments, on states that are now and then poked.
import { partsOf, wordsOf } from '../../planner/lib/sheet.js';
import { nearMiss, sheetParts } from './sheets.js';

const STRANGE = [64, 65, 0x7fffffff, 0x80000000, 0xffffffff];
const ROW_WORDS = 80;
const SHEET_PLACE = 1840;
const LANDING_MARK_ROW = 12;
const EXTRA_MARK_ROW = 21;
const LEFT_ROW = 16;
const BUSY = 17;
// The rows that hold marks, choices or kinds (docs/STATE.md); the others hold words, addresses and counts.
const SMALL_ROWS = new Set([1, 3, 5, 6, 7, 9, 10, 12, 13, 19, 20, EXTRA_MARK_ROW]);
const LAST_ROW = 22;
// Rows with a place for each input or output, and those with a place for each node; the others have one for each circuit.
const ofPorts = (row) => row < 9 || row > 20;
const ofNodes = (row) => row >= 9 && row < 16;

// A number below a limit, or now and then one that is not.
const near = (random, limit) => (random.chance(0.9) && limit > 0 ? random.below(limit) : random.choose([limit, limit + 1, ...STRANGE]));

// The arguments of a start: mostly within the circuit's regions.
function startOf(random, { parts }) {
  const circuit = near(random, parts.circuits.length);
  const [, , readOffset, readLength, receiveOffset, receiveLength] = parts.circuits[circuit]?.words ?? [0, 0, 0, 1, 0, 1];
  const count = random.chance(0.2) ? 1 : random.between(1, Math.min(readLength, receiveLength));
  const kind = random.chance(0.85) ? 0 : random.choose([2, 2, 2, 1, 3, 4, 0xffffffff]);
  if (random.chance(0.15)) return [circuit, near(random, parts.memory), near(random, parts.memory), near(random, readLength + 1), kind];
  const inside = (offset, length) => offset + random.below(length - count + 1);
  return [circuit, inside(readOffset, readLength), inside(receiveOffset, receiveLength), count, kind];
}

// A list of starts and words for its answers, mostly as many; now and then longer than a list may be.
function startsOf(random, session) {
  const count = random.chance(0.9) ? random.below(9) : random.choose([63, 64, 65, 70]);
  const transfers = Array.from({ length: count }, () => startOf(random, session));
  const spare = random.chance(0.8) ? random.below(3) : -1;
  return [transfers, Array.from({ length: Math.max(0, count + spare) }, () => random.word())];
}

// The same as five lists of words, now and then one of them shorter or longer.
function listsOf(random, session) {
  const [transfers, answers] = startsOf(random, session);
  const lists = [0, 1, 2, 3, 4].map((field) => transfers.map((words) => words[field]));
  if (random.chance(0.2)) random.choose(lists).push(random.word());
  if (random.chance(0.2)) random.choose(lists).pop();
  return [lists, answers];
}

// The calls, each as often as it stands here.
const CALLS = [
  ...new Array(9).fill(() => ['cycle']),
  ...new Array(4).fill((random, session) => ['start', ...startOf(random, session)]),
  (random, session) => ['startAll', ...startsOf(random, session)],
  (random, session) => ['startLists', ...listsOf(random, session)],
  ...new Array(2).fill((random, session) => ['landedField', near(random, session.nodes), random.choose([0, 0, 1, 2, 3, 4, 0xffffffff])]),
  (random, session) => ['store', near(random, session.nodes), near(random, session.parts.memory), random.word()],
  (random, session) => ['fetch', near(random, session.nodes), near(random, session.parts.memory)],
  (random, session) => ['wordsLeft', near(random, session.parts.circuits.length)],
  () => ['periodNumber'],
  (random, session) => {
    const ahead = random.chance(0.8) ? 3 : random.choose([0, 1, 2, 4, 0x7fffffff, 0x80000000, 0xffffffff]);
    return ['order', near(random, session.parts.schedules.length), (session.register(0, 1) + ahead) >>> 0];
  },
];

// A load that is mostly refused: a sheet that nearly passes, or a memory of another length.
function otherLoad(random, { words, given, contents }) {
  return random.chance(0.7) ? ['load', nearMiss(random, words), contents] : ['load', given, contents.slice(random.between(1, 9))];
}

// A word to poke, its place and its new value: the clock, a register, the sheet in the state.
function pokeOf(random, { parts, words }) {
  const kind = random.below(10);
  if (kind === 0) return [random.below(6), random.choose([0, 1, 2, 3, random.below(30), 0xfffffffd, 0xffffffff])];
  if (kind === 1) return [SHEET_PLACE + random.below(words.length + 3), random.choose([random.below(20), random.word()])];
  const row = random.between(1, LAST_ROW);
  const nodes = parts.columns * parts.rows;
  const place = random.below(ofPorts(row) ? 5 * nodes : ofNodes(row) ? nodes : parts.circuits.length + 1);
  const header = random.choose([0, 2, 2, 1, 3]) * 0x40000000 + random.below(40) * 65536 + random.below(1024);
  const word = SMALL_ROWS.has(row) ? random.below(5) : random.choose([random.below(parts.memory), header, random.word()]);
  return [row * ROW_WORDS + place, word];
}

// Pokes some words, makes some calls, and mostly puts the words back as they were.
function pokeRound(random, session, make) {
  const { record } = session;
  const pokes = Array.from({ length: random.between(1, 4) }, () => pokeOf(random, session));
  const earlier = pokes.map(([at]) => [at, record.calls.lentState()[at]]);
  for (const [at, word] of pokes) record.pokeState(at, word);
  for (let call = random.between(1, 5); call > 0; call--) make(random.chance(0.5) ? ['cycle'] : random.choose(CALLS)(random, session));
  const unsound = make(['periodNumber']).number !== 0;
  if (unsound || random.chance(0.3)) for (const [at, word] of earlier.reverse()) record.pokeState(at, word);
}

// Lends another number of memory words for some calls.
function memoryRound(random, session, make) {
  const { length } = session.contents;
  session.record.lendMemory(random.choose([0, length - 1, length + 1, length + random.below(100)]));
  for (let call = random.between(1, 3); call > 0; call--) make(random.choose(CALLS)(random, session));
  session.record.lendMemory(length);
}

// The most of each thing in a session's sheet. Compiled loops go another way where there are many circuits.
const USUAL = { circuits: 8, period: 16, slots: 8, memory: 24 };
const CROWDED = { circuits: 64, period: 40, slots: 40, memory: 160 };
const HUGE = { ...USUAL, memory: 16384 };

// A sheet with what is in the memories, and as it is looked at to choose arguments.
function openSession(random, record, passes) {
  const most = random.chance(0.005) ? HUGE : random.chance(0.2) ? CROWDED : USUAL;
  // Now and then no words, which stand for an idle network.
  const none = random.chance(0.08);
  const parts = none ? partsOf([]) : sheetParts(random, passes, most);
  const contents = Array.from({ length: parts.columns * parts.rows * parts.memory }, () => random.word());
  const nodes = parts.columns * parts.rows;
  const words = wordsOf(parts);
  return { record, parts, words, given: none ? [] : words, contents, nodes, register: record.calls.register };
}

// Counts starts that are refused with 17 though their circuits have no words left to send: words of theirs are under way. A refused start
// changes nothing, and a list that started such a circuit before would leave it words to send.
function countUnderWay(session, [name, ...list], answer, seen) {
  const isUnderWay = (circuit, number) => number === BUSY && session.register(LEFT_ROW, circuit) === 0;
  if (name === 'start' && isUnderWay(list[0], answer.number)) seen.underWay++;
  if (name !== 'startAll' && name !== 'startLists') return;
  const circuits = name === 'startAll' ? list[0].map(([circuit]) => circuit) : list[0][0];
  if (answer.number === 0) seen.listedUnderWay += circuits.filter((circuit, at) => isUnderWay(circuit, answer.answers[at])).length;
}

// Makes a call and counts it by its number. A switch and words in registers of long vertical links are counted; where a word landed, every
// field of it is asked for.
function maker(session, numbers, seen) {
  return function make([name, ...list]) {
    const before = session.register(0, 2);
    const answer = session.record.call(name, ...list);
    numbers.add(answer.number);
    countUnderWay(session, [name, ...list], answer, seen);
    if (name === 'startAll' && answer.number === 0) for (const told of answer.answers.slice(0, list[0].length)) seen.listed.add(told);
    if (name !== 'cycle' || answer.number !== 0) return answer;
    if (session.register(0, 2) !== before) seen.switched++;
    for (let node = 0; node < session.nodes; node++) {
      if (session.parts.long) for (const side of [0, 2]) if (session.register(EXTRA_MARK_ROW, 5 * node + side) !== 0) seen.inRegisters++;
      if (session.register(LANDING_MARK_ROW, node) === 0) continue;
      seen.landed++;
      for (let field = 0; field <= 4; field++) make(['landedField', node, field]);
    }
    return answer;
  };
}

// Plays one session; counts every call by its number, the landings and the switches.
export function playSession(random, record, passes, numbers, seen) {
  const session = openSession(random, record, passes);
  if (session.parts.circuits.length >= 16) seen.crowded++;
  if (session.given.length === 0) seen.none++;
  const make = maker(session, numbers, seen);
  const load = () => make(['load', session.given, session.contents]);
  if (random.chance(0.3)) for (let poke = 0; poke < 9; poke++) record.pokeState(random.below(record.calls.stateWords), random.word());
  load();
  for (let step = session.contents.length > 100000 ? 20 : 200; step > 0; step--) {
    const chosen = random.below(80);
    if (chosen < 4) pokeRound(random, session, make);
    else if (chosen === 4) memoryRound(random, session, make);
    else if (chosen === 5) {
      make(otherLoad(random, session));
      record.lendMemory(session.contents.length);
    } else if (chosen === 6) record.pokeMemory(random.below(session.contents.length), random.word());
    else if (chosen === 7) for (let cycle = random.below(40); cycle > 0; cycle--) make(['cycle']);
    else if ([13, 20].includes(make(random.choose(CALLS)(random, session)).number)) load();
  }
}
