// A run of a sheet by the proved calls: the load, the memory rows as stores, then cycle after cycle, each behind the acts of its rows.
// What is on a wire and what landed is read from the session; nothing is stepped here.
import { ROWS } from './calls.js';
import { circuitOfLanding, landingsNow } from './landings.js';
import { unservedCircuits } from './served.js';
import { partsOf, wordsOf } from './sheet.js';

export const MARKS = ['empty', 'header', 'payload', 'last payload'];
export const SOURCE_WIRE = 5;
export const MEMORY_WIRE = 4;
const PORTS = 5;
const MOST_SENT = 100;
const MOST_LISTED = 64;

// A document's memory rows and acts as calls, each with its row and the column of the cell that it is about.
export function callsOfPlan(document) {
  const plan = document.plan;
  if (!plan) return { stores: [], acts: [] };
  const stores = plan.memory.flatMap(({ row, node, address, words }) =>
    words.map((word, at) => ({ row, column: at + 3, cycle: 0, what: 'store', arguments: [node, address + at, word] })),
  );
  const acts = plan.acts.map((act) => {
    const { row, cycle, what } = act;
    return { row, column: 2, cycle, what, arguments: argumentsOf(act, document) };
  });
  // Rows of one cycle stay in the order of the file.
  return { stores, acts: acts.sort((a, b) => a.cycle - b.cycle) };
}

function argumentsOf(act, document) {
  if (act.what === 'start') return [document.numberOf(act.circuit), act.read, act.write, act.count, act.kind];
  return act.what === 'store' ? [act.node, act.address, act.word] : [act.mode, act.period];
}

// The words of a sheet in which one schedule of another stands alone.
export function sheetOfMode(words, mode) {
  const parts = partsOf(words);
  return wordsOf({ ...parts, schedules: [parts.schedules[mode]] });
}

// The words of a sheet that begins in a schedule of another, for a run without orders: that schedule stands first. Of the others it keeps
// the first entry of each circuit that has none before, since without any the load would be refused (number 26).
export function sheetBeginningIn(words, mode) {
  const parts = partsOf(words);
  const others = parts.schedules.filter((_, number) => number !== mode);
  const schedules = [parts.schedules[mode]];
  for (const schedule of others) {
    const missing = new Set(unservedCircuits({ ...parts, schedules }).map(({ number }) => number));
    const entries = schedule.entries.filter(({ words: [, , circuit] }) => missing.delete(circuit));
    if (entries.length > 0) schedules.push({ ...schedule, entries });
  }
  return wordsOf({ ...parts, schedules });
}

// For pictures: what the nodes hold when every circuit sends all the time, words that tell circuit and place apart.
function fillForTraffic(contents, parts) {
  for (const { number, words } of parts.circuits) {
    const [source, , readOffset, readLength] = words;
    const begin = source * parts.memory + readOffset;
    for (let at = 0; at < Math.min(readLength, MOST_SENT); at++) contents[begin + at] = (number + 1) * 100 + at;
  }
}

// Puts what memory rows store into the memory that is lent to the load, which leaves it as it is: a call for each word would test the whole
// sheet each time. A place that does not exist is left to the call, which refuses it.
function lentStores(contents, parts, stores) {
  const nodes = parts.columns * parts.rows;
  return stores.filter(({ arguments: [node, address, word] }) => {
    if (node >= nodes || address >= parts.memory) return true;
    contents[node * parts.memory + address] = word;
    return false;
  });
}

// Starts transfers together: the number of each, in their order. A list takes so many at once; its call tests the whole state one time.
function startTogether(calls, transfers) {
  const numbers = [];
  for (let begin = 0; begin < transfers.length; begin += MOST_LISTED) {
    const listed = transfers.slice(begin, begin + MOST_LISTED);
    const { number, answers } = calls.startAll(listed);
    numbers.push(...(number === 0 ? answers : listed.map(() => number)));
  }
  return numbers;
}

// Starts every circuit that is free. Before the first cycle all are tried, then those that have no words left to send and for which a word
// landed in the last cycle: only a landing makes a circuit free. Whether it did is the call's to say, and 17 means not yet.
function startFree(calls, parts, landed) {
  const reached = landed && new Set(landed.map((landing) => circuitOfLanding(parts, landing)));
  const tried = parts.circuits.filter(({ number }) => !reached || (reached.has(number) && calls.register(ROWS.left, number) === 0));
  const transfers = tried.map(({ number, words: [, , readOffset, readLength, receiveOffset, receiveLength] }) => {
    return [number, readOffset, receiveOffset, Math.min(readLength, receiveLength, MOST_SENT), 0];
  });
  startTogether(calls, transfers);
}

// Carries out the acts of one cycle, its starts as one list, and gives the first in the file's order that is refused, with its number, or
// null. No start depends on a store or an order of its cycle, nor they on it, so that the list may come first.
function carryOutActs(calls, acts) {
  const starts = acts.filter(({ what }) => what === 'start');
  const numbers = startTogether(calls, starts.map((act) => act.arguments));
  for (const act of acts) {
    const number = act.what === 'start' ? numbers.shift() : calls[act.what](...act.arguments);
    if (number !== 0) return { number, ...act };
  }
  return null;
}

// Opens a run. `refused` is the first call that was refused, or null; behind one, no cycle is carried out. With `sending`, every
// circuit is kept sending instead of what the acts say.
export function openRun(calls, words, { stores = [], acts = [], sending = false } = {}) {
  const run = { cycle: 0, refused: null, nodes: 0, step: () => null };
  const refuse = (number, call) => {
    run.refused = { number, ...call };
    return run;
  };
  const verdict = calls.verdict(words);
  if (verdict !== 0) return refuse(verdict, { what: 'sheet', row: null, column: null });
  const parts = partsOf(words);
  run.nodes = parts.columns * parts.rows;
  const contents = new Uint32Array(run.nodes * parts.memory);
  if (sending) fillForTraffic(contents, parts);
  const elsewhere = lentStores(contents, parts, stores);
  const loaded = calls.load(words, contents);
  if (loaded !== 0) return refuse(loaded, { what: 'load', row: null, column: null });
  run.refused = carryOutActs(calls, elsewhere);
  if (run.refused) return run;
  let next = 0;
  let landed = null;

  // Carries out the acts of the present cycle and the cycle; null where one is refused.
  run.step = () => {
    if (run.refused) return null;
    if (sending) startFree(calls, parts, landed);
    else {
      const begin = next;
      while (next < acts.length && acts[next].cycle <= run.cycle) next++;
      run.refused = carryOutActs(calls, acts.slice(begin, next));
      if (run.refused) return null;
    }
    const clock = [0, 1, 2].map((place) => calls.register(ROWS.clock, place));
    const wires = outputs(calls, run.nodes, ROWS.outMark, ROWS.outWord);
    const registers = parts.long ? outputs(calls, run.nodes, ROWS.extraMark, ROWS.extraWord) : [];
    const number = calls.cycle();
    if (number !== 0) {
      refuse(number, { what: 'cycle', row: null, column: null });
      return null;
    }
    landed = landingsNow(calls, run.nodes);
    const frame = {
      cycle: run.cycle,
      cycleInPeriod: clock[0],
      period: clock[1],
      mode: clock[2],
      wires: [...sources(calls, run.nodes), ...wires],
      registers,
      landings: landed,
    };
    run.cycle++;
    return frame;
  };
  return run;
}

// The words on the outputs' wires in the coming cycle, or those in the extra registers of long vertical links (docs/STATE.md, rows out and
// extra).
function outputs(calls, nodes, markRow, wordRow) {
  const found = [];
  for (let node = 0; node < nodes; node++) {
    for (let wire = 0; wire < PORTS; wire++) {
      const mark = calls.register(markRow, PORTS * node + wire);
      if (mark !== 0) found.push({ node, wire, mark, word: calls.register(wordRow, PORTS * node + wire) });
    }
  }
  return found;
}

// The words on the source wires in the cycle that was carried out last (row link, the source's input).
function sources(calls, nodes) {
  const found = [];
  for (let node = 0; node < nodes; node++) {
    const mark = calls.register(ROWS.linkMark, PORTS * node + 4);
    if (mark !== 0) found.push({ node, wire: SOURCE_WIRE, mark, word: calls.register(ROWS.linkWord, PORTS * node + 4) });
  }
  return found;
}
