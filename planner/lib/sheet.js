// Sheets: a plan's words with the cell of each, the parts of a sheet's words, and parts back to words.
import { rowsOfWord, wordOfRows } from './grid.js';

export const HEAD_WORDS = 5;
export const CIRCUIT_WORDS = 6;
export const ENTRY_WORDS = 4;
export const MOST_ENTRIES = 256;

// What no words stand for: an idle network of 2 by 2 nodes with a memory word each, no circuits and one mode of nine cycles.
export const BLANK_SHEET = [2, 2, 1, 0, 1, 9, 0];

// The sheet that words stand for: themselves, and no words for the idle network.
export const meant = (words) => (words.length === 0 ? BLANK_SHEET : words);

// The words of a plan without problems, and for each the cell that it stands for. Circuits and slots are sorted as the rules want them,
// or stay in the order of the rows for an exam.
export function sheetOfPlan(plan, exam = false) {
  const byRow = plan.circuits.map((_, index) => index);
  const order = exam ? byRow : byRow.sort((a, b) => compareCircuits(plan.circuits[a].record, plan.circuits[b].record));
  const number = new Map(order.map((index, at) => [index, at]));
  const entries = plan.modes.map((_, mode) => {
    const own = plan.slots.filter((slot) => slot.mode === mode);
    return exam ? own : own.sort((a, b) => a.offset - b.offset || number.get(a.circuit) - number.get(b.circuit));
  });
  const words = [];
  const places = [];
  const put = (word, row, column) => {
    words.push(word);
    places.push({ row, column });
  };
  const { network } = plan;
  put(network.columns, network.row, 1);
  put(network.rowsWord, network.row, 2);
  put(network.memory, network.row, 3);
  put(order.length, plan.circuits[64]?.row ?? network.row, 0);
  put(plan.modes.length, plan.modes[8]?.row ?? network.row, 0);
  for (const index of order) plan.circuits[index].record.forEach((word, at) => put(word, plan.circuits[index].row, at + 2));
  plan.modes.forEach((mode, at) => {
    put(mode.period, mode.row, 2);
    put(entries[at].length, mode.row, 0);
    for (const slot of entries[at]) {
      put(slot.offset, slot.row, 3);
      put(slot.length, slot.row, 4);
      put(number.get(slot.circuit), slot.row, 2);
      put(slot.route, slot.row, 5);
    }
  });
  return {
    words,
    places,
    circuitNames: order.map((index) => plan.circuits[index].name),
    modeNames: plan.modes.map((mode) => mode.name),
    circuitRows: order.map((index) => plan.circuits[index].row),
    numberOf: (index) => number.get(index),
  };
}

// The order of circuits that the rules want: by destination, then receive offset.
export function compareCircuits(a, b) {
  return a[1] - b[1] || a[4] - b[4];
}

// The parts of a sheet's words, each with the place of its first word; null where the words do not divide into such parts.
export function partsOf(words) {
  const part = divide(words);
  return part.wrong ? null : part;
}

// Reads the sheet that words stand for, from the front. Where it does not divide, `wrong` says at which place, what was wanted there and how many words.
export function divide(given) {
  const words = meant(given);
  const part = { columns: words[0], ...rowsOfWord(words[1]), memory: words[2], circuits: [], schedules: [] };
  if (words.length < HEAD_WORDS) return { ...part, wrong: { what: 'head', at: words.length, missing: HEAD_WORDS - words.length } };
  let at = HEAD_WORDS;
  const take = (count, what, detail) => {
    if (words.length - at < count) return { what, ...detail, at: words.length, missing: count - (words.length - at) };
    at += count;
    return null;
  };
  for (let number = 0; number < words[3]; number++) {
    const wrong = take(CIRCUIT_WORDS, 'circuit', { number });
    if (wrong) return { ...part, wrong };
    part.circuits.push({ number, at: at - CIRCUIT_WORDS, words: [...words.slice(at - CIRCUIT_WORDS, at)] });
  }
  for (let number = 0; number < words[4]; number++) {
    const wrong = take(2, 'schedule', { number });
    if (wrong) return { ...part, wrong };
    const schedule = { number, at: at - 2, period: words[at - 2], entries: [] };
    const count = words[at - 1];
    if (count > MOST_ENTRIES) return { ...part, wrong: { what: 'count', number, at: at - 1, count } };
    part.schedules.push(schedule);
    for (let entry = 0; entry < count; entry++) {
      const short = take(ENTRY_WORDS, 'entry', { number, entry });
      if (short) return { ...part, wrong: short };
      schedule.entries.push({ number: entry, at: at - ENTRY_WORDS, words: [...words.slice(at - ENTRY_WORDS, at)] });
    }
  }
  if (at < words.length) return { ...part, wrong: { what: 'surplus', at, surplus: words.length - at } };
  return part;
}

// The words of parts.
export function wordsOf(parts) {
  const words = [parts.columns, wordOfRows(parts), parts.memory, parts.circuits.length, parts.schedules.length];
  for (const circuit of parts.circuits) words.push(...circuit.words);
  for (const schedule of parts.schedules) {
    words.push(schedule.period, schedule.entries.length);
    for (const entry of schedule.entries) words.push(...entry.words);
  }
  return words;
}
