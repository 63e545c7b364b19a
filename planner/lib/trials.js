// Changes of a sheet that may help, each tried with the proved checker on the whole sheet, sorted again where the tool sorts.
import { keepsRules1To11 } from './served.js';
import { compareCircuits, partsOf, wordsOf } from './sheet.js';
import { withCircuits, wordsOfSome } from './shrink.js';

const ORDER_NUMBERS = [5, 8];
const MOST_TRIALS = 24;
// What changes with the order of the circuits in a file of words.
export const NEW_NUMBERS = "with the circuits' new numbers";
const CIRCUIT_WORD = 2;

// The words of a changed sheet. A change puts words at places (`put`), takes circuits and entries out by the place of their first word
// (`drop`), puts entries into schedules, where they get the number that is told (`add`), keeps the sheet's first words only (`length`), or
// puts circuits and entries in order (`sort`).
export function changedWords(words, { put = [], drop = [], add = [], length = words.length, sort = false }) {
  const changed = words.slice(0, length);
  for (const { at, word } of put) changed[at] = word;
  const whole = drop.length > 0 || add.length > 0 || sort ? partsOf(changed) : null;
  if (!whole) return changed;
  const stays = ({ at }) => !drop.includes(at);
  const count = whole.circuits.length;
  const parts = withCircuits(whole, whole.circuits.filter(stays), count);
  for (const schedule of parts.schedules) schedule.entries = schedule.entries.filter(stays);
  for (const { schedule, number, words: entry } of add) parts.schedules[schedule].entries.splice(number, 0, { words: entry });
  return sort ? wordsOf(sorted(parts)) : wordsOfSome(parts, count);
}

// Parts in the order that the rules want, entries with the new numbers of their circuits.
function sorted(parts) {
  const circuits = [...parts.circuits].sort((a, b) => compareCircuits(a.words, b.words));
  const number = new Map(circuits.map((circuit, at) => [circuit.number, at]));
  const renumbered = ([offset, length, circuit, route]) => [offset, length, number.get(circuit) ?? circuit, route];
  const schedules = parts.schedules.map((schedule) => {
    const entries = schedule.entries.map((entry) => ({ ...entry, words: renumbered(entry.words) }));
    return { ...schedule, entries: entries.sort((a, b) => a.words[0] - b.words[0] || a.words[CIRCUIT_WORD] - b.words[CIRCUIT_WORD]) };
  });
  return { ...parts, circuits, schedules };
}

// Whether the tool puts circuits and slots in order itself.
export function isSortedByTool(document) {
  return document.kind === 'plan' && !document.exam;
}

// Tries a change: its text, the number that the checker gives then, and the change. Where the order of the file counts and the change
// breaks it, what has changed is moved as well, and the text says so.
export function tried(document, text, change, verdict) {
  if (isSortedByTool(document)) return triedAs(document, text, { ...change, sort: true }, verdict);
  const asTyped = triedAs(document, text, change, verdict);
  if (change.sort || !ORDER_NUMBERS.includes(asTyped.number)) return asTyped;
  return triedAs(document, `${text}, ${orderText(document, asTyped.number)}`, { ...change, sort: true }, verdict);
}

function orderText(document, number) {
  if (document.kind === 'plan') return 'and put the rows in order again';
  return number === ORDER_NUMBERS[0] ? `and put circuits and entries in order again, ${NEW_NUMBERS}` : 'and put the entries in order again';
}

function triedAs(document, text, change, verdict) {
  return { text, number: verdict(changedWords(document.words, change)), change };
}

// The best of some changes, of which the first few are tried: one after which the sheet keeps the rules 1 to 11, else one with another
// number than now. Whether every circuit has a slot does not depend on which of them is taken, so 26 is no reason to look further.
export function bestTrial(document, number, changes, verdict) {
  const isMoved = (trial) => trial.change.sort && !isSortedByTool(document);
  const rank = (trial) => (keepsRules1To11(trial.number) ? 0 : trial.number === number ? 4 : 2) + (isMoved(trial) ? 1 : 0);
  let best = null;
  for (const { text, change } of changes.slice(0, MOST_TRIALS)) {
    const trial = tried(document, text, change, verdict);
    if (best === null || rank(trial) < rank(best)) best = trial;
    if (rank(best) === 0) break;
  }
  return best === null ? [] : [best];
}

// A change of one cell.
export function put(at, word) {
  return { put: [{ at, word }] };
}

// Values in the order of their distance from one.
export function nearest(values, from) {
  return [...values].sort((a, b) => Math.abs(a - from) - Math.abs(b - from) || a - b);
}

// The entry of a sheet that begins at a place, and its schedule.
export function entryAt(parts, { schedule, number }) {
  return parts.schedules[schedule].entries[number];
}
