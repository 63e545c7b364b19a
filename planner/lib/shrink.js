// The smallest part of a refused sheet that is still refused by the same number: schedules, entries and circuits are dropped as long as
// the proved checker gives that number.
import { UNSERVED_NUMBER } from './served.js';
import { BLANK_SHEET, partsOf, wordsOf } from './sheet.js';

const HEAD_NUMBER = 2;
const FIRST_DIVIDED_NUMBER = 4;
const CIRCUIT_WORD = 2;

// The words left, and which circuits, schedules and entries of the sheet they are: their numbers and the place of their first word.
export function shrink(words, verdict) {
  const number = verdict(words);
  const found = { number, left: words, circuits: [], schedules: [], entries: [] };
  if (number === HEAD_NUMBER) return { ...found, left: withHeadWord(words, headFaults(words, verdict)[0]) };
  if (number < FIRST_DIVIDED_NUMBER) return found;
  const whole = partsOf(words);
  const stays = (some) => verdict(wordsOfSome(some, whole.circuits.length)) === number;
  const parts = number === UNSERVED_NUMBER ? firstUnserved(whole, stays) : smallest(whole, stays);
  return {
    number,
    left: wordsOfSome(parts, whole.circuits.length),
    circuits: parts.circuits.map(({ number: circuit, at }) => ({ number: circuit, at })),
    schedules: parts.schedules.map(({ number: schedule, at }) => ({ number: schedule, at })),
    entries: parts.schedules.flatMap((schedule) =>
      schedule.entries.map(({ number: entry, at }) => ({ schedule: schedule.number, number: entry, at })),
    ),
  };
}

// A sheet that passes but for one head word of another.
function withHeadWord(words, at) {
  return BLANK_SHEET.map((word, place) => (place === at ? words[at] : word));
}

// The places of the head words that are out of range: each gets number 2 in a head that is otherwise right.
export function headFaults(words, verdict) {
  return [0, 1, 2, 3, 4].filter((at) => verdict(withHeadWord(words, at)) === HEAD_NUMBER);
}

// The first circuit that is refused alone with its own slots: it has none, and is left in the first schedule. Number 26 is not found by
// dropping, since without a slot another circuit may have none.
function firstUnserved(whole, stays) {
  const alone = (circuit) => withCircuits(whole, [circuit], whole.circuits.length);
  const parts = alone(whole.circuits.find((circuit) => stays(alone(circuit))));
  return { ...parts, schedules: parts.schedules.slice(0, 1) };
}

// Drops what can be dropped. Fewer parts have no faults of the numbers up to 11 that more parts lack, so what has to stay once has to stay
// for good.
function smallest(whole, stays) {
  let parts = droppedFrom(whole.schedules, whole, (schedules) => ({ ...whole, schedules }), stays);
  for (const { number, entries } of parts.schedules) {
    const before = parts;
    parts = droppedFrom(entries, before, (some) => withEntries(before, number, some), stays);
  }
  const before = parts;
  return droppedFrom(before.circuits, before, (circuits) => withCircuits(before, circuits, whole.circuits.length), stays);
}

// Drops pieces of a list, from its end and of halving length, where the number stays; so the fault that is left is an early one.
function droppedFrom(list, parts, having, stays) {
  let kept = list;
  let smaller = parts;
  for (let length = list.length; length >= 1; length = Math.floor(length / 2)) {
    for (let end = kept.length; end > 0; end = Math.max(0, end - length)) {
      const fewer = [...kept.slice(0, Math.max(0, end - length)), ...kept.slice(end)];
      const some = having(fewer);
      if (!stays(some)) continue;
      kept = fewer;
      smaller = some;
    }
  }
  return smaller;
}

// Parts in which one schedule has other entries.
export function withEntries(parts, number, entries) {
  return { ...parts, schedules: parts.schedules.map((schedule) => (schedule.number === number ? { ...schedule, entries } : schedule)) };
}

// Parts with some of the circuits; the entries of the others go with them. An entry whose circuit is not in the sheet of `count` stays.
export function withCircuits(parts, circuits, count) {
  const kept = new Set(circuits.map((circuit) => circuit.number));
  const stays = (entry) => entry.words[CIRCUIT_WORD] >= count || kept.has(entry.words[CIRCUIT_WORD]);
  return { ...parts, circuits, schedules: parts.schedules.map((schedule) => ({ ...schedule, entries: schedule.entries.filter(stays) })) };
}

// The words of some parts of a sheet of `count` circuits: circuits are numbered anew; a number out of range stays as it is.
export function wordsOfSome(parts, count) {
  const place = new Map(parts.circuits.map((circuit, at) => [circuit.number, at]));
  const renumbered = ([offset, length, circuit, route]) => [offset, length, circuit < count ? place.get(circuit) : circuit, route];
  const schedules = parts.schedules.map((schedule) => ({
    ...schedule,
    entries: schedule.entries.map((entry) => ({ ...entry, words: renumbered(entry.words) })),
  }));
  return wordsOf({ ...parts, schedules });
}
