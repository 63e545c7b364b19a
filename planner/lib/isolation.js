// Which circuits a switch of modes or a change of the sheet leaves undisturbed (demand 3), and what each gets: read from sheets that pass.
import { cut } from './document.js';
import { flightBetween } from './flight.js';
import { COLUMNS, MOST_NAME } from './plan.js';
import { partsOf } from './sheet.js';

const MOST_SLOTS_SHOWN = 6;
const RECORD_NAMES = COLUMNS.circuit.slice(1);

// What has to be the same for the claim 'undisturbed' to hold: of two modes, and of a line of two sheets.
const OF_THE_CIRCUIT =
  'Both runs must have the same starts of the circuit and the same stores into its two regions, each in the same cycle and in the same ' +
  'order, and the same words in its two regions at the beginning; nothing else need be the same.';
export const PREMISE =
  'Undisturbed means: take two runs of the sheet that have the same mode in force in every period, except that one of these two modes ' +
  'may stand for the other. All that the circuit delivers is then the same in both, word for word and cycle for cycle, whatever other ' +
  `circuits and routes do and however the switches were ordered. ${OF_THE_CIRCUIT}`;
export const COMPARE_PREMISE =
  'Undisturbed means: take a run of the one sheet and a run of the other in which every period has the two modes of one line in force, a ' +
  'line that says undisturbed. All that the circuit delivers is then the same in both, word for word and cycle for cycle, whatever else ' +
  `the sheets and the runs differ in. ${OF_THE_CIRCUIT} A run begins in the first mode of its sheet.`;

const ANSWERS = { undisturbed: 'undisturbed', silent: 'silent in both: nothing of the circuit leaves', differs: 'differs' };

// An answer with its reasons as one text.
export function answerText({ answer, reasons }) {
  return reasons.length === 0 ? ANSWERS[answer] : `${ANSWERS[answer]}: ${reasons.join('; ')}`;
}

// A circuit's slots in a schedule.
function slotsOf(schedule, circuit) {
  return schedule.entries.filter(({ words }) => words[2] === circuit).map(({ words }) => ({ offset: words[0], length: words[1] }));
}

// What a circuit gets in a schedule: a slot's first word is the header, the others are payload.
function shareOf(document, schedule, circuit) {
  const slots = slotsOf(schedule, circuit);
  const payload = slots.reduce((sum, slot) => sum + slot.length - 1, 0);
  return {
    mode: schedule.number,
    name: document.modeNames[schedule.number],
    period: schedule.period,
    slots,
    wordsAPeriod: payload,
    wordsACycle: payload / schedule.period,
  };
}

// The circuits of a sheet that passes, with the flight time of a word and what each gets in each mode.
export function circuitsOf(document) {
  const parts = partsOf(document.words);
  return parts.circuits.map(({ number, words }) => {
    const [source, destination] = words;
    return {
      number,
      name: document.circuitNames[number],
      source,
      destination,
      record: words,
      ...flightBetween(parts, source, destination),
      modes: parts.schedules.map((schedule) => shareOf(document, schedule, number)),
    };
  });
}

// A circuit's hops as text; the vertical ones are told where each costs a cycle more.
export function hopsText({ hops, verticalHops }) {
  const all = `${hops} ${hops === 1 ? 'hop' : 'hops'}`;
  return verticalHops === 0 ? all : `${all} (${verticalHops} vertical)`;
}

// Slots as text, offset+length each.
export function slotsText(slots, most = MOST_SLOTS_SHOWN) {
  if (slots.length === 0) return 'none';
  const shown = slots.slice(0, most).map(slotText).join(', ');
  return slots.length <= most ? shown : `${shown}, .. (${slots.length} slots)`;
}

const slotText = (slot) => (slot ? `${slot.offset}+${slot.length}` : 'none');
const equalSlots = (a, b) => a?.offset === b?.offset && a?.length === b?.length;

// What differs between two lists of slots: both where they are short, else the first slot at which they part.
function slotsReason(first, second, [one, other]) {
  if (first.length === 0) return `silent in ${one}, slots ${slotsText(second)} in ${other}`;
  if (second.length === 0) return `slots ${slotsText(first)} in ${one}, silent in ${other}`;
  if (Math.max(first.length, second.length) <= MOST_SLOTS_SHOWN) return `slots ${slotsText(first)} and ${slotsText(second)}`;
  const at = first.findIndex((slot, index) => !equalSlots(slot, second[index]));
  const place = at < 0 ? first.length : at;
  const counts = first.length === second.length ? '' : ` (${first.length} slots and ${second.length})`;
  return `slots part at the ${ordinal(place + 1)}: ${slotText(first[place])} and ${slotText(second[place])}${counts}`;
}

function ordinal(number) {
  const teen = number % 100 >= 11 && number % 100 <= 13;
  return number + (teen ? 'th' : (['th', 'st', 'nd', 'rd'][number % 10] ?? 'th'));
}

// A circuit in one schedule held against a circuit in another; `both` names the two, `changed` has what differs in their records.
function compared(first, second, both, changed = []) {
  const reasons = [...changed];
  if (first.slots.length === 0 && second.slots.length === 0) return { answer: changed.length === 0 ? 'silent' : 'differs', reasons };
  const sameSlots = first.slots.length === second.slots.length && first.slots.every((slot, at) => equalSlots(slot, second.slots[at]));
  if (first.period !== second.period) reasons.push(`period ${first.period} and ${second.period}`);
  if (!sameSlots) reasons.push(slotsReason(first.slots, second.slots, both));
  return { answer: reasons.length === 0 ? 'undisturbed' : 'differs', reasons };
}

// Each circuit in each pair of modes of a sheet that passes: undisturbed, silent in both, or what differs.
export function modePairs(document) {
  const found = [];
  for (const circuit of circuitsOf(document)) {
    for (let first = 0; first < circuit.modes.length; first++) {
      for (let second = first + 1; second < circuit.modes.length; second++) {
        const [one, other] = [circuit.modes[first], circuit.modes[second]];
        const names = [one, other].map((mode) => cut(mode.name, MOST_NAME));
        found.push({ circuit: circuit.number, first, second, ...compared(one, other, names) });
      }
    }
  }
  return found;
}

// Pairs of equal items of two lists, and what is in one list alone.
function matched(first, second, key) {
  const places = new Map(second.map((item) => [key(item), item]));
  const pairs = first.filter((item) => places.has(key(item))).map((item) => [item, places.get(key(item))]);
  const keys = new Set(first.map(key));
  return {
    pairs,
    firstAlone: first.filter((item) => !places.has(key(item))).map((item) => item.name),
    secondAlone: second.filter((item) => !keys.has(key(item))).map((item) => item.name),
  };
}

function changedRecord(first, second) {
  return RECORD_NAMES.flatMap((name, at) => (first[at] === second[at] ? [] : [`${name} ${first[at]} and ${second[at]}`]));
}

// What can be said of two sheets that pass. Circuits and modes are matched by name; where a file has words and no names, circuits by their
// six words and modes by number. Numbers of circuits, routes, the memory's size and all else of other circuits are free. `labels` are what
// reasons call the two sheets.
export function compareDocuments(old, changed, labels = ['the old sheet', 'the new sheet']) {
  const [first, second] = [partsOf(old.words), partsOf(changed.words)];
  const none = { starts: null, circuits: [], circuitsInOldAlone: [], circuitsInNewAlone: [], modesInOldAlone: [], modesInNewAlone: [] };
  const reason = gridsReason(first, second, labels);
  if (reason !== null) return { comparable: false, reason, ...none };
  const named = old.named && changed.named;
  const circuits = matched(circuitsOf(old), circuitsOf(changed), (circuit) => (named ? circuit.name : circuit.record.join(' ')));
  const modesOf = (document, parts) => parts.schedules.map(({ number }) => ({ number, name: document.modeNames[number] }));
  const modes = matched(modesOf(old, first), modesOf(changed, second), (mode) => (named ? mode.name : mode.number));
  return {
    comparable: true,
    reason: null,
    starts: startsText(old, changed, named, labels),
    circuits: circuits.pairs.map(([one, other]) => comparedCircuit(one, other, modes.pairs, labels)),
    circuitsInOldAlone: circuits.firstAlone,
    circuitsInNewAlone: circuits.secondAlone,
    modesInOldAlone: modes.firstAlone,
    modesInNewAlone: modes.secondAlone,
  };
}

// Why grids cannot be compared, or null: what is proved is of two runs on one grid, its vertical links of one kind.
function gridsReason(first, second, [one, other]) {
  if (first.columns !== second.columns || first.rows !== second.rows) {
    const grids = `${first.columns} by ${first.rows} and ${second.columns} by ${second.rows} nodes`;
    return `Nothing can be said: the grids differ (${grids}).`;
  }
  if (first.long === second.long) return null;
  const [long, short] = first.long ? [one, other] : [other, one];
  return `Nothing can be said: the grids are of two kinds (the vertical links of ${long} are long, those of ${short} are not).`;
}

// What is to be known where the two sheets begin in modes that are not the same line.
function startsText(old, changed, named, [one, other]) {
  const [first, second] = [old, changed].map((document) => cut(document.modeNames[0], MOST_NAME));
  if (!named || first === second) return null;
  return `The sheets begin in different modes: ${one} in ${first}, ${other} in ${second}; a run begins in the first mode of its sheet.`;
}

function comparedCircuit(one, other, modes, labels) {
  const changed = changedRecord(one.record, other.record);
  return {
    name: one.name,
    newName: other.name,
    old: one.number,
    new: other.number,
    modes: modes.map(([first, second]) => ({
      name: first.name,
      newName: second.name,
      old: first.number,
      new: second.number,
      ...compared(one.modes[first.number], other.modes[second.number], labels, changed),
    })),
  };
}
