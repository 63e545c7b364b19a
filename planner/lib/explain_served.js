// Why a sheet is refused by number 26: a circuit that no mode has a slot for.
import { rowText } from './cells.js';
import { cut, placeOfMark, placeOfWord } from './document.js';
import { newSlots } from './free_offsets.js';
import { capital, circuitName, counted, modeName } from './naming.js';
import { MOST_NAME } from './plan.js';
import { unservedCircuits } from './served.js';
import { CIRCUIT_WORDS, ENTRY_WORDS, partsOf } from './sheet.js';
import { NEW_NUMBERS, bestTrial, isSortedByTool, tried } from './trials.js';

const NAME_COLUMN = 1;
const CIRCUITS = 3;
const MOST_LISTED = 8;
// What a plan and a file of words call a schedule and an entry.
const TERMS = {
  plan: { mode: 'mode', slot: 'a slot row', noSlot: 'no slot row' },
  words: { mode: 'schedule', slot: 'an entry', noSlot: 'no entry' },
};

// Number 26: the first circuit without a slot, by its name's cell or its record's first word.
export function explainUnserved(context) {
  const { document, found } = context;
  const [circuit] = found.circuits;
  const parts = partsOf(document.words);
  const cell = document.kind === 'plan' ? { at: circuit.at, column: NAME_COLUMN } : { at: circuit.at };
  const { mode, slot } = TERMS[document.kind];
  const added = addedSlot(context, parts, circuit);
  const noRoom = `As periods and other slots stand, no ${mode} has room for one, not even of the least length.`;
  return {
    marks: [{ ...cell, text: `no ${mode} has ${slot} for this circuit` }],
    lines: [
      unservedLine(document, parts, circuit, placeOfMark(document, cell)),
      `Add ${slot} for it to one ${mode} at least, or take the circuit out.`,
      ...(added.length === 0 ? [noRoom] : []),
    ],
    help: [...added, takenOut(context, parts)],
  };
}

function unservedLine(document, parts, { number }, cell) {
  const { mode, slot, noSlot } = TERMS[document.kind];
  const count = parts.schedules.length;
  const which = count === 1 ? `${modeName(document, 0)} has ${noSlot}` : `none of the ${count} ${mode}s has ${slot}`;
  const [source] = parts.circuits[number].words;
  const name = capital(circuitName(document, number));
  return `${name} (${cell}) has no slot: ${which} for it, so that what it sends would never leave node ${source}.`;
}

// A slot of the least length in some mode, by a shortest route, where one is free.
function addedSlot({ document, verdict, found }, parts, circuit) {
  const changes = newSlots(parts, circuit.number).map((slot) => {
    const { schedule, number, words } = slot;
    return { text: addText(document, parts, slot), change: { add: [{ schedule, number, words }] } };
  });
  return bestTrial(document, found.number, changes, verdict);
}

function addText(document, parts, { schedule, number, words, letters }) {
  const [offset, length, circuit] = words;
  const free = 'of the least length, at an offset at which it has its wires to itself';
  const { at, entries } = parts.schedules[schedule];
  if (document.kind !== 'plan') {
    const [behind, count] = [at + 1 + ENTRY_WORDS * number, at + 1].map((place) => placeOfWord(document, place));
    const entry = `an entry of ${circuitName(document, circuit)} by ${letters}, ${free}`;
    return `Add ${words.join(' ')} behind ${behind} and put ${entries.length + 1} into ${count}: ${entry}`;
  }
  const names = [document.modeNames[schedule], document.circuitNames[circuit]].map((name) => cut(name, MOST_NAME));
  const row = rowText(['slot', ...names, offset, length, letters], document);
  return `Add the row ${row}${besideText(document, entries, number)}: a slot ${free}`;
}

// Where a row has to stand, if the order of the rows counts and the mode has slots.
function besideText(document, entries, number) {
  if (isSortedByTool(document) || entries.length === 0) return '';
  const rowOf = (entry) => document.places[entry.at].row + 1;
  return number > 0 ? ` below row ${rowOf(entries[number - 1])}` : ` above row ${rowOf(entries[0])}`;
}

// All circuits without a slot taken out, with the rows that start them.
function takenOut({ document, verdict }, parts) {
  const gone = unservedCircuits(parts);
  const text = document.kind === 'plan' ? rowsOutText(document, gone) : wordsOutText(document, parts, gone);
  return tried(document, `Take out ${text}`, { drop: gone.map(({ at }) => at) }, verdict);
}

const manyText = (count) => `the ${count} circuits that have no slot`;

function rowsOutText(document, gone) {
  const rows = listed('row', gone.map(({ at }) => document.places[at].row + 1));
  const names = gone.length === 1 ? circuitName(document, gone[0].number) : manyText(gone.length);
  const numbers = new Set(gone.map(({ number }) => number));
  const starts = document.plan.acts.filter(({ what, circuit }) => what === 'start' && numbers.has(document.numberOf(circuit)));
  if (starts.length === 0) return `${names} (${rows})`;
  const startRows = listed('row', starts.map(({ row }) => row + 1));
  return `${names} (${rows}) and what starts ${gone.length === 1 ? 'it' : 'them'} (${startRows})`;
}

function wordsOutText(document, parts, gone) {
  const [{ number, at }] = gone;
  const one = `${circuitName(document, number)} (${counted(CIRCUIT_WORDS, 'word')} from ${placeOfWord(document, at)} on)`;
  const many = `${manyText(gone.length)} (${listed('circuit', gone.map((circuit) => circuit.number))})`;
  const left = parts.circuits.length - gone.length;
  // Where a circuit behind the first that is taken out stays, entries name it by another number then.
  const renumbered = left > number ? `, ${NEW_NUMBERS}` : '';
  return `${gone.length === 1 ? one : many} and put ${left} into ${placeOfWord(document, CIRCUITS)}${renumbered}`;
}

// Numbers with their noun: row 4, rows 4 and 7, rows 1, 2, 3 and 4; of many the first, and how many there are.
function listed(noun, numbers) {
  const sorted = [...numbers].sort((a, b) => a - b);
  if (sorted.length === 1) return `${noun} ${sorted[0]}`;
  if (sorted.length > MOST_LISTED) return `${noun}s ${sorted.slice(0, MOST_LISTED).join(', ')} and ${sorted.length - MOST_LISTED} more`;
  return `${noun}s ${sorted.slice(0, -1).join(', ')} and ${sorted[sorted.length - 1]}`;
}
