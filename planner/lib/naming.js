// How explanations name what a document has: cells with their values, circuits, modes and slots.
import { cut, placeOfWord } from './document.js';
import { MOST_NAME } from './plan.js';

const ROWS_WORD = 1;

// A word with its cell: 9 (D13).
export function valueAt(document, at) {
  return `${document.words[at]} (${placeOfWord(document, at)})`;
}

// A cell's text as it was typed, with its cell: ES (F13); in a file of words, the word.
export function typedAt(document, at) {
  if (document.kind !== 'plan') return valueAt(document, at);
  const { row, column } = document.places[at];
  return `${cut(document.rows[row][column].trim())} (${placeOfWord(document, at)})`;
}

// Why vertical hops count, for a sheet whose vertical links are long.
export function longLinksLine(document) {
  return `The rows are ${typedAt(document, ROWS_WORD)}, so the vertical links are long: each hop north or south takes one cycle more.`;
}

export function circuitName(document, number) {
  return document.kind === 'plan' ? `circuit ${cut(document.circuitNames[number], MOST_NAME)}` : `circuit ${number}`;
}

export function modeName(document, number) {
  return document.kind === 'plan' ? `mode ${cut(document.modeNames[number], MOST_NAME)}` : `schedule ${number}`;
}

// The slot of an entry, by its circuit, mode and row; in a file of words by its number in the schedule.
export function slotName(document, entry, circuit) {
  const mode = modeName(document, entry.schedule);
  if (document.kind !== 'plan') {
    const known = circuit < document.circuitNames.length ? ` (${circuitName(document, circuit)})` : '';
    return `entry ${entry.number} of ${mode}${known}`;
  }
  return `the slot of ${circuitName(document, circuit)} in ${mode} (row ${document.places[entry.at].row + 1})`;
}

// A circuit with its row, where rows have numbers.
export function circuitWithRow(document, circuit) {
  const name = circuitName(document, circuit.number);
  return document.kind === 'plan' ? `${name} (row ${document.places[circuit.at].row + 1})` : name;
}

export function capital(text) {
  return text[0].toUpperCase() + text.slice(1);
}

// Limits as a planner reads them: 1 to 16,384.
export function limitsText([least, most]) {
  return `${least} to ${String(most).replace(/\B(?=(\d{3})+$)/g, ',')}`;
}

// A count with its noun: 1 word, 3 words.
export function counted(count, noun) {
  return `${count} ${noun}${count === 1 ? '' : 's'}`;
}
