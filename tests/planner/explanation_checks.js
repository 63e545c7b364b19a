// What every explanation of a refusal is held to: the part that is left, and each change that would help.
import assert from 'node:assert/strict';
import { openProved } from '../../planner/command/proved.js';
import { placeOfWord } from '../../planner/lib/document.js';
import { lettersOfRoute } from '../../planner/lib/route.js';
import { carriedOut, fewerByOne } from './sheet_tools.js';

export const UNSERVED = 26;
export const ELSEWHERE = 'This is not the only place: other cells break this rule as well.';
const { verdict } = await openProved();

// The words left, taken from the sheet by the places that the explanation gives.
function takenFrom(words, { circuits, schedules, entries }) {
  const taken = [...words.slice(0, 3), circuits.length, schedules.length, ...circuits.flatMap(({ at }) => words.slice(at, at + 6))];
  const numbers = circuits.map(({ number }) => number);
  for (const { number, at } of schedules) {
    const own = entries.filter((entry) => entry.schedule === number);
    taken.push(words[at], own.length);
    for (const entry of own) {
      const [offset, length, circuit, route] = words.slice(entry.at, entry.at + 4);
      taken.push(offset, length, numbers.includes(circuit) ? numbers.indexOf(circuit) : circuit, route);
    }
  }
  return taken;
}

// The part that is left gets the number, is taken from the sheet, and lacks nothing that could be dropped.
export function holdPart(document, found) {
  assert.equal(verdict(found.left), found.number);
  if (found.number < 4) return;
  assert.deepEqual(found.left, takenFrom(document.words, found));
  for (const fewer of fewerByOne(found.left)) assert.notEqual(verdict(fewer), found.number, 'a part could still be dropped');
}

// Each change gets the number that is told, and its text says what is changed.
export function holdHelp(document, found) {
  for (const { text, number, change } of found.help) {
    const words = carriedOut(document, change);
    assert.equal(verdict(words), number, text);
    for (const { at, word } of change.put ?? []) {
      const cell = placeOfWord(document, at);
      const letters = lettersOfRoute(word);
      const rows = at === 1 && document.kind === 'plan' && word > 256 ? `${word - 256} long` : word;
      const typed = at === 1 ? [rows] : [word, letters, `${word} (${letters})`];
      assert.ok(typed.some((value) => new RegExp(`[Pp]ut ${value}`.replace(/[()]/g, '\\$&') + ` into ${cell}\\b`).test(text)), text);
    }
    for (const entry of change.add ?? []) assert.ok(text.startsWith(`Add ${addedText(document, entry)}`), text);
    if (document.kind === 'plan') holdDropped(document, text, change.drop ?? []);
  }
}

// The rows that are taken out are named, of more than eight the first.
function holdDropped(document, text, drop) {
  const rows = drop.map((at) => document.places[at].row + 1).sort((a, b) => a - b);
  for (const row of rows.slice(0, 8)) assert.match(text, new RegExp(`\\(rows? [^)]*\\b${row}\\b`));
}

// Where a row has to stand in an exam, among the slots of its mode.
function besideText(document, schedule, number) {
  const rows = document.rows.flatMap((cells, row) => (cells[0] === 'slot' && cells[1] === document.modeNames[schedule] ? [row + 1] : []));
  if (rows.length === 0) return '';
  return number > 0 ? ` below row ${rows[number - 1]}` : ` above row ${rows[0]}`;
}

// What is to be added, as a planner types it: the row of a slot, or the words of an entry and where they go.
function addedText(document, { schedule, number, words }) {
  const [offset, length, circuit, route] = words;
  if (document.kind === 'plan') {
    const cells = ['slot', document.modeNames[schedule], document.circuitNames[circuit], offset, length, lettersOfRoute(route)];
    return `the row ${cells.join(';')}${document.exam ? besideText(document, schedule, number) : ''}: `;
  }
  let at = 5 + 6 * document.words[3];
  for (let before = 0; before < schedule; before++) at += 2 + 4 * document.words[at + 1];
  const [behind, count] = [at + 1 + 4 * number, at + 1].map((place) => placeOfWord(document, place));
  return `${words.join(' ')} behind ${behind} and put ${document.words[at + 1] + 1} into ${count}: `;
}

// Numbers and faults for which the sheet as it was before the fault is always among what is tried; a circuit without a slot can always be
// taken out.
export const passesWithHelp = ({ what }, number) => [6, 9, 11, UNSERVED].includes(number) || (number === 10 && what === 'offset');
