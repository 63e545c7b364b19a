// A small plan that passes, for tests that change some of its cells.
import { documentOfText, documentOfWords } from '../../planner/lib/document.js';

const BASE = [
  'network;2;2;16',
  'circuit;speed;1;0;0;4;0;4',
  'circuit;cabin;2;0;0;8;4;8',
  'circuit;brake;0;3;12;4;0;4',
  'mode;normal;12',
  'slot;normal;speed;0;2;W',
  'slot;normal;cabin;2;4;N',
  'mode;high wind;12',
  'slot;high wind;speed;0;2;W',
  'slot;high wind;cabin;2;2;N',
  'slot;high wind;brake;4;2;ES',
];

// Many rows by a short name.
const MANY = {
  '62 circuits': Array.from({ length: 62 }, (_, at) => `circuit;more ${at};0;1;0;1;${at};1`),
  '8 modes': Array.from({ length: 8 }, (_, at) => `mode;more ${at};9`),
  '256 slots': Array.from({ length: 256 }, (_, at) => `slot;normal;brake;${at};2;ES`),
};

// The plan's text with other cells (named as D9) and more rows.
function editedText(edits, more = []) {
  const rows = [...BASE, ...more.flatMap((row) => MANY[row] ?? [row])].map((line) => line.split(';'));
  for (const [cell, text] of Object.entries(edits)) rows[Number(cell.slice(1)) - 1][cell.charCodeAt(0) - 65] = text;
  return rows.map((cells) => cells.join(';')).join('\n');
}

export const plan = (edits, more = [], exam = false) => documentOfText('plan.csv', editedText(edits, more), exam);
export const words = (text) => documentOfWords('a.sheet', text);
