// What a cell is and what is wrong with it, and what belongs in a row.
import { cellName } from '../lib/cells.js';
import { element } from '../lib/markup.js';
import { COLUMNS } from '../lib/plan.js';
import { placeName } from '../lib/words.js';
import { byId, fill } from './dom.js';

// Tells the cell at a place: its name, what stands in such cells, and its mark.
export function showCellHelp({ kind, rows }, row, column, marks) {
  const cells = rows[row] ?? [];
  const keyword = (cells[0] ?? '').trim().toLowerCase();
  const names = COLUMNS[keyword === 'at' ? (cells[2] ?? '').trim().toLowerCase() : keyword];
  const name = column === 0 ? 'keyword' : (names?.[column - 1] ?? (keyword === 'memory' ? 'a word' : ''));
  const place = kind === 'words' ? placeName({ row, column }) : `${cellName(row, column)}${name ? `: ${name}` : ''}`;
  const mark = marks.find((one) => one.row === row && one.column === column);
  byId('cell-help').textContent = `${place}${mark ? `. ${mark.text}` : ''}`;
}

export function showRowHelp() {
  fill(
    'row-help',
    element('p', {}, 'The first cell is a keyword; a row that begins with # is a comment. Circuits and modes are called by their names.'),
    element('p', {}, 'Rows are 2 to 4; 2 long is a grid whose vertical links are long, so that each hop north or south takes a cycle more.'),
    element('p', {}, 'A route is letters N, E, S, W in the order of the way, as ES for east, then south.'),
    element('p', {}, 'A window starts at a day and a time, as Mo 08:30, or at a minute of the week; its length is in minutes.'),
    element('ul', {}, Object.entries(COLUMNS).map(rowHelp)),
  );
}

function rowHelp([keyword, names]) {
  return element('li', {}, element('b', {}, names[1] === keyword ? 'at' : keyword), `; ${names.join('; ')}`);
}
