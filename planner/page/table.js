// The table of cells: a grid that is walked by the arrow keys, with one cell in reach of Tab, and edited in place.
import { cellName } from '../lib/cells.js';
import { byId } from './dom.js';

export const PAGE_ROWS = 200;
const PAGE_COLUMNS = 40;
const LEAST_COLUMNS = 8;

// Makes the table in a node. `handlers`: typed(row, column, text) while a cell is edited, committed(row, column, text),
// pasted(row, column, lines of texts), cancelled(), chosen(row, column), paged() when other rows or columns are shown.
export function makeTable(host, handlers) {
  const table = document.createElement('table');
  table.className = 'plan';
  table.setAttribute('role', 'grid');
  table.setAttribute('aria-label', 'The rows of the plan');
  host.append(table);
  const shown = { rows: [['']], first: 0, firstColumn: 0, columns: LEAST_COLUMNS, width: LEAST_COLUMNS };
  const own = { host, table, handlers, ...shown, at: { row: 0, column: 0 }, input: null };
  // Before the click is whole, what is being typed in another cell is taken; that draws the rows anew.
  table.addEventListener('pointerdown', (event) => {
    const cell = event.target.closest('td[data-row]');
    if (!cell || event.target === own.input) return;
    event.preventDefault();
    commit(own, 0, 0, false);
    choose(own, Number(cell.dataset.row), Number(cell.dataset.column));
  });
  table.addEventListener('dblclick', (event) => {
    if (event.target.closest('td[data-row]') && !own.input) edit(own, textAt(own));
  });
  table.addEventListener('focusin', (event) => {
    const cell = event.target.closest('td[data-row]');
    if (cell && event.target === cell) moved(own, Number(cell.dataset.row), Number(cell.dataset.column));
  });
  table.addEventListener('copy', (event) => own.input || handOver(event, textAt(own)));
  table.addEventListener('paste', (event) => own.input || paste(own, event));
  table.addEventListener('keydown', (event) => (own.input ? editingKey(own, event) : walkingKey(own, event)));
  return {
    show: (rows, first) => show(own, rows, first),
    mark: (marks) => mark(own, marks),
    choose: (row, column, focus = true) => choose(own, row, column, focus),
    selected: () => own.at,
    firstRow: () => own.first,
    editing: () => own.input !== null,
    commit: () => commit(own, 0, 0),
  };
}

function handOver(event, text) {
  event.clipboardData.setData('text/plain', text);
  event.preventDefault();
}

// Takes a block of cells as spreadsheets copy it: lines, and tabs between cells.
function paste(own, event) {
  const lines = event.clipboardData.getData('text/plain').replace(/\r?\n$/, '').split(/\r?\n/);
  own.handlers.pasted(own.at.row, own.at.column, lines.map((line) => line.split('\t')));
  event.preventDefault();
}

const cellAt = (own, row, column) => byId(`cell-${cellName(row, column)}`);
const textAt = (own) => own.rows[own.at.row]?.[own.at.column] ?? '';

// Draws a page of rows and columns. An empty row and an empty column behind the last are there to be written in.
function show(own, rows, first = own.first, firstColumn = own.firstColumn) {
  own.rows = rows;
  own.first = first;
  own.input = null;
  own.width = rows.reduce((most, row) => Math.max(most, row.length + 1), LEAST_COLUMNS);
  own.firstColumn = Math.min(firstColumn, Math.max(0, own.width - PAGE_COLUMNS));
  own.columns = Math.min(own.width - own.firstColumn, PAGE_COLUMNS);
  const head = document.createElement('thead');
  const letters = head.insertRow();
  letters.append(headCell('', 'col'));
  for (const column of columnsOf(own)) letters.append(headCell(cellName(0, column).slice(0, -1), 'col'));
  const body = document.createElement('tbody');
  const last = Math.min(rows.length, first + PAGE_ROWS - 1);
  for (let row = first; row <= last; row++) body.append(rowOf(own, row));
  own.table.setAttribute('aria-rowcount', String(rows.length + 2));
  own.table.setAttribute('aria-colcount', String(own.width + 1));
  own.table.replaceChildren(head, body);
  const lastColumn = own.firstColumn + own.columns - 1;
  own.at = { row: within(own.at.row, first, last), column: within(own.at.column, own.firstColumn, lastColumn) };
  cellAt(own, own.at.row, own.at.column).tabIndex = 0;
}

const within = (value, least, most) => Math.min(Math.max(value, least), most);
const columnsOf = (own) => Array.from({ length: own.columns }, (_, at) => own.firstColumn + at);

function headCell(text, scope) {
  const cell = document.createElement('th');
  cell.scope = scope;
  cell.textContent = text;
  return cell;
}

function rowOf(own, row) {
  const line = document.createElement('tr');
  line.setAttribute('aria-rowindex', String(row + 2));
  line.append(headCell(String(row + 1), 'row'));
  const cells = own.rows[row] ?? [];
  const comment = cells.findIndex((text) => text.trimStart().startsWith('#'));
  for (const column of columnsOf(own)) {
    const cell = document.createElement('td');
    cell.id = `cell-${cellName(row, column)}`;
    cell.setAttribute('role', 'gridcell');
    cell.dataset.row = row;
    cell.dataset.column = column;
    cell.setAttribute('aria-colindex', String(column + 2));
    cell.tabIndex = -1;
    cell.textContent = cells[column] ?? '';
    // A comment of one cell may run on over the empty cells beside it.
    if (comment >= 0 && column >= comment) cell.className = cells.length === column + 1 ? 'comment alone' : 'comment';
    else if (column === 0) cell.className = 'keyword';
    line.append(cell);
  }
  return line;
}

// Marks cells as wrong: a list of { row, column, text }; other marks go.
function mark(own, marks) {
  for (const cell of own.table.querySelectorAll('td[aria-invalid]')) {
    cell.removeAttribute('aria-invalid');
    cell.removeAttribute('title');
  }
  for (const { row, column, text } of marks) {
    const cell = cellAt(own, row, column);
    if (!cell) continue;
    cell.setAttribute('aria-invalid', 'true');
    cell.title = text;
  }
}

// Moves the one cell in reach of Tab.
function moved(own, row, column) {
  const before = cellAt(own, own.at.row, own.at.column);
  if (before) before.tabIndex = -1;
  own.at = { row, column };
  const cell = cellAt(own, row, column);
  if (cell) cell.tabIndex = 0;
  own.handlers.chosen(row, column);
}

// Goes to a cell, and to the page of rows and columns that has it.
function choose(own, wantedRow, wantedColumn, focus = true) {
  const row = within(wantedRow, 0, own.rows.length);
  const column = within(wantedColumn, 0, own.width - 1);
  const first = Math.floor(row / PAGE_ROWS) * PAGE_ROWS;
  const isShown = column >= own.firstColumn && column < own.firstColumn + own.columns;
  if (first !== own.first || !isShown) {
    show(own, own.rows, first, isShown ? own.firstColumn : Math.max(0, column - PAGE_COLUMNS / 2));
    own.handlers.paged();
  }
  moved(own, row, column);
  const cell = cellAt(own, own.at.row, own.at.column);
  if (focus) cell.focus();
  cell.scrollIntoView({ block: 'nearest', inline: 'nearest' });
}

const STEPS = { ArrowUp: [-1, 0], ArrowDown: [1, 0], ArrowLeft: [0, -1], ArrowRight: [0, 1], PageUp: [-20, 0], PageDown: [20, 0] };

function walkingKey(own, event) {
  if (event.ctrlKey || event.metaKey || event.altKey) return;
  const { row, column } = own.at;
  if (STEPS[event.key]) choose(own, row + STEPS[event.key][0], column + STEPS[event.key][1]);
  else if (event.key === 'Home') choose(own, row, 0);
  else if (event.key === 'End') choose(own, row, Math.max(0, (own.rows[row]?.length ?? 1) - 1));
  else if (event.key === 'Enter' || event.key === 'F2') edit(own, textAt(own));
  else if (event.key === 'Delete' || event.key === 'Backspace') {
    own.handlers.committed(row, column, '');
    choose(own, row, column);
  }
  else if (event.key.length === 1) edit(own, event.key);
  else return;
  event.preventDefault();
}

// Puts an input into the chosen cell.
function edit(own, text) {
  const { row, column } = own.at;
  const cell = cellAt(own, row, column);
  const input = document.createElement('input');
  input.value = text;
  input.setAttribute('aria-label', `Cell ${cellName(row, column)}`);
  input.addEventListener('input', () => own.handlers.typed(row, column, input.value));
  input.addEventListener('blur', () => own.input === input && commit(own, 0, 0, false));
  cell.classList.add('editing');
  cell.replaceChildren(input);
  own.input = input;
  input.focus();
  if (text !== textAt(own)) own.handlers.typed(row, column, text);
}

function editingKey(own, event) {
  if (event.key === 'Enter') commit(own, event.shiftKey ? -1 : 1, 0);
  else if (event.key === 'Tab') commit(own, 0, event.shiftKey ? -1 : 1);
  else if (event.key === 'Escape') cancel(own);
  else return;
  event.preventDefault();
}

// Takes what was typed and goes on to another cell.
function commit(own, down, right, focus = true) {
  const { row, column } = own.at;
  if (!own.input) return;
  const text = own.input.value;
  own.input = null;
  own.handlers.committed(row, column, text);
  if (focus) choose(own, row + down, column + right);
}

function cancel(own) {
  const { row, column } = own.at;
  own.input = null;
  own.handlers.cancelled();
  choose(own, row, column);
}
