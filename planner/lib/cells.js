// Tables of cells: text of a spreadsheet's CSV, and back. A cell keeps its text as it was typed.

export const MOST_BYTES = 4 * 1024 * 1024;
export const MOST_ROWS = 10000;
// So many rows a spreadsheet can have, empty ones included.
const MOST_LINES = 1048576;
const UNCLOSED = 'a closing quote: none follows up to the end of the file';

const KEYWORDS = new Set(['network', 'circuit', 'mode', 'slot', 'window', 'memory', 'at']);
const SEPARATORS = [';', '\t', ','];
// Bytes 80 to 9f in the code page of Western Europe, which not every Node decodes as browsers do.
const WESTERN = '€\u0081‚ƒ„…†‡ˆ‰Š‹Œ\u008dŽ\u008f\u0090‘’“”•–—˜™š›œ\u009džŸ';

// The name of a cell as spreadsheets show it: row 8, column 3 (from 0) is D9.
export function cellName(row, column) {
  let letters = '';
  for (let rest = column + 1; rest > 0; rest = Math.floor((rest - 1) / 26)) {
    letters = String.fromCharCode(65 + ((rest - 1) % 26)) + letters;
  }
  return letters + (row + 1);
}

// The text of a file's bytes, or what is wrong with them.
export function decodeText(bytes) {
  if (bytes.length > MOST_BYTES) {
    return { wrong: `it has ${bytes.length} bytes, and a plan has at most ${MOST_BYTES}` };
  }
  if (bytes[0] === 0x50 && bytes[1] === 0x4b && bytes[2] === 0x03) {
    return { wrong: "it is a spreadsheet's own file (.xlsx or .ods): save it as CSV and open that" };
  }
  const encoding = bytes[0] === 0xff && bytes[1] === 0xfe ? 'utf-16le' : bytes[0] === 0xfe && bytes[1] === 0xff ? 'utf-16be' : 'utf-8';
  let text;
  try {
    text = new TextDecoder(encoding, { fatal: true }).decode(bytes);
  } catch {
    if (encoding !== 'utf-8') return { wrong: 'it is not a text: it begins as UTF-16 and is broken further on' };
    // Spreadsheets on Windows save CSV in the code page of Western Europe.
    text = new TextDecoder('windows-1252').decode(bytes).replace(/[\u0080-\u009f]/g, (character) => WESTERN[character.charCodeAt(0) - 128]);
  }
  const place = text.search(/[\u0000-\u0008\u000b\u000c\u000e-\u001f\u007f]/);
  if (place >= 0) {
    const code = text.charCodeAt(place).toString(16).padStart(2, '0');
    return { wrong: `it is not a text: character ${place + 1} is a control character (code ${code})` };
  }
  return { text };
}

// Whether a line's first cell is a keyword, for a separator.
function beginsRow(line, separator) {
  const end = line.indexOf(separator);
  return end >= 0 && KEYWORDS.has(line.slice(0, end).replaceAll('"', '').trim().toLowerCase());
}

// The separator under which most rows begin with a keyword.
function separatorOf(lines) {
  let best = ';';
  let most = 0;
  for (const separator of SEPARATORS) {
    const count = lines.filter((line) => beginsRow(line, separator)).length;
    if (count > most) [best, most] = [separator, count];
  }
  return best;
}

// The rows of a text, each a list of cells; empty rows at the end are left out. A quote that is never closed is a problem at its cell.
export function readTable(text) {
  const plain = text.replace(/^\ufeff/, '');
  const lines = plain.split(/\r\n|\r|\n/, MOST_ROWS);
  const told = /^"?sep=(.)"?$/i.exec(lines[0]);
  const separator = told ? told[1] : separatorOf(lines);
  const { rows, open } = rowsOf(plain, separator, true);
  const problems = [];
  if (open) problems.push({ row: open.row, column: open.column, found: '"' + open.text.slice(0, 20), wanted: UNCLOSED });
  if (told) rows[0] = [''];
  while (rows.length > 0 && rows[rows.length - 1].every((cell) => cell.trim() === '')) rows.pop();
  return { rows, separator, problems };
}

// The rows of a text, and the quoted cell that is open at its end, or null. A quote in a comment counts only where it closes in its line.
function rowsOf(plain, separator, withComments) {
  const rows = [];
  let row = [];
  let cell = '';
  let blank = true;
  let open = null;
  // Empty rows are put once a row with something comes behind them: a file may end with a million of them.
  let empty = 0;
  const add = (character) => {
    cell += character;
    if (blank) blank = character.trim() === '';
  };
  const clear = () => {
    cell = '';
    blank = true;
  };
  const endCell = () => {
    row.push(plainCell(cell));
    clear();
  };
  const endRow = () => {
    if (row.length === 0 && cell === '') {
      empty++;
      return;
    }
    for (; empty > 0; empty--) rows.push(['']);
    endCell();
    rows.push(row);
    row = [];
  };
  for (let at = 0; at < plain.length && rows.length + empty < MOST_LINES; at++) {
    const character = plain[at];
    if (open) {
      if (character !== '"') add(character);
      else if (plain[at + 1] === '"') add(plain[++at]);
      else open = null;
    } else if (character === '"' && blank) {
      open = { row: rows.length + empty, column: row.length };
      clear();
    } else if (character === separator) endCell();
    else if (character === '\n' || character === '\r') {
      if (character === '\r' && plain[at + 1] === '\n') at++;
      endRow();
    } else if (character === '#' && blank && row.length === 0 && withComments) {
      const line = /[^\r\n]*/y;
      line.lastIndex = at;
      const [comment] = line.exec(plain);
      const cells = commentCells(cell + comment, separator);
      row = cells.slice(0, -1);
      cell = cells[cells.length - 1];
      at += comment.length - 1;
    } else add(character);
  }
  const last = open && { ...open, text: cell };
  endRow();
  return { rows, open: last };
}

function commentCells(line, separator) {
  const { rows, open } = rowsOf(line, separator, false);
  // Line ends in quotes may stand before it, so many that nothing is read of what is behind them.
  return open ? line.split(separator) : (rows[0] ?? ['']);
}

// A spreadsheet would reckon with a text that begins so; an apostrophe in front keeps it a text, and is taken off again when it is read.
const FORMULA = /^'*\s*[=+\-@]/;

function plainCell(cell) {
  return cell[0] === "'" && FORMULA.test(cell) ? cell.slice(1) : cell;
}

function quotedCell(cell, separator) {
  const formula = FORMULA.test(cell);
  const safe = formula ? "'" + cell : cell;
  const plain = !formula && !safe.includes(separator) && !/["\r\n]/.test(safe) && safe === safe.trim();
  return plain ? safe : '"' + safe.replaceAll('"', '""') + '"';
}

// The text of a table, its rows ended by CRLF as RFC 4180 has them. A comment is quoted whole where one of its cells has to be.
export function writeTable(rows, separator = ';') {
  return rows.map((row) => lineOf(row, separator) + '\r\n').join('');
}

// A row as a line of a document's file, for a planner to copy.
export const rowText = (cells, { separator }) => lineOf(cells.map(String), SEPARATORS.includes(separator) ? separator : ';');

function lineOf(row, separator) {
  const cells = row.map((cell) => quotedCell(cell, separator));
  const comment = /^\s*#/.test(row[0] ?? '') && cells.some((cell) => cell[0] === '"');
  return (comment && cells[0][0] !== '"' ? [`"${cells[0]}"`, ...cells.slice(1)] : cells).join(separator);
}
