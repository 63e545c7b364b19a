// What is open: a file's text as a plan or as words, with its sheet, the name of every cell, and what cannot be read.
import { MOST_ROWS, cellName, decodeText, readTable } from './cells.js';
import { readPlan } from './plan.js';
import { sheetOfPlan, partsOf } from './sheet.js';
import { placeName, readWords } from './words.js';

const WORDS_FILE = /\.(sheet|words)$/i;

// Reads a file. With exam, circuits and slots stay in the order of their rows.
export function readFile(name, bytes, exam = false) {
  const { text, wrong } = decodeText(bytes);
  if (wrong) return { ...unread(name), problems: [{ row: null, column: null, place: null, found: null, wanted: wrong }] };
  return WORDS_FILE.test(name) ? documentOfWords(name, text) : documentOfText(name, text, exam);
}

export function documentOfText(name, text, exam = false) {
  const { rows, separator, problems } = readTable(text);
  return documentOfRows(name, rows, exam, separator, problems);
}

// A document of a table's rows; problems that the table had come first.
export function documentOfRows(name, rows, exam = false, separator = ';', before = []) {
  const known = { ...unread(name), kind: 'plan', named: true, rows, separator, exam };
  const first = [...before, ...tooMany(rows)];
  const plan = readPlan(rows.slice(0, MOST_ROWS));
  // Behind a quote that never closes, and the last row that is read, nothing is known of the rows.
  const sound = first.length === 0 ? plan.problems : plan.problems.filter(({ row, depends }) => row < first[0].row && !depends);
  const problems = [...first, ...sound];
  if (problems.length > 0) return { ...known, plan, problems: problems.map((problem) => placed(problem, cellName)) };
  return { ...known, plan, ...sheetOfPlan(plan, exam) };
}

function tooMany(rows) {
  if (rows.length <= MOST_ROWS) return [];
  const wanted = `the end: a plan has at most ${MOST_ROWS} rows, and this has ${rows.length}`;
  return [{ row: MOST_ROWS, column: 0, found: rows[MOST_ROWS][0] ?? '', wanted }];
}

export function documentOfWords(name, text) {
  const { words, places, problems } = readWords(text);
  const named = (row, column) => placeName({ row, column });
  if (problems.length > 0) return { ...unread(name), kind: 'words', text, problems: problems.map((problem) => placed(problem, named)) };
  const parts = partsOf(words);
  return {
    ...unread(name),
    kind: 'words',
    text,
    words,
    places,
    circuitNames: (parts?.circuits ?? []).map((circuit) => `circuit ${circuit.number}`),
    modeNames: (parts?.schedules ?? []).map((schedule) => `schedule ${schedule.number}`),
    numberOf: (index) => index,
  };
}

// `named` tells whether circuits and modes have names of their own.
function unread(name) {
  return { name, kind: null, named: false, plan: null, problems: [], words: null, places: null, circuitNames: [], modeNames: [] };
}

function placed(problem, named) {
  return { ...problem, place: named(problem.row, problem.column) };
}

// The row and the column of a mark: those of the word of the sheet that it is at, or in a plan another column of that row. Behind the last
// word it is that one; null where there are no words.
export function cellOfMark(document, { at, column }) {
  const place = document.places[Math.min(at, document.places.length - 1)];
  return place ? { row: place.row, column: column ?? place.column } : null;
}

// The name of a mark's cell.
export function placeOfMark(document, mark) {
  const place = cellOfMark(document, mark);
  if (!place) return 'the file';
  return document.kind === 'plan' ? cellName(place.row, place.column) : placeName(place);
}

// The name of the cell that a word of the sheet stands for.
export const placeOfWord = (document, at) => placeOfMark(document, { at });

// A problem as one line: where, what stands there, what is wanted.
export function problemLine(name, problem) {
  if (problem.place === null) return cut(`${name}: ${problem.wanted}`, Infinity);
  const found = problem.found.trim() === '' ? 'nothing stands here' : `${JSON.stringify(cut(problem.found))} stands here`;
  return cut(`${name}, ${problem.place}: ${found}; wanted: ${problem.wanted}`, Infinity);
}

// A text as a message may show it: cut, and without characters that move a terminal's cursor.
export function cut(text, most = 40) {
  const safe = text.replace(/[\u0000-\u001f\u007f-\u009f\u2028\u2029\u202a-\u202e\u2066-\u2069]/g, ' ');
  return safe.length <= most ? safe : safe.slice(0, most) + '..';
}
