// Files of words (.sheet): decimal numbers separated by blanks or tabs, a # before a comment, as examples/words.sh reads them.
import { rowsText, wordOfRows } from './grid.js';
import { LARGEST_WORD, MOST_PROBLEMS, numberOf } from './plan.js';
import { partsOf } from './sheet.js';
import { lettersOfRoute } from './route.js';

// Far more than the 8,597 words of the largest sheet; a longer file would only take time to read.
const MOST_WORDS = 100000;
const WORD = `a word: digits, from 0 to ${LARGEST_WORD}`;

// The words of a text, each with its line and its place within the line, counted from 0; every token that is no word is a problem.
export function readWords(text) {
  const words = [];
  const places = [];
  const problems = [];
  const lines = text.replace(/^\ufeff/, '').split(/\r\n|\n/);
  lines.forEach((line, row) => {
    if (words.length > MOST_WORDS) return;
    // Such a line could hide words behind a comment.
    if (line.includes('\r')) {
      problems.push({ row, column: 0, found: line, wanted: 'lines that end by LF or CRLF: in this one a carriage return stands alone' });
      return;
    }
    let column = 0;
    for (const [token] of line.split('#', 1)[0].matchAll(/[^ \t]+/g)) {
      if (words.length > MOST_WORDS) return;
      const word = /^[0-9]+$/.test(token) ? numberOf(token) : null;
      if (word === null && problems.length < MOST_PROBLEMS) problems.push({ row, column, found: token, wanted: WORD });
      words.push(word);
      places.push({ row, column: column++ });
    }
  });
  if (words.length > MOST_WORDS) {
    const { row, column } = places[MOST_WORDS];
    problems.push({ row, column, found: String(words[MOST_WORDS] ?? ''), wanted: `the end: a file of words has at most ${MOST_WORDS}` });
  }
  return { words, places, problems };
}

export const placeName = (place) => `line ${place.row + 1}, word ${place.column + 1}`;

// The rows of a plan for a sheet's words, with numbers for names; null where the words do not divide into circuits and schedules.
export function rowsOfWords(words) {
  const parts = partsOf(words);
  if (!parts) return null;
  const rows = [['network', parts.columns, rowsText(wordOfRows(parts)), parts.memory]];
  for (const circuit of parts.circuits) rows.push(['circuit', `circuit ${circuit.number}`, ...circuit.words]);
  for (const schedule of parts.schedules) {
    rows.push(['mode', `schedule ${schedule.number}`, schedule.period]);
    for (const entry of schedule.entries) {
      const [offset, length, circuit, route] = entry.words;
      // A circuit that is not there cannot be named.
      if (circuit >= parts.circuits.length) return null;
      rows.push(['slot', `schedule ${schedule.number}`, `circuit ${circuit}`, offset, length, lettersOfRoute(route) ?? route]);
    }
  }
  return rows.map((row) => row.map(String));
}
