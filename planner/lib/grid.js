// The grid of a sheet: its columns and rows, and whether its vertical links are long. The head's word for the rows has 256 added then.
import { HEAD_LIMITS } from './limits.js';

export const LONG_LINKS = 256;
const [COLUMNS, ROWS] = [0, 1];

// The rows that the head's second word states, and whether vertical links are long; and that word again.
export const rowsOfWord = (word) => (word >= LONG_LINKS ? { rows: word - LONG_LINKS, long: true } : { rows: word, long: false });
export const wordOfRows = ({ rows, long }) => (long ? rows + LONG_LINKS : rows);

const isWithin = (size, [least, most]) => size >= least && size <= most;

// Whether columns and rows are those of a grid that can be drawn.
export const isGrid = ({ columns, rows }) => isWithin(columns, HEAD_LIMITS[COLUMNS]) && isWithin(rows, HEAD_LIMITS[ROWS]);

// The rows as a plan's cell has them: 2, or 2 long. A word that no grid has stays as it is.
export function rowsText(word) {
  const { rows, long } = rowsOfWord(word);
  return long && isWithin(rows, HEAD_LIMITS[ROWS]) ? `${rows} long` : String(word);
}
