// What the command writes: lines on standard output, messages on standard error, files, and how far long work has come.
import { writeFileSync } from 'node:fs';
import { failedBecause, wrongUse } from './failures.js';
import { realPath, sameFile, SHEET_FILE, shownPath } from './paths.js';

// Characters that could move a terminal's cursor or turn the order of a line round.
const UNPRINTABLE = /[\u0000-\u0008\u000b-\u001f\u007f-\u009f\u2028\u2029\u202a-\u202e\u2066-\u2069]/g;
const FIRST_REPORT = 1000;
const NEXT_REPORT = 100;
const REASONS = {
  ENOENT: 'there is no such folder',
  ENOTDIR: 'there is no such folder',
  EISDIR: 'it is a folder',
  EACCES: 'it is not allowed',
  EROFS: 'nothing can be written there',
  ENOSPC: 'there is no room left',
};

const printable = (text) => text.replace(UNPRINTABLE, ' ');

// Prints a text's lines.
export function print(text) {
  process.stdout.write(printable(text) + '\n');
}

export function say(text) {
  process.stderr.write(printable(text) + '\n');
}

// Prints a value as JSON; characters that a terminal would act on are written as their codes.
export function printJson(value) {
  const code = (character) => '\\u' + character.charCodeAt(0).toString(16).padStart(4, '0');
  process.stdout.write(JSON.stringify(value, null, 2).replace(/[\u007f-\u009f\u2028\u2029\u202a-\u202e\u2066-\u2069]/g, code) + '\n');
}

// A reader that closed standard output early has what it wanted; anything else that stops the output is told.
export function watchOutput() {
  process.stdout.on('error', (error) => {
    if (error.code === 'EPIPE') return;
    say(`calqetum: standard output cannot be written (${error.code})`);
    process.exitCode = 2;
  });
  process.stderr.on('error', () => {});
}

// A table's rows as lines, each column as wide as its widest cell; the columns named in `numbers` end on one line.
export function tableLines(rows, numbers = []) {
  const widths = rows[0].map((_, at) => rows.reduce((most, row) => Math.max(most, String(row[at]).length), 0));
  const padded = (cell, at) => (numbers.includes(at) ? String(cell).padStart(widths[at]) : String(cell).padEnd(widths[at]));
  return rows.map((row) => row.map(padded).join('  ').trimEnd());
}

export const grouped = (number) => String(number).replace(/\B(?=(\d{3})+$)/g, ',');

// A teller of how far work has come, one line written over again, where standard error is a terminal and the work takes over a second.
export function teller(what, total) {
  if (!process.stderr.isTTY) return { told: () => {}, done: () => {} };
  let next = Date.now() + FIRST_REPORT;
  let shown = 0;
  const show = (text) => {
    process.stderr.write('\r' + text.padEnd(shown));
    shown = text.length;
  };
  return {
    told(count) {
      if (Date.now() < next) return;
      next = Date.now() + NEXT_REPORT;
      show(`${what} ${grouped(count)} of ${grouped(total)}`);
    },
    done() {
      if (shown > 0) process.stderr.write('\r' + ' '.repeat(shown) + '\r');
    },
  };
}

// Holds the target behind -o to what may be written over: neither what is read, nor any plan or sheet, be it by way of a link.
export function holdTarget(path, read) {
  if (path === '-') return;
  const shown = shownPath(path);
  if (read.some((one) => sameFile(one, path))) throw wrongUse(`${shown} is the file that is read; name another one behind -o`);
  const sheet = [path, realPath(path) ?? ''].some((name) => SHEET_FILE.test(name));
  if (sheet) throw wrongUse(`${shown} is not written: .csv, .tsv, .sheet and .words are plans and sheets; name another file behind -o`);
}

// Writes a file, or standard output for '-'; holdTarget comes first.
export function writeFile(path, text) {
  if (path === '-') {
    process.stdout.write(text);
    return;
  }
  try {
    writeFileSync(path, text);
  } catch (error) {
    throw failedBecause(`${shownPath(path)} cannot be written: ${reasonOf(error)}`);
  }
}

function reasonOf(error) {
  return REASONS[error.code] ?? `error ${error.code}`;
}
