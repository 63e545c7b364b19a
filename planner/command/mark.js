// The command mark: papers marked against the lines that the proved calls give for a key.
import { basename, join } from 'node:path';
import { decodeText } from '../lib/cells.js';
import { MOST_CYCLES } from '../lib/listing.js';
import { countsLine, keyOf, markLine, markPaper } from '../lib/marking.js';
import { holdCount, numberOption } from './arguments.js';
import { complaintsOf, filesOf, isFolder, readBytes, readSheet, tellUnreadable } from './files.js';
import { grouped, print, printJson, say, tableLines, teller } from './output.js';
import { sameFile, SHEET_FILE, shownPath } from './paths.js';
import { openProved } from './proved.js';

const HEADS = ['paper', 'right', 'wrong', 'missing', 'surplus', 'total'];
const NUMBERS = [1, 2, 3, 4, 5];

export async function mark([keyPath, ...papers], options) {
  holdCount(keyPath === undefined ? [] : [keyPath, ...papers], 2, Infinity, 'KEY, and at least one PAPER,');
  const cycles = numberOption(options, '--cycles', 0, MOST_CYCLES);
  const asData = options['--json'];
  const { keys, wrong } = await readKeys(keyPath, cycles, options['--exam']);
  if (wrong) {
    tellUnreadable(wrong, options, { key: keyPath, cycles, papers: [] });
    return 2;
  }
  const found = papers.map((path) => papersOf(path, keyPath));
  const skipped = found.flatMap((one) => one.wrong);
  if (!asData) skipped.forEach(say);
  const marked = markAll(keys, found.flatMap((one) => one.paths), cycles !== null, asData);
  const problems = [...skipped, ...marked.flatMap((one) => one.problems)];
  const answer = problems.length > 0 ? 'unreadable' : 'marked';
  if (asData) printJson({ key: keyPath, answer, cycles, papers: marked, problems });
  else if (marked.length > 1 || papers.some(isFolder)) print(['', ...tableLines([HEADS, ...marked.map(tableRow)], NUMBERS)].join('\n'));
  return problems.length > 0 ? 2 : 0;
}

// The key's sheets with what is right for each, or why one cannot be read.
async function readKeys(path, cycles, exam) {
  const folder = isFolder(path);
  const { names, wrong } = folder ? filesOf(path) : { names: [path] };
  const chosen = folder && names ? names.filter((name) => SHEET_FILE.test(name)) : names;
  if (wrong || chosen.length === 0) {
    return { wrong: [`${shownPath(path)}: ${wrong ?? 'the folder has no sheet (.csv, .tsv, .sheet or .words)'}`] };
  }
  const sheets = chosen.map((name) => ({ name: basename(name), ...readSheet(folder ? join(path, name) : name, exam) }));
  const complaints = sheets.flatMap(complaintsOf);
  if (complaints.length > 0) return { wrong: complaints };
  const calls = await openProved();
  const { told, done } = teller('key: cycle', sheets.length * (cycles ?? 0));
  const keys = sheets.map(({ name, document }, at) => keyOf(calls, document, name, cycles, (count) => told(at * cycles + count)));
  done();
  return { keys, wrong: null };
}

// The papers of a name: a file, or the files of a folder, of which the key is none; and what is not marked.
function papersOf(path, keyPath) {
  if (!isFolder(path)) return { paths: [path], wrong: [] };
  const { names, folders, wrong } = filesOf(path);
  if (wrong) return { paths: [], wrong: [`${shownPath(path)}: ${wrong}`] };
  const others = (list) => list.map((name) => join(path, name)).filter((one) => !sameFile(one, keyPath));
  const paths = others(names);
  const skipped = others(folders).map((one) => `${shownPath(one)} is a folder and is not marked`);
  return { paths, wrong: paths.length > 0 ? skipped : [...skipped, `${shownPath(path)}: the folder has no paper in it`] };
}

function markAll(keys, paths, withListing, quiet) {
  const { told, done } = teller('paper', paths.length);
  const marked = paths.map((path, at) => {
    const result = markFile(keys, path, withListing);
    if (!quiet) {
      done();
      printResult(path, result, keys.length > 1, at > 0);
    }
    told(at + 1);
    return { paper: path, ...result };
  });
  done();
  return marked;
}

function markFile(keys, path, withListing) {
  const { bytes, wrong } = readBytes(path);
  const decoded = wrong ? { wrong } : decodeText(bytes);
  if (decoded.wrong) return { answer: 'unreadable', problems: [`${shownPath(path)}: ${decoded.wrong}`] };
  return { answer: 'marked', ...markPaper(keys, decoded.text, withListing), problems: [] };
}

function printResult(path, result, several, further) {
  if (result.answer === 'unreadable') {
    result.problems.forEach(say);
    return;
  }
  const lines = result.lines.map((line) => markLine(line, several));
  const more = result.unlisted > 0 ? [`surplus  .. and ${grouped(result.unlisted)} more lines`] : [];
  print([...(further ? [''] : []), ...lines, ...more, countsLine(shownPath(path), result)].join('\n'));
}

function tableRow({ paper, answer, right, wrong, missing, surplus, total }) {
  return [shownPath(paper), ...(answer === 'unreadable' ? ['-', '-', '-', '-', '-'] : [right, wrong, missing, surplus, total])];
}
