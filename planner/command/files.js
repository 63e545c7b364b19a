// Files and folders that are read. Whatever is wrong with one is told in words, and never by an exception of Node's.
import { readFileSync, readdirSync, statSync } from 'node:fs';
import { basename, join } from 'node:path';
import { MOST_BYTES } from '../lib/cells.js';
import { problemLine, readFile } from '../lib/document.js';
import { MOST_PROBLEMS } from '../lib/plan.js';
import { grouped, printJson, say } from './output.js';
import { shownPath } from './paths.js';

const MOST_TOLD = 200;
const REASONS = {
  ENOENT: 'there is no such file',
  ENOTDIR: 'there is no such file',
  EACCES: 'it may not be read',
  EPERM: 'it may not be read',
  ELOOP: 'its links lead in a circle',
  ENAMETOOLONG: 'the name is too long',
};

const reasonOf = (error) => REASONS[error.code] ?? `it cannot be read (${error.code ?? error.message})`;

export function isFolder(path) {
  try {
    return statSync(path).isDirectory();
  } catch {
    return false;
  }
}

// The files of a folder and the folders in it, by name, hidden ones left out; or what is wrong.
export function filesOf(folder) {
  try {
    const names = readdirSync(folder).filter((name) => !name.startsWith('.')).sort();
    const folders = names.filter((name) => isFolder(join(folder, name)));
    return { names: names.filter((name) => !folders.includes(name)), folders };
  } catch (error) {
    return { wrong: reasonOf(error) };
  }
}

// The bytes of a file, or what is wrong; a file that is too large is not read.
export function readBytes(path) {
  if (path === '-') return { wrong: 'standard input is not read; a file of that name is ./-' };
  try {
    const status = statSync(path);
    if (status.isDirectory()) return { wrong: 'it is a folder, and a file is wanted' };
    if (!status.isFile()) return { wrong: 'it is not a plain file' };
    if (status.size > MOST_BYTES) return { wrong: `it has ${grouped(status.size)} bytes, and at most ${grouped(MOST_BYTES)} are read` };
    return { bytes: readFileSync(path) };
  } catch (error) {
    return { wrong: reasonOf(error) };
  }
}

// A plan or sheet. `wrong` says why there is no document; a document may still have problems.
export function readSheet(path, exam) {
  const { bytes, wrong } = readBytes(path);
  return wrong ? { path, wrong, document: null } : { path, bytes, document: readFile(basename(path), bytes, exam) };
}

// Why a sheet cannot be judged, a line for each reason; none where it can.
export function complaintsOf({ path, wrong, document }) {
  const shown = shownPath(path);
  if (wrong) return [`${shown}: ${wrong}`];
  const { problems } = document;
  const lines = problems.slice(0, MOST_TOLD).map((problem) => problemLine(shown, problem));
  const more = problems.length - lines.length;
  // The reader stops counting there.
  const least = problems.length >= MOST_PROBLEMS ? 'at least ' : '';
  return more > 0 ? [...lines, `${shown}: ${least}${grouped(more)} more cells cannot be read`] : lines;
}

// Tells what cannot be read: by lines on standard error, or as JSON with what else is known.
export function tellUnreadable(problems, options, known) {
  if (options['--json']) printJson({ ...known, answer: 'unreadable', problems });
  else problems.forEach(say);
}

// Sheets that can all be judged, or null once it is told why not.
export function readableSheets(paths, options, known) {
  const sheets = paths.map((path) => readSheet(path, options['--exam']));
  const problems = sheets.flatMap(complaintsOf);
  if (problems.length === 0) return sheets;
  tellUnreadable(problems, options, known);
  return null;
}

// A sheet that can be judged, or null once it is told why not.
export function readableSheet(path, options) {
  const sheets = readableSheets([path], options, { file: path });
  return sheets ? sheets[0] : null;
}
