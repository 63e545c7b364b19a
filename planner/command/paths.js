// Names of files: which are a sheet's, how a line shows them, and whether two stand for one file.
import { realpathSync, statSync } from 'node:fs';
import { cut } from '../lib/document.js';

// A name of 255 characters and the stroke before it.
const MOST_SHOWN = 256;

export const SHEET_FILE = /\.(csv|tsv|sheet|words)$/i;

// A path as a line may show it: on one line, and of a long one the end, where the name is.
export function shownPath(path) {
  const safe = cut(path, Infinity);
  return safe.length <= MOST_SHOWN ? safe : `..${safe.slice(-MOST_SHOWN)}`;
}

// The path that links lead to; null where there is no such file.
export function realPath(path) {
  try {
    return realpathSync(path);
  } catch {
    return null;
  }
}

// Whether two paths stand for one file, be it by links of either kind.
export function sameFile(one, other) {
  const [first, second] = [realPath(one), realPath(other)];
  if (first === null || second === null) return false;
  if (first === second) return true;
  const [here, there] = [first, second].map((path) => statSync(path, { bigint: true }));
  return here.dev === there.dev && here.ino === there.ino;
}
