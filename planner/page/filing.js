// Files to plans and plans to files: what is opened, what is saved, and the file that a certificate is of.
import { decodeText, readTable, writeTable } from '../lib/cells.js';
import { certificate } from '../lib/certificate.js';
import { problemLine, readFile } from '../lib/document.js';
import { explain } from '../lib/explain.js';
import { element } from '../lib/markup.js';
import { sha256 } from '../lib/sha256.js';
import { rowsOfWords } from '../lib/words.js';
import { isSaved, openPlan } from './history.js';
import { rowsOfLines } from './judging.js';

const SEPARATORS = [';', ',', '\t'];
const COMMENTS = "The file's words stand in rows of a plan here, in their own order; its comments are not among them.";
const NO_WORDS = 'The file has no words, which stand for an idle network. Here it is as rows of a plan.';

export const encoded = (text) => new TextEncoder().encode(text);

// The plan of a file's bytes, with a note for the reader; or what is wrong. A file of words becomes rows of a plan where it divides.
export function planOfFile(name, bytes, exam, before) {
  const { text, wrong } = decodeText(bytes);
  if (wrong) return { wrong };
  const read = readFile(name, bytes, exam);
  if (read.kind === 'words') {
    const rows = read.words && rowsOfWords(read.words);
    if (rows) return { plan: openPlan(name, rows, { exam: true, bytes, fromWords: true, before }), note: read.words.length === 0 ? NO_WORDS : COMMENTS };
    return { plan: openPlan(name, rowsOfLines(text), { kind: 'words', bytes, before }), note: '' };
  }
  const { rows, separator, problems } = readTable(text);
  if (problems.length > 0) return { wrong: read.problems.map((problem) => problemLine('', problem).slice(2)).join('; ') };
  return { plan: openPlan(name, rows, { separator, exam, bytes, before }), note: '' };
}

export const savedName = (plan) => (plan.kind === 'words' ? plan.name : `${plan.name.replace(/\.[^.]*$/, '')}.csv`);

export function savedText(plan) {
  if (plan.kind === 'words') return plan.rows.map((row) => row.join(' ')).join('\n') + '\n';
  return writeTable(plan.rows, SEPARATORS.includes(plan.separator) ? plan.separator : ';');
}

// The certificate of the file: as it was opened, or as it was or would be saved. What cannot be read is certified nothing.
export function certificateOf(plan, about, verdict) {
  const bytes = isSaved(plan) ? plan.bytes : encoded(savedText(plan));
  const filed = readFile(isSaved(plan) ? plan.name : savedName(plan), bytes, plan.exam);
  if (!filed.words) return element('p', {}, `${filed.name} cannot be read, so that nothing is certified.`);
  const number = verdict(filed.words);
  return certificate(filed, { verdict: number, about, fileHash: sha256(bytes), explanation: explain(filed, verdict) });
}
