// What is said of the open plan: unreadable cells, the verdict and its explanation, and the cells to be marked.
import { cellOfMark, documentOfRows, documentOfWords } from '../lib/document.js';
import { explain } from '../lib/explain.js';
import { explainHours } from '../lib/explain_hours.js';

// The document of the open plan's rows. Lines of a file of words are rows of one word a cell.
export function documentOf(plan, rows = plan.rows) {
  if (plan.kind === 'words') return documentOfWords(plan.name, rows.map((row) => row.join(' ')).join('\n'));
  // Names that stand for the numbers of a file of words are no names.
  return { ...documentOfRows(plan.name, rows, plan.exam, plan.separator), named: !plan.fromWords };
}

// The rows of a file of words that does not divide into circuits and modes: a line a row, a word a cell, a comment in the last one.
export function rowsOfLines(text) {
  return text.replace(/^\ufeff/, '').split(/\r\n|\n/).map((line) => {
    const [, words, comment] = /^([^#]*)(#.*)?$/s.exec(line);
    const cells = words.split(/[ \t]+/).filter((word) => word !== '');
    return comment ? [...cells, comment] : cells.length > 0 ? cells : [''];
  });
}

export function judge(opened, verdict) {
  if (opened.problems.length > 0) {
    const placed = opened.problems.filter((problem) => problem.row !== null);
    return { answer: 'unreadable', marks: placed.map((problem) => ({ ...problem, text: `wanted: ${problem.wanted}` })) };
  }
  const number = verdict(opened.words);
  if (number === 0) return { answer: 'passes', number, marks: [] };
  const explanation = explain(opened, verdict);
  const marks = explanation.marks.flatMap((mark) => {
    const place = cellOfMark(opened, mark);
    return place ? [{ ...place, text: mark.text }] : [];
  });
  return { answer: 'refused', number, explanation, marks };
}

// What is said of the window rows of a document: why they are refused, or null, and the cells to be marked.
export function judgeWindows(opened, hours) {
  const refusal = opened.problems.length === 0 ? explainHours(opened, hours) : null;
  return { refusal, marks: refusal?.marks ?? [] };
}
