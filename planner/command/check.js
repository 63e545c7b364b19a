// The commands check and explain: the verdict upon sheets, and why one is refused.
import { explain } from '../lib/explain.js';
import { placeOfMark } from '../lib/document.js';
import { verdictText } from '../lib/paper.js';
import { holdCount } from './arguments.js';
import { complaintsOf, readableSheet, readSheet } from './files.js';
import { print, printJson, say } from './output.js';
import { shownPath } from './paths.js';
import { openProved } from './proved.js';
import { explanationData, explanationLines, sayRefusal } from './refusal.js';

// A line for each file; the exit status is the highest.
export async function check(paths, options) {
  holdCount(paths, 1, Infinity, 'at least one FILE');
  const calls = await openProved();
  const judge = options['--json'] ? judgedAsData : judgedAsLine;
  const judged = paths.map((path) => judge(readSheet(path, options['--exam']), calls, paths.length > 1));
  if (options['--json']) printJson(judged.map(({ data }) => data));
  return Math.max(...judged.map(({ status }) => status));
}

function judgedAsLine(sheet, calls, several) {
  const complaints = complaintsOf(sheet);
  complaints.forEach(say);
  if (complaints.length > 0) return { status: 2 };
  const number = calls.verdict(sheet.document.words);
  print(several ? `${shownPath(sheet.path)}: ${verdictText(number)}` : verdictText(number));
  if (number !== 0) sayRefusal(sheet.path, sheet.document, calls);
  return { status: number === 0 ? 0 : 1 };
}

function judgedAsData(sheet, calls) {
  const problems = complaintsOf(sheet);
  if (problems.length > 0) return { status: 2, data: { file: sheet.path, answer: 'unreadable', problems } };
  const explanation = explain(sheet.document, calls.verdict);
  const answer = explanation ? 'refused' : 'passes';
  return { status: explanation ? 1 : 0, data: { file: sheet.path, answer, ...explanationData(explanation), problems } };
}

// The whole explanation of one refusal.
export async function explainFile(paths, options) {
  holdCount(paths, 1, 1, 'one FILE');
  const sheet = readableSheet(paths[0], options);
  if (!sheet) return 2;
  const calls = await openProved();
  const explanation = explain(sheet.document, calls.verdict);
  if (options['--json']) {
    const cells = (explanation?.marks ?? []).map((mark) => ({ cell: placeOfMark(sheet.document, mark), text: mark.text }));
    printJson({ file: sheet.path, answer: explanation ? 'refused' : 'passes', ...explanationData(explanation), cells });
  } else print(explanation ? [verdictText(explanation.number), ...explanationLines(explanation)].join('\n') : 'passes');
  return explanation ? 1 : 0;
}
