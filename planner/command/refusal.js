// What is said of a refused sheet.
import { explain, helpLine } from '../lib/explain.js';
import { say } from './output.js';
import { shownPath } from './paths.js';

const FIRST_LINES = 3;

// The explanation's lines: the rule, what is wrong, and what would help.
export function explanationLines({ number, title, lines, help }) {
  const helps = help.map((one) => `- ${helpLine(one, number)}`);
  if (helps.length > 0) helps.unshift('What would help, each tried with the proved checker:');
  return [`${title}.`, ...lines, ...helps];
}

// An explanation as JSON has it.
export function explanationData(explanation) {
  if (!explanation) return { number: 0, title: null, lines: [], help: [] };
  const { number, title, lines, help } = explanation;
  return { number, title, lines, help: help.map((one) => ({ text: one.text, number: one.number })) };
}

// Says on standard error why a sheet is refused, and where more is to be had.
export function sayRefusal(path, document, calls) {
  const explanation = explain(document, calls.verdict);
  const { number, title, lines, help } = explanation;
  say(`${shownPath(path)}: refused with number ${number}: ${title}.`);
  lines.slice(0, FIRST_LINES).forEach((line) => say(`  ${line}`));
  if (lines.length > FIRST_LINES || help.length > 0) say('  calqetum explain says more, and what would help.');
  return explanation;
}
