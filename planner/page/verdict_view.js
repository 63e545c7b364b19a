// The verdict and its explanation, with a button for every cell that they speak of.
import { cellName } from '../lib/cells.js';
import { problemLine } from '../lib/document.js';
import { helpLine } from '../lib/explain.js';
import { element } from '../lib/markup.js';
import { byId, fill } from './dom.js';

const MOST_PROBLEMS = 200;

// A line that begins with a button to its cell.
function lineOf({ row, column }, place, text) {
  return element('li', {}, element('button', { type: 'button', class: 'jump', 'data-row': row, 'data-column': column }, place), ` ${text}`);
}

export function showVerdict(opened, judged) {
  const verdict = byId('verdict');
  verdict.className = `verdict ${judged.answer}`;
  byId('file-name').textContent = opened.name;
  if (judged.answer === 'passes') {
    verdict.textContent = '\u2713 passes: the sheet keeps all rules';
    return showRefusedCall(judged.calls ?? []);
  }
  if (judged.answer === 'unreadable') {
    const count = opened.problems.length;
    verdict.textContent = `\u2717 ${count === 1 ? 'one cell' : `${count} cells`} cannot be read; nothing is judged yet`;
    return fill('explanation', problemList(opened));
  }
  const { number, title, lines, help } = judged.explanation;
  verdict.textContent = `\u2717 refused ${number}: ${title}`;
  const { marks } = judged;
  return fill(
    'explanation',
    lines.map((line) => element('p', {}, line)),
    marks.length > 0 && element('h3', {}, 'Where'),
    marks.length > 0 && cellList(marks),
    help.length > 0 && element('h3', {}, 'What would help (each tried with the proved checker)'),
    help.length > 0 && element('ul', { class: 'reasons' }, help.map((item) => element('li', {}, helpLine(item, number)))),
  );
}

// Below a sheet that passes: a row of the file that is refused when it runs.
function showRefusedCall(marks) {
  const said = marks.length > 0 && element('p', {}, `The sheet passes, but not all rows can be carried out. ${marks[0].text}`);
  fill('explanation', said, said && cellList(marks.map((mark) => ({ ...mark, text: '' }))));
}

// A list of cells, each a button to it and what is said of it.
export function cellList(marks) {
  return element('ul', { class: 'reasons' }, marks.map((mark) => lineOf(mark, cellName(mark.row, mark.column), mark.text)));
}

function problemList(opened) {
  const shown = opened.problems.slice(0, MOST_PROBLEMS);
  const items = shown.map((problem) => {
    const line = problemLine(opened.name, problem).slice(opened.name.length + 2);
    if (problem.row === null) return element('li', {}, line);
    return lineOf(problem, problem.place, line.slice(problem.place.length + 2));
  });
  const more = opened.problems.length - shown.length;
  return [element('ul', { class: 'reasons' }, items), more > 0 && element('p', {}, `and ${more} more`)];
}
