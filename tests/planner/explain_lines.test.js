// The lines of an explanation, word for word, for the cases of explain_lines.txt; and names that are hostile.
import assert from 'node:assert/strict';
import { readFileSync } from 'node:fs';
import test from 'node:test';
import { openProved } from '../../planner/command/proved.js';
import { documentOfText } from '../../planner/lib/document.js';
import { explain, helpLine } from '../../planner/lib/explain.js';
import { plan, words } from './cable_car.js';

const { verdict } = await openProved();

// The document of a case's first line.
function documentOf(line) {
  const [form, ...rest] = line.split(' ');
  if (form === 'words') return words(rest.join(' ').replaceAll(' / ', '\n'));
  const [cells, ...more] = rest.join(' ').split(/ ?plus /);
  const edits = Object.fromEntries(cells.split(' ').filter((cell) => cell !== '').map((cell) => cell.split('=')));
  return plan(edits, more, form === 'exam');
}

const text = readFileSync(new URL('explain_lines.txt', import.meta.url), 'utf8');
const cases = text.split('\n\n').slice(1).map((block) => block.trimEnd().split('\n'));

for (const [line, ...expected] of cases) {
  test(line, () => {
    const document = documentOf(line);
    const found = explain(document, verdict);
    const help = found.help.map((one) => `  * ${helpLine(one, found.number)}`);
    assert.deepEqual([`refused by ${found.number}`, ...found.lines.map((one) => `  ${one}`), ...help], expected);
  });
}

test('there is a case for each number', () => {
  const numbers = new Set(cases.map(([, refused]) => Number(/^refused by (\d+)$/.exec(refused)[1])));
  assert.deepEqual([...numbers].sort((a, b) => a - b), [1, 2, 3, 4, 5, 6, 7, 8, 9, 10, 11, 26]);
});

test('the plan that the cases change passes', () => assert.equal(explain(plan({}), verdict), null));

test('a file that cannot be read has no explanation', () => assert.equal(explain(documentOfText('a.csv', 'network;x'), verdict), null));

test('cells from the file do not move a cursor', () => {
  const found = explain(plan({ F11: 'N' }), verdict);
  assert.equal(found.number, 9);
  // A name with such characters is not read at all.
  assert.equal(explain(plan({ B4: 'a\u009b2Jb\u202e' }), verdict), null);
});
