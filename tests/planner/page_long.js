// Grids with long vertical links on the page; page_edit.test.js runs these tests in its browser.
import test from 'node:test';
import assert from 'node:assert/strict';
import { browser, cell, drawn, example, isMarked, rowsOf, says, textOf, type, upload, written } from './open_page.js';

// The texts of the grid's picture that a pattern fits: of what stands still, and of words.
const titles = async (pattern) => {
  const all = await browser.script("return [...document.querySelectorAll('#grid title')].map((one) => one.textContent)");
  return all.filter((one) => pattern.test(one));
};
const registers = async () => (await titles(/^register of/)).length;

test('a sheet with long vertical links: its rows, its flight times, its registers, and its words in them', async () => {
  await upload(example('long.sheet'));
  await says('passes');
  assert.deepEqual([await cell('B1'), await cell('C1'), await cell('D1')], ['2', '2 long', '8']);
  const ways = (await rowsOf('#figures')).map(([name, way, flight]) => `${name}: ${way}, ${flight}`);
  assert.deepEqual(ways, [
    'circuit 0: node 0 to node 2, 1 hop (1 vertical), 7 cycles',
    'circuit 1: node 0 to node 3, 2 hops (1 vertical), 10 cycles',
    'circuit 2: node 2 to node 3, 6 cycles',
  ]);
  assert.match(await textOf('#slots'), /long link: what comes behind it is one cycle later/);
  assert.equal(await registers(), 8);
  const step = await browser.find('#grid-step');
  for (let cycle = 0; cycle < 4; cycle++) await browser.click(step);
  // Circuit 1's header was on the link to the south in cycle 3.
  assert.match(await textOf('#grid-caption'), /^Cycle 4:/);
  const [held, ...others] = await titles(/in its register/);
  assert.deepEqual(others, []);
  assert.match(held, /^node 0 to the south \(to node 2\), in its register: header of circuit 1, word \d+: it writes from address 0 on$/);
});

test('rows that are typed with and without long, and such that no grid has', async () => {
  await upload(example('long.sheet'));
  const typed = async (text, said) => {
    await type('C1', text);
    await browser.press('Enter');
    await says(said);
    await drawn();
  };
  await typed('2', 'refused 11');
  assert.equal(await registers(), 0);
  await typed('258', 'passes');
  assert.deepEqual([await cell('C1'), await registers()], ['258', 8]);
  await typed('5 long', 'refused 2');
  assert.ok(await isMarked('C1'));
  assert.match(await textOf('#explanation'), /Rows: 5 long \(C1\) is out of range; it may be 2 to 4, or 2 long to 4 long/);
  await typed('2 lang', 'one cell cannot be read');
  assert.match(await textOf('#explanation'), /C1 "2 lang" stands here; wanted: rows: .* with long behind it where vertical links are long/);
  await typed('4 LONG', 'passes');
});

test('a sheet of the other kind is not compared', async () => {
  await upload(written('short.sheet', '2 2 8 1 1\n0 1 0 4 0 4\n9 1\n0 3 0 13\n'));
  await browser.upload(await browser.find('#compare-file'), written('long.sheet', '2 258 8 1 1\n0 1 0 4 0 4\n9 1\n0 3 0 13\n'));
  const said = await browser.until("const text = document.getElementById('comparison').textContent; return /Nothing/.test(text) && text");
  assert.match(said, /two kinds \(the vertical links of long\.sheet are long, those of short\.sheet are not\)\.$/);
});
