// The page in a real Chromium: what could be lost, mixed up or said of another file while one edits and opens files.
import test from 'node:test';
import assert from 'node:assert/strict';
import { readFileSync } from 'node:fs';
import { browser, cell, drawn, example, isMarked, paste, rowsOf, saved, says, select, textOf, type, upload, written } from './open_page.js';
// The tests of the week and of long vertical links need no browser of their own.
import './page_week.js';
import './page_long.js';

const focusedId = async () => browser.property(await browser.focused(), 'id');
// What the browser would print now.
function printed() {
  return browser.script("dispatchEvent(new Event('beforeprint')); return document.getElementById('certificate').textContent");
}

test('the order of a file of words stays, and its certificate is of its words', async () => {
  await upload(written('order.sheet', '2 2 8 1 1\n0 1 0 4 0 4\n12 2\n4 2 0 13\n0 2 0 13\n'));
  await says('refused 8');
  assert.equal(await browser.property(await browser.find('#exam'), 'disabled'), true);
  assert.match(await printed(), /refused with number 8/);
  // What was a file of words does not turn the next plan into an exam.
  await upload(written('unsorted.csv', 'network;2;2;8\ncircuit;c;0;1;0;4;0;4\nmode;m;12\nslot;m;c;4;2;E\nslot;m;c;0;2;E\n'));
  await says('passes');
  await browser.click(await browser.find('#exam'));
  await says('refused 8');
  await browser.click(await browser.find('#exam'));
  await says('passes');
});

test('the certificate is of what is open now', async () => {
  await upload(example('cable-car.csv'));
  assert.match(await printed(), /The sheet passes/);
  await type('D15', '9');
  await browser.press('Enter');
  await says('refused 10');
  assert.equal(await browser.script("return document.getElementById('certificate').textContent"), '');
  assert.match(await printed(), /refused with number 10/);
  await type('D15', 'x');
  await browser.press('Enter');
  assert.match(await printed(), /cannot be read, so that nothing is certified/);
});

test('the circuit of the question stays the same one when its number changes', async () => {
  const rows = ['network;2;2;16', 'circuit;speed;1;0;0;2;0;2', 'circuit;cabin;2;0;0;2;4;2', 'mode;a;12', 'slot;a;speed;0;2;W', 'mode;b;12'];
  await upload(written('two.csv', [...rows, 'slot;b;speed;0;2;W', 'slot;b;cabin;4;2;N'].join('\n')));
  await select('circuit', 'speed');
  assert.deepEqual((await rowsOf('#pairs')).map(([name]) => name), ['speed']);
  await type('G2', '8');
  await browser.press('Enter');
  await says('passes');
  await drawn();
  assert.deepEqual((await rowsOf('#pairs')).map(([name]) => name), ['speed']);
  await upload(example('cable-car.csv'));
  assert.equal((await rowsOf('#pairs')).length, 9);
});

test('deleting, undoing and pasting keep the place of the keyboard', async () => {
  await upload(example('cable-car.csv'));
  await browser.click(await browser.find('#cell-D15'));
  await browser.press('Delete');
  assert.equal(await focusedId(), 'cell-D15');
  await browser.press('7');
  await browser.press('Enter');
  assert.deepEqual([await cell('D15'), await focusedId()], ['7', 'cell-D16']);
  await browser.press('Control', 'z');
  assert.deepEqual([await cell('D15'), await focusedId()], ['', 'cell-D16']);
  await paste('D15', '4');
  assert.deepEqual([await cell('D15'), await focusedId()], ['4', 'cell-D15']);
});

test('opening another file loses no edit', async () => {
  await upload(example('cable-car.csv'));
  await type('D15', '5');
  await browser.press('Enter');
  await upload(example('key.csv'));
  assert.match(await textOf('#file-note'), /cable-car\.csv had changes that are not saved: Undo brings it back/);
  await browser.click(await browser.find('#undo'));
  assert.deepEqual([await textOf('#file-name'), await cell('D15')], ['cable-car.csv', '5']);
  await browser.click(await browser.find('#undo'));
  assert.equal(await cell('D15'), '4');
  await browser.click(await browser.find('#redo'));
  await browser.click(await browser.find('#redo'));
  assert.equal(await textOf('#file-name'), 'key.csv');
});

test('the landing list is of the rows of the file alone', async () => {
  const rows = readFileSync(example('key.csv'), 'utf8').split('\n').filter((row) => !row.startsWith('at;'));
  await upload(written('idle.csv', rows.join('\n')));
  await browser.until("return /no 'at' rows/.test(document.getElementById('landings-note').textContent)");
  assert.equal(await browser.script("return document.querySelectorAll('#landings tbody tr').length"), 0);
  assert.match(await textOf('#grid-caption'), /^Cycle 0:/);
  await select('traffic', 'only');
  await upload(example('key.csv'));
  assert.equal((await rowsOf('#landings')).length, 3);
  assert.equal(await browser.property(await browser.find('#traffic'), 'value'), '');
});

test('comparing names the files, and matches a file of words by its records', async () => {
  await upload(example('a.sheet'));
  await browser.upload(await browser.find('#compare-file'), example('key.csv'));
  assert.match((await rowsOf('#comparison'))[0][2], /undisturbed/);
  const older = readFileSync(example('cable-car.csv'), 'utf8');
  await upload(written('newer.csv', older.replace('slot;normal;cabin;2;4;N\n', '')));
  await browser.script("document.getElementById('compare-file').value = ''");
  await browser.upload(await browser.find('#compare-file'), written('older.csv', older));
  await browser.until("return document.getElementById('comparison').textContent.includes('older.csv')");
  const rows = await rowsOf('#comparison');
  assert.equal(rows.find(([name, mode]) => name === 'cabin' && mode === 'normal')[3], 'silent in newer.csv, slots 2+4 in older.csv');
});

test('cells beyond the fortieth column and the two-hundredth row are shown, marked and mended', async () => {
  const head = 'network;2;2;64\nmode;m;9\n';
  await upload(written('wide.csv', `${head}memory;0;0${';7'.repeat(43)};bad\n`));
  await says('cannot be read');
  await browser.click(await browser.find('#explanation button.jump'));
  assert.deepEqual([await focusedId(), await cell('AU3'), await isMarked('AU3')], ['cell-AU3', 'bad', true]);
  await browser.press('5');
  await browser.press('Tab');
  await says('passes');
  assert.equal(await focusedId(), 'cell-AV3');
  await upload(written('long.csv', head + '# x\n'.repeat(198)));
  await browser.click(await browser.find('#cell-A200'));
  await browser.press('ArrowDown');
  assert.equal(await focusedId(), 'cell-A201');
  await browser.press('x');
  await browser.press('Enter');
  await says('cannot be read');
  assert.ok(await isMarked('A201'));
  await browser.click(await browser.find('#earlier'));
  assert.equal(await focusedId(), 'cell-A1');
});

test('a button to a cell works while another cell is edited', async () => {
  await upload(example('cable-car.csv'));
  await type('D15', '9');
  await says('refused 10');
  const buttons = await browser.all('#explanation button.jump');
  await browser.click(buttons[2]);
  assert.deepEqual([await cell('D15'), await focusedId()], ['9', 'cell-C12']);
});

test('what is saved can be opened again', async () => {
  await upload(written('bars.csv', 'sep=|\nnetwork|2|2|8\nmode|m|9\n'));
  await says('passes');
  await paste('D2', 'a\u000bb');
  await says('cannot be read');
  await browser.press('Control', 'z');
  await paste('A4', '# a\u000bb');
  await says('passes');
  assert.match(await printed(), /The sheet passes/);
  const text = await saved('bars.csv');
  assert.equal(text, '\r\nnetwork;2;2;8\r\nmode;m;9\r\n# a b\r\n');
  await upload(written('again.csv', text));
  await says('passes');
});

test('an empty column and row to write in; undo of a field is its own', async () => {
  await upload(example('key.csv'));
  await type('G6', '44');
  await browser.press('Tab');
  assert.equal(await focusedId(), 'cell-H6');
  await browser.press('5');
  await browser.press('Tab');
  await browser.press('6');
  await browser.press('Tab');
  assert.deepEqual([await cell('H6'), await cell('I6'), await focusedId()], ['5', '6', 'cell-J6']);
  await browser.click(await browser.find('#cycles'));
  await browser.press('Control', 'z');
  assert.equal(await cell('I6'), '6');
});

test('the picture of a clash opens on its mode', async () => {
  await upload(example('cable-car-clash.csv'));
  assert.equal(await browser.property(await browser.find('#mode'), 'value'), 'high wind');
});
