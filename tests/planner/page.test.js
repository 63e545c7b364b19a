// The page in a real Chromium: files, editing, explanation, both pictures, landings, comparing and saving.
import test from 'node:test';
import assert from 'node:assert/strict';
import { readFileSync } from 'node:fs';
import { browser, cell, drawn, example, isMarked, page, paste, rowsOf, saved, says, select, textOf, type, upload, verdict, written } from './open_page.js';

test('it opens with an example that passes, and answers the question at once', async () => {
  assert.match(await verdict(), /passes/);
  const rows = await rowsOf('#pairs');
  assert.equal(rows.length, 9);
  const speed = rows.find((row) => row[0] === 'speed' && row[1] === 'normal' && row[2] === 'high wind');
  assert.match(speed[3], /undisturbed/);
  const cabin = rows.find((row) => row[0] === 'cabin' && row[1] === 'normal' && row[2] === 'high wind');
  assert.match(cabin[3], /differs/);
  assert.match(await textOf('#isolation'), /same starts/);
});

test('a chosen file that is refused is explained down to the cell', async () => {
  await upload(example('cable-car-late.csv'));
  await says('refused 10');
  assert.match(await textOf('#explanation'), /D15/);
  assert.ok(await isMarked('D15'));
  await upload(example('cable-car-clash.csv'));
  await says('refused 11');
  for (const name of ['D13', 'D14']) assert.ok(await isMarked(name));
});

test('a button of the explanation goes to its cell', async () => {
  await upload(example('cable-car-late.csv'));
  await says('refused 10');
  await browser.click(await browser.find('#explanation button.jump'));
  const name = await browser.script("return document.querySelector('#explanation button.jump').textContent");
  assert.equal(await browser.property(await browser.focused(), 'id'), `cell-${name}`);
});

test('an idle network is offered to start from, and a file without words is one', async () => {
  await upload(example('cable-car-late.csv'));
  await browser.click(await browser.find('#idle'));
  await says('passes');
  await drawn();
  assert.equal(await textOf('#file-name'), 'idle.csv');
  assert.deepEqual([await cell('A2'), await cell('D2'), await cell('B3'), await cell('C3')], ['network', '1', 'idle', '9']);
  assert.match(await textOf('#isolation'), /no circuits/);
  assert.match(await textOf('#slots'), /no circuit sends in it/);
  const whole = "const svg = document.querySelector('#slots svg'); const end = ({ x, width }) => x + width";
  const fits = 'return [...svg.querySelectorAll("text")].every((text) => end(text.getBBox()) <= svg.viewBox.baseVal.width)';
  assert.ok(await browser.script(`${whole}; ${fits}`), 'the picture holds its texts');
  // From there a circuit is planned: the memory as it is holds one word a node.
  await browser.click(await browser.find('#cell-A3'));
  for (const row of [['slot', 'idle', 'first', '0', '2', 'E'], ['circuit', 'first', '0', '1', '0', '1', '0', '1']]) {
    await browser.click(await browser.find('#insert'));
    for (const [at, text] of row.entries()) {
      await type(`${'ABCDEFGH'[at]}4`, text);
      await browser.press('Enter');
    }
    await browser.click(await browser.find('#cell-A3'));
  }
  await says('passes');
  await drawn();
  assert.match(await textOf('#isolation'), /first/);
  await upload(written('none.sheet', '# nothing is sent yet\n'));
  await says('passes');
  assert.match(await textOf('#file-note'), /no words, which stand for an idle network/);
  assert.deepEqual([await cell('A1'), await cell('C2')], ['network', '9']);
  await upload(written('few.sheet', '2 2\n'));
  await says('refused 1');
});

test('a plan whose circuits have no slots yet is explained, drawn, and passes when each has one', async () => {
  const rows = ['network;2;2;16', 'circuit;speed;1;0;0;4;0;4', 'circuit;brake;0;3;12;4;0;4', 'mode;normal;12', 'mode;high wind;12', '', ''];
  await upload(written('begun.csv', rows.join('\n')));
  await says('refused 26: A circuit has no slot');
  assert.ok((await isMarked('B2')) && !(await isMarked('B3')));
  assert.match(await textOf('#explanation'), /Circuit speed \(B2\) has no slot: none of the 2 modes.*not the only place/s);
  assert.match(await textOf('#explanation'), /Add the row slot;normal;speed;0;2;E.*Take out the 2 circuits.*Then the sheet passes/s);
  assert.match(await textOf('#slots'), /This mode has no slots/);
  assert.equal(await textOf('#grid-caption'), 'The network runs when the sheet passes.');
  await browser.click(await browser.find('#explanation button.jump'));
  assert.equal(await browser.property(await browser.focused(), 'id'), 'cell-B2');
  assert.match(await textOf('#cell-help'), /^B2: name\. no mode has a slot row for this circuit$/);
  // The row that is offered, and one for the other circuit in the other mode.
  for (const [row, cells] of [[6, 'slot\tnormal\tspeed\t0\t2\tE'], [7, 'slot\thigh wind\tbrake\t0\t2\tES']]) {
    await paste(`A${row}`, cells);
    await says(row === 6 ? 'refused 26' : 'passes');
    assert.equal(await isMarked('B3'), row === 6);
    assert.match(await textOf('#slots'), /speed/);
  }
  // Each mode runs alone, though neither has slots for both circuits.
  for (const [mode, circuit, other] of [['normal', 'speed', 'brake'], ['high wind', 'brake', 'speed']]) {
    await select('traffic', mode);
    assert.match(await textOf('#grid-caption'), new RegExp(`^Cycle 0: cycle 0 of period 0, mode ${mode}\\.`));
    assert.match(await textOf('#grid'), new RegExp(circuit));
    assert.doesNotMatch(await textOf('#grid'), new RegExp(other));
  }
});

test('a dropped file is opened', async () => {
  const text = readFileSync(example('key.csv'), 'utf8');
  await browser.script(
    `const data = new DataTransfer();
    data.items.add(new File([arguments[0]], 'dropped.csv'));
    document.body.dispatchEvent(new DragEvent('drop', { dataTransfer: data, bubbles: true, cancelable: true }));`,
    text,
  );
  await browser.until("return document.getElementById('file-name').textContent === 'dropped.csv'");
  assert.match(await verdict(), /passes/);
});

test('an edit to refused and back, live, with undo and redo', async () => {
  await upload(example('cable-car.csv'));
  await says('passes');
  const input = await type('D15', '9');
  // The verdict follows the typing, before the cell is left.
  await says('refused 10');
  await browser.keys(input, '\ue007');
  assert.equal(await cell('D15'), '9');
  await browser.press('Control', 'z');
  await says('passes');
  assert.equal(await cell('D15'), '4');
  await browser.press('Control', 'y');
  await says('refused 10');
  await type('D15', '4');
  await browser.press('Enter');
  await says('passes');
  await type('D15', 'four');
  await browser.press('Enter');
  await says('cannot be read');
  assert.match(await textOf('#explanation'), /D15.*four.*whole number/);
  await browser.click(await browser.find('#undo'));
  await says('passes');
  await type('D15', '9');
  await browser.press('Escape');
  await says('passes');
  assert.equal(await cell('D15'), '4');
});

test('a click elsewhere takes what was typed and goes there; a block of cells is pasted', async () => {
  await upload(example('cable-car.csv'));
  await type('D15', '9');
  await browser.click(await browser.find('#cell-E15'));
  assert.equal(await cell('D15'), '9');
  assert.equal(await browser.property(await browser.focused(), 'id'), 'cell-E15');
  await says('refused 10');
  await paste('D15', '4\t2\tES\r\n');
  await says('passes');
  assert.deepEqual([await cell('D15'), await cell('E15'), await cell('F15')], ['4', '2', 'ES']);
});

test('rows are inserted and deleted', async () => {
  await upload(example('key.csv'));
  await says('passes');
  await browser.click(await browser.find('#cell-A5'));
  await browser.click(await browser.find('#insert'));
  assert.equal(await cell('A6'), '');
  assert.equal(await cell('A7'), 'memory');
  for (const [name, text] of [['A6', 'slot'], ['B6', 'only'], ['C6', 'first'], ['D6', '4'], ['E6', '2'], ['F6', 'W']]) {
    await type(name, text);
    await browser.press('Enter');
  }
  await says('passes');
  await browser.click(await browser.find('#cell-A6'));
  await browser.click(await browser.find('#delete'));
  assert.equal(await cell('A6'), 'memory');
  await says('passes');
});

test('slots on wires: a box for each slot and wire, told when it has the focus', async () => {
  await upload(example('cable-car.csv'));
  await browser.until("return document.querySelectorAll('#slots g[role=img]').length > 0");
  const labels = "return [...document.querySelectorAll('#slots g[role=img]')].map((box) => box.getAttribute('aria-label'))";
  const names = await browser.script(labels);
  assert.ok(names.some((name) => name.includes('speed')) && names.some((name) => name.includes('cabin')));
  assert.ok(!names.some((name) => name.includes('brake')));
  await browser.script("document.querySelector('#slots g[role=img]').focus()");
  assert.equal(await textOf('#slot-help'), names[0]);
  await browser.script("const mode = document.getElementById('mode'); mode.value = 'evacuation'; mode.dispatchEvent(new Event('change'))");
  const later = await browser.script(labels);
  assert.ok(later.some((name) => name.includes('brake')) && !later.some((name) => name.includes('cabin')));
});

test('the network steps forward and back, plays and pauses', async () => {
  await upload(example('key.csv'));
  await browser.until("return document.getElementById('grid-caption').textContent.startsWith('Cycle 0:')");
  const step = await browser.find('#grid-step');
  for (let cycle = 0; cycle < 7; cycle++) await browser.click(step);
  assert.match(await textOf('#grid-caption'), /^Cycle 7: .*word 11 at node 1, address 0/);
  assert.match(await textOf('#grid'), /11/);
  await browser.click(await browser.find('#grid-back'));
  assert.match(await textOf('#grid-caption'), /^Cycle 6: .*Nothing landed/);
  await browser.click(await browser.find('#grid-play'));
  await browser.until("return Number(/^Cycle (\\d+)/.exec(document.getElementById('grid-caption').textContent)[1]) > 7");
  await browser.click(await browser.find('#grid-play'));
  const paused = await textOf('#grid-caption');
  await new Promise((go) => setTimeout(go, 400));
  assert.equal(await textOf('#grid-caption'), paused);
  await browser.click(await browser.find('#grid-first'));
  assert.match(await textOf('#grid-caption'), /^Cycle 0:/);
});

test('the landing list is the key of document 01', async () => {
  await upload(example('key.csv'));
  await browser.script("document.getElementById('cycles').value = '20'; document.getElementById('list').click()");
  await browser.until("return document.getElementById('landings-note').textContent.includes('20 cycles')");
  const rows = (await rowsOf('#landings')).map((texts) => texts.join(' '));
  assert.deepEqual(rows, ['7 1 0 11 data first', '8 1 1 22 data first', '16 1 2 33 data first']);
});

test('a refused call of the rows is marked in its cell', async () => {
  await upload(written('start.csv', readFileSync(example('key.csv'), 'utf8').replace(';0;0;3;data', ';0;2;3;data')));
  await browser.until("return document.getElementById('landings-note').textContent.includes('16')");
  assert.ok((await isMarked('F7')) && !(await isMarked('C7')));
  assert.match(await textOf('#explanation'), /passes, but not all rows.*Row 7.*number 16/s);
  await browser.click(await browser.find('#cell-F7'));
  assert.match(await textOf('#cell-help'), /^F7: write\. Row 7:/);
});

test('a start before the last word has landed is refused with 17, and carried out in the cycle that is told', async () => {
  const rows = readFileSync(example('key.csv'), 'utf8').replace(';3;data', ';2;data') + 'at;8;start;first;0;0;2;data\n';
  await upload(written('early.csv', rows));
  await browser.until("return document.getElementById('landings-note').textContent.includes('17')");
  assert.ok((await isMarked('B8')) && (await isMarked('D8')) && !(await isMarked('C8')));
  assert.match(await textOf('#explanation'), /Row 8.*17: cycle 8 \(B8\) is too early: circuit first \(D8\).*lands in cycle 8.*is 9\./s);
  await type('B8', '9');
  await browser.press('Enter');
  await browser.until("return document.getElementById('landings-note').textContent.startsWith('4 words land')");
  assert.ok(!(await isMarked('B8')) && !(await isMarked('D8')));
  assert.equal(await textOf('#explanation'), '');
});

test('two sheets are compared', async () => {
  await upload(example('cable-car.csv'));
  await says('passes');
  const changed = readFileSync(example('cable-car.csv'), 'utf8').replace('slot;high wind;cabin;2;2;N', 'slot;high wind;cabin;2;3;S');
  await browser.upload(await browser.find('#compare-file'), written('newer.csv', changed));
  const rows = await rowsOf('#comparison');
  assert.match(rows.find((row) => row[0] === 'speed' && row[1] === 'high wind')[2], /undisturbed/);
  assert.match(rows.find((row) => row[0] === 'cabin' && row[1] === 'high wind')[2], /differs/);
  assert.match(rows.find((row) => row[0] === 'cabin' && row[1] === 'normal')[2], /undisturbed/);
});

test('the plan is saved as CSV, with what a spreadsheet would reckon with quoted', async () => {
  const script = '<script>alert(1)</script>';
  await upload(written('odd.csv', `network;2;2;8\ncircuit;${script};0;1;0;4;0;4\nmode;"=1+1";9\nslot;=1+1;${script};0;3;E\n`));
  await says('passes');
  assert.equal(
    await saved('odd.csv'),
    `network;2;2;8\r\ncircuit;${script};0;1;0;4;0;4\r\nmode;"'=1+1";9\r\nslot;"'=1+1";${script};0;3;E\r\n`,
  );
  // The name is a text in the tables and in the pictures.
  assert.equal(await browser.script("return document.querySelectorAll('main script').length"), 0);
  assert.match(await textOf('#isolation'), /<script>alert\(1\)<\/script>/);
});

test('no request was made but for the page itself', async () => {
  const asked = (await browser.requests()).filter((url) => url !== page && !url.startsWith('blob:') && !url.startsWith('data:'));
  assert.deepEqual(asked, []);
  assert.deepEqual(await browser.complaints(), []);
  const refused = await browser.script("return fetch('https://example.org/').then(() => 'sent', () => 'refused')");
  assert.equal(refused, 'refused');
});
