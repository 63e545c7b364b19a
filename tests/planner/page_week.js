// The week on the page, in the browser of the test that imports this before it opens a file: a minute that is typed, a narrow screen,
// refused windows and undo.
import test from 'node:test';
import assert from 'node:assert/strict';
import { minuteOfDate, timeText } from '../../planner/lib/week.js';
import { browser, cell, drawn, example, isMarked, paste, textOf, upload, verdict } from './open_page.js';

const isShown = async (id) => !(await browser.property(await browser.find(`#${id}`), 'hidden'));
const PARTS = "[...document.querySelectorAll('#week-picture g[role=img]')]";
const labels = () => browser.script(`return ${PARTS}.map((part) => part.getAttribute('aria-label'))`);

// Puts a text into the field of the minute and leaves it.
function ask(text) {
  const code = `const field = document.getElementById('week-minute');
    field.value = arguments[0];
    for (const event of ['input', 'change']) field.dispatchEvent(new Event(event));
    return [document.getElementById('week-answer').textContent, field.getAttribute('aria-invalid')];`;
  return browser.script(code, text);
}

// Whether a text begins with the present minute, or the one of a moment before.
const isNow = (text, before) => [before, new Date()].some((date) => text.startsWith(timeText(minuteOfDate(date))));

test('the week is shown of a plan with window rows alone, at the present minute', async () => {
  for (const id of ['week', 'week-link', 'week-note']) assert.ok(!(await isShown(id)), id);
  const before = new Date();
  await upload(example('cable-car-week.csv'));
  for (const id of ['week', 'week-link']) assert.ok(await isShown(id), id);
  assert.ok(isNow(await textOf('#week-answer'), before));
  assert.equal((await labels()).length, 19, 'eighteen stretches and the mark');
  assert.match(await browser.label(await browser.find('#week-minute')), /Minute, as Mo 08:30/);
  const ids = await browser.script("return [...document.querySelectorAll('[id]')].map(({ id }) => id)");
  assert.equal(new Set(ids).size, ids.length, 'each id stands once in the page');
  const section = await browser.find('#week');
  assert.deepEqual([await browser.role(section), await browser.label(section)], ['region', 'The week']);
});

test('a minute that is typed is answered and marked, also on a narrow screen; a stretch that has the focus is told', async () => {
  const field = await browser.find('#week-minute');
  await browser.clear(field);
  await browser.keys(field, '510\t');
  assert.equal(await textOf('#week-answer'), 'Mo 08:30 (minute 510): service; changes to night at Mo 21:30 (minute 1290), in 13 h.');
  assert.equal((await labels()).at(-1), 'The minute asked for: Mo 08:30 (minute 510)');
  await browser.script("document.querySelector('#week-picture g[role=img]').focus()");
  assert.equal(await textOf('#week-help'), 'Mo 00:00 to Mo 06:30, 6 h 30 min: night');
  assert.match((await ask('20000'))[0], /^Refused 32\. Minute 20000 is not one of the week.*Ask for Su 21:20/);
  const [said, invalid] = await ask('Mo 24:00');
  assert.match(said, /^This cannot be read; wanted: a day and a time/);
  assert.deepEqual([invalid, (await labels()).length], ['true', 18], 'there is no mark');
  await browser.size(360, 800);
  assert.match((await ask('Su 23:00'))[0], /: maintenance; changes to night at Mo 00:00 \(minute 0\) of the next week, in 1 h\.$/);
  const fits = `const [host, page] = [document.getElementById('week-picture').getBoundingClientRect(), document.documentElement];
    const mark = ${PARTS}.pop().getBoundingClientRect();
    return [mark.left >= host.left && mark.right <= host.right, page.scrollWidth <= page.clientWidth];`;
  assert.deepEqual(await browser.script(fits), [true, true], 'the mark is in view, and nothing is cut off');
  await browser.size(1280, 900);
  const before = new Date();
  await browser.click(await browser.find('#week-now'));
  assert.ok(isNow(await textOf('#week-answer'), before));
});

test('refused windows are explained and marked, the verdict stays, and undo brings the week back', async () => {
  await ask('Tu 21:15');
  await paste('B20', 'Tu 21:00');
  assert.match(await verdict(), /passes/);
  for (const name of ['B19', 'C19', 'B20', 'C20']) assert.ok(await isMarked(name), name);
  assert.match(await textOf('#week-note'), /^The window rows are refused with number 31: .* The week says why\.$/);
  const why = /refused 31.*share 30 minutes, Tu 21:00 to Tu 21:30.*B19.*Put 870 into C19.*timetable is accepted/s;
  assert.match(await textOf('#week-refusal'), why);
  assert.match(await textOf('#week-picture'), /^The week is drawn when the windows make a timetable/);
  await browser.click(await browser.find('#week-refusal button.jump'));
  assert.equal(await browser.property(await browser.focused(), 'id'), 'cell-B19');
  assert.equal(await textOf('#cell-help'), 'B19: start. shares 30 minutes with row 20');
  await paste('B20', 'Tu 21h');
  assert.match(await textOf('#explanation'), /B20 "Tu 21h" stands here; wanted: a start: a day and a time/);
  assert.equal(await textOf('#week-picture'), 'The week is drawn when the plan can be read.');
  for (let times = 0; times < 2; times++) await browser.click(await browser.find('#undo'));
  await drawn();
  assert.deepEqual([await cell('B20'), await isMarked('B20'), await isShown('week-note')], ['Tu 22:00', false, false]);
  assert.match(await textOf('#week-answer'), /^Tu 21:15 \(minute 2715\): service; changes to night at Tu 21:30/);
});
