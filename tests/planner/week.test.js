// Window rows: minutes of the week as text and back, what cannot be read, the order of windows, and that the sheet is not theirs.
import test from 'node:test';
import assert from 'node:assert/strict';
import { openProved } from '../../planner/command/proved.js';
import { writeTable } from '../../planner/lib/cells.js';
import { documentOfRows, documentOfText } from '../../planner/lib/document.js';
import { minuteOfText, timetableOf } from '../../planner/lib/timetable.js';
import { durationText, minuteOfDate, minuteOfTime, timeText } from '../../planner/lib/week.js';
import { plan } from './generate.js';
import { random as seeded } from './random.js';
import { modeRows, startText, timetable, windowRows } from './timetables.js';

const calls = await openProved();
const passes = (words) => calls.verdict(words) === 0;
const HEAD = 'network;2;2;8\nmode;night;9\nmode;service;9\n';
const START =
  'a start: a day and a time, as Mo 08:30 (Mo, Tu, We, Th, Fr, Sa or Su; 00:00 to 23:59), or the minute of the week, 0 to 10079 from Mo ' +
  '00:00 on';
const NUMBER = 'a whole number from 0 to 4294967295';

test('each minute of the week as text and back, however it is written', () => {
  const random = seeded(1);
  for (let minute = 0; minute < 10080; minute++) {
    assert.match(timeText(minute), /^(Mo|Tu|We|Th|Fr|Sa|Su) [0-2][0-9]:[0-5][0-9]$/);
    assert.equal(minuteOfTime(timeText(minute)), minute);
    assert.equal(minuteOfText(` ${startText(random, minute)} `), minute);
    assert.equal(minuteOfText(String(minute)), minute);
  }
  assert.deepEqual([0, 510, 1439, 1440].map(timeText), ['Mo 00:00', 'Mo 08:30', 'Mo 23:59', 'Tu 00:00']);
  assert.deepEqual([10079, 10080].map(timeText), ['Su 23:59', 'Su 24:00']);
  for (const [text, minute] of [['MONDAY 8:30', 510], ['sunday\t0:00', 8640], ['tH  09:05', 4865], ['0', 0], ['20000', 20000], ['007', 7]]) {
    assert.equal(minuteOfText(text), minute, text);
  }
});

test('what is no minute', () => {
  const none = [
    '', 'Mo', '08:30', 'Mo 24:00', 'Su 24:00', 'Mo 8:60', 'Mo 8:5', 'Mo 08:30:00', 'Mo 008:30', 'Mo08:30', 'Mo, 08:30', 'Mon 8h30',
    'Mon 08:30', 'Mo 8.30', 'Mo 8:30 pm', 'Di 08:30', 'M 08:30', 'Mond 08:30', 'mondays 08:30', 'Mo -1:30', 'Mo +1:30', 'Mo ８:30',
    'Ｍｏ 08:30', 'Mo 08：30', '-1', '1.5', '1e3', '0x10', '4294967296', '9'.repeat(400), '=510', 'constructor 08:30', '__proto__ 08:30',
    'toString 1:00', 'Mo \u200b08:30', '\u202eMo 08:30', 'ſa 08:30', 'now', '5 10', 'Mo 08:30 Tu 09:00',
  ];
  for (const text of none) assert.equal(minuteOfText(text), null, text);
  for (const text of ['Mo ' + ' '.repeat(200000) + '8:3', 'm'.repeat(200000) + ' 8:30', 'Mo ' + '1'.repeat(200000) + ':30']) {
    assert.equal(minuteOfText(text), null);
  }
});

test('every cell of a window row that cannot be read is told', () => {
  const wanted = (row) => documentOfText('a.csv', HEAD + row).problems.map((problem) => `${problem.place}: ${problem.wanted}`);
  for (const cell of ['Mo 24:00', 'Mo 8:60', 'Mon 8h30', '', '4294967296']) {
    assert.deepEqual(wanted(`window;${cell};60;service\n`), [`B4: ${START}`], cell);
  }
  const cases = [
    ['window;=A1;60;service\n', [`B4: ${START}; a formula is not worked out, write its value`]],
    ['window;Mo 08:30;1 h;service\n', [`C4: length in minutes: ${NUMBER}`]],
    ['window;Mo 08:30;-5;service\n', [`C4: length in minutes: ${NUMBER}`]],
    ['window;Mo 08:30;60\n', ['D4: the name of a mode; the modes are night, service']],
    ['window;Mo 08:30;60;Service\n', ['D4: the name of a mode; did you mean service?']],
    ['window;Mo 08:30;60;1\n', ['D4: the name of a mode; the modes are night, service']],
    ['window;Mo 08:30;60;service;x\n', ['E4: nothing: a window row ends before this cell (a comment begins with #)']],
    ['window\n', [`B4: ${START}`, `C4: length in minutes: ${NUMBER}`, 'D4: the name of a mode; the modes are night, service']],
    ['window;#;60;service\n', [`B4: ${START}; here # makes a comment of the rest of the row`]],
    ['windows;Mo 08:30;60;service\n', ['A4: a keyword: network, circuit, mode, slot, window, memory or at (a comment begins with #)']],
  ];
  for (const [row, expected] of cases) assert.deepEqual(wanted(row), expected, row);
  // Ranges are the call's.
  const odd = ['window;20000;60;service', 'window;4294967295;4294967295;service', 'window;0;0;night', ' WINDOW ; 00510 ;60;service; # note'];
  for (const row of odd) assert.deepEqual(wanted(`${row}\n`), [], row);
});

test('windows are sorted by their starts, those of one start in the order of rows; an exam keeps the rows', () => {
  const rows = 'window;We 00:00;5;night\nwindow;Mo 00:01;7;service\nwindow;0;6;service\nwindow;2880;4;service\nwindow;Mo 00:00;3;night\n';
  const told = (exam) => timetableOf(documentOfText('a.csv', HEAD + rows, exam));
  assert.deepEqual(told(false).words, [0, 6, 1, 0, 3, 0, 1, 7, 1, 2880, 5, 0, 2880, 4, 1]);
  assert.deepEqual(told(true).words, [2880, 5, 0, 1, 7, 1, 0, 6, 1, 2880, 4, 1, 0, 3, 0]);
  const rowsOfPlaces = (exam) => told(exam).places.filter(({ column }) => column === 1).map(({ row }) => row + 1);
  assert.deepEqual([rowsOfPlaces(false), rowsOfPlaces(true)], [[6, 8, 5, 4, 7], [4, 5, 6, 7, 8]]);
  assert.deepEqual(told(false).places.slice(0, 3), [1, 2, 3].map((column) => ({ row: 5, column })));
  assert.deepEqual(timetableOf(documentOfText('a.csv', HEAD)), { windows: [], words: [], places: [] });
});

test('words of windows have the value of the cell that each stands for, with every separator', () => {
  const random = seeded(2);
  const names = ['night', 'high wind; "x"', 'été'];
  for (let turn = 0; turn < 60; turn++) {
    const windows = timetable(random);
    const rows = [...modeRows(names), ...windowRows(random, windows, names)];
    for (const separator of [';', ',', '\t']) {
      const document = documentOfText('a.csv', writeTable(rows, separator));
      assert.deepEqual(document.problems, []);
      const { words, places } = timetableOf(document);
      assert.deepEqual(words, windows.flatMap(({ start, length, mode }) => [start, length, mode]));
      const cellWord = ({ row, column }) => (column === 3 ? names.indexOf(rows[row][column]) : minuteOfText(rows[row][column]));
      assert.deepEqual(words, places.map(cellWord));
    }
  }
});

test('the sheet and its verdict do not depend on window rows', () => {
  const random = seeded(3);
  for (let turn = 0; turn < 60; turn++) {
    const rows = plan(random, { passes, odd: false }).filter(([keyword]) => keyword !== 'window');
    const modes = rows.filter(([keyword]) => keyword === 'mode').map(([, name]) => name);
    const windows = windowRows(random, timetable(random, { most: 6, modes: modes.length }), modes);
    const more = [...rows, ...windows.map((row) => (random.chance(0.3) ? [row[0], '20000', '0', row[3]] : row))];
    for (const exam of [false, true]) {
      const [without, whole] = [rows, more].map((list) => documentOfRows('a.csv', list, exam));
      assert.deepEqual([whole.problems, whole.words, whole.places, whole.modeNames], [[], without.words, without.places, without.modeNames]);
      assert.equal(whole.plan.windows.length, windows.length);
    }
  }
});

test('durations, and the minute of the local clock', () => {
  const texts = [[0, '0 min'], [1, '1 min'], [60, '1 h'], [810, '13 h 30 min'], [1440, '1 day'], [2881, '2 days 1 min']];
  for (const [minutes, text] of [...texts, [10079, '6 days 23 h 59 min']]) assert.equal(durationText(minutes), text);
  // 16 November 2026 is a Monday.
  assert.equal(minuteOfDate(new Date(2026, 10, 16, 0, 0, 59)), 0);
  assert.equal(minuteOfDate(new Date(2026, 10, 17, 8, 30)), 1950);
  assert.equal(minuteOfDate(new Date(2026, 10, 22, 23, 59, 59)), 10079);
});
