// Explanations of the numbers 31 and 32: each clause word for word, and near misses whose help is carried out as its text says.
import assert from 'node:assert/strict';
import test from 'node:test';
import { openProved } from '../../planner/command/proved.js';
import { cellName, writeTable } from '../../planner/lib/cells.js';
import { documentOfRows, documentOfText } from '../../planner/lib/document.js';
import { explainHours } from '../../planner/lib/explain_hours.js';
import { hoursHelpLine } from '../../planner/lib/hours_help.js';
import { RULES } from '../../planner/lib/rules.js';
import { minuteOfText, timetableOf } from '../../planner/lib/timetable.js';
import { plan } from './cable_car.js';
import { random } from './random.js';
import { leastMilliseconds } from './time.js';
import { FAULTS, modeRows, severalFaults, timetable, windowRows } from './timetables.js';

const NEAR_MISSES = 20;
const { hours } = await openProved();
const ELSEWHERE = 'This is not the only place: other window rows break this rule as well.';
const many = (count) => Array.from({ length: count }, (_, at) => `window;${10 * at};5;normal`);

// Row 12 is the first that a case adds: its rows, the lines, the marked cells, and what would help, each accepted.
const CASES = {
  'a start behind the week': [
    ['window;20000;60;normal'],
    ['The window of mode normal (row 12): its start, minute 20000 (B12), lies behind the end of the week, whose minutes are 0 to 10,079.'],
    'B12',
    ['Put Su 23:00 into B12: the nearest start at which the window has its minutes to itself'],
  ],
  'no length': [
    ['window;Mo 08:00;0;high wind', 'window;Mo 10:00;30;normal'],
    ['The window of mode high wind (row 12): its length is 0 (C12); a window has at least one minute.'],
    'C12',
    ['Put 120 into C12: the largest length, up to the next window, Mo 10:00'],
  ],
  'no length, within another window': [
    ['window;Mo 08:00;0;high wind', 'window;Mo 07:00;90;normal'],
    ['The window of mode high wind (row 12): its length is 0 (C12); a window has at least one minute.'],
    'C12',
    ['Take out the window of mode high wind (row 12)'],
  ],
  'a length above the week': [
    ['window;Mo 08:00;10081;high wind'],
    ['The window of mode high wind (row 12): its length, 10081 minutes (C12), is longer than the week, which has 10,080.'],
    'C12',
    ['Put 9600 into C12: the largest length, up to the end of the week'],
  ],
  'a ninth mode': [
    ['8 modes', 'window;Mo 08:00;0;more 6'],
    [
      'The window of mode more 6 (row 20): its length is 0 (C20); a window has at least one minute.',
      'The window of mode more 6 (row 20): its mode (D20) is schedule 8, and a timetable knows 0 to 7, the first eight modes.',
    ],
    'C20 D20',
    ['Take out the window of mode more 6 (row 20)'],
  ],
  'an end behind that of the week': [
    ['window;Su 22:00;121;high wind'],
    [
      'The window of mode high wind (row 12) starts at Su 22:00 (B12) and has 121 minutes (C12): it would end 1 min behind the end of the ' +
        'week, Su 24:00 (minute 10,080).',
    ],
    'B12 C12',
    [
      'Put 120 into C12 and add the row window;Mo 00:00;1;high wind: what goes on into Monday is a window of its own',
      'Put 120 into C12: the largest length, up to the end of the week',
    ],
  ],
  'shared minutes': [
    ['window;Mo 09:30;150;high wind', 'window;Mo 08:30;90;normal'],
    [
      'The window of mode normal (row 13), Mo 08:30 to Mo 10:00 (B13, C13), and the window of mode high wind (row 12), Mo 09:30 to Mo 12:00 ' +
        '(B12, C12), share 30 minutes, Mo 09:30 to Mo 10:00.',
    ],
    'B13 C13 B12 C12',
    [
      'Put 60 into C13: the window of row 13 then ends where that of row 12 begins',
      'Put Mo 10:00 into B12 and put 120 into C12: the window of row 12 then begins where that of row 13 ends, and ends as before',
    ],
  ],
  'a window within another': [
    ['window;Mo 08:30;300;normal', 'window;Mo 09:30;1;high wind'],
    [
      'The window of mode normal (row 12), Mo 08:30 to Mo 13:30 (B12, C12), and the window of mode high wind (row 13), Mo 09:30 to Mo 09:31 ' +
        '(B13, C13), share 1 minute, Mo 09:30 to Mo 09:31.',
    ],
    'B12 C12 B13 C13',
    [
      'Put 60 into C12 and add the row window;Mo 09:31;239;normal: the window of row 12 then stops for that of row 13 and goes on behind it',
      'Put 60 into C12: the window of row 12 then ends where that of row 13 begins',
    ],
  ],
  'one start': [
    ['window;Mo 08:30;90;normal', 'window;510;150;high wind'],
    [
      'The window of mode normal (row 12) and the window of mode high wind (row 13) have one start, Mo 08:30 (B12 and B13): each would say ' +
        'which mode belongs to the minutes from then on.',
    ],
    'B12 B13',
    [
      'Put Mo 10:00 into B13 and put 60 into C13: the window of row 13 then begins where that of row 12 ends, and ends as before',
      'Take out the window of mode high wind (row 13)',
    ],
  ],
  'out of order (exam)': [
    ['window;Tu 08:30;90;normal', 'window;510;150;high wind'],
    [
      'Windows stand in the order of their starts.',
      'The window of mode normal (row 12) starts at Tu 08:30 (B12); the window of mode high wind (row 13) starts at Mo 08:30 (B13) and ' +
        'should stand before it.',
    ],
    'B12 B13',
    ['Put the window rows in the order of their starts'],
  ],
  'out of order, with shared minutes (exam)': [
    ['window;Mo 09:30;90;normal', 'window;510;150;high wind'],
    [
      'The window of mode high wind (row 13), Mo 08:30 to Mo 11:00 (B13, C13), and the window of mode normal (row 12), Mo 09:30 to Mo 11:00 ' +
        '(B12, C12), share 90 minutes, Mo 09:30 to Mo 11:00.',
      'They are out of order as well: row 13 should stand before row 12.',
    ],
    'B13 C13 B12 C12',
    ['Put 60 into C13: the window of row 13 then ends where that of row 12 begins, and put the window rows in order again'],
  ],
  'too many': [
    many(66),
    ['The plan has 66 window rows, and there may be at most 64: row 76 is the first too many.'],
    'A76',
    ['Take out the last 2 window rows, from row 76 on'],
  ],
  'one too many': [
    many(65),
    ['The plan has 65 window rows, and there may be at most 64: row 76 is the first too many.'],
    'A76',
    ['Take out the last window row (row 76)'],
  ],
};

for (const [name, [more, lines, cells, help]] of Object.entries(CASES)) {
  test(`31: ${name}`, () => {
    const found = explainHours(plan({}, more, name.endsWith('(exam)')), hours);
    assert.deepEqual([found.number, found.title, found.lines], [31, RULES[31].title, lines]);
    assert.equal(found.marks.map(({ row, column }) => cellName(row, column)).join(' '), cells);
    assert.ok(found.marks.every(({ text }) => text.length > 0 && text.length < 60));
    assert.deepEqual(found.help.map((one) => hoursHelpLine(one, 31)), help.map((text) => `${text}. Then the timetable is accepted.`));
  });
}

test('32: minutes that are none of the week, behind windows that make a timetable', () => {
  const found = explainHours(plan({}, ['window;Mo 09:30;90;normal']), hours, 20000);
  assert.deepEqual([found.number, found.title, found.marks], [32, 'The minute is not one of the week', []]);
  assert.deepEqual(found.lines, ['Minute 20000 is not one of the week: its minutes are 0 (Mo 00:00) to 10,079 (Su 23:59).']);
  const help = 'Ask for Su 21:20 (minute 9920): minute 20000 falls on it in a later week. Then it is answered.';
  assert.deepEqual(found.help.map((one) => hoursHelpLine(one, 32)), [help]);
  for (const minute of [0, 10079]) assert.equal(explainHours(plan({}), hours, minute), null);
  for (const minute of [10080, 4294967295]) assert.equal(explainHours(plan({}), hours, minute).number, 32);
  assert.equal(explainHours(plan({}, ['window;0;0;normal']), hours, 20000).number, 31);
});

test('what is just allowed', () => {
  const rows = [['window;0;10080;normal'], ['window;Su 23:59;1;normal'], ['window;0;5;normal', 'window;5;5;normal'], many(64), []];
  for (const more of rows) for (const exam of [false, true]) assert.equal(explainHours(plan({}, more, exam), hours), null, more[0]);
});

test('a row that is offered can be pasted into the file, whatever its separator and the name of its mode', () => {
  for (const separator of [';', ',', '\t']) {
    for (const mode of ['normal', 'a; b, c', '"quoted"', '=night', "it's late"]) {
      const rows = [['network', '2', '2', '16'], ['mode', mode, '12'], ['window', 'Su 22:00', '180', mode]];
      const [help] = explainHours(documentOfText('plan.csv', writeTable(rows, separator)), hours).help;
      const [, length, row] = /^Put ([0-9]+) into C3 and add the row (.*): what goes on into Monday is a window of its own$/s.exec(help.text);
      const changed = writeTable([...rows.slice(0, 2), ['window', 'Su 22:00', length, mode]], separator) + row + '\r\n';
      const mended = documentOfText('plan.csv', changed);
      assert.deepEqual(mended.problems, [], changed);
      assert.deepEqual(timetableOf(mended).words, [0, 60, 0, 9960, 120, 0], changed);
      assert.equal(explainHours(mended, hours), null);
    }
  }
});

// The rows as a planner changes them who reads the text of a help.
function carriedOut(rows, text) {
  let changed = rows.map((cells) => [...cells]);
  for (const [, value, column, row] of text.matchAll(/[Pp]ut ([^:]+?(?::[0-9]{2})?) into ([B-D])([0-9]+)/g)) {
    changed[Number(row) - 1][column.charCodeAt(0) - 65] = value;
  }
  const [, added] = /add the row (window;[^:]+:[0-9]{2};[0-9]+;[^:]+):/.exec(text) ?? [];
  if (added) changed.push(added.split(';'));
  const [, one, from] = /^Take out .*(?:\(row ([0-9]+)\)|from row ([0-9]+) on)/.exec(text) ?? [];
  const isGone = (row) => (one ? row === Number(one) : from && row >= Number(from));
  changed = changed.filter((cells, at) => !(cells[0] === 'window' && isGone(at + 1)));
  if (!/in order again|in the order/.test(text)) return changed;
  const windows = changed.filter(([keyword]) => keyword === 'window').sort((a, b) => minuteOfText(a[1]) - minuteOfText(b[1]));
  return [...changed.filter(([keyword]) => keyword !== 'window'), ...windows];
}

// The rows of the windows that a fault has changed; of too many windows, those behind the 64th.
function plantedRows(before, windows, first) {
  const isSame = (one, other) => one && one.start === other.start && one.length === other.length && one.mode === other.mode;
  return windows.flatMap((window, at) => (isSame(before[at], window) ? [] : [at + first]));
}

for (const [name, fault] of Object.entries(FAULTS)) {
  test(`near misses of 31: ${name}`, () => {
    const source = random(31);
    const names = Array.from({ length: 9 }, (_, at) => `mode ${at}`);
    for (let found = 0; found < NEAR_MISSES; ) {
      const before = timetable(source, { most: 12 });
      const windows = fault(source, before);
      if (windows === null) continue;
      const exam = name === 'order' || source.chance(0.4);
      const rows = [...modeRows(names), ...windowRows(source, windows, names)];
      const document = documentOfRows('a.csv', rows, exam);
      assert.deepEqual(document.problems, []);
      assert.equal(hours(timetableOf(document).words, 0).number, 31);
      const told = explainHours(document, hours);
      const planted = plantedRows(name === 'count' ? windows.slice(0, 64) : before, windows, modeRows(names).length);
      assert.ok(told.marks.some(({ row }) => planted.includes(row)), 'the planted row is marked');
      for (const line of told.lines) assert.ok(/^[A-Z].*\.$/.test(line) && !/undefined|null|NaN|object/.test(line), line);
      assert.ok(told.help.length > 0 && told.help.every(({ number }) => number === 0), 'something helps');
      for (const { text } of told.help) {
        const mended = documentOfRows('a.csv', carriedOut(rows, text), exam);
        assert.deepEqual(mended.problems, [], text);
        assert.equal(hours(timetableOf(mended).words, 0).number, 0, `${text}\n${rows.join('\n')}`);
      }
      found++;
    }
  });
}

test('several faults: one is explained, and that there are more is said', () => {
  const source = random(32);
  const names = Array.from({ length: 9 }, (_, at) => `mode ${at}`);
  for (let turn = 0; turn < 80; turn++) {
    const windows = severalFaults(source, timetable(source, { most: 10 }));
    const document = documentOfRows('a.csv', [...modeRows(names), ...windowRows(source, windows, names)], source.chance(0.5));
    assert.deepEqual(document.problems, []);
    const told = explainHours(document, hours);
    assert.equal(told?.number ?? 0, hours(timetableOf(document).words, 0).number);
    for (const help of told?.help ?? []) assert.match(hoursHelpLine(help, 31), /(timetable is accepted|is still found: The windows .*)\.$/);
  }
  const twice = (day) => [`window;${day} 08:30;90;normal`, `window;${day} 09:30;90;high wind`];
  const both = explainHours(plan({}, [...twice('Mo'), ...twice('Tu')]), hours);
  assert.equal(both.lines.at(-1), ELSEWHERE);
  assert.deepEqual(new Set(both.help.map(({ number }) => number)), new Set([31]));
  assert.ok(!explainHours(plan({}, twice('Mo')), hours).lines.includes(ELSEWHERE));
});

test('a file full of window rows is explained soon', () => {
  const rows = [...modeRows(['night']), ...Array.from({ length: 9990 }, (_, at) => ['window', String(at % 7), '4294967295', 'night'])];
  const document = documentOfRows('a.csv', rows);
  assert.match(explainHours(document, hours).lines[0], /^The plan has 9990 window rows, .*: row 67 is the first too many\.$/);
  assert.ok(leastMilliseconds(() => explainHours(document, hours), 100) < 100);
});
