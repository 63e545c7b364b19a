// The command hours: a minute, the week, both refusals, an exam, JSON, and what it does not take.
import test from 'node:test';
import assert from 'node:assert/strict';
import { minuteOfDate, timeText } from '../../planner/lib/week.js';
import { carriedOut, example, gives, holdUse, path, text, written } from './command_program.js';

const week = example('cable-car-week.csv');
const HEAD = 'network;2;2;8\nmode;night;9\nmode;service;9\n';
const files = {
  open: written('open.csv', `${HEAD}window;Mo 06:30;60;service\n`),
  bare: written('bare.csv', 'network;2;2;8\n'),
  always: written('always.csv', `${HEAD}window;0;5000;service\nwindow;5000;5080;service\n`),
  shared: written('shared.csv', `${HEAD}window;Mo 06:30;60;service\nwindow;Mo 07:00;60;night\n`),
  turned: written('turned.csv', `${HEAD}window;Tu 06:30;60;service\nwindow;Mo 07:00;60;service\n`),
  long: written('long.csv', `${HEAD}window;Su 22:00;180;service\n`),
  bad: written('bad.csv', `${HEAD}window;Mo 24:00;60;service\n`),
  hostile: written(
    'names\nforged.csv',
    'network;2;2;8\nmode;"<b>""night"" & day</b>";9\nmode;=cmd|calc;9\nmode;"a; b";9\nwindow;0;60;"a; b"\nwindow;60;60;=cmd|calc\n',
  ),
  forged: written('refused\nforged.csv', text('cable-car-week.csv').replace(';900;', ';0;')),
};

// A pattern of lines, each told by a pattern, and nothing more.
const linesOf = (...lines) => new RegExp(`^${lines.map((line) => `${line}\n`).join('')}$`);

const ANSWER = 'Mo 08:30 (minute 510): service\nchanges to night at Mo 21:30 (minute 1290), in 13 h\n';
const WEEK = [
  'from      to        mode', 'Mo 00:00  Mo 06:30  night', 'Mo 06:30  Mo 21:30  service', 'Mo 21:30  Tu 06:30  night',
  'Tu 06:30  Tu 21:30  service', 'Tu 21:30  Tu 22:00  night', 'Tu 22:00  We 02:00  maintenance', 'We 02:00  We 06:30  night',
  'We 06:30  We 21:30  service', 'We 21:30  Th 06:30  night', 'Th 06:30  Th 21:30  service', 'Th 21:30  Fr 06:30  night',
  'Fr 06:30  Sa 02:00  service', 'Sa 02:00  Sa 08:00  night', 'Sa 08:00  Sa 22:00  service', 'Sa 22:00  Su 08:00  night',
  'Su 08:00  Su 20:00  service', 'Su 20:00  Su 22:00  night', 'Su 22:00  Su 24:00  maintenance', '',
].join('\n');
const oneMode = (mode, why) => `from      to        mode\nMo 00:00  Su 24:00  ${mode}\nThe mode never changes${why}.\n`;
const NO_ROWS = ': the plan has no window rows';
const ON = 'At the end of the week night goes on, to Mo 06:30 of the next week.\n';
const SHARED = linesOf(
  '\\S*shared\\.csv: refused with number 31: The windows do not make a timetable\\.',
  '  The window of mode service \\(row 4\\), .*\\(B4, C4\\).*',
  '  What would help, each tried with the proved call:',
  '  - Put 30 into C4: .* Then the timetable is accepted\\.',
  '  - Put Mo 07:30 into B5 and put 30 into C5: .* Then the timetable is accepted\\.',
);
const MINUTE_32 = linesOf(
  '\\S*cable-car-week\\.csv: refused with number 32: The minute is not one of the week\\.',
  '  Minute 10080 is not one of the week: .*',
  '  What would help, each tried with the proved call:',
  '  - Ask for Mo 00:00 \\(minute 0\\): minute 10080 falls on it in a later week\\. Then it is answered\\.',
);
const NO_MINUTE = linesOf(
  'calqetum: MINUTE is a day and a time, as Mo 08:30 \\(.*\\), or the minute of the week.*, or now; and not .*',
  'calqetum: --help says how it is used',
);
const NO_WORDS = /^\S*a\.sheet: a file of words has no window rows; hours wants a plan \(\.csv or \.tsv\)\n$/;

// A name, the words behind hours, the exit status, standard output, and a pattern of standard error.
const CASES = [
  ['a minute as a number', [week, '510'], 0, ANSWER],
  ['a minute as a day and a time in one word', [week, 'Mo 08:30'], 0, ANSWER],
  ['a minute in two words', [week, 'monday', '8:30'], 0, ANSWER],
  ['windows that adjoin', [week, 'Fr 23:59'], 0,
    'Fr 23:59 (minute 7199): service\nchanges to night at Sa 02:00 (minute 7320), in 2 h 1 min\n'],
  ['a change in the next week', [week, 'Su', '23:00'], 0,
    'Su 23:00 (minute 10020): maintenance\nchanges to night at Mo 00:00 (minute 0) of the next week, in 1 h\n'],
  ['the week', [week], 0, WEEK],
  ['a week whose end goes on', [files.open], 0,
    `from      to        mode\nMo 00:00  Mo 06:30  night\nMo 06:30  Mo 07:30  service\nMo 07:30  Su 24:00  night\n${ON}`],
  ['no window rows', [example('cable-car.csv')], 0, oneMode('normal', NO_ROWS)],
  ['a minute without window rows', [example('cable-car.csv'), '0'], 0, `Mo 00:00 (minute 0): normal\nnever changes${NO_ROWS}\n`],
  ['no mode rows', [files.bare], 0, oneMode('schedule 0', NO_ROWS)],
  ['one mode all week', [files.always], 0, oneMode('service', '')],
  ['a minute of it', [files.always, 'We 12:00'], 0, 'We 12:00 (minute 3600): service\nnever changes\n'],
  ['refused 31', [files.shared], 1, 'refused 31\n', SHARED],
  ['refused 31 before 32', [files.shared, '20000'], 1, 'refused 31\n', SHARED],
  ['refused 32', [week, '10080'], 1, 'refused 32\n', MINUTE_32],
  ['rows in any order', [files.turned, 'Mo', '07:30'], 0, /^Mo 07:30 \(minute 450\): service\n/],
  ['rows in the order of an exam', ['--exam', files.turned, 'Mo', '07:30'], 1, 'refused 31\n', /order of their starts\.\n.*\(B4\).*\(B5\)/],
  ['a file of words', [example('a.sheet')], 2, '', NO_WORDS],
  ['a cell that cannot be read', [files.bad, '5'], 2, '', /^\S*bad\.csv, B4: "Mo 24:00" stands here; wanted: a start: .*23:59.*\n$/],
  ['no such file', [path('none.csv')], 2, '', /there is no such file/],
  ['no file', [], 2, '', /FILE, and at most one MINUTE, is wanted/],
  ['a word too many', [week, 'Mo', '08:30', 'x'], 2, '', /x is one name too many: FILE, and at most one MINUTE, is wanted/],
  ['no minute of a day', [week, 'Mo 24:00'], 2, '', NO_MINUTE],
  ['no minute at all', [week, 'noon\u001b[2J\nforged'], 2, '', NO_MINUTE],
  ['no word', [week, '4294967296'], 2, '', NO_MINUTE],
  ['another option', [week, '--names'], 2, '', /hours takes no --names/],
  ['help', ['--help'], 0, /^usage: calqetum hours FILE \[MINUTE\] \[--exam\] \[--json\]\n/],
  ['names that hold signs', [files.hostile, '61'], 0,
    'Mo 01:01 (minute 61): =cmd|calc\nchanges to <b>"night" & day</b> at Mo 02:00 (minute 120), in 59 min\n'],
  ["a file's name that would forge a line", [files.forged], 1, 'refused 31\n', /^\S*refused forged\.csv: refused with number 31/],
];
const AS_DATA = [[week, 'Su 23:00'], [week], [example('cable-car.csv'), '5'], [files.long, '5'], [files.bad], [example('a.sheet'), '5']];
const OTHERS = [['check', week], ['--help']];
const found = carriedOut([
  ...OTHERS, ...CASES.map(([, words]) => ['hours', ...words]), ...AS_DATA.map((words) => ['hours', ...words, '--json']),
]);
const others = found.splice(0, OTHERS.length);
const asData = found.splice(CASES.length);

for (const [at, [name, , ...expected]] of CASES.entries()) test(name, () => holdUse(found[at], ...expected));

test('JSON: a minute, the week, refusals, and what cannot be read', () => {
  assert.deepEqual(asData.map(({ status, stderr }) => [status, stderr]), [0, 0, 0, 1, 2, 2].map((status) => [status, '']));
  const [minute, whole, never, long, bad, words] = asData.map(({ stdout }) => JSON.parse(stdout));
  assert.deepEqual(minute, {
    file: week, answer: 'carried out', number: 0, windows: 10, minute: 10020, time: 'Su 23:00', schedule: 2, mode: 'maintenance',
    next: { minute: 0, time: 'Mo 00:00', schedule: 0, mode: 'night', minutesOn: 60, nextWeek: true },
  });
  assert.deepEqual([whole.changes, whole.week.length, never.next], [true, 18, null]);
  assert.deepEqual(whole.week[17], { from: 9960, to: 10080, fromTime: 'Su 22:00', toTime: 'Su 24:00', schedule: 2, mode: 'maintenance' });
  assert.deepEqual([long.answer, long.number, long.title], ['refused', 31, 'The windows do not make a timetable']);
  assert.deepEqual(long.cells.map(({ cell }) => cell), ['B4', 'C4']);
  assert.ok(long.help.length > 0 && long.help.every((one) => Object.keys(one).join() === 'text,number' && one.number === 0));
  assert.deepEqual([bad, words].map(({ answer, problems }) => [answer, problems.length]), [['unreadable', 1], ['unreadable', 1]]);
  assert.match(words.problems[0], /a file of words has no window rows/);
});

test('now is the minute of the local clock, in its zone', () => {
  const before = new Date();
  const answer = /^(Mo|Tu|We|Th|Fr|Sa|Su) \d\d:\d\d \(minute \d+\): /;
  const { stdout } = gives(['hours', week, 'now'], 0, answer, /^$/, { env: { ...process.env, TZ: 'Pacific/Noumea' } });
  // There it is eleven hours later than universal time, all year.
  const inZone = (date) => minuteOfDate(new Date(date.getTime() + (11 * 60 + date.getTimezoneOffset()) * 60000));
  const begins = [before, new Date()].map(inZone).map((minute) => `${timeText(minute)} (minute ${minute}): `);
  assert.ok(begins.some((begin) => stdout.startsWith(begin)), stdout);
});

test('the example passes, and the help of the whole names the command', () => {
  holdUse(others[0], 0, 'passes\n');
  holdUse(others[1], 0, /^ {2}hours FILE \[MINUTE\] +which mode belongs to a minute of the week/m);
});
