// The week in stretches and as a picture: against a walk over every minute by the call, and the call against a week reckoned here.
import test from 'node:test';
import assert from 'node:assert/strict';
import { openProved } from '../../planner/command/proved.js';
import { colourOf, fillOf } from '../../planner/lib/colours.js';
import { documentOfRows } from '../../planner/lib/document.js';
import { markup, svgFile } from '../../planner/lib/markup.js';
import { answerAt, answerLines, stretchesOf, timetableOf } from '../../planner/lib/timetable.js';
import { timeText } from '../../planner/lib/week.js';
import { weekPicture } from '../../planner/lib/week_picture.js';
import { weekScene } from '../../planner/lib/week_scene.js';
import { checkedPicture, everyItem, textIn, toldParts } from './picture_checks.js';
import { random } from './random.js';
import { modeRows, scheduleOfMinutes, timetable, windowRows } from './timetables.js';

const WEEK = 10080;
const NAMES = ['night', 'service', 'maintenance', 'high wind', 'evacuation', 'm5', 'm6', 'm7'];
const { hours, hoursField } = await openProved();
const draw = random(13);

function documentOf(windows, names = NAMES, exam = false) {
  const document = documentOfRows('week.csv', [...modeRows(names), ...windowRows(draw, windows, names)], exam);
  assert.deepEqual(document.problems, []);
  return document;
}

// A dozen timetables: none, a whole week of one mode, the most windows there may be, and some at random.
const timetables = [
  [],
  [{ start: 0, length: WEEK, mode: 3 }],
  Array.from({ length: 64 }, (_, at) => ({ start: 157 * at, length: 157, mode: at % 8 })),
  Array.from({ length: 64 }, (_, at) => ({ start: 100 + 2 * at, length: 1, mode: 1 })),
  ...Array.from({ length: 9 }, () => timetable(draw, { modes: 8 })),
].map((windows) => ({ windows, document: documentOf(windows), words: windows.flatMap(({ start, length, mode }) => [start, length, mode]) }));

// The schedule of each minute, as the call says it.
const walk = (words) => Array.from({ length: WEEK }, (_, minute) => hoursField(words, minute, 0).value);

// The minute behind one at which a week first differs from it, going on into the next week; null where it never does.
function nextDifferent(week, minute) {
  for (let after = 1; after < WEEK; after++) {
    if (week[(minute + after) % WEEK] !== week[minute]) return (minute + after) % WEEK;
  }
  return null;
}

test('the stretches of a week are those of a walk over every minute', () => {
  for (const { windows, words } of timetables) {
    const week = walk(words);
    assert.deepEqual(week, scheduleOfMinutes(windows));
    const { number, stretches, on } = stretchesOf(hours, words);
    assert.equal(number, 0);
    const edges = week.flatMap((schedule, minute) => (minute === 0 || schedule !== week[minute - 1] ? [minute] : []));
    const wanted = edges.map((from, at) => ({ from, to: edges[at + 1] ?? WEEK, schedule: week[from] }));
    assert.deepEqual(stretches, wanted);
    assert.equal(on, edges.length === 1 ? null : week[0] === week[WEEK - 1] ? edges[1] : 0);
  }
});

test('the next change of a minute is the first minute that differs, also in the next week', () => {
  let nextWeek = 0;
  for (const { windows, words, document } of timetables) {
    const week = scheduleOfMinutes(windows);
    const minutes = [0, WEEK - 1, ...Array.from({ length: 60 }, () => draw.below(WEEK)), ...words.filter((_, at) => at % 3 === 0)];
    for (const minute of minutes) {
      const next = nextDifferent(week, minute);
      const answer = answerAt(hours, words, minute);
      assert.deepEqual([answer.number, answer.schedule, answer.next?.minute ?? null], [0, week[minute], next]);
      const [first, second] = answerLines(document, answer);
      assert.equal(first, `${timeText(minute)} (minute ${minute}): ${NAMES[week[minute]]}`);
      if (next === null) {
        assert.equal(second, words.length === 0 ? 'never changes: the plan has no window rows' : 'never changes');
        continue;
      }
      assert.equal(answer.next.after, (next - minute + WEEK) % WEEK);
      assert.equal(second.includes(' of the next week'), next < minute);
      assert.ok(second.startsWith(`changes to ${NAMES[week[next]]} at ${timeText(next)} (minute ${next})`), second);
      if (next < minute) nextWeek++;
    }
  }
  assert.ok(nextWeek > 20, `${nextWeek} changes lie in the next week`);
});

test('numbers and fields of the call', () => {
  const asked = (list, minute, field = 0) => Object.values(hoursField(list, minute, field));
  const list = [510, 60, 2];
  assert.deepEqual([0, 1, 2, 3, 4294967295].map((field) => asked(list, 569, field)), [[0, 2], [0, 1], [0, 570], [0, 0], [0, 0]]);
  assert.deepEqual([0, 1, 2].map((field) => asked([], 5, field)), [[0, 0], [0, 0], [0, 0]]);
  const alone = [[10080, 1, 0], [0, 0, 0], [0, 1, 8], [10079, 2, 0], [5, 4294967295, 0], [4294967295, 1, 0]];
  const pairs = [[5, 5, 0, 9, 5, 0], [5, 5, 0, 5, 5, 0], [9, 5, 0, 5, 2, 0]];
  const many = Array.from({ length: 65 }, (_, at) => [at, 1, 0]).flat();
  for (const wrong of [[510], [510, 60], [510, 60, 2, 570], ...alone, ...pairs, many]) {
    for (const minute of [0, 10080]) {
      for (const field of [0, 1, 2, 3]) assert.deepEqual(asked(wrong, minute, field), [31, 0], wrong.join(' '));
    }
  }
  for (const right of [[10079, 1, 7], [0, 10080, 0], [5, 5, 0, 10, 5, 0], many.slice(3)]) assert.equal(asked(right, 0)[0], 0);
  for (const minute of [10080, 4294967295]) assert.deepEqual(asked(list, minute), [32, 0]);
  assert.deepEqual(hours(list, 600), { number: 0, schedule: 0, changes: true, minute: 510 });
  assert.deepEqual(hours(list, 10080), { number: 32, schedule: 0, changes: false, minute: 0 });
});

// The minutes that a told part covers, by its boxes: the day's bar by its height, the minute by its place.
function minutesOf(part, { top, row, left, hour }) {
  const boxes = everyItem(part).filter(({ name }) => name === 'rect').map(({ attributes }) => attributes);
  return boxes.map(({ x, y, width }) => {
    const from = ((Number(y) - top) / row) * 1440 + ((Number(x) - left) * 60) / hour;
    return [Math.round(from), Math.round(from + (Number(width) * 60) / hour)];
  });
}

// Where the bars lie in a picture, by its own names of days and hours.
function axesOf(root) {
  const texts = everyItem(root).filter(({ name }) => name === 'text');
  const place = (text, size) => texts.find((item) => textIn(item) === text && item.attributes['font-size'] === size).attributes;
  const [zero, last] = ['0', '24'].map((text) => Number(place(text, '11').x));
  const [monday, tuesday] = ['Mo', 'Tu'].map((text) => Number(place(text, '13').y));
  return { top: monday - 18, row: tuesday - monday, left: zero, hour: (last - zero) / 24 };
}

test('every stretch stands in the picture once, on the bars of its days, in its look and told; the mark is at its minute', () => {
  for (const { document, words } of timetables) {
    const minute = draw.below(WEEK);
    const root = checkedPicture(svgFile(weekPicture(weekScene(document, hours), { minute, background: true })));
    const parts = toldParts(root);
    const mark = parts.pop();
    const axes = axesOf(root);
    const { stretches } = stretchesOf(hours, words);
    assert.equal(parts.length, stretches.length);
    stretches.forEach(({ from, to, schedule }, at) => {
      const label = parts[at].attributes['aria-label'];
      assert.ok(label.startsWith(`${timeText(from)} to ${timeText(to)}, `) && label.includes(`: ${NAMES[schedule]}`), label);
      const covered = minutesOf(parts[at], axes);
      assert.deepEqual([covered[0][0], covered.at(-1)[1]], [from, to]);
      covered.slice(1).forEach(([begin], day) => assert.deepEqual([begin, begin % 1440], [covered[day][1], 0]));
      for (const { attributes } of everyItem(parts[at]).filter(({ name }) => name === 'rect')) {
        assert.deepEqual([attributes.fill, attributes.stroke], [fillOf(schedule, 'hours'), colourOf(schedule)]);
      }
    });
    assert.equal(mark.attributes['aria-label'], `The minute asked for: ${timeText(minute)} (minute ${minute})`);
    const { x1, y1 } = everyItem(mark).find(({ name }) => name === 'line').attributes;
    const [day, minuteOfDay] = [(y1 - axes.top) / axes.row, Math.round(((x1 - axes.left) * 60) / axes.hour)];
    assert.equal(day * 1440 + minuteOfDay, minute);
    const legend = new Set(stretches.map(({ schedule }) => NAMES[schedule]));
    for (const name of legend) assert.ok(everyItem(root).some((item) => item.name === 'text' && textIn(item) === name), name);
  }
});

test('a stretch that goes on into the next week says so, a plan without modes names its schedule', () => {
  const told = (document) => weekScene(document, hours).stretches.map(({ text }) => text);
  const [first, , last] = told(documentOf([{ start: 390, length: 930, mode: 1 }]));
  assert.equal(first, 'Mo 00:00 to Mo 06:30, 6 h 30 min: night');
  assert.equal(last, 'Mo 22:00 to Su 24:00, 6 days 2 h: night; goes on to Mo 06:30 of the next week');
  assert.deepEqual(told(documentOf([])), ['Mo 00:00 to Su 24:00, 7 days: night']);
  assert.deepEqual(told(documentOfRows('a.csv', [['network', '2', '2', '1']])), ['Mo 00:00 to Su 24:00, 7 days: schedule 0']);
  assert.deepEqual(told(documentOf([{ start: 9960, length: 120, mode: 2 }])).at(-1), 'Su 22:00 to Su 24:00, 2 h: maintenance');
});

test('windows that are refused, hostile names, and an exam', () => {
  const shared = [{ start: 5, length: 9, mode: 1 }, { start: 6, length: 9, mode: 1 }];
  const refused = checkedPicture(svgFile(weekPicture(weekScene(documentOf(shared), hours))));
  assert.match(textIn(refused), /No week to draw.*The windows do not make a timetable \(number 31\)/);
  const turned = [{ start: 50, length: 9, mode: 1 }, { start: 6, length: 9, mode: 1 }];
  const numbers = [false, true].map((exam) => weekScene(documentOf(turned, NAMES, exam), hours).number);
  assert.deepEqual(numbers, [0, 31]);
  const name = '<script>alert("1")</script>&\'"]]>';
  const picture = weekPicture(weekScene(documentOf([{ start: 60, length: 1200, mode: 1 }], ['night', name]), hours), { minute: 70 });
  const root = checkedPicture(svgFile(picture));
  assert.ok(everyItem(root).some((item) => textIn(item) === name) && !markup(picture).includes('<script'));
});
