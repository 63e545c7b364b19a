// The weekly timetable of a plan: the words of its windows with the cell of each, and what the proved call says of a minute and of the week.
import { cellName } from './cells.js';
import { cut } from './document.js';
import { MOST_NAME, numberOf } from './plan.js';
import { MINUTES_A_WEEK, durationText, minuteOfTime, timeText } from './week.js';

// The number of windows that make no timetable.
export const TIMETABLE_NUMBER = 31;

// The columns of a window's cells, as plan.js reads them, in the order of its words.
export const WINDOW_COLUMNS = { start: 1, length: 2, mode: 3 };

export const wordsOfWindows = (windows) => windows.flatMap(({ start, length, mode }) => [start, length, mode]);

// The minute behind a window's last one, and the name of a field's cell.
export const endOf = ({ start, length }) => start + length;
export const windowCell = ({ row }, field) => cellName(row, WINDOW_COLUMNS[field]);

export const inOrderOfStarts = (windows) => [...windows].sort((a, b) => a.start - b.start);

// The windows of a document without problems, in the order of their starts, or in that of their rows for an exam; their words, and for
// each the cell that it stands for.
export function timetableOf({ plan, exam }) {
  const byRow = plan?.windows ?? [];
  const windows = exam ? byRow : inOrderOfStarts(byRow);
  const places = windows.flatMap(({ row }) => Object.values(WINDOW_COLUMNS).map((column) => ({ row, column })));
  return { windows, words: wordsOfWindows(windows), places };
}

// The minute of a text: a number, or a day and a time as Mo 08:30; null where it is neither.
export const minuteOfText = (text) => numberOf(text) ?? minuteOfTime(text);

// What the call `hours` says of a minute: the number of a refusal; else the schedule, and the next change, or null where there is none.
export function answerAt(hours, words, minute) {
  const { number, schedule, changes, minute: next } = hours(words, minute);
  if (number !== 0) return { number, minute };
  if (!changes) return { number, minute, schedule, next: null };
  const isNextWeek = next <= minute;
  const after = next - minute + (isNextWeek ? MINUTES_A_WEEK : 0);
  return { number, minute, schedule, next: { minute: next, schedule: hours(words, next).schedule, after, isNextWeek } };
}

// The stretches of the week from Monday 00:00 on, edge by edge: each begins where the call says that the one before changes. `on` is the
// minute of the next week to which the last one goes on, 0 where it ends with the week, null where the schedule never changes.
export function stretchesOf(hours, words) {
  const stretches = [];
  for (let from = 0; ; ) {
    const { number, schedule, next } = answerAt(hours, words, from);
    if (number !== 0) return { number, stretches: [], on: null };
    const isLast = next === null || next.isNextWeek;
    stretches.push({ from, to: isLast ? MINUTES_A_WEEK : next.minute, schedule });
    if (isLast) return { number, stretches, on: next && next.minute };
    from = next.minute;
  }
}

// A schedule by its mode's name. Outside all windows it is 0, which a plan without modes has no name for.
export function scheduleName({ modeNames }, schedule) {
  return schedule < modeNames.length ? cut(modeNames[schedule], MOST_NAME) : `schedule ${schedule}`;
}

const minuteText = (minute) => `${timeText(minute)} (minute ${minute})`;

// An answer that is no refusal, in two lines: the mode of the minute, and the next change.
export function answerLines(document, { minute, schedule, next }) {
  const first = `${minuteText(minute)}: ${scheduleName(document, schedule)}`;
  if (next === null) return [first, neverText(document)];
  const week = next.isNextWeek ? ' of the next week' : '';
  return [first, `changes to ${scheduleName(document, next.schedule)} at ${minuteText(next.minute)}${week}, in ${durationText(next.after)}`];
}

export function neverText({ plan }) {
  return plan.windows.length === 0 ? 'never changes: the plan has no window rows' : 'never changes';
}
