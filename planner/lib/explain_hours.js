// Why a timetable is refused by number 31, down to the cell: too many windows, one of them, or two beside each other; and a minute by 32.
import { begunBehind, keptApart, largestLength, nearestStart, restOnMonday, sortedRows, takenOut } from './hours_help.js';
import { HARMLESS_WINDOW, MOST_WINDOWS } from './limits.js';
import { capital, counted, modeName } from './naming.js';
import { RULES } from './rules.js';
import { TIMETABLE_NUMBER, WINDOW_COLUMNS, endOf, inOrderOfStarts, timetableOf, windowCell, wordsOfWindows } from './timetable.js';
import { MINUTES_A_WEEK, durationText, timeText } from './week.js';

const ELSEWHERE = 'This is not the only place: other window rows break this rule as well.';

// The explanation of what the call `hours` says of a document's windows and a minute; null where it refuses neither. Of what was tried, what
// the call accepts is offered; where it accepts nothing, all of it with what it says then.
export function explainHours(document, hours, minute = 0) {
  const timetable = timetableOf(document);
  const { number } = hours(timetable.words, minute);
  if (number === 0) return null;
  const isRefused = (windows) => hours(wordsOfWindows(windows), 0).number === TIMETABLE_NUMBER;
  const context = { document, hours, timetable, isRefused };
  const { marks, lines, help } = number === TIMETABLE_NUMBER ? explainTimetable(context) : explainMinute(context, minute);
  const accepted = help.filter((one) => one.number === 0);
  return { number, title: RULES[number].title, marks, lines, help: accepted.length > 0 ? accepted : help };
}

function explainMinute({ hours, timetable }, minute) {
  const within = minute % MINUTES_A_WEEK;
  const text = `Ask for ${timeText(within)} (minute ${within}): minute ${minute} falls on it in a later week`;
  return {
    marks: [],
    lines: [`Minute ${minute} is not one of the week: its minutes are 0 (${timeText(0)}) to 10,079 (${timeText(MINUTES_A_WEEK - 1)}).`],
    help: [{ text, number: hours(timetable.words, within).number }],
  };
}

// The smallest part that is refused: so many windows, whatever they are; one window alone; or two that stand beside each other. Where
// neither is, each window ends before the next begins, and the call takes them all.
function explainTimetable(context) {
  const { isRefused, timetable: { windows } } = context;
  const harmless = windows.map((_, at) => ({ ...HARMLESS_WINDOW, start: at }));
  if (isRefused(harmless)) return explainCount(context);
  const one = windows.find((window) => isRefused([window]));
  if (one) return withMore(context, [one], explainWindow(context, one));
  const at = windows.findIndex((window, place) => place > 0 && isRefused([windows[place - 1], window]));
  const pair = [windows[at - 1], windows[at]];
  return withMore(context, pair, explainPair(context, pair));
}

// Says where the timetable is refused without one of the windows that were found; every other fault lacks one of them.
function withMore({ isRefused, timetable: { windows } }, found, told) {
  const isElsewhere = found.some((gone) => isRefused(windows.filter((window) => window !== gone)));
  return isElsewhere ? { ...told, lines: [...told.lines, ELSEWHERE] } : told;
}

function explainCount(context) {
  const { windows } = context.timetable;
  const surplus = [...windows].sort((a, b) => a.row - b.row).slice(MOST_WINDOWS);
  const row = surplus[0].row + 1;
  const name = surplus.length === 1 ? `the last window row (row ${row})` : `the last ${surplus.length} window rows, from row ${row} on`;
  return {
    marks: [{ row: row - 1, column: 0, text: `the first window too many, at most ${MOST_WINDOWS}` }],
    lines: [`The plan has ${windows.length} window rows, and there may be at most ${MOST_WINDOWS}: row ${row} is the first too many.`],
    help: [takenOut(context, surplus, name)],
  };
}

const windowName = (document, { mode, row }) => `the window of ${modeName(document, mode)} (row ${row + 1})`;
const marksOf = ({ row }, fields, text) => fields.map((field) => ({ row, column: WINDOW_COLUMNS[field], text }));

// One window: the fields that are refused beside harmless ones; where none is, its start and its length together.
function explainWindow(context, window) {
  const fields = Object.keys(WINDOW_COLUMNS).filter((field) => context.isRefused([{ ...HARMLESS_WINDOW, [field]: window[field] }]));
  if (fields.length === 0) return explainEnd(context, window);
  const name = capital(windowName(context.document, window));
  const told = fields.map((field) => FIELDS[field](window, windowCell(window, field)));
  return {
    marks: fields.flatMap((field, at) => marksOf(window, [field], told[at].mark)),
    lines: told.map(({ line }) => `${name}: ${line}.`),
    help: windowHelp(context, window, fields),
  };
}

// What is wrong with a field of a window that is out of range by itself.
const FIELDS = {
  start: ({ start }, cell) => ({
    mark: 'the minutes of a week are 0 to 10,079',
    line: `its start, minute ${start} (${cell}), lies behind the end of the week, whose minutes are 0 to 10,079`,
  }),
  length({ length }, cell) {
    if (length === 0) return { mark: 'at least 1 minute', line: `its length is 0 (${cell}); a window has at least one minute` };
    return { mark: 'a week has 10,080 minutes', line: `its length, ${length} minutes (${cell}), is longer than the week, which has 10,080` };
  },
  mode: ({ mode }, cell) => ({
    mark: 'only the first eight modes',
    line: `its mode (${cell}) is schedule ${mode}, and a timetable knows 0 to 7, the first eight modes`,
  }),
};

// Which mode is meant cannot be known, nor where a window without a sound start and length belongs.
function windowHelp(context, window, fields) {
  const out = takenOut(context, [window], windowName(context.document, window));
  if (fields.length > 1 || fields[0] === 'mode') return [out];
  const found = fields[0] === 'start' ? nearestStart(context, window) : largestLength(context, window);
  return found.length > 0 ? found : [out];
}

function explainEnd(context, window) {
  const name = capital(windowName(context.document, window));
  const [startCell, lengthCell] = ['start', 'length'].map((field) => windowCell(window, field));
  const begin = `${name} starts at ${timeText(window.start)} (${startCell}) and has ${window.length} minutes (${lengthCell})`;
  const beyond = durationText(endOf(window) - MINUTES_A_WEEK);
  return {
    marks: marksOf(window, ['start', 'length'], 'the window passes the end of the week'),
    lines: [`${begin}: it would end ${beyond} behind the end of the week, ${timeText(MINUTES_A_WEEK)} (minute 10,080).`],
    help: withStart(context, window, [restOnMonday(context, window), ...largestLength(context, window)]),
  };
}

// Another start is offered only where nothing else helps.
function withStart(context, window, help) {
  return help.some(({ number }) => number === 0) ? help : [...help, ...nearestStart(context, window)];
}

// Two windows that are refused together: out of order, with one start, or with minutes that both have.
function explainPair(context, pair) {
  const [early, late] = inOrderOfStarts(pair);
  if (!context.isRefused([early, late])) return explainOrder(context, pair);
  return early.start === late.start ? explainOneStart(context, early, late) : explainShared(context, early, late);
}

function explainOrder(context, [first, second]) {
  const starts = (window) => `starts at ${timeText(window.start)} (${windowCell(window, 'start')})`;
  const described = (window) => `${windowName(context.document, window)} ${starts(window)}`;
  return {
    marks: [first, second].flatMap((window) => marksOf(window, ['start'], 'out of order')),
    lines: [
      'Windows stand in the order of their starts.',
      `${capital(described(first))}; ${described(second)} and should stand before it.`,
    ],
    help: [sortedRows(context)],
  };
}

function explainOneStart(context, first, second) {
  const [one, other] = [first, second].map((window) => windowName(context.document, window));
  const start = `${timeText(first.start)} (${windowCell(first, 'start')} and ${windowCell(second, 'start')})`;
  const [short, long] = first.length <= second.length ? [first, second] : [second, first];
  return {
    marks: [first, second].flatMap((window, at) => marksOf(window, ['start'], `the same start as row ${[second, first][at].row + 1}`)),
    lines: [`${capital(one)} and ${other} have one start, ${start}: each would say which mode belongs to the minutes from then on.`],
    help: withStart(context, second, [...begunBehind(context, short, long), takenOut(context, [second], other)]),
  };
}

function explainShared(context, early, late) {
  const span = (window) => {
    const cells = `${windowCell(window, 'start')}, ${windowCell(window, 'length')}`;
    return `${windowName(context.document, window)}, ${timeText(window.start)} to ${timeText(endOf(window))} (${cells}),`;
  };
  const end = Math.min(endOf(early), endOf(late));
  const minutes = counted(end - late.start, 'minute');
  const mark = (window, other) => marksOf(window, ['start', 'length'], `shares ${minutes} with row ${other.row + 1}`);
  const { windows } = context.timetable;
  const isTurned = windows.indexOf(early) > windows.indexOf(late);
  const order = isTurned ? [`They are out of order as well: row ${early.row + 1} should stand before row ${late.row + 1}.`] : [];
  return {
    marks: [...mark(early, late), ...mark(late, early)],
    lines: [`${capital(span(early))} and ${span(late)} share ${minutes}, ${timeText(late.start)} to ${timeText(end)}.`, ...order],
    help: withStart(context, late, keptApart(context, early, late)),
  };
}
