// Changes of a timetable that may help against number 31: reckoned here, and each tried with the proved call on the whole timetable.
import { rowText } from './cells.js';
import { capital } from './naming.js';
import { triedLine } from './rules.js';
import { TIMETABLE_NUMBER, endOf, inOrderOfStarts, scheduleName, windowCell, wordsOfWindows } from './timetable.js';
import { isSortedByTool, nearest } from './trials.js';
import { MINUTES_A_WEEK, timeText } from './week.js';

// The windows of a changed timetable. A change puts words into fields of windows (`put`), adds windows (`add`), takes windows out by their
// rows (`drop`), or puts the rows in the order of their starts (`sort`).
function changedWindows(windows, { put = [], add = [], drop = [], sort = false }) {
  const gone = new Set(drop);
  const changed = windows.filter(({ row }) => !gone.has(row)).map((window) => {
    const own = put.filter(({ row }) => row === window.row).map(({ field, word }) => [field, word]);
    return { ...window, ...Object.fromEntries(own) };
  });
  return sort ? inOrderOfStarts([...changed, ...add]) : [...changed, ...add];
}

// Tries a change: its text, and the number that the call gives then. Where the order of the rows counts and is all that is still wrong, the
// text says that they have to be put in order again.
function tried({ document, hours, timetable }, text, change) {
  const numberOf = (one) => hours(wordsOfWindows(changedWindows(timetable.windows, one)), 0).number;
  const [asTyped, sorted] = [numberOf(change), numberOf({ ...change, sort: true })];
  if (isSortedByTool(document)) return { text, number: sorted };
  const isMoved = asTyped !== 0 && sorted === 0;
  return isMoved ? { text: `${text}, and put the window rows in order again`, number: sorted } : { text, number: asTyped };
}

// Words for fields of a window, as one change: [field, word] each.
function putText(window, fields) {
  const texts = fields.map(([field, word]) => `put ${field === 'start' ? timeText(word) : word} into ${windowCell(window, field)}`);
  return capital(texts.join(' and '));
}

const puts = ({ row }, fields) => fields.map(([field, word]) => ({ row, field, word }));

function triedPut(context, window, fields, what) {
  return tried(context, `${putText(window, fields)}: ${what}`, { put: puts(window, fields) });
}

// A shorter window, and a row more for what is then missing.
function triedSplit(context, window, length, { start, length: rest }, what) {
  const fields = [['length', length]];
  const row = rowText(['window', timeText(start), rest, scheduleName(context.document, window.mode)], context.document);
  const change = { put: puts(window, fields), add: [{ start, length: rest, mode: window.mode }] };
  return tried(context, `${putText(window, fields)} and add the row ${row}: ${what}`, change);
}

export function takenOut(context, windows, name) {
  return tried(context, `Take out ${name}`, { drop: windows.map(({ row }) => row) });
}

export const sortedRows = (context) => tried(context, 'Put the window rows in the order of their starts', { sort: true });

const othersOf = ({ timetable }, window) => timetable.windows.filter((other) => other !== window);

// The nearest start at which a window shares no minute with another and ends with the week at the latest.
export function nearestStart(context, window) {
  const others = othersOf(context, window);
  const last = MINUTES_A_WEEK - window.length;
  const isApart = (start) => others.every((other) => start >= endOf(other) || start + window.length <= other.start);
  const isFree = (start) => start >= 0 && start <= last && start !== window.start && isApart(start);
  const values = [0, last, ...others.flatMap((other) => [endOf(other), other.start - window.length])];
  const [start] = nearest(new Set(values.filter(isFree)), window.start);
  if (start === undefined) return [];
  return [triedPut(context, window, [['start', start]], 'the nearest start at which the window has its minutes to itself')];
}

// The largest length at a window's start: up to the next window, or to the end of the week.
export function largestLength(context, window) {
  const others = othersOf(context, window);
  if (others.some((other) => other.start <= window.start && window.start < endOf(other))) return [];
  const later = others.filter(({ start }) => start > window.start);
  const end = later.reduce((least, { start }) => Math.min(least, start), MINUTES_A_WEEK);
  const what = `the largest length, up to ${end === MINUTES_A_WEEK ? 'the end of the week' : `the next window, ${timeText(end)}`}`;
  return [triedPut(context, window, [['length', end - window.start]], what)];
}

// What passes the end of the week as a window of its own, from Monday 00:00 on.
export function restOnMonday(context, window) {
  const length = MINUTES_A_WEEK - window.start;
  const rest = { start: 0, length: window.length - length };
  return triedSplit(context, window, length, rest, 'what goes on into Monday is a window of its own');
}

// Two windows that share minutes: the one that begins first ends before the other, or stops for it; or the other begins behind it.
export function keptApart(context, early, late) {
  const [until, rest] = [late.start - early.start, { start: endOf(late), length: endOf(early) - endOf(late) }];
  const shorter = `the window of row ${early.row + 1} then ends where that of row ${late.row + 1} begins`;
  const stops = `the window of row ${early.row + 1} then stops for that of row ${late.row + 1} and goes on behind it`;
  const split = rest.length > 0 ? [triedSplit(context, early, until, rest, stops)] : [];
  return [...split, triedPut(context, early, [['length', until]], shorter), ...begunBehind(context, early, late)];
}

// A window that begins where another ends, and ends as before.
export function begunBehind(context, early, late) {
  if (endOf(late) <= endOf(early)) return [];
  const fields = [['start', endOf(early)], ['length', endOf(late) - endOf(early)]];
  const what = `the window of row ${late.row + 1} then begins where that of row ${early.row + 1} ends, and ends as before`;
  return [triedPut(context, late, fields, what)];
}

// What would help against a refusal by the number `before`, with what the call says then, as one line.
export function hoursHelpLine(help, before) {
  return triedLine(help, before, before === TIMETABLE_NUMBER ? 'the timetable is accepted' : 'it is answered');
}
