// The command hours: which mode the window rows of a plan give a minute, or the minutes of a whole week.
import { cellName } from '../lib/cells.js';
import { cut } from '../lib/document.js';
import { explainHours } from '../lib/explain_hours.js';
import { hoursHelpLine } from '../lib/hours_help.js';
import { verdictText } from '../lib/paper.js';
import { answerAt, answerLines, minuteOfText, neverText, scheduleName, stretchesOf, timetableOf } from '../lib/timetable.js';
import { MINUTE_FORMS, minuteOfDate, timeText } from '../lib/week.js';
import { holdCount } from './arguments.js';
import { wrongUse } from './failures.js';
import { readableSheet, tellUnreadable } from './files.js';
import { print, printJson, say, tableLines } from './output.js';
import { shownPath } from './paths.js';
import { openProved } from './proved.js';
import { explanationData } from './refusal.js';

const HEADS = ['from', 'to', 'mode'];

export async function hours(names, options) {
  holdCount(names, 1, 3, 'FILE, and at most one MINUTE,');
  const minute = minuteNamed(names.slice(1));
  const sheet = readableSheet(names[0], options);
  if (!sheet) return 2;
  if (sheet.document.kind === 'words') {
    const message = `${shownPath(sheet.path)}: a file of words has no window rows; hours wants a plan (.csv or .tsv)`;
    tellUnreadable([message], options, { file: sheet.path });
    return 2;
  }
  const calls = await openProved();
  const refusal = explainHours(sheet.document, calls.hours, minute ?? 0);
  if (refusal) return tellRefusal(sheet, refusal, options);
  const { lines, data } = minute === null ? ofWeek(sheet.document, calls) : ofMinute(sheet.document, calls, minute);
  const windows = sheet.document.plan.windows.length;
  if (options['--json']) printJson({ file: sheet.path, answer: 'carried out', number: 0, windows, ...data });
  else print(lines.join('\n'));
  return 0;
}

// The minute of the words behind FILE: one or two, or none.
function minuteNamed(words) {
  if (words.length === 0) return null;
  const text = words.join(' ').trim();
  if (text.toLowerCase() === 'now') return minuteOfDate(new Date());
  const minute = minuteOfText(text);
  if (minute === null) throw wrongUse(`MINUTE is ${MINUTE_FORMS}, or now; and not ${JSON.stringify(cut(text))}`);
  return minute;
}

function tellRefusal({ path }, { number, title, lines, marks, help }, options) {
  if (options['--json']) {
    const cells = marks.map(({ row, column, text }) => ({ cell: cellName(row, column), text }));
    printJson({ file: path, answer: 'refused', ...explanationData({ number, title, lines, help }), cells });
    return 1;
  }
  print(verdictText(number));
  say(`${shownPath(path)}: refused with number ${number}: ${title}.`);
  lines.forEach((line) => say(`  ${line}`));
  if (help.length > 0) say('  What would help, each tried with the proved call:');
  help.forEach((one) => say(`  - ${hoursHelpLine(one, number)}`));
  return 1;
}

function ofMinute(document, calls, minute) {
  const answer = answerAt(calls.hours, timetableOf(document).words, minute);
  const named = (at, schedule) => ({ minute: at, time: timeText(at), schedule, mode: scheduleName(document, schedule) });
  const { schedule, next } = answer;
  const change = next && { ...named(next.minute, next.schedule), minutesOn: next.after, nextWeek: next.isNextWeek };
  return { lines: answerLines(document, answer), data: { ...named(minute, schedule), next: change } };
}

function ofWeek(document, calls) {
  const { stretches, on } = stretchesOf(calls.hours, timetableOf(document).words);
  const week = stretches.map(({ from, to, schedule }) => {
    return { from, to, fromTime: timeText(from), toTime: timeText(to), schedule, mode: scheduleName(document, schedule) };
  });
  const lines = tableLines([HEADS, ...week.map(({ fromTime, toTime, mode }) => [fromTime, toTime, mode])]);
  const last = week[week.length - 1].mode;
  if (on === null) lines.push(`The mode ${neverText(document)}.`);
  if (on > 0) lines.push(`At the end of the week ${last} goes on, to ${timeText(on)} of the next week.`);
  return { lines, data: { week, changes: on !== null } };
}
