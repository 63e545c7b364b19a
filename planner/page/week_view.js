// The week: which mode the window rows give each minute, as a picture, and one minute in words; or why the windows are refused.
import { explainHours } from '../lib/explain_hours.js';
import { hoursHelpLine } from '../lib/hours_help.js';
import { element, svgFile } from '../lib/markup.js';
import { answerAt, answerLines, minuteOfText, timetableOf } from '../lib/timetable.js';
import { MINUTE_FORMS, minuteOfDate, timeText } from '../lib/week.js';
import { weekPicture } from '../lib/week_picture.js';
import { weekScene } from '../lib/week_scene.js';
import { byId, download, fill } from './dom.js';
import { cellList } from './verdict_view.js';

const UNREAD = 'The week is drawn when the plan can be read.';
const REFUSED = 'The week is drawn when the windows make a timetable.';

export function makeWeek(calls) {
  const own = { calls, opened: null, scene: null, minute: null };
  // What is not a minute yet while it is typed is told when the field is left.
  byId('week-minute').addEventListener('input', () => showMinute(own, true));
  byId('week-minute').addEventListener('change', () => showMinute(own));
  byId('week-now').addEventListener('click', () => {
    setNow();
    showMinute(own);
  });
  byId('save-week').addEventListener('click', () => {
    const picture = weekPicture(own.scene, { minute: own.minute, prefix: 'saved', background: true });
    download('week.svg', svgFile(picture), 'image/svg+xml');
  });
  for (const event of ['pointerover', 'focusin']) {
    byId('week-picture').addEventListener(event, ({ target }) => {
      const part = target.closest?.('g[role=img]');
      if (part) byId('week-help').textContent = part.getAttribute('aria-label');
    });
  }
  // A file that is opened begins with the present minute.
  return { begin: setNow, show: (opened, judged) => show(own, opened, judged) };
}

function setNow() {
  byId('week-minute').value = timeText(minuteOfDate(new Date()));
}

// Shows the week of a plan with window rows, and nothing of one without.
function show(own, opened, { refusal }) {
  const isThere = (opened.plan?.windows.length ?? 0) > 0;
  for (const id of ['week', 'week-link']) byId(id).hidden = !isThere;
  const isSound = isThere && opened.problems.length === 0 && refusal === null;
  Object.assign(own, { opened, scene: isSound ? weekScene(opened, own.calls.hours) : null });
  byId('save-week').disabled = !isSound;
  byId('week-note').hidden = refusal === null;
  fill('week-note', refusal && noteOf(refusal));
  fill('week-refusal', refusal && refusalOf(refusal));
  byId('week-help').textContent = '';
  byId('week-help').hidden = !isSound;
  if (isSound) return showMinute(own);
  byId('week-answer').textContent = '';
  return fill('week-picture', isThere && element('p', {}, refusal ? REFUSED : UNREAD));
}

function noteOf({ number, title }) {
  return [`The window rows are refused with number ${number}: ${title}. `, element('a', { href: '#week' }, 'The week'), ' says why.'];
}

function refusalOf({ number, title, lines, marks, help }) {
  return [
    element('p', { class: 'verdict refused' }, `\u2717 refused ${number}: ${title}`),
    lines.map((line) => element('p', {}, line)),
    marks.length > 0 && [element('h3', {}, 'Where'), cellList(marks)],
    help.length > 0 && element('h3', {}, 'What would help (each tried with the proved call)'),
    help.length > 0 && element('ul', { class: 'reasons' }, help.map((one) => element('li', {}, hoursHelpLine(one, number)))),
  ];
}

// The minute that is typed, in words and as a mark in the picture.
function showMinute(own, isTyped = false) {
  if (!own.scene) return;
  const [field, said] = [byId('week-minute'), byId('week-answer')];
  const minute = minuteOfText(field.value);
  const answer = minute === null ? null : answerAt(own.calls.hours, timetableOf(own.opened).words, minute);
  const isAnswered = answer?.number === 0;
  const isWrong = !isAnswered && !(isTyped && minute === null);
  field.setAttribute('aria-invalid', String(isWrong));
  said.className = isWrong ? 'week-answer wrong' : 'week-answer';
  said.textContent = isAnswered ? `${answerLines(own.opened, answer).join('; ')}.` : isWrong ? unanswered(own, minute) : '';
  own.minute = isAnswered ? minute : null;
  fill('week-picture', weekPicture(own.scene, { minute: own.minute }));
  if (isAnswered) reachMark();
}

function unanswered(own, minute) {
  if (minute === null) return `This cannot be read; wanted: ${MINUTE_FORMS}.`;
  const { number, lines, help } = explainHours(own.opened, own.calls.hours, minute);
  return [`Refused ${number}.`, ...lines, ...help.map((one) => hoursHelpLine(one, number))].join(' ');
}

// Where the picture is wider than its place, it is scrolled to the mark, the last part that tells what it is.
function reachMark() {
  const host = byId('week-picture');
  const mark = [...host.querySelectorAll('g[role=img]')].pop();
  const [place, frame] = [mark, host].map((node) => node.getBoundingClientRect());
  if (place.left < frame.left || place.right > frame.right) host.scrollLeft += (place.left + place.right - frame.left - frame.right) / 2;
}
