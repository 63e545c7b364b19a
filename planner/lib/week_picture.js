// The picture of a week: a bar for each day from 00:00 to 24:00, with the stretches of the same mode and a mark at one minute.
import { colourOf, fillOf, patternsOf, tintOf } from './colours.js';
import { INK, legend, lineAt, messagePicture, picture, textAt, textOnPattern, textWidth, toldPart } from './drawing.js';
import { element } from './markup.js';
import { RULES } from './rules.js';
import { DAYS, MINUTES_A_DAY, timeText } from './week.js';

const TITLE = 'The week: the mode of each minute';
const GUTTER = 44;
const HOUR = 45;
const HOURS = 24;
const RIGHT = 20;
const BARS_TOP = 66;
const ROW = 48;
const BAR = 26;
const WEDGE = 7;
const PAPER = '#ffffff';

const left = (minuteOfDay) => GUTTER + (minuteOfDay * HOUR) / 60;
const top = (day) => BARS_TOP + day * ROW;

// The picture of a scene (week_scene.js), with a mark at a minute of the week where one is told. Modes look as the circuits of their numbers
// do elsewhere. The prefix keeps its ids apart from those of other pictures; with background it stands on white.
export function weekPicture({ number, stretches, modes }, { minute = null, prefix = 'hours', background = false } = {}) {
  if (number !== 0) return messagePicture(prefix, background, 'No week to draw', `${RULES[number].title} (number ${number}).`);
  const width = left(MINUTES_A_DAY) + RIGHT;
  const items = [...modes.map((mode) => modeItem(mode, prefix)), ...(minute === null ? [] : [markItem(minute)])];
  const below = legend(items, 12, top(DAYS.length) + 4, width - 24);
  const description = `A bar for each day from 00:00 to 24:00. Stretches of the same mode: ${stretches.length}.`;
  return picture(
    { width, height: below.bottom + 6, prefix, title: TITLE, description, background },
    element('defs', {}, patternsOf(modes.map(({ schedule }) => schedule), prefix)),
    textAt(12, 22, 15, TITLE, { 'font-weight': 600 }),
    DAYS.map((name, day) => textAt(GUTTER - 8, top(day) + 18, 13, name, { 'text-anchor': 'end', 'font-weight': 600 })),
    stretches.map((stretch) => stretchOnBars(stretch, prefix)),
    hourMarks(),
    minute !== null && minuteMark(minute),
    below.drawn,
  );
}

// The hours' numbers on top, and a stroke below each bar for every hour.
function hourMarks() {
  const hours = Array.from({ length: HOURS + 1 }, (_, hour) => hour);
  const numbers = hours.map((hour) => textAt(left(hour * 60), BARS_TOP - 16, 11, hour, { 'text-anchor': 'middle' }));
  const strokes = DAYS.flatMap((_, day) => hours.map((hour) => hourMark(day, hour)));
  return [textAt(GUTTER - 8, BARS_TOP - 16, 11, 'hour', { 'text-anchor': 'end' }), numbers, strokes];
}

// Every six hours the stroke is longer and has the day and the hour beside it: where the picture is scrolled, names and numbers may be out of
// sight.
function hourMark(day, hour) {
  const [x, y, isLong] = [left(hour * 60), top(day) + BAR, hour % 6 === 0];
  const isNamed = isLong && hour > 0 && hour < HOURS;
  return [
    lineAt(x, y, x, y + (isLong ? 11 : 3), { opacity: 0.7 }),
    isNamed && textAt(x + 3, y + 11, 10, timeText(day * MINUTES_A_DAY + hour * 60), { opacity: 0.8 }),
  ];
}

const lookOf = (schedule, prefix) => ({ fill: fillOf(schedule, prefix), stroke: colourOf(schedule) });

// A stretch on the bars of its days, with its mode's name where that fits.
function stretchOnBars({ schedule, name, text, parts }, prefix) {
  const bars = parts.map(({ day, from, to }) => {
    const [x, y, width] = [left(from), top(day), left(to) - left(from)];
    const fits = textWidth(name, 12) <= width - 10;
    return [
      element('rect', { x, y, width, height: BAR, ...lookOf(schedule, prefix) }),
      fits && textOnPattern(x + 5, y + 17, 12, name, tintOf(schedule)),
    ];
  });
  return toldPart(text, {}, bars);
}

const wedge = (x, y) => element('path', { d: `M${x},${y} l${-WEDGE},${-WEDGE - 2} h${2 * WEDGE} Z`, fill: 'currentColor' });

// A wedge above the bar and a line through it.
function minuteMark(minute) {
  const day = Math.floor(minute / MINUTES_A_DAY);
  const [x, y] = [left(minute - day * MINUTES_A_DAY), top(day)];
  const line = (stroke, width) => lineAt(x, y, x, y + BAR, { stroke, 'stroke-width': width });
  return toldPart(`The minute asked for: ${timeText(minute)} (minute ${minute})`, {}, line(PAPER, 5), line(INK, 2), wedge(x, y - 1));
}

function modeItem({ schedule, name }, prefix) {
  return { text: name, draw: (x, y) => element('rect', { x, y, width: 26, height: 12, ...lookOf(schedule, prefix) }) };
}

const markItem = (minute) => ({ text: `the minute asked for, ${timeText(minute)}`, draw: (x, y) => wedge(x + 13, y + 11) });
