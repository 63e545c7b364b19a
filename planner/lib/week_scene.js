// What the picture of a week shows, before it is drawn: the stretches of the same mode, on which days they lie, and the texts.
import { scheduleName, stretchesOf, timetableOf } from './timetable.js';
import { DAYS, MINUTES_A_DAY, MINUTES_A_WEEK, durationText, timeText } from './week.js';

// The scene of a document's week by the call `hours`; where the call refuses the windows, its number and no stretches.
export function weekScene(document, hours) {
  const { number, stretches, on } = stretchesOf(hours, timetableOf(document).words);
  const named = (schedule) => ({ schedule, name: scheduleName(document, schedule) });
  const schedules = [...new Set(stretches.map(({ schedule }) => schedule))].sort((a, b) => a - b);
  const told = stretches.map((stretch) => {
    const { name } = named(stretch.schedule);
    return { ...stretch, name, text: stretchText(stretch, name, on), parts: partsOfDays(stretch) };
  });
  return { number, stretches: told, modes: schedules.map(named) };
}

function stretchText({ from, to }, name, on) {
  const goesOn = to === MINUTES_A_WEEK && on > 0 ? `; goes on to ${timeText(on)} of the next week` : '';
  return `${timeText(from)} to ${timeText(to)}, ${durationText(to - from)}: ${name}${goesOn}`;
}

// The parts of a stretch, one a day: the day, and the minutes of the day from which and to which it lies there.
function partsOfDays({ from, to }) {
  const parts = DAYS.map((_, day) => {
    const begin = day * MINUTES_A_DAY;
    return { day, from: Math.max(from - begin, 0), to: Math.min(to - begin, MINUTES_A_DAY) };
  });
  return parts.filter((part) => part.from < part.to);
}
