// The minutes of a week as planners write them. The week begins on Monday 00:00, which is minute 0: Mo 08:30 is minute 510.

export const MINUTES_A_DAY = 1440;
export const MINUTES_A_WEEK = 10080;
export const DAYS = ['Mo', 'Tu', 'We', 'Th', 'Fr', 'Sa', 'Su'];
const DAY_NAMES = ['monday', 'tuesday', 'wednesday', 'thursday', 'friday', 'saturday', 'sunday'];
const TIME = /^([a-z]+)\s+([0-9]{1,2}):([0-9]{2})$/i;

// How a minute of the week is written, for messages.
export const MINUTE_FORMS =
  'a day and a time, as Mo 08:30 (Mo, Tu, We, Th, Fr, Sa or Su; 00:00 to 23:59), or the minute of the week, 0 to 10079 from Mo 00:00 on';

// The minute of a text as Mo 08:30 or Monday 8:30, or null.
export function minuteOfTime(text) {
  const [, day, hour, minute] = TIME.exec(text.trim()) ?? [];
  if (day === undefined || Number(hour) > 23 || Number(minute) > 59) return null;
  const name = day.toLowerCase();
  const number = name.length === 2 ? DAY_NAMES.findIndex((one) => one.startsWith(name)) : DAY_NAMES.indexOf(name);
  return number < 0 ? null : number * MINUTES_A_DAY + Number(hour) * 60 + Number(minute);
}

const twoDigits = (number) => String(number).padStart(2, '0');

// A minute as Mo 08:30. The end of the week, minute 10,080, is Su 24:00; every other end of a day is the next day's 00:00.
export function timeText(minute) {
  const day = Math.min(Math.floor(minute / MINUTES_A_DAY), DAYS.length - 1);
  const within = minute - day * MINUTES_A_DAY;
  return `${DAYS[day]} ${twoDigits(Math.floor(within / 60))}:${twoDigits(within % 60)}`;
}

// A number of minutes as 1 day 2 h 30 min; what is 0 is left out.
export function durationText(minutes) {
  const days = Math.floor(minutes / MINUTES_A_DAY);
  const parts = [
    [days, days === 1 ? 'day' : 'days'],
    [Math.floor((minutes % MINUTES_A_DAY) / 60), 'h'],
    [minutes % 60, 'min'],
  ].filter(([count]) => count > 0);
  return parts.length === 0 ? '0 min' : parts.map(([count, unit]) => `${count} ${unit}`).join(' ');
}

// The minute of the week of a date, by the local clock.
export function minuteOfDate(date) {
  return ((date.getDay() + 6) % 7) * MINUTES_A_DAY + date.getHours() * 60 + date.getMinutes();
}
