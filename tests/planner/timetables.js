// Windows of a week for tests, from a seeded generator: timetables, timetables with one fault, and their rows.

const WEEK = 10080;
export const MOST_WINDOWS = 64;
const LARGEST = 4294967295;
const DAYS = ['Monday', 'Tuesday', 'Wednesday', 'Thursday', 'Friday', 'Saturday', 'Sunday'];

// Windows that make a timetable. Some adjoin, some of these with one mode; some timetables begin or end with the week.
export function timetable(random, { most = MOST_WINDOWS, modes = 3 } = {}) {
  const windows = [];
  const longest = random.choose([3, 120, 400, 3000]);
  const count = random.below(most + 1);
  for (let at = random.chance(0.4) ? 0 : random.below(900); windows.length < count && at < WEEK; ) {
    const length = Math.min(random.between(1, longest), WEEK - at);
    const before = windows.at(-1)?.mode ?? 0;
    windows.push({ start: at, length, mode: random.chance(0.3) ? before : random.below(modes) });
    at += length + (random.chance(0.4) ? 0 : random.between(1, 400));
  }
  if (windows.length > 0 && random.chance(0.4)) windows.at(-1).length = WEEK - windows.at(-1).start;
  return windows;
}

// The faults of number 31, each a change of windows that make a timetable; null where it cannot be planted in them.
export const FAULTS = {
  start: (random, windows) => changed(random, windows, () => ({ start: random.choose([WEEK, WEEK + random.below(WEEK), LARGEST]) })),
  'no length': (random, windows) => changed(random, windows, () => ({ length: 0 })),
  length: (random, windows) => changed(random, windows, () => ({ length: random.choose([WEEK + 1, 2 * WEEK, LARGEST]) })),
  mode: (random, windows) => changed(random, windows, () => ({ mode: 8 })),
  end: (random, windows) => changed(random, windows, ({ start }) => ({ length: WEEK - start + random.between(1, Math.max(1, start)) })),
  shared: (random, windows) => pairChanged(random, windows, (first, second) => {
    first.length = second.start - first.start + random.between(1, second.length + 5);
  }),
  'one start': (random, windows) => pairChanged(random, windows, (first, second) => {
    second.start = first.start;
  }),
  order: (random, windows) => pairChanged(random, windows, (first, second) => {
    [first.start, first.length, first.mode, second.start, second.length, second.mode] =
      [second.start, second.length, second.mode, first.start, first.length, first.mode];
  }),
  count: (random) => Array.from({ length: MOST_WINDOWS + random.between(1, 4) }, (_, at) => ({ start: 20 * at, length: 9, mode: 1 })),
};

function changed(random, windows, change) {
  if (windows.length === 0) return null;
  const chosen = random.below(windows.length);
  return windows.map((window, at) => (at === chosen ? { ...window, ...change(window) } : window));
}

function pairChanged(random, windows, change) {
  if (windows.length < 2) return null;
  const copies = windows.map((window) => ({ ...window }));
  const at = random.between(1, copies.length - 1);
  change(copies[at - 1], copies[at]);
  return copies;
}

// Several faults, one upon the other, in words that can be written.
export function severalFaults(random, windows) {
  let faulty = windows;
  for (let count = random.between(1, 4); count > 0; count--) faulty = random.choose(Object.values(FAULTS))(random, faulty) ?? faulty;
  return faulty.map((window) => ({ ...window, length: Math.min(Math.max(window.length, 0), LARGEST) }));
}

// A minute as a start may be written; one that no week has, as a number.
export function startText(random, minute) {
  const [day, hour, within] = [DAYS[Math.floor(minute / 1440)], Math.floor((minute % 1440) / 60), String(minute % 60).padStart(2, '0')];
  if (day === undefined || random.chance(0.2)) return String(minute);
  const name = random.choose([day, day.slice(0, 2)]);
  const parts = [[name, name.toUpperCase(), name.toLowerCase()], [' ', ' ', '  ', '\u00a0'], [hour, String(hour).padStart(2, '0')], [`:${within}`]];
  return parts.map((forms) => random.choose(forms)).join('');
}

// The rows of windows, with the names of modes.
export function windowRows(random, windows, modeNames) {
  return windows.map(({ start, length, mode }) => ['window', startText(random, start), String(length), modeNames[mode]]);
}

// A plan that has modes of these names and nothing more.
export const modeRows = (modeNames) => [['network', '2', '2', '1'], ...modeNames.map((name) => ['mode', name, '9'])];

// The schedule of each minute of the week, reckoned here.
export function scheduleOfMinutes(windows) {
  const minutes = new Array(WEEK).fill(0);
  for (const { start, length, mode } of windows) minutes.fill(mode, start, start + length);
  return minutes;
}
