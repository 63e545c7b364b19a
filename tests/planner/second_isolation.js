// A table of isolation for circuit sheets, from 01-scope.md ('The sheet', 'The lists of demand 3')
// and 02-change-requests.md (L7, the kinds of grid) alone. Every sheet handed in is taken to pass
// rules 1 to 11; they are not tested here.

const HEAD_WORDS = 5;
const RECORD_WORDS = 6;
const LONG_MARK = 256; // added to the rows of a grid with long vertical links

// Walks over the words from the front, as the paper lays them out.
function readSheet(words) {
  let place = 0;
  const next = () => {
    if (place >= words.length) throw new RangeError('the sheet ends early');
    return words[place++];
  };
  const nextFew = (count) => Array.from({ length: count }, next);

  const [columns, rowsWord, memoryWords, circuitCount, scheduleCount] = nextFew(HEAD_WORDS);
  const kind = rowsWord > LONG_MARK ? 'long' : 'short';
  const rows = kind === 'long' ? rowsWord - LONG_MARK : rowsWord;

  // A record: source, destination, read offset, read length, receive offset, receive length.
  const circuits = [];
  for (let c = 0; c < circuitCount; c++) circuits.push(nextFew(RECORD_WORDS));

  const schedules = [];
  for (let j = 0; j < scheduleCount; j++) {
    const period = next();
    const entryCount = next();
    const entries = [];
    for (let e = 0; e < entryCount; e++) {
      const [offset, length, circuit, route] = nextFew(4);
      entries.push({ offset, length, circuit, route });
    }
    schedules.push({ period, entries });
  }
  if (place !== words.length) throw new RangeError('the sheet has words left over');
  return { columns, rows, kind, memoryWords, circuits, schedules };
}

// The circuit's slots in a schedule: offset and length of each of its entries, without the route.
// Entries ascend strictly by offset, then circuit, so one circuit's slots ascend by offset and two
// sets of slots are equal just when they agree place by place.
function slotsOf(schedule, circuit) {
  return schedule.entries
    .filter((entry) => entry.circuit === circuit)
    .map((entry) => [entry.offset, entry.length]);
}

function sameNumbers(a, b) {
  return a.length === b.length && a.every((number, k) => number === b[k]);
}

function sameSlots(a, b) {
  return a.length === b.length && a.every((slot, k) => sameNumbers(slot, b[k]));
}

// The answer for circuit c under one schedule against circuit d under another; that the two
// circuits have equal records is the caller's to see to.
function compareSchedules(schedule, c, otherSchedule, d) {
  const slots = slotsOf(schedule, c);
  const otherSlots = slotsOf(otherSchedule, d);
  // Without a slot nothing leaves under either schedule, whatever the periods are.
  if (slots.length === 0 && otherSlots.length === 0) return 'silent';
  if (schedule.period === otherSchedule.period && sameSlots(slots, otherSlots)) {
    return 'undisturbed';
  }
  return 'differs';
}

export function isolationTable(words) {
  const { circuits, schedules } = readSheet(words);
  const table = [];
  for (let c = 0; c < circuits.length; c++) {
    for (let i = 0; i < schedules.length; i++) {
      for (let j = i + 1; j < schedules.length; j++) {
        const answer = compareSchedules(schedules[i], c, schedules[j], c);
        table.push({ circuit: c, first: i, second: j, answer });
      }
    }
  }
  return table;
}

function pick(list, number, what) {
  if (!Number.isInteger(number) || number < 0 || number >= list.length) {
    throw new RangeError(`no ${what} ${number}`);
  }
  return list[number];
}

// c and i are numbers in the old sheet, d and j in the new one.
export function comparisonTable(oldWords, newWords, pairs, schedulePairs) {
  const old = readSheet(oldWords);
  const fresh = readSheet(newWords);
  const sameGrid = old.columns === fresh.columns && old.rows === fresh.rows && old.kind === fresh.kind;
  const table = [];
  for (const [c, d] of pairs) {
    const record = pick(old.circuits, c, 'circuit in the old sheet');
    const otherRecord = pick(fresh.circuits, d, 'circuit in the new sheet');
    for (const [i, j] of schedulePairs) {
      const schedule = pick(old.schedules, i, 'schedule in the old sheet');
      const otherSchedule = pick(fresh.schedules, j, 'schedule in the new sheet');
      let answer = 'differs';
      if (!sameGrid) answer = 'grids differ';
      else if (sameNumbers(record, otherRecord)) {
        answer = compareSchedules(schedule, c, otherSchedule, d);
      }
      table.push({ circuit: c, other: d, first: i, second: j, answer });
    }
  }
  return table;
}

// Sides 0 to 3 of a node: north, east, south, west, all wrapping round.
function neighbours(node, columns, rows) {
  const row = Math.floor(node / columns);
  const column = node % columns;
  const at = (r, k) => ((r + rows) % rows) * columns + ((k + columns) % columns);
  return [at(row - 1, column), at(row, column + 1), at(row + 1, column), at(row, column - 1)];
}

// Fewest steps from source to destination, and how many of them are vertical, by a breadth-first
// search. All shortest ways have as many vertical steps: each step changes the row or the column.
function shortestWay(source, destination, columns, rows) {
  const ways = new Map([[source, { hops: 0, vertical: 0 }]]);
  const queue = [source];
  for (const node of queue) { // the queue grows as it is walked
    const { hops, vertical } = ways.get(node);
    if (node === destination) return { hops, vertical };
    neighbours(node, columns, rows).forEach((neighbour, side) => {
      if (ways.has(neighbour)) return;
      ways.set(neighbour, { hops: hops + 1, vertical: vertical + (side === 0 || side === 2 ? 1 : 0) });
      queue.push(neighbour);
    });
  }
  throw new RangeError(`node ${destination} is outside the grid`);
}

export function figures(words) {
  const { columns, rows, kind, circuits, schedules } = readSheet(words);
  return circuits.flatMap(([source, destination], c) => {
    const { hops, vertical } = shortestWay(source, destination, columns, rows);
    const v = kind === 'long' ? vertical : 0;
    const flight = 3 * (hops + 1) + v; // left in cycle t, landed in t + 3 × (hops + 1) + v
    return schedules.map((schedule, j) => {
      // One word of each slot is its header. Slots of a circuit share the source's wire, so they
      // do not overlap (rule 11), and by rule 10 their last word leaves before the period ends.
      const wordsAPeriod = slotsOf(schedule, c).reduce((sum, [, length]) => sum + length - 1, 0);
      return { circuit: c, schedule: j, hops, verticalHops: v, flight, wordsAPeriod, period: schedule.period };
    });
  });
}
