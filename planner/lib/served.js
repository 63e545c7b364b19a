// Number 26: circuits that no mode has a slot for.

export const UNSERVED_NUMBER = 26;

// Whether a sheet of this verdict keeps the rules 1 to 11: 26 is tested directly after them. A part of a sheet, and a plan whose slots are
// still to come, can be asked for no more.
export function keepsRules1To11(number) {
  return number === 0 || number === UNSERVED_NUMBER;
}

// The circuits of some parts that have no entry in any schedule.
export function unservedCircuits({ circuits, schedules }) {
  const served = new Set(schedules.flatMap(({ entries }) => entries.map(({ words }) => words[2])));
  return circuits.filter(({ number }) => !served.has(number));
}
