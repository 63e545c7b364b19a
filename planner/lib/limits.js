// The limits of a sheet's and a timetable's numbers and values within them, for texts and for what is tried; whether a number is in range
// the proved calls say.

// Columns, rows, memory words of a node, number of circuits, number of schedules.
export const HEAD_LIMITS = [[2, 4], [2, 4], [1, 16384], [0, 64], [1, 8]];
export const PERIOD_LIMITS = [9, 1024];
export const LENGTH_LIMITS = [2, 16];

// A circuit that fits every network, and a slot's words that are in range in every schedule with a circuit.
export const HARMLESS_RECORD = [0, 1, 0, 1, 0, 1];
export const HARMLESS_ENTRY = [0, 2, 0, 0];

// A timetable has at most so many windows; and a window that is in range.
export const MOST_WINDOWS = 64;
export const HARMLESS_WINDOW = { start: 0, length: 1, mode: 0 };
