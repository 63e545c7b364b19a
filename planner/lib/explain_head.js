// Why a sheet is refused by the numbers 1 to 3: its head, and how its words divide.
import { placeOfWord } from './document.js';
import { LONG_LINKS, rowsOfWord, rowsText, wordOfRows } from './grid.js';
import { HEAD_LIMITS } from './limits.js';
import { capital, circuitName, counted, limitsText, modeName, typedAt } from './naming.js';
import { keepsRules1To11 } from './served.js';
import { CIRCUIT_WORDS, ENTRY_WORDS, MOST_ENTRIES, divide } from './sheet.js';
import { headFaults } from './shrink.js';
import { nearest, tried } from './trials.js';

const HEAD_NAMES = ['columns', 'rows', 'memory words of a node', 'number of circuits', 'number of schedules'];
const [COLUMNS, ROWS, MEMORY, CIRCUITS, SCHEDULES] = [0, 1, 2, 3, 4];
const SIZES = [2, 3, 4];
const LONG_SIZES = SIZES.map((rows) => wordOfRows({ rows, long: true }));

// Number 1: the head is not whole.
export function explainShort({ document }) {
  const count = document.words.length;
  const missing = HEAD_NAMES.slice(count).join(', ');
  const has = `The sheet has only ${counted(count, 'word')}, up to ${placeOfWord(document, count - 1)}`;
  return {
    marks: [{ at: count - 1, text: 'the head ends here' }],
    lines: [`${has}. It begins with a head of five; missing: ${missing}.`],
    help: [],
  };
}

// Number 2: every head word that is out of range.
export function explainHead(context) {
  const { document, verdict } = context;
  const faults = headFaults(document.words, verdict);
  return {
    marks: faults.map((at) => ({ at, text: `${headName(document, at)}: ${rangeText(document, at)}` })),
    lines: faults.map((at) => headLine(document, at)),
    help: headHelp(context, faults),
  };
}

function headName(document, at) {
  return document.kind === 'plan' && at === SCHEDULES ? 'number of modes' : HEAD_NAMES[at];
}

// The limits of a head word; rows have two ranges, the second as it is written in a plan or in words.
function rangeText(document, at) {
  const limits = limitsText(HEAD_LIMITS[at]);
  if (at !== ROWS) return limits;
  const long = document.kind === 'plan' ? ['2 long', '4 long'] : [LONG_SIZES[0], LONG_SIZES.at(-1)];
  return `${limits}, or ${long.join(' to ')} for long vertical links`;
}

function headLine(document, at) {
  const value = document.words[at];
  if (document.kind === 'plan' && at === SCHEDULES && value === 0) {
    return 'The plan has no mode row. It has 1 to 8 modes, each in a row of its own: mode, its name, its period.';
  }
  if (document.kind === 'plan' && at >= CIRCUITS) {
    const [what, name] = at === CIRCUITS ? ['circuits', 'circuit'] : ['modes', 'mode'];
    const most = HEAD_LIMITS[at][1];
    const first = document.plan[what][most];
    return `The plan has ${value} ${what}, and there may be at most ${most}: row ${first.row + 1} is the first ${name} row too many.`;
  }
  const typed = typedAt(document, at);
  const reason = sizeReason(value, at, typed);
  return `${capital(headName(document, at))}: ${typed} is out of range${reason}; it may be ${rangeText(document, at)}.`;
}

// What the 256 for long vertical links has to do with a size that is out of range.
function sizeReason(value, at, typed) {
  const { rows, long } = rowsOfWord(value);
  if (at === COLUMNS && LONG_SIZES.includes(value)) return `: the ${LONG_LINKS} for long vertical links is added to the rows alone`;
  if (at !== ROWS || !long) return '';
  if (/long/i.test(typed)) return rows >= LONG_LINKS ? `: long itself adds the ${LONG_LINKS}` : '';
  return `: without the ${LONG_LINKS} for long vertical links it states ${counted(rows, 'row')}`;
}

// Columns, rows and memory that are in range, the nearest that pass; the counts are as many as there are.
function headHelp({ document, verdict }, faults) {
  const sizes = faults.filter((at) => at <= MEMORY);
  if (sizes.length === 0 || sizes.length < faults.length) return [];
  let choices = [[]];
  for (const at of sizes) choices = choices.flatMap((choice) => headValues(document, at).map((word) => [...choice, { at, word }]));
  const trials = choices.map((choice) => triedHead(document, choice, verdict));
  const best = trials.find((trial) => keepsRules1To11(trial.number)) ?? trials[0];
  const moved = movedToRows(document, faults).map((choice) => triedHead(document, choice, verdict));
  return [best, ...moved];
}

// Tries head words that are put in; a plan has its rows with the word long.
function triedHead(document, choice, verdict) {
  const typed = ({ at, word }) => (document.kind === 'plan' && at === ROWS ? rowsText(word) : word);
  const text = choice.map((one) => `put ${typed(one)} into ${placeOfWord(document, one.at)} (${HEAD_NAMES[one.at]})`).join(' and ');
  return tried(document, capital(text), { put: choice }, verdict);
}

// Where 256 was added to the columns and belongs to the rows.
function movedToRows({ words }, faults) {
  if (faults.join() !== String(COLUMNS) || !LONG_SIZES.includes(words[COLUMNS]) || !SIZES.includes(words[ROWS])) return [];
  return [[{ at: COLUMNS, word: words[COLUMNS] - LONG_LINKS }, { at: ROWS, word: words[ROWS] + LONG_LINKS }]];
}

// Values to try: for the memory the least that holds every region, else what is in range, rows of the kind that is stated. Where 256 was
// added to the columns, or twice, the value without it comes first.
function headValues(document, at) {
  const [least, most] = HEAD_LIMITS[at];
  if (at !== MEMORY) {
    const values = at === ROWS && rowsOfWord(document.words[at]).long ? LONG_SIZES : SIZES;
    const less = document.words[at] - LONG_LINKS;
    return nearest(values, values.includes(less) ? less : document.words[at]);
  }
  const needed = divide(document.words).circuits.reduce((end, { words }) => Math.max(end, words[2] + words[3], words[4] + words[5]), least);
  return document.words[at] > most || needed > most ? [most] : [needed];
}

// Number 3: words are missing or left over, or a schedule states too many entries.
export function explainDivision(context) {
  const { wrong } = divide(context.document.words);
  if (wrong.what === 'surplus') return explainSurplus(context, wrong);
  return wrong.what === 'count' ? explainCount(context, wrong) : explainMissing(context, wrong);
}

function explainSurplus({ document, verdict }, { at, surplus }) {
  const from = placeOfWord(document, at);
  const words = counted(surplus, 'word');
  return {
    marks: [{ at, text: `${words} too many from here on` }],
    lines: [`The last schedule ends before ${from}: ${words} ${surplus === 1 ? 'is' : 'are'} left over, from there to the end.`],
    help: [tried(document, `Leave out what stands from ${from} on (${words})`, { length: at }, verdict)],
  };
}

function explainCount({ document }, { number, at, count }) {
  const stated = `${capital(modeName(document, number))} has ${counted(count, 'slot')}, and there may be at most ${MOST_ENTRIES}`;
  if (document.kind !== 'plan') {
    const lines = [`${stated}: their number stands in ${placeOfWord(document, at)}.`];
    return { marks: [{ at, text: 'at most 256 slots' }], lines, help: [] };
  }
  const first = document.plan.slots.filter((slot) => slot.mode === number)[MOST_ENTRIES];
  const mark = document.places.findIndex((place, word) => word > at && place.row === first.row);
  return {
    marks: [{ at, text: `${count} slots, at most 256` }, { at: mark, text: 'the first slot too many' }],
    lines: [`${stated}: row ${first.row + 1} is the first slot row too many.`],
    help: [],
  };
}

function explainMissing({ document, verdict }, wrong) {
  const at = document.words.length - 1;
  return {
    marks: [{ at, text: 'the sheet ends here' }],
    lines: [`The sheet ends behind ${placeOfWord(document, at)}, too early: ${missingText(document, wrong)}`],
    help: fewer(document, wrong, verdict),
  };
}

// What is missing, and where its number is stated.
function missingText(document, { what, number, entry, missing }) {
  const { words } = document;
  const some = (whole, name) => `${missing} of the ${whole} words of ${name} ${missing === 1 ? 'is' : 'are'} missing`;
  const part = (whole, name) => (missing === whole ? `${name} is missing` : some(whole, name));
  const stated = (at, noun) => `the head states ${counted(words[at], noun)} (${placeOfWord(document, at)}), numbered from 0`;
  if (what === 'circuit') return `${part(CIRCUIT_WORDS, circuitName(document, number))}; ${stated(CIRCUITS, 'circuit')}.`;
  const mode = modeName(document, number);
  if (what === 'schedule') return `${part(2, `the beginning of ${mode} (period and number of slots)`)}; ${stated(SCHEDULES, 'schedule')}.`;
  const at = divide(words).schedules[number].at + 1;
  const own = `${mode} states ${words[at]} of them (${placeOfWord(document, at)}), numbered from 0`;
  return `${part(ENTRY_WORDS, `entry ${entry} of ${mode}`)}; ${own}.`;
}

// Where whole parts are missing at the end: the sheet with numbers that state what is there, if it then divides.
function fewer(document, wrong, verdict) {
  const { what, number, entry } = wrong;
  const counts = [];
  if (what === 'schedule' && number > 0) counts.push({ at: SCHEDULES, word: number });
  if (what === 'entry') {
    counts.push({ at: divide(document.words).schedules[number].at + 1, word: entry });
    if (document.words[SCHEDULES] > number + 1) counts.push({ at: SCHEDULES, word: number + 1 });
  }
  if (counts.length === 0) return [];
  const text = counts.map(({ at, word }) => `put ${word} into ${placeOfWord(document, at)}`).join(' and ');
  const noun = what === 'entry' ? 'entries' : 'schedules';
  const trial = tried(document, `${capital(text)}: the number of ${noun} that are there`, { put: counts }, verdict);
  return trial.number === 3 ? [] : [trial];
}
