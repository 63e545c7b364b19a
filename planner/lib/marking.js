// Papers marked against a key: the right lines are worked out by the proved calls; a line is right, wrong, missing or surplus.
import { cut } from './document.js';
import { landingLine, landingsOf } from './listing.js';
import { readPaper, verdictText } from './paper.js';
import { SHEET_NUMBERS } from './rules.js';

const MOST_SHOWN = 80;
const MOST_NAME_SHOWN = 255;
// So many surplus lines are listed; further ones are counted.
const MOST_SURPLUS = 1000;

// What is right for one sheet: its verdict and, where cycles are asked for, its listing: landings, or the number of a call that is refused.
export function keyOf(calls, document, name, cycles = null, told = () => {}) {
  const number = calls.verdict(document.words);
  const key = { name, verdict: number, landings: null, refusal: null };
  if (cycles === null || number !== 0) return key;
  const { refused, frames } = landingsOf(calls, document, cycles, told);
  if (refused) return { ...key, refusal: refused.number };
  return { ...key, landings: frames.flatMap(({ cycle, landings }) => landings.map((landing) => ({ cycle, ...landing }))) };
}

const landingText = (landing) => landingLine(landing.cycle, landing);

// Marks one right line of the key by the paper's answers to it. It is right where all answers are the key's, and wrong where one differs:
// a paper that gives every answer has given none. All answers but the first are surplus; so many repeats of a right one are free.
function markOne(key, wanted, answers, textOf, note, free = 0) {
  if (answers.length === 0) return [{ mark: 'missing', sheet: key.name, text: wanted, key: wanted, at: null, note: null }];
  const [first, ...others] = answers;
  const different = new Set(answers.map(textOf));
  const right = different.size === 1 && different.has(wanted);
  const many = different.size > 1 ? `the paper has ${different.size} different answers; ` : '';
  const marked = { sheet: key.name, text: first.text, key: wanted, at: first.at, note: right ? null : `${many}the key has ${wanted}` };
  const further = right ? others.slice(free) : others;
  return [{ mark: right ? 'right' : 'wrong', ...marked }, ...further.map((answer) => surplus(key, answer, note))];
}

function surplus(key, line, note) {
  return { mark: 'surplus', sheet: key?.name ?? null, text: line.text, key: null, at: line.at, note };
}

// The verdict, and beside it a refused call where the key has one. With a listing, a number by which sheets are refused answers the verdict,
// any other a call; and the listing of a refused sheet is the line of its verdict, which may so stand twice.
function markVerdicts(key, lines, withListing) {
  const isCall = (line) => withListing && line.number !== 0 && !SHEET_NUMBERS.includes(line.number);
  const textOf = (line) => verdictText(line.number);
  const [verdicts, ofCalls] = [lines.filter((line) => !isCall(line)), lines.filter(isCall)];
  const free = withListing && key.verdict !== 0 ? 1 : 0;
  const marks = markOne(key, verdictText(key.verdict), verdicts, textOf, 'a further verdict', free);
  if (key.refusal === null) return [...marks, ...ofCalls.map((line) => surplus(key, line, 'the key has no refused call'))];
  return [...marks, ...markOne(key, verdictText(key.refusal), ofCalls, textOf, 'a further refusal')];
}

function markLandings(key, lines, withListing) {
  const place = (landing) => `${landing.cycle} ${landing.node}`;
  const textOf = (line) => landingText(line.landing);
  const answers = new Map();
  for (const line of lines) {
    const at = place(line.landing);
    const own = answers.get(at);
    if (own) own.push(line);
    else answers.set(at, [line]);
  }
  const marks = (key.landings ?? []).flatMap((wanted) => {
    const own = answers.get(place(wanted)) ?? [];
    answers.delete(place(wanted));
    return markOne(key, landingText(wanted), own, textOf, 'a further line for this cycle and node');
  });
  const note = withListing ? null : 'no listing is marked without a number of cycles';
  return marks.concat([...answers.values()].flat().map((line) => surplus(key, line, note)));
}

// The answers about each sheet of the key.
function dividedAnswers(keys, answers) {
  const divided = new Map(keys.map((key) => [key, { verdicts: [], landings: [] }]));
  for (const answer of answers) {
    const own = divided.get(answer.sheet);
    (answer.landing === undefined ? own.verdicts : own.landings).push(answer);
  }
  return divided;
}

// Marks a paper's text against the keys of one or more sheets. Right, wrong and missing lines come in the key's order, surplus ones behind;
// `unlisted` is how many of these are counted only.
export function markPaper(keys, text, withListing = false) {
  const { answers, strays } = readPaper(keys, text, MOST_SURPLUS);
  const divided = dividedAnswers(keys, answers);
  const marks = keys.flatMap((key) => {
    const { verdicts, landings } = divided.get(key);
    return markVerdicts(key, verdicts, withListing).concat(markLandings(key, landings, withListing));
  });
  const lines = marks.filter((one) => !isSurplus(one));
  const strayMarks = strays.listed.map((line) => surplus(line.sheet, line, line.note));
  const listed = marks.filter(isSurplus).concat(strayMarks).sort((a, b) => a.at - b.at).slice(0, MOST_SURPLUS);
  const count = (mark) => lines.filter((one) => one.mark === mark).length;
  const counts = { right: count('right'), wrong: count('wrong'), missing: count('missing') };
  const further = marks.length - lines.length + strays.count;
  return { ...counts, surplus: further, total: lines.length, lines: lines.concat(listed), unlisted: further - listed.length };
}

const isSurplus = (one) => one.mark === 'surplus';

// A mark as a line; the sheet is named where the key has several.
export function markLine({ mark, sheet, text, note }, several = false) {
  const name = several && sheet !== null ? `${cut(sheet, MOST_NAME_SHOWN)}: ` : '';
  return `${mark.padEnd(9)}${name}${cut(text, MOST_SHOWN)}${note ? `   (${note})` : ''}`;
}

export function countsLine(name, { right, wrong, missing, surplus: more, total }) {
  return `${name}: ${right} right, ${wrong} wrong, ${missing} missing, ${more} surplus of ${total}`;
}
