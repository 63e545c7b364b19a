// What the lines of a paper say, and which sheet of the key each is about.
import { cut } from './document.js';
import { LISTING_HEADER } from './listing.js';
import { nameOf, numberOf } from './plan.js';

// No file has a longer name, and a longer one would only take time to compare.
const LONGEST_NAME = 255;
const LONGEST_KEPT = 32;
const MOST_KEPT = 10000;
const UNREADABLE = 'a line that cannot be read';
const UNKNOWN = 'the key has no sheet of this name';
const NAMELESS = 'it names no sheet of the key';
const SHEET_NAME = /\.(csv|tsv|sheet|words)$/;
const LANDING = /^([0-9]+) ([0-9]+) ([0-9]+) ([0-9]+) ([0-9]+)$/;

export const verdictText = (number) => (number === 0 ? 'passes' : `refused ${number}`);

// A name as it is compared: without folders, and as messages show it.
function compared(path) {
  const name = path.slice(Math.max(path.lastIndexOf('/'), path.lastIndexOf('\\')) + 1);
  return name.length > LONGEST_NAME ? name : nameOf(cut(name, LONGEST_NAME));
}

const same = (name) => name;
const small = (name) => name.toLowerCase();
const stem = (name) => name.replace(/\.[^.]*$/, '');

// A finder of the key's sheet by its name as it is compared: the exact name first, then regardless of capitals, then the name without its
// ending, each where only one sheet has it; null where there is none.
function sheetFinder(keys) {
  const forms = [[same, same], [small, small], [stem, same], [(name) => small(stem(name)), small]];
  const tables = forms.map(([ofKey, ofPaper]) => {
    const table = new Map();
    for (const key of keys) {
      const name = ofKey(compared(key.name));
      table.set(name, table.has(name) ? null : key);
    }
    return (name) => table.get(ofPaper(name)) ?? null;
  });
  return (name) => tables.reduce((found, lookUp) => found ?? lookUp(name), null);
}

// A verdict's number, or null.
function verdictOf(text) {
  if (/^passes\.?$/i.test(text)) return 0;
  const found = /^refused ([0-9]+)\.?$/i.exec(text);
  // Number 0 is no refusal.
  return found ? numberOf(found[1]) || null : null;
}

function landingOf(text) {
  const fields = LANDING.exec(text)?.slice(1).map(numberOf);
  if (!fields || fields.includes(null)) return null;
  const [cycle, node, address, word, kind] = fields;
  return { cycle, node, address, word, kind };
}

// A verdict with its sheet's name, or a name for the lines below; null where a line is neither.
function namedLine(text, find) {
  const colon = text.lastIndexOf(':');
  if (colon <= 0) return null;
  const [name, after] = [text.slice(0, colon), text.slice(colon + 1).trim()];
  const number = verdictOf(after);
  if (after !== '' && number === null) return null;
  // Once a line: of a name with many marks to be put in order this is what takes the time.
  const shown = compared(name);
  return { text: number === null ? text : `${name}: ${verdictText(number)}`, name: small(shown), number, sheet: find(shown) };
}

// A line with one blank between its words and none around.
function plainLine(line) {
  const text = line.trim();
  return /\s\s|[^\S ]/.test(text) ? text.replace(/\s+/g, ' ') : text;
}

// What a line says: a landing, a verdict, or one with a sheet's name. A comment, which begins the line or stands behind a blank, says
// nothing; but where it is the whole line, it may name the sheet of the lines below.
function readLine(line, find) {
  const whole = plainLine(line);
  const comment = whole.startsWith('#') ? 0 : whole.indexOf(' #');
  // The name of a sheet may have such a # itself.
  const hashed = comment < 0 ? null : namedLine(whole, find);
  if (hashed?.sheet?.name.includes('#')) return hashed;
  if (comment === 0) return sheetOfComment(whole.slice(1), find);
  const text = comment < 0 ? whole : whole.slice(0, comment);
  if (text === '' || (text.length === LISTING_HEADER.length && small(text) === LISTING_HEADER)) return null;
  const landing = landingOf(text);
  if (landing) return { text, landing };
  const number = verdictOf(text);
  return number === null ? (namedLine(text, find) ?? { text, note: UNREADABLE }) : { text, number };
}

function sheetOfComment(text, find) {
  const colon = text.indexOf(':');
  const below = find(compared(text)) ?? (colon < 0 ? null : find(compared(text.slice(0, colon))));
  return below ? { below } : null;
}

// A reader that keeps what short lines say, since they come again.
function keepingReader(find) {
  const known = new Map();
  return (line) => {
    const kept = line.length > LONGEST_KEPT ? undefined : known.get(line);
    if (kept !== undefined) return kept;
    const said = readLine(line, find);
    if (line.length <= LONGEST_KEPT && known.size < MOST_KEPT) known.set(line, said);
    return said;
  };
}

// Whether all lines with a name have one and the same, which is none of the key's.
function haveOneForeignName(read) {
  const named = read.filter(({ said }) => said.name !== undefined);
  return named.length > 0 && named.every(({ said }) => said.sheet === null && said.name === named[0].said.name);
}

// Whether a line is a heading in the candidate's own words, as 'Verdict:', and no sheet's name.
const isPlainHeading = ({ name, number, sheet }) => name !== undefined && number === null && sheet === null && !SHEET_NAME.test(name);

// The lines of a paper that say something: answers, each with the sheet that it is about, and strays, of which the first `most` are listed
// with what is wrong. A key of one sheet needs no names, and takes a name of the candidate's own.
export function readPaper(keys, text, most) {
  const read = saidLines(keys, text, most);
  const only = keys.length === 1 ? keys[0] : null;
  const lines = only ? read.lines.filter(({ said }) => !isPlainHeading(said)) : read.lines;
  const other = only && haveOneForeignName(lines) ? only : null;
  const answers = [];
  const strays = { listed: [], count: read.unlisted };
  const stray = (at, sheet, line, note) => {
    strays.count++;
    if (strays.listed.length < most) strays.listed.push({ at, sheet, text: line, note });
  };
  let current = only;
  for (const { at, said } of lines) {
    const { below, name, note, number, landing } = said;
    const sheet = below ?? (name === undefined ? current : (said.sheet ?? other));
    if (below !== undefined || number === null) current = sheet;
    if (note !== undefined) stray(at, current, said.text, note);
    else if (sheet === null) stray(at, null, said.text, name === undefined ? NAMELESS : UNKNOWN);
    else if (landing !== undefined || typeof number === 'number') answers.push({ at, sheet, text: answerText(said), number, landing });
  }
  return { answers, strays };
}

const answerText = ({ text, name, number }) => (name === undefined ? text : verdictText(number));

// What each line says, with its number from 1; of lines that cannot be read only the first `most`, and how many more there are.
function saidLines(keys, text, most) {
  const reader = keepingReader(sheetFinder(keys));
  const lines = [];
  let unreadable = 0;
  (text.includes('\r') ? text.replace(/\r\n?/g, '\n') : text).split('\n').forEach((line, index) => {
    const said = line === '' ? null : reader(line);
    if (said === null || (said.note !== undefined && ++unreadable > most)) return;
    lines.push({ at: index + 1, said });
  });
  return { lines, unlisted: Math.max(unreadable - most, 0) };
}
