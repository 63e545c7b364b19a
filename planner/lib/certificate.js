// The certificate of a sheet: what was judged, the verdict, what each circuit gets, what it rests on, and how to check it again.
import { LONG_LINKS_NOTE, NOT_PROVED, STATEMENTS, STYLE } from './certificate_texts.js';
import { cut } from './document.js';
import { helpLine } from './explain.js';
import { PREMISE, answerText, circuitsOf, modePairs, slotsText } from './isolation.js';
import { element, markup } from './markup.js';
import { MOST_NAME } from './plan.js';
import { meant, partsOf } from './sheet.js';
import { sha256, sha256Base64 } from './sha256.js';
import { rowsOfWords } from './words.js';

const PLAIN_COLUMNS = 8;
const WORDS_A_LINE = 16;
// So many of the statements, the first, are about the verdict.
const OF_VERDICT = 4;

const named = (name) => cut(name, MOST_NAME);
const row = (cells, kind = 'td') => element('tr', {}, cells.map((cell) => element(kind, kind === 'th' ? { scope: 'col' } : {}, cell)));
const body = (rows) => element('tbody', {}, rows.map((cells) => row(cells)));
const table = (heads, rows) => element('table', {}, element('thead', {}, row(heads, 'th')), body(rows));
const section = (title, ...parts) => element('section', {}, element('h2', {}, title), parts);
const code = (text) => element('code', {}, text);
const list = (items) => element('ul', {}, items.map((item) => element('li', {}, item)));

// The bytes of words, little-endian, as the programs read them.
export function wordBytes(words) {
  const bytes = new DataView(new ArrayBuffer(words.length * 4));
  words.forEach((word, at) => bytes.setUint32(at * 4, word, true));
  return new Uint8Array(bytes.buffer);
}

// A file's name as a shell takes it.
function shellWord(name) {
  const safe = cut(name, 255);
  const plain = /^[\w.,+@%][\w.,+@%-]*$/.test(safe) ? safe : `'${safe.replaceAll("'", "'\\''")}'`;
  return safe.startsWith('-') ? `'./${safe.replaceAll("'", "'\\''")}'` : plain;
}

function identity(document, about, fileHash) {
  const facts = [
    ['File', cut(document.name, 255)],
    ['SHA-256 of the file', fileHash],
    ['Sheet', document.words.length === 0 ? 'no words, which stand for an idle network' : `${document.words.length} words`],
    ["SHA-256 of the sheet's words, 4 bytes each, lowest first", sha256(wordBytes(document.words))],
    ['Order', document.exam ? 'circuits and slots stay in the order of the rows (--exam)' : null],
    ['Calqetum', `version ${about.version}, calls built with ${about.kit}`],
  ];
  const shown = facts.filter(([, value]) => value !== null);
  return element('dl', {}, shown.map(([name, value]) => [element('dt', {}, name), element('dd', {}, code(value))]));
}

function verdictPart(verdict, explanation) {
  if (verdict === 0) return element('p', { class: 'verdict' }, 'The sheet passes: it keeps the rules 1 to 11 and 26.');
  const { title, lines, help } = explanation;
  return [
    element('p', { class: 'verdict' }, `The sheet is refused with number ${verdict}: ${title}.`),
    lines.map((line) => element('p', {}, line)),
    help.length > 0 ? element('p', {}, 'What would help, each tried with the proved checker:') : null,
    help.length > 0 ? list(help.map((one) => helpLine(one, verdict))) : null,
  ];
}

// The rows as they were typed: a text alone in its row takes the whole width, and cells from the ninth on stand together.
function rowsTable(rows, title) {
  const filled = (cells) => cells.some((cell) => cell.trim() !== '');
  const wide = rows.some((cells) => filled(cells.slice(PLAIN_COLUMNS)));
  const columns = wide ? PLAIN_COLUMNS + 1 : PLAIN_COLUMNS;
  const cellsOf = (cells) => {
    if (!filled(cells.slice(1))) return [element('td', { colspan: columns, class: 'long' }, cells[0])];
    const plain = Array.from({ length: PLAIN_COLUMNS }, (_, at) => element('td', {}, cells[at] ?? ''));
    return wide ? [...plain, element('td', { class: 'long' }, cells.slice(PLAIN_COLUMNS).join(' '))] : plain;
  };
  const shown = rows.map((cells, at) => ({ cells, at })).filter(({ cells }) => filled(cells));
  const lines = shown.map(({ cells, at }) => element('tr', {}, element('th', { scope: 'row' }, at + 1), cellsOf(cells)));
  const heads = ['', ...'ABCDEFGH', ...(wide ? ['I, J, ..'] : [])];
  return section(title, element('table', { class: 'rows' }, element('thead', {}, row(heads, 'th')), element('tbody', {}, lines)));
}

// The words, or those that no words stand for, a line for the head, each circuit, each schedule and each entry.
function wordsText(given) {
  const words = meant(given);
  const parts = partsOf(words);
  const lines = [];
  if (!parts) for (let at = 0; at < words.length; at += WORDS_A_LINE) lines.push(words.slice(at, at + WORDS_A_LINE));
  else {
    lines.push(words.slice(0, 5), ...parts.circuits.map((circuit) => circuit.words));
    for (const { period, entries } of parts.schedules) lines.push([period, entries.length], ...entries.map((entry) => entry.words));
  }
  const title = given.length === 0 ? ': the file has none, and so stands for these' : '';
  return section(`The sheet's words${title}`, element('pre', {}, lines.map((line) => line.join(' ')).join('\n')));
}

function sheetPart(document) {
  const rows = document.kind === 'plan' ? document.rows : rowsOfWords(document.words);
  const ofPlan = "The file's rows (window, memory and at rows are not part of the sheet)";
  return [rows ? rowsTable(rows, document.kind === 'plan' ? ofPlan : 'The sheet as the rows of a plan') : null, wordsText(document.words)];
}

// What each circuit gets: a row for each mode. Where vertical links are long, the vertical hops have a column of their own.
function circuitsTable(circuits, long) {
  const shared = ['mode', 'period', 'slots (offset+length)', 'words a period', 'words a cycle'];
  const hops = long ? ['hops', 'vertical'] : ['hops'];
  return table(['circuit', 'from node', 'to node', ...hops, 'a word lands after', ...shared], circuits.flatMap((circuit) => {
    const counts = long ? [circuit.hops, circuit.verticalHops] : [circuit.hops];
    const own = [named(circuit.name), circuit.source, circuit.destination, ...counts, `${circuit.flight} cycles`];
    return circuit.modes.map((mode) => {
      const share = [named(mode.name), mode.period, slotsText(mode.slots), mode.wordsAPeriod, mode.wordsACycle.toFixed(4)];
      return [...own, ...share];
    });
  }));
}

// Each circuit in each pair of modes.
export function isolationTable(document, pairs) {
  const heads = ['circuit', 'mode', 'and mode', 'answer'];
  return table(heads, pairs.map((pair) => [
    named(document.circuitNames[pair.circuit]),
    named(document.modeNames[pair.first]),
    named(document.modeNames[pair.second]),
    answerText(pair),
  ]));
}

function isolationPart(document) {
  const circuits = circuitsOf(document);
  const { long } = partsOf(document.words);
  if (circuits.length === 0) return section('Circuits', element('p', {}, 'The sheet has no circuits.'));
  const pairs = modePairs(document);
  const alone = element('p', {}, 'The sheet has one mode, so there is no switch.');
  return [
    section('Circuits', circuitsTable(circuits, long), long ? element('p', {}, LONG_LINKS_NOTE) : null),
    section('Whom a switch of modes disturbs', pairs.length > 0 ? isolationTable(document, pairs) : alone, element('p', {}, PREMISE)),
  ];
}

function againPart(document) {
  const file = shellWord(document.name);
  const exam = document.exam ? ' --exam' : '';
  const commands = [`sha256sum ${file}`, `./calqetum certificate ${file}${exam} -o again.html`, 'cmp again.html CERTIFICATE'];
  const text =
    'With the file and this version of Calqetum; CERTIFICATE is the file of this certificate. It has no date, so it comes out the same, ' +
    'to the byte.';
  return section('How to check it again', element('p', {}, text), element('pre', {}, commands.join('\n')));
}

function statementsTable(statements) {
  return table(['statement', 'file', 'in words'], statements.map(([name, file, text]) => [code(name), code(file), text]));
}

// The certificate of a document whose words are read. `verdict` is the checker's number, `explanation` what explain.js says of a refusal.
export function certificate(document, { verdict, about, fileHash, explanation = null }) {
  return element(
    'article',
    { class: 'certificate' },
    element('h1', {}, verdict === 0 ? 'Certificate of a circuit sheet' : 'Certificate of refusal of a circuit sheet'),
    verdictPart(verdict, explanation),
    identity(document, about, fileHash),
    verdict === 0 ? isolationPart(document) : null,
    sheetPart(document),
    section('What it rests on', statementsTable(verdict === 0 ? STATEMENTS : STATEMENTS.slice(0, OF_VERDICT))),
    section('What is not proved', list(NOT_PROVED)),
    againPart(document),
  );
}

// The certificate as a file of its own, without script.
export function certificateFile(document, options) {
  const policy = `default-src 'none'; style-src 'sha256-${sha256Base64(new TextEncoder().encode(STYLE))}'`;
  const head = element(
    'head',
    {},
    element('meta', { charset: 'utf-8' }),
    element('meta', { 'http-equiv': 'Content-Security-Policy', content: policy }),
    element('meta', { name: 'viewport', content: 'width=device-width, initial-scale=1' }),
    element('title', {}, `Certificate: ${cut(document.name, 255)}`),
    element('style', {}, STYLE),
  );
  const page = element('html', { lang: 'en' }, head, '\n', element('body', {}, certificate(document, options)));
  return '<!doctype html>\n' + markup(page) + '\n';
}
