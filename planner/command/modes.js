// The commands modes and compare: what each circuit gets, and whom a switch of modes or a change of the sheet disturbs.
import { cut } from '../lib/document.js';
import { explain } from '../lib/explain.js';
import { COMPARE_PREMISE, PREMISE, answerText, circuitsOf, compareDocuments, hopsText, modePairs, slotsText } from '../lib/isolation.js';
import { verdictText } from '../lib/paper.js';
import { MOST_NAME, nameOf } from '../lib/plan.js';
import { holdCount } from './arguments.js';
import { wrongUse } from './failures.js';
import { readableSheet, readableSheets } from './files.js';
import { print, printJson, tableLines } from './output.js';
import { shownPath } from './paths.js';
import { openProved } from './proved.js';
import { explanationData, sayRefusal } from './refusal.js';

const HEADS = ['mode', 'period', 'slots (offset+length)', 'words a period', 'words a cycle'];
const NUMBERS = [1, 3, 4];
const LINE = 110;

const named = (name) => cut(name, MOST_NAME);
const renamed = ({ name, newName }) => (newName === name ? named(name) : `${named(name)} (new: ${named(newName)})`);

// The planner's question for every circuit of a sheet, or for one.
export async function modes(names, options) {
  holdCount(names, 1, 2, 'FILE, and at most one CIRCUIT,');
  const sheet = readableSheet(names[0], options);
  if (!sheet) return 2;
  const calls = await openProved();
  if (toldRefusals([sheet], calls, options)) return 1;
  const circuits = names.length > 1 ? [circuitNamed(sheet, names[1])] : circuitsOf(sheet.document);
  const numbers = new Set(circuits.map((circuit) => circuit.number));
  const pairs = modePairs(sheet.document).filter((pair) => numbers.has(pair.circuit));
  if (options['--json']) {
    const { circuitNames, modeNames } = sheet.document;
    const told = (pair) => ({ ...pair, circuit: circuitNames[pair.circuit], first: modeNames[pair.first], second: modeNames[pair.second] });
    printJson({ file: sheet.path, answer: 'passes', circuits, pairs: pairs.map(told), premise: PREMISE });
  } else print(modesLines(sheet.document, circuits, pairs).join('\n'));
  return 0;
}

// Of sheets that do not pass nothing is told but the refusals; false where all pass.
function toldRefusals(sheets, calls, options) {
  const refused = sheets.filter((sheet) => calls.verdict(sheet.document.words) !== 0);
  if (refused.length === 0) return false;
  if (options['--json']) {
    const told = (sheet) => ({ file: sheet.path, ...explanationData(explain(sheet.document, calls.verdict)) });
    printJson({ answer: 'refused', sheets: refused.map(told) });
    return true;
  }
  for (const sheet of refused) {
    const line = verdictText(calls.verdict(sheet.document.words));
    print(sheets.length > 1 ? `${shownPath(sheet.path)}: ${line}` : line);
    sayRefusal(sheet.path, sheet.document, calls);
  }
  return true;
}

function circuitNamed(sheet, text) {
  const circuits = circuitsOf(sheet.document);
  const found = circuits.find((circuit) => nameOf(circuit.name) === nameOf(text));
  if (found) return found;
  const known = circuits.map((circuit) => named(circuit.name)).join(', ');
  const others = known === '' ? 'it has no circuits' : `its circuits: ${known}`;
  throw wrongUse(`${shownPath(sheet.path)} has no circuit ${cut(text, MOST_NAME)}; ${others}`);
}

function modesLines(document, circuits, pairs) {
  if (circuits.length === 0) return ['The sheet has no circuits.'];
  const lines = circuits.flatMap((circuit) => [...circuitLines(circuit), ...pairLines(document, pairs, circuit), '']);
  return [...lines, ...wrapped(PREMISE)];
}

function circuitLines(circuit) {
  const { name, source, destination, flight } = circuit;
  const way = `${named(name)}: node ${source} to node ${destination}, ${hopsText(circuit)}`;
  const shares = circuit.modes.map((mode) => {
    return [named(mode.name), mode.period, slotsText(mode.slots), mode.wordsAPeriod, mode.wordsACycle.toFixed(4)];
  });
  return [`${way}; a word lands ${flight} cycles after it left`, ...tableLines([HEADS, ...shares], NUMBERS).map((line) => `  ${line}`)];
}

function pairLines(document, pairs, circuit) {
  const own = pairs.filter((pair) => pair.circuit === circuit.number);
  const both = ({ first, second }) => `${named(document.modeNames[first])} and ${named(document.modeNames[second])}:`;
  const rows = own.map((pair) => [both(pair), answerText(pair)]);
  return rows.length > 0 ? tableLines(rows).map((line) => `  ${line}`) : ['  one mode: there is no switch'];
}

// A text in lines of a width.
function wrapped(text) {
  const lines = [''];
  for (const word of text.split(' ')) {
    const last = lines[lines.length - 1];
    if (last !== '' && last.length + 1 + word.length > LINE) lines.push(word);
    else lines[lines.length - 1] = last === '' ? word : `${last} ${word}`;
  }
  return lines;
}

// What a change of the sheet leaves undisturbed.
export async function compare(paths, options) {
  holdCount(paths, 2, 2, 'OLD and NEW, two files,');
  const both = { old: paths[0], new: paths[1] };
  const sheets = readableSheets(paths, options, both);
  if (!sheets) return 2;
  const calls = await openProved();
  if (toldRefusals(sheets, calls, options)) return 1;
  const found = compareDocuments(sheets[0].document, sheets[1].document);
  const answer = found.comparable ? 'passes' : 'grids differ';
  if (options['--json']) printJson({ ...both, answer, ...found, premise: COMPARE_PREMISE });
  else print(comparisonLines(found, paths.map(shownPath)).join('\n'));
  return found.comparable ? 0 : 1;
}

function comparisonLines(found, [old, changed]) {
  if (!found.comparable) return [found.reason];
  const circuits = found.circuits.flatMap((circuit) => {
    const rows = circuit.modes.map((mode) => [`${renamed(mode)}:`, answerText(mode)]);
    return [renamed(circuit), ...(rows.length > 0 ? tableLines(rows).map((line) => `  ${line}`) : ['  no mode is in both sheets'])];
  });
  const alone = [
    ...found.circuitsInOldAlone.map((name) => `circuit ${named(name)}: in ${old} alone`),
    ...found.circuitsInNewAlone.map((name) => `circuit ${named(name)}: in ${changed} alone`),
    ...found.modesInOldAlone.map((name) => `mode ${named(name)}: in ${old} alone`),
    ...found.modesInNewAlone.map((name) => `mode ${named(name)}: in ${changed} alone`),
  ];
  const none = found.circuits.length === 0 ? ['No circuit is in both sheets.'] : [];
  const starts = found.starts === null ? [] : wrapped(found.starts);
  return [...none, ...circuits, ...alone, '', ...starts, ...wrapped(COMPARE_PREMISE)];
}
