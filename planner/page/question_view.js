// The planner's question: what each circuit has in each mode, and whether one mode disturbs it against another.
import { COMPARE_PREMISE, PREMISE, circuitsOf, compareDocuments, hopsText, modePairs, slotsText } from '../lib/isolation.js';
import { element } from '../lib/markup.js';
import { byId, choices, fill } from './dom.js';

const ANSWERS = { undisturbed: 'undisturbed', silent: 'silent in both', differs: 'differs' };
const BECAUSE = { undisturbed: 'the period and its slots are the same', silent: 'it has no slots in either' };
const MOST_LINES = 400;
const SLOT_NOTE = 'A slot is written offset+length: 2+4 begins in cycle 2 of the period and has 4 cycles, the header included.';
const rowHead = (name) => element('th', { scope: 'row' }, name);
const because = ({ answer, reasons }) => element('td', {}, BECAUSE[answer] ?? reasons.join('; '));
const answerCell = (answer) => element('td', {}, element('span', { class: `answer-${answer}` }, ANSWERS[answer] ?? answer));

// Shows the circuit that is chosen; all of them where there are few.
export function showQuestion(opened) {
  const circuits = circuitsOf(opened);
  // By name: an edit may give a circuit another number.
  choices('circuit', [{ value: '', text: 'all circuits' }, ...circuits.map(({ name }) => ({ value: name, text: name }))]);
  const chosen = byId('circuit').value;
  const shown = chosen === '' ? circuits : circuits.filter((circuit) => circuit.name === chosen);
  if (circuits.length === 0) return fill('isolation', element('p', {}, 'The sheet has no circuits.'));
  const pairs = modePairs(opened).filter((pair) => shown.some((circuit) => circuit.number === pair.circuit));
  return fill(
    'isolation',
    opened.modeNames.length > 1 ? pairTable(opened, pairs) : element('p', {}, 'There is one mode: nothing to compare.'),
    element('p', { class: 'quiet' }, SLOT_NOTE),
    element('p', { class: 'quiet' }, PREMISE),
    element('h3', {}, 'What each circuit has'),
    figureTable(opened, shown),
  );
}

function pairTable(opened, pairs) {
  const rows = pairs.map((pair) => {
    const modes = [pair.first, pair.second].map((mode) => element('td', {}, opened.modeNames[mode]));
    return element('tr', {}, rowHead(opened.circuitNames[pair.circuit]), modes, answerCell(pair.answer), because(pair));
  });
  return scrolled('Pairs of modes', ['Circuit', 'In mode', 'and in mode', 'it is', 'because'], rows, 'pairs');
}

// Hops are told where they alone do not say the flight time.
function wayText(circuit) {
  const way = `node ${circuit.source} to node ${circuit.destination}`;
  return circuit.verticalHops > 0 ? `${way}, ${hopsText(circuit)}` : way;
}

function figureTable(opened, circuits) {
  const rows = circuits.flatMap((circuit) =>
    circuit.modes.map((mode, at) =>
      element(
        'tr',
        {},
        rowHead(circuit.name),
        element('td', {}, wayText(circuit)),
        element('td', { class: 'figure' }, `${circuit.flight} cycles`),
        element('td', {}, opened.modeNames[at]),
        element('td', {}, slotsText(mode.slots)),
        element('td', { class: 'figure' }, String(mode.wordsAPeriod)),
        element('td', { class: 'figure' }, mode.wordsACycle.toFixed(3)),
      ),
    ),
  );
  const head = ['Circuit', 'Way', 'Flight time', 'Mode', 'Slots (offset+length)', 'Words a period', 'Words a cycle'];
  return scrolled('Figures of the circuits', head, rows, 'figures');
}

// Shows the comparison of the open sheet with another one.
export function showComparison(opened, other) {
  const compared = compareDocuments(opened, other, [opened.name, other.name]);
  if (!compared.comparable) return fill('comparison', element('p', {}, compared.reason));
  const rows = compared.circuits.flatMap((circuit) =>
    circuit.modes.map((mode) =>
      element('tr', {}, rowHead(circuit.name), element('td', {}, mode.name), answerCell(mode.answer), because(mode)),
    ),
  );
  const alone = [
    [`circuits in ${opened.name} alone`, compared.circuitsInOldAlone],
    [`circuits in ${other.name} alone`, compared.circuitsInNewAlone],
    [`modes in ${opened.name} alone`, compared.modesInOldAlone],
    [`modes in ${other.name} alone`, compared.modesInNewAlone],
  ].filter(([, names]) => names.length > 0);
  return fill(
    'comparison',
    element('p', {}, `${opened.name} against ${other.name}`),
    alone.map(([what, names]) => element('p', {}, `${what}: ${names.join(', ')}`)),
    compared.starts && element('p', {}, compared.starts),
    rows.length > 0 && scrolled('Comparison', ['Circuit', 'Mode', 'it is', 'because'], rows, null, rows.length),
    rows.length === 0 && element('p', {}, 'No circuit and mode is in both.'),
    element('p', { class: 'quiet' }, COMPARE_PREMISE),
  );
}

// A table with a heading row, in a region that scrolls and can be reached by Tab.
function scrolled(label, head, rows, id = null, most = MOST_LINES) {
  const shown = rows.slice(0, most);
  const cut = `The first ${shown.length} of ${rows.length} lines are shown: choose one circuit to see all of its own.`;
  const heading = element('thead', {}, element('tr', {}, head.map((text) => element('th', { scope: 'col' }, text))));
  const table = element('table', { id }, heading, element('tbody', {}, shown));
  return element(
    'div',
    { class: 'scroll tall', tabindex: 0, role: 'region', 'aria-label': label },
    table,
    rows.length > shown.length && element('p', {}, cut),
  );
}
