// The page: keeps the plan that is open, and shows everything that is said of it.
import { openCalls } from '../lib/calls.js';
import { MOST_ROWS } from '../lib/cells.js';
import { problemLine, readFile } from '../lib/document.js';
import { element, svgFile } from '../lib/markup.js';
import { callLine, callMarks } from '../lib/rules.js';
import { partsOf } from '../lib/sheet.js';
import { slotsPicture } from '../lib/slots_picture.js';
import { byId, choices, chooseIn, download, fill, nodeOf } from './dom.js';
import { certificateOf, encoded, planOfFile, savedName, savedText } from './filing.js';
import { showCellHelp, showRowHelp } from './help_view.js';
import { canRedo, canUndo, changed, isSaved, redone, undone, withCell, withRowBelow, withoutRow } from './history.js';
import { documentOf, judge, judgeWindows } from './judging.js';
import { makeLister, usualCycles } from './landings_view.js';
import { makePlayer } from './network_view.js';
import { showComparison, showQuestion } from './question_view.js';
import { PAGE_ROWS, makeTable } from './table.js';
import { showVerdict } from './verdict_view.js';
import { makeWeek } from './week_view.js';

const dataOf = (id) => JSON.parse(byId(id).textContent);
const about = dataOf('about-data');
const examples = dataOf('examples');
const proved = Uint8Array.from(atob(byId('proved').textContent), (character) => character.charCodeAt(0));
// One session for the verdicts, one for the network that is shown, one for the list.
const [checking, showing, listing] = await Promise.all([0, 1, 2].map(() => openCalls(proved)));

let plan = null;
let opened = null;
let judged = null;
let other = null;
let waiting = null;
let exam = false;

const refusedText = (refused, calls) => callLine(opened, refused, calls);
const player = makePlayer(showing, refusedText);
const lister = makeLister(listing, refusedText);
const week = makeWeek(checking);
const table = makeTable(byId('table'), {
  typed: (row, column, text) => say(withCell(plan.rows, row, column, text)),
  committed(row, column, text) {
    if ((plan.rows[row]?.[column] ?? '') !== text) plan = changed(plan, withCell(plan.rows, row, column, text));
    showPlan();
  },
  pasted(row, column, lines) {
    if (row + lines.length > MOST_ROWS) return note(`Nothing was pasted: a plan has at most ${MOST_ROWS} rows.`);
    let rows = plan.rows;
    lines.forEach((texts, down) => texts.forEach((text, right) => (rows = withCell(rows, row + down, column + right, text))));
    return change((before) => changed(before, rows));
  },
  cancelled: () => showPlan(),
  chosen: (row, column) => showCellHelp(plan, row, column, marksNow()),
  paged: () => showPages(),
});

function note(text) {
  byId('file-note').textContent = text;
}

// Opens bytes as the plan. What was open and is not saved can be brought back by undoing.
function openBytes(name, bytes) {
  if (table.editing()) table.commit();
  const kept = plan && !isSaved(plan) ? plan : null;
  const { plan: next, note: said, wrong } = planOfFile(name, bytes, exam, kept);
  if (wrong) return openFailed(name, wrong);
  plan = next;
  for (const id of ['circuit', 'mode', 'traffic']) chooseIn(id, '');
  byId('cycles').value = 0;
  week.begin();
  note(kept ? `${kept.name} had changes that are not saved: Undo brings it back. ${said}` : said);
  showPlan(0);
  const [schedule] = judged.explanation?.schedules ?? [];
  if (schedule && opened.modeNames[schedule.number]) chooseIn('mode', opened.modeNames[schedule.number]);
}

function openExample(name) {
  const example = examples.find((one) => one.name === name);
  if (example) openBytes(example.name, encoded(example.text));
}

// A file that cannot be opened leaves what is open as it is.
function openFailed(name, wrong) {
  const verdict = byId('verdict');
  verdict.className = 'verdict unreadable';
  verdict.textContent = `\u2717 ${name} cannot be opened: ${wrong}`;
  fill('explanation', plan && element('p', {}, `${plan.name} is still open below.`));
  verdict.focus();
}

// Shows the rows of the plan, from a row on, and what is said of them.
function showPlan(first = table.firstRow()) {
  byId('exam').checked = plan.exam;
  byId('exam').disabled = plan.kind === 'words' || plan.fromWords;
  table.show(plan.rows, Math.min(first, Math.floor(plan.rows.length / PAGE_ROWS) * PAGE_ROWS));
  byId('undo').disabled = !canUndo(plan);
  byId('redo').disabled = !canRedo(plan);
  say();
  showPages();
}

function showPages() {
  const from = table.firstRow();
  byId('pages').hidden = plan.rows.length < PAGE_ROWS;
  byId('shown-rows').textContent = `rows ${from + 1} to ${Math.min(plan.rows.length, from + PAGE_ROWS)} of ${plan.rows.length}`;
  table.mark(marksNow());
}

const marksNow = () => [...judged.marks, ...(judged.calls ?? []), ...judged.windows.marks];

// Judges rows and says so at once; what takes longer to draw follows when nothing is typed for a moment.
function say(rows = plan.rows) {
  opened = documentOf(plan, rows);
  judged = { ...judge(opened, checking.verdict), windows: judgeWindows(opened, checking.hours) };
  showVerdict(opened, judged);
  table.mark(marksNow());
  byId('certificate').replaceChildren();
  clearTimeout(waiting);
  document.documentElement.dataset.drawn = 'no';
  waiting = setTimeout(showRest, 120);
}

function showRest() {
  const passes = judged.answer === 'passes';
  if (opened.modeNames.length > 0) choices('mode', opened.modeNames.map((name) => ({ value: name, text: name })));
  if (opened.words && partsOf(opened.words) && opened.modeNames.length > 0) showSlots();
  else fill('slots', element('p', {}, 'The slots are drawn when the plan can be read.'));
  week.show(opened, judged.windows);
  player.open(passes ? opened : null);
  if (passes) {
    showQuestion(opened);
    if (byId('cycles').value === '0') byId('cycles').value = usualCycles(opened);
    listNow();
  } else {
    fill('isolation', element('p', {}, 'This is answered when the sheet passes.'));
    lister.clear('Words land when the sheet passes.');
  }
  if (other) compareNow();
  document.documentElement.dataset.drawn = 'yes';
}

const modeShown = () => Math.max(0, opened.modeNames.indexOf(byId('mode').value));

function showSlots() {
  fill('slots', slotsPicture(opened, modeShown(), { prefix: 'slots' }));
}

function listNow() {
  lister.list(opened, (refused) => {
    judged = { ...judged, calls: callMarks(opened, refused, listing) };
    showVerdict(opened, judged);
    table.mark(marksNow());
  });
}

function compareNow() {
  if (other.problems.length > 0) {
    const lines = other.problems.slice(0, 50).map((problem) => element('li', {}, problemLine(other.name, problem)));
    fill('comparison', element('p', {}, `${other.name} cannot be read:`), element('ul', {}, lines));
  } else if (judged.answer !== 'passes' || checking.verdict(other.words) !== 0) {
    const wrong = judged.answer !== 'passes' ? opened.name : other.name;
    fill('comparison', element('p', {}, `${wrong} does not pass: only sheets that pass are compared.`));
  } else showComparison(opened, other);
}

// Changes the plan; the chosen cell stays where it is, with the focus where the table had it.
function change(next) {
  if (table.editing()) table.commit();
  const { row, column } = table.selected();
  const focused = byId('table').contains(document.activeElement);
  plan = next(plan);
  showPlan();
  table.choose(row, column, focused);
}

async function openFileList(files, then) {
  const [file] = files;
  if (!file) return;
  if (file.size > 64 * 1024 * 1024) openFailed(file.name, 'it is far too large for a plan');
  else then(file.name, new Uint8Array(await file.arrayBuffer()));
}

function save() {
  if (table.editing()) table.commit();
  download(savedName(plan), savedText(plan), plan.kind === 'words' ? 'text/plain' : 'text/csv');
  plan = { ...plan, name: savedName(plan), saved: plan.rows, bytes: encoded(savedText(plan)), fromWords: false };
  showPlan();
}

// Goes to the cell of a button; before the click is whole, since taking what is being typed draws the buttons anew.
function jump(event) {
  const button = event.target.closest('button.jump');
  if (!button) return;
  event.preventDefault();
  if (table.editing()) table.commit();
  table.choose(Number(button.dataset.row), Number(button.dataset.column));
}

function wire(id, event, handler) {
  byId(id).addEventListener(event, handler);
}

choices('example', [{ value: '', text: 'choose' }, ...examples.map((example) => ({ value: example.name, text: example.name }))]);
wire('file', 'change', (event) => openFileList(event.target.files, openBytes));
for (const id of ['file', 'compare-file']) wire(id, 'click', (event) => (event.target.value = ''));
wire('compare-file', 'change', (event) =>
  openFileList(event.target.files, (name, bytes) => {
    other = readFile(name, bytes);
    compareNow();
  }),
);
wire('example', 'change', (event) => openExample(event.target.value));
wire('idle', 'click', () => openExample('idle.csv'));
wire('exam', 'change', (event) => {
  exam = event.target.checked;
  change((before) => ({ ...before, exam }));
});
wire('undo', 'click', () => change(undone));
wire('redo', 'click', () => change(redone));
wire('insert', 'click', () => change((before) => changed(before, withRowBelow(before.rows, table.selected().row))));
wire('delete', 'click', () => change((before) => changed(before, withoutRow(before.rows, table.selected().row))));
wire('earlier', 'click', () => table.choose(table.firstRow() - PAGE_ROWS, 0));
wire('later', 'click', () => table.choose(table.firstRow() + PAGE_ROWS, 0));
for (const id of ['circuit', 'mode', 'traffic']) wire(id, 'change', (event) => chooseIn(id, event.target.value));
wire('mode', 'change', showSlots);
wire('circuit', 'change', () => judged.answer === 'passes' && showQuestion(opened));
wire('traffic', 'change', () => player.open(opened));
wire('list', 'click', () => judged.answer === 'passes' && listNow());
wire('print', 'click', () => (judged.answer === 'unreadable' ? byId('verdict').focus() : window.print()));
wire('save', 'click', save);
wire('save-slots', 'click', () => {
  const picture = slotsPicture(opened, modeShown(), { prefix: 'saved', background: true });
  download('slots.svg', svgFile(picture), 'image/svg+xml');
});
for (const id of ['explanation', 'week-refusal']) {
  wire(id, 'pointerdown', jump);
  wire(id, 'click', (event) => event.detail === 0 && jump(event));
}
for (const event of ['pointerover', 'focusin']) {
  wire('slots', event, ({ target }) => {
    const box = target.closest?.('g[role=img]');
    if (box) byId('slot-help').textContent = box.getAttribute('aria-label');
  });
}
// However it is printed, the paper is the certificate of what is open now.
addEventListener('beforeprint', () => {
  if (table.editing()) table.commit();
  byId('certificate').replaceChildren(nodeOf(certificateOf(plan, about, checking.verdict)));
});
addEventListener('keydown', (event) => {
  if (!(event.ctrlKey || event.metaKey)) return;
  const key = event.key.toLowerCase();
  // In a field of its own, a browser's undo is meant.
  const own = table.editing() || event.target.closest?.('input, select, textarea');
  if (key === 's') save();
  else if (key === 'z' && !event.shiftKey && !own) change(undone);
  else if ((key === 'y' || (key === 'z' && event.shiftKey)) && !own) change(redone);
  else return;
  event.preventDefault();
});
addEventListener('dragover', (event) => {
  event.preventDefault();
  document.body.classList.add('dropping');
});
addEventListener('dragleave', () => document.body.classList.remove('dropping'));
addEventListener('drop', (event) => {
  event.preventDefault();
  document.body.classList.remove('dropping');
  openFileList(event.dataTransfer.files, openBytes);
});
addEventListener('beforeunload', (event) => !isSaved(plan) && event.preventDefault());

showRowHelp();
byId('versions').textContent = `Version ${about.version}, built with ${about.kit}.`;
openBytes(examples[0].name, encoded(examples[0].text));
document.documentElement.dataset.ready = 'yes';
