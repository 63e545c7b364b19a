// The command draw: the slots of modes, or the grid with its words under way, as an SVG file.
import { cut } from '../lib/document.js';
import { picture } from '../lib/drawing.js';
import { gridAnimation, gridPicture, MOST_FRAMES } from '../lib/grid_picture.js';
import { HEAD_LIMITS } from '../lib/limits.js';
import { MOST_CYCLES } from '../lib/listing.js';
import { svgFile } from '../lib/markup.js';
import { MOST_NAME, nameOf } from '../lib/plan.js';
import { callsOfPlan, openRun, sheetBeginningIn } from '../lib/run.js';
import { partsOf } from '../lib/sheet.js';
import { slotsPicture } from '../lib/slots_picture.js';
import { holdCount, numberOption } from './arguments.js';
import { wrongUse } from './failures.js';
import { readableSheet } from './files.js';
import { grouped, holdTarget, say, teller, writeFile } from './output.js';
import { shownPath } from './paths.js';
import { openProved } from './proved.js';
import { sayRefusal } from './refusal.js';
import { sayWhy } from './run.js';

const USUAL_PERIODS = 3;
const USUAL_CYCLES = 120;
const GAP = 16;
const MOST_MODES = HEAD_LIMITS[4][1];

export async function draw(paths, options) {
  holdCount(paths, 1, 1, 'one FILE');
  const out = options['-o'];
  if (out === undefined) throw wrongUse('-o F.svg is wanted: where the picture goes');
  const cycles = numberOption(options, '--cycles', 1, MOST_FRAMES);
  const still = numberOption(options, '--cycle', 0, MOST_CYCLES - 1);
  if (!options['--grid'] && (cycles !== null || still !== null)) throw wrongUse('--cycles and --cycle belong to --grid');
  if (cycles !== null && still !== null) throw wrongUse('--cycles draws many cycles and --cycle one: only one of the two is wanted');
  holdTarget(out, paths);
  const sheet = readableSheet(paths[0], options);
  if (!sheet) return 2;
  const calls = await openProved();
  const refused = calls.verdict(sheet.document.words) !== 0;
  if (refused) sayRefusal(sheet.path, sheet.document, calls);
  if (!partsOf(sheet.document.words)) return notDrawn(sheet, 'its words do not divide into circuits and modes');
  if (sheet.document.modeNames.length === 0) return notDrawn(sheet, 'it has no mode, and so no slots');
  const mode = modeNamed(sheet, options['--mode']);
  if (refused && options['--grid']) return notDrawn(sheet, 'words move only on a sheet that passes; without --grid its slots are drawn');
  const drawn = options['--grid'] ? grid(sheet, calls, mode, cycles, still) : slots(sheet, mode);
  if (!drawn) return 1;
  writeFile(out, svgFile(drawn));
  return refused ? 1 : 0;
}

function notDrawn(sheet, reason) {
  say(`${shownPath(sheet.path)}: nothing is drawn: ${reason}.`);
  return 1;
}

// The number of a mode by its name; null where none is named.
function modeNamed(sheet, text) {
  if (text === undefined) return null;
  const { modeNames } = sheet.document;
  const number = modeNames.findIndex((name) => nameOf(name) === nameOf(text));
  if (number >= 0) return number;
  const known = modeNames.slice(0, MOST_MODES).map((name) => cut(name, MOST_NAME));
  const more = modeNames.length > MOST_MODES ? ', ..' : '';
  throw wrongUse(`${shownPath(sheet.path)} has no mode ${cut(text, MOST_NAME)}; its modes: ${known.join(', ')}${more}`);
}

// The slots of one mode, or of all modes one below the other, as many as a sheet may have.
function slots({ path, document }, mode) {
  if (mode !== null) return slotsPicture(document, mode, { prefix: 'slots', background: true });
  const all = document.modeNames.length;
  if (all > MOST_MODES) say(`${shownPath(path)}: the first ${MOST_MODES} of its ${grouped(all)} modes are drawn; --mode draws another.`);
  const shown = document.modeNames.slice(0, MOST_MODES);
  const pictures = shown.map((_, number) => slotsPicture(document, number, { prefix: `slots-${number}`, background: true }));
  let height = 0;
  const placed = pictures.map((one) => {
    const part = { ...one, attributes: { ...one.attributes, y: height } };
    height += one.attributes.height + GAP;
    return part;
  });
  const width = Math.max(...pictures.map((one) => one.attributes.width));
  const title = `${cut(document.name)}: the slots of ${pictures.length === 1 ? 'its mode' : `${pictures.length} modes`}`;
  const description = 'One picture a mode, one below the other.';
  return picture({ width, height: height - GAP, prefix: 'modes', title, description, background: true }, placed);
}

// The grid, by what the rows of the file do; or, of a named mode and where no row does anything, with every circuit kept sending.
function grid(sheet, calls, mode, cycles, still) {
  const { document } = sheet;
  const acting = mode === null && (document.plan?.acts.length ?? 0) > 0;
  const alone = acting ? null : (mode ?? 0);
  const run = acting
    ? openRun(calls, document.words, callsOfPlan(document))
    : openRun(calls, sheetBeginningIn(document.words, alone), { sending: true });
  const usual = Math.min(USUAL_PERIODS * partsOf(document.words).schedules[alone ?? 0].period, USUAL_CYCLES);
  const frames = framesOf(run, still === null ? (cycles ?? usual) : still + 1, still === null);
  if (run.refused) {
    sayWhy(sheet, run.refused, calls);
    return null;
  }
  const shown = { prefix: 'grid', background: true, mode: alone };
  if (still === null) return gridAnimation(document, frames.all, shown);
  return gridPicture(document, frames.last, { ...shown, modeBefore: frames.modeBefore });
}

// The frames of a run's first cycles, or only the last one with the mode of the period before its own.
function framesOf(run, cycles, keep) {
  const { told, done } = teller('cycle', cycles);
  const all = [];
  let last = null;
  let modeBefore = null;
  for (let cycle = 0; cycle < cycles; cycle++) {
    const frame = run.step();
    if (!frame) break;
    if (last && last.period !== frame.period) modeBefore = last.mode;
    if (keep) all.push(frame);
    last = frame;
    told(cycle + 1);
  }
  done();
  return { all, last, modeBefore };
}
