// The landing list: a run of the file's rows, as the command run lists it, some milliseconds at a time so that the page goes on answering.
import { element } from '../lib/markup.js';
import { circuitOfLanding } from '../lib/landings.js';
import { KIND_NAMES, MOST_CYCLES } from '../lib/listing.js';
import { callsOfPlan, openRun } from '../lib/run.js';
import { partsOf } from '../lib/sheet.js';
import { byId, fill } from './dom.js';

const MOST_LINES = 2000;
const head = ['cycle', 'node', 'address', 'word', 'kind', 'circuit'];

// How many cycles show what the rows of a file do: behind the last of them four periods.
export function usualCycles(opened) {
  const parts = partsOf(opened.words);
  const longest = Math.max(...parts.schedules.map((schedule) => schedule.period));
  const last = Math.max(0, ...(opened.plan?.acts ?? []).map((act) => act.cycle));
  return Math.min(MOST_CYCLES, last + 4 * longest);
}

// Lists what the rows of a file make land; a later list puts an end to an earlier one. `refused` is told of a refused call.
export function makeLister(calls, refusedText) {
  let turn = 0;
  return {
    clear(text = '') {
      turn++;
      byId('landings-note').textContent = text;
      byId('list-progress').hidden = true;
      fill('landings');
    },
    list(opened, refused) {
      const mine = ++turn;
      const cycles = Math.min(MOST_CYCLES, Math.max(0, Math.floor(Number(byId('cycles').value) || 0)));
      byId('cycles').value = cycles;
      const run = openRun(calls, opened.words, callsOfPlan(opened));
      const lines = [];
      const progress = byId('list-progress');
      const go = () => {
        if (mine !== turn) return;
        const until = performance.now() + 30;
        while (run.cycle < cycles && !run.refused && performance.now() < until) {
          const frame = run.step();
          for (const landing of frame?.landings ?? []) lines.push({ cycle: frame.cycle, ...landing });
        }
        progress.hidden = run.cycle >= cycles || run.refused !== null;
        progress.max = cycles;
        progress.value = run.cycle;
        if (!progress.hidden) return setTimeout(go, 0);
        if (run.refused) refused(run.refused);
        showLines(opened, lines, run, run.refused && refusedText(run.refused, calls));
      };
      go();
    },
  };
}

function showLines(shown, lines, run, why) {
  const count = lines.length === 1 ? 'One word lands' : `${lines.length} words land`;
  const cut = lines.length > MOST_LINES ? ` The first ${MOST_LINES} are shown.` : '';
  const none = shown.plan?.acts.length > 0 ? '' : " The file has no 'at' rows, so nothing is started.";
  byId('landings-note').textContent = why ?? `${count} in ${run.cycle} cycles.${cut}${none}`;
  const parts = partsOf(shown.words);
  const rows = lines.slice(0, MOST_LINES).map((line) => {
    const circuit = circuitOfLanding(parts, line);
    const figures = [line.cycle, line.node, line.address, line.word].map((value) => element('td', { class: 'figure' }, String(value)));
    const name = circuit === null ? '' : shown.circuitNames[circuit];
    return element('tr', {}, figures, element('td', {}, KIND_NAMES[line.kind]), element('td', {}, name));
  });
  if (run.refused) return fill('landings');
  const heading = element('thead', {}, element('tr', {}, head.map((text) => element('th', { scope: 'col' }, text))));
  fill('landings', element('table', {}, heading, element('tbody', {}, rows)));
}
