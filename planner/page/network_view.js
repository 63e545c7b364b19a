// The network cycle by cycle: frames of a run, recorded as they are asked for, so that one can step back; play, pause, step, speed.
import { gridPicture } from '../lib/grid_picture.js';
import { svgFile } from '../lib/markup.js';
import { callsOfPlan, openRun, sheetBeginningIn, sheetOfMode } from '../lib/run.js';
import { byId, choices, download, fill } from './dom.js';

const MOST_FRAMES = 20000;

const ROWS = '';

// The traffic to choose from: the rows of the file, or one mode with every circuit sending.
function showTraffic(opened) {
  const own = opened.plan?.acts.length > 0 ? [{ value: ROWS, text: "the file's own (its 'at' rows)" }] : [];
  const modes = opened.modeNames.map((name) => ({ value: name, text: `every circuit sends, mode ${name}` }));
  choices('traffic', [...own, ...modes]);
}

// Opens a run of the chosen traffic on a session.
function openTraffic(calls, opened) {
  const chosen = byId('traffic').value;
  if (chosen === ROWS) return { run: openRun(calls, opened.words, callsOfPlan(opened)), shown: opened };
  const mode = opened.modeNames.indexOf(chosen);
  const run = openRun(calls, sheetBeginningIn(opened.words, mode), { ...callsOfPlan(opened), acts: [], sending: true });
  return { run, shown: { ...opened, words: sheetOfMode(opened.words, mode), modeNames: [opened.modeNames[mode]] } };
}

export function makePlayer(calls, refusedText) {
  const player = { calls, run: null, shown: null, frames: [], at: -1, timer: null };
  byId('grid-step').addEventListener('click', () => pause(player) || step(player, refusedText));
  byId('grid-back').addEventListener('click', () => pause(player) || draw(player, Math.max(0, player.at - 1)));
  byId('grid-first').addEventListener('click', () => pause(player) || draw(player, 0));
  byId('grid-play').addEventListener('click', () => (player.timer ? pause(player) : play(player, refusedText)));
  byId('grid-speed').addEventListener('input', () => player.timer && (pause(player) || play(player, refusedText)));
  byId('grid-full').addEventListener('click', () => byId('stage').requestFullscreen?.());
  byId('save-grid').addEventListener('click', () => {
    if (!player.shown) return;
    const picture = gridPicture(player.shown, player.frames[player.at], { prefix: 'saved', background: true });
    download('network.svg', svgFile(picture), 'image/svg+xml');
  });
  return {
    // Begins anew with the traffic that is chosen; null where the sheet is refused.
    open(opened) {
      pause(player);
      Object.assign(player, { run: null, shown: null, frames: [], at: -1 });
      for (const id of ['grid-play', 'grid-back', 'grid-step', 'grid-first', 'save-grid']) byId(id).disabled = !opened;
      fill('grid');
      byId('grid-caption').textContent = opened ? '' : 'The network runs when the sheet passes.';
      if (!opened) return;
      showTraffic(opened);
      Object.assign(player, openTraffic(calls, opened));
      step(player, refusedText);
    },
  };
}

function step(player, refusedText) {
  if (!player.run || player.at + 1 >= MOST_FRAMES) return pause(player);
  if (player.at + 1 < player.frames.length) return draw(player, player.at + 1);
  const frame = player.run.step();
  if (!frame) {
    pause(player);
    byId('grid-caption').textContent = refusedText(player.run.refused, player.calls);
    return null;
  }
  player.frames.push(frame);
  return draw(player, player.frames.length - 1);
}

function draw(player, at) {
  const frame = player.frames[at];
  if (!frame) return;
  player.at = at;
  // Words that left before a switch of modes belong to slots of the mode before.
  const before = player.frames.slice(0, at).reverse().find((one) => one.period !== frame.period);
  fill('grid', gridPicture(player.shown, frame, { prefix: 'grid', modeBefore: before?.mode }));
  const landed = frame.landings.map((landing) => `word ${landing.word} at node ${landing.node}, address ${landing.address}`);
  const time = `Cycle ${frame.cycle}: cycle ${frame.cycleInPeriod} of period ${frame.period}, mode ${player.shown.modeNames[frame.mode]}.`;
  byId('grid-caption').textContent = `${time} ${landed.length > 0 ? `Landed: ${landed.join('; ')}.` : 'Nothing landed.'}`;
}

function play(player, refusedText) {
  if (!player.run) return;
  const button = byId('grid-play');
  button.textContent = 'Pause';
  button.setAttribute('aria-pressed', 'true');
  // A screen reader is not told every cycle that is played.
  byId('grid-caption').setAttribute('aria-live', 'off');
  player.timer = setInterval(() => step(player, refusedText), 1000 / Number(byId('grid-speed').value));
}

function pause(player) {
  if (player.timer) clearInterval(player.timer);
  player.timer = null;
  byId('grid-play').textContent = 'Play';
  byId('grid-play').setAttribute('aria-pressed', 'false');
  byId('grid-caption').setAttribute('aria-live', 'polite');
}
