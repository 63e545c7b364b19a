// Listings of what landed, as the program landings prints them (docs/INTERFACE.md), with the circuit and the kind in words where asked.
import { cut } from './document.js';
import { circuitOfLanding } from './landings.js';
import { MOST_NAME } from './plan.js';
import { callsOfPlan, openRun } from './run.js';
import { partsOf } from './sheet.js';

export const LISTING_HEADER = 'cycle node address word kind';
export const MOST_CYCLES = 65536;
export const KIND_NAMES = ['data', 'configuration', 'interrupt', 'unused'];

// Runs a document's sheet with its memory rows and acts: what landed in each cycle that had a landing, or the call that was refused.
// `told` is handed the number of each cycle that was carried out.
export function landingsOf(calls, document, cycles, told = () => {}) {
  const run = openRun(calls, document.words, callsOfPlan(document));
  const frames = [];
  // What is to be done before cycle 0 is done also where no cycle is asked for; nothing lands in cycle 0.
  for (let cycle = 0; cycle < Math.max(cycles, 1); cycle++) {
    const frame = run.step();
    if (!frame) return { refused: run.refused, frames: [] };
    if (frame.landings.length > 0) frames.push({ cycle: frame.cycle, landings: frame.landings });
    told(cycle + 1);
  }
  return { refused: null, frames };
}

// One landing as the listing has it.
export function landingLine(cycle, { node, address, word, kind }) {
  return `${cycle} ${node} ${address} ${word} ${kind}`;
}

// The lines of frames (each a cycle and what landed in it), by cycle, then node. With a document, behind each line a comment names the
// circuit and the kind.
export function landingLines(frames, document = null) {
  const lines = frames.flatMap(({ cycle, landings }) => landings.map((landing) => landingLine(cycle, landing)));
  if (!document) return lines;
  const parts = partsOf(document.words);
  const comments = frames.flatMap(({ landings }) => landings.map((landing) => landingComment(document, parts, landing)));
  const width = lines.reduce((most, line) => Math.max(most, line.length), 0);
  return lines.map((line, at) => `${line.padEnd(width)}  # ${comments[at]}`);
}

function landingComment(document, parts, landing) {
  const number = circuitOfLanding(parts, landing);
  const name = number === null ? 'no circuit' : cut(document.circuitNames[number], MOST_NAME);
  return `${name}, ${KIND_NAMES[landing.kind]}`;
}

// All that is printed for a run: the header and the lines, or the one line of a refusal.
export function listingText({ refused, frames }, document = null) {
  if (refused) return `refused ${refused.number}\n`;
  return [LISTING_HEADER, ...landingLines(frames, document)].join('\n') + '\n';
}
