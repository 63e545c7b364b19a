// The command run: the listing of what lands, as the program landings prints it.
import { explain } from '../lib/explain.js';
import { circuitOfLanding } from '../lib/landings.js';
import { KIND_NAMES, landingsOf, listingText, MOST_CYCLES } from '../lib/listing.js';
import { callLine } from '../lib/rules.js';
import { partsOf } from '../lib/sheet.js';
import { holdCount, numberOption } from './arguments.js';
import { wrongUse } from './failures.js';
import { readableSheet } from './files.js';
import { print, printJson, say, teller } from './output.js';
import { shownPath } from './paths.js';
import { openProved } from './proved.js';
import { sayRefusal } from './refusal.js';

export async function run(paths, options) {
  holdCount(paths, 1, 1, 'one FILE');
  const cycles = numberOption(options, '--cycles', 0, MOST_CYCLES);
  if (cycles === null) throw wrongUse('--cycles N is wanted: how many cycles to run');
  const sheet = readableSheet(paths[0], options);
  if (!sheet) return 2;
  const calls = await openProved();
  const { told, done } = teller('cycle', cycles);
  const found = landingsOf(calls, sheet.document, cycles, told);
  done();
  if (options['--json']) printJson({ file: sheet.path, cycles, ...runData(sheet.document, found, calls) });
  else {
    print(listingText(found, options['--names'] ? sheet.document : null).slice(0, -1));
    if (found.refused) sayWhy(sheet, found.refused, calls);
  }
  return found.refused ? 1 : 0;
}

// Why a run is refused: by the sheet, or by a call of a row.
export function sayWhy(sheet, refused, calls) {
  if (refused.what === 'sheet') sayRefusal(sheet.path, sheet.document, calls);
  else say(`${shownPath(sheet.path)}: refused with number ${refused.number}: ${callLine(sheet.document, refused, calls)}`);
}

function runData(document, { refused, frames }, calls) {
  if (refused) {
    const why = refused.what === 'sheet' ? explain(document, calls.verdict).lines : [callLine(document, refused, calls)];
    return { answer: 'refused', number: refused.number, why, landings: [] };
  }
  const parts = partsOf(document.words);
  const landings = frames.flatMap(({ cycle, landings: landed }) => landed.map((landing) => {
    const circuit = document.circuitNames[circuitOfLanding(parts, landing)] ?? null;
    return { cycle, ...landing, circuit, kindName: KIND_NAMES[landing.kind] };
  }));
  return { answer: 'carried out', number: 0, why: [], landings };
}
