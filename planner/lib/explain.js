// Why a sheet is refused, down to the cell: the smallest part that is refused by the same number, told in a planner's words.
import { explainCircuit, explainOrder } from './explain_circuits.js';
import { explainClash } from './explain_clash.js';
import { explainDivision, explainHead, explainShort } from './explain_head.js';
import { explainRegions } from './explain_regions.js';
import { explainEnd, explainRoute } from './explain_routes.js';
import { explainUnserved } from './explain_served.js';
import { explainRanges, explainSlotOrder } from './explain_slots.js';
import { PERIOD_LIMITS } from './limits.js';
import { RULES, triedLine } from './rules.js';
import { UNSERVED_NUMBER } from './served.js';
import { partsOf } from './sheet.js';
import { shrink, withCircuits, withEntries, wordsOfSome } from './shrink.js';
import { changedWords, put } from './trials.js';

const EXPLANATIONS = {
  1: explainShort,
  2: explainHead,
  3: explainDivision,
  4: explainCircuit,
  5: explainOrder,
  6: explainRegions,
  7: explainRanges,
  8: explainSlotOrder,
  9: explainRoute,
  10: explainEnd,
  11: explainClash,
  [UNSERVED_NUMBER]: explainUnserved,
};
const NUMBERS_OF_CIRCUITS = [4, 5, 6, UNSERVED_NUMBER];
const NUMBERS_OF_SLOTS = [7, 8, 9, 10, 11];

// The explanation of a document's refusal; null where its sheet passes, and where it has none. `verdict` is the proved checker.
export function explain(document, verdict) {
  if (!document.words) return null;
  const found = shrink(document.words, verdict);
  if (found.number === 0) return null;
  const { marks, lines, help } = EXPLANATIONS[found.number]({ document, verdict, found });
  const more = isElsewhere(document, verdict, found) ? ['This is not the only place: other cells break this rule as well.'] : [];
  return { ...found, title: RULES[found.number].title, marks, lines: [...lines, ...more], help: onceEach(help) };
}

// Each change once, with its first text.
function onceEach(help) {
  const keys = help.map(({ change }) => JSON.stringify(change));
  return help.filter((_, at) => keys.indexOf(keys[at]) === at);
}

// Whether the sheet gets the same number without one of the parts that were found; every other fault lacks one of them.
function isElsewhere(document, verdict, found) {
  const { number } = found;
  const ofCircuits = NUMBERS_OF_CIRCUITS.includes(number);
  if (!ofCircuits && !NUMBERS_OF_SLOTS.includes(number)) return false;
  const parts = partsOf(document.words);
  const count = parts.circuits.length;
  if (ofCircuits) {
    const without = (gone) => withCircuits(parts, parts.circuits.filter((circuit) => circuit.number !== gone.number), count);
    return found.circuits.some((circuit) => verdict(wordsOfSome(without(circuit), count)) === number);
  }
  if (found.entries.length === 0) {
    return verdict(changedWords(document.words, put(found.schedules[0].at, PERIOD_LIMITS[1]))) === number;
  }
  return found.entries.some((gone) => {
    const entries = parts.schedules[gone.schedule].entries.filter((entry) => entry.number !== gone.number);
    return verdict(wordsOfSome(withEntries(parts, gone.schedule, entries), count)) === number;
  });
}

// What would help against a refusal by the number `before`, with what the checker says then, as one line.
export const helpLine = (help, before = null) => triedLine(help, before, 'the sheet passes');
