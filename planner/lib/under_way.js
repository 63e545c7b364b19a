// What is still under way of a circuit's last transfer, told by the proved calls: the session goes on, the start that was refused is tried
// again before each cycle, and then every lent word is put back as it was.
import { flightBetween } from './flight.js';
import { circuitOfLanding, landingsNow } from './landings.js';
import { partsOf } from './sheet.js';

// Of a start that was refused with number 17 though its circuit has no words left to send: how many of its words are still to land, and the
// first cycle in which the start is taken. No row that is still to come changes when words land that have left. Null where the calls tell
// nothing of it.
export function underWay(calls, words, { arguments: transfer, cycle }) {
  const parts = partsOf(words);
  const [source, destination] = parts.circuits[transfer[0]].words;
  const { flight } = flightBetween(parts, source, destination);
  const isOwn = (landing) => circuitOfLanding(parts, landing) === transfer[0];
  return calls.asIf(() => {
    let count = 0;
    for (let later = cycle + 1; later <= cycle + flight; later++) {
      if (calls.cycle() !== 0) return null;
      count += landingsNow(calls, parts.columns * parts.rows).filter(isOwn).length;
      if (calls.start(...transfer) === 0) return { count, cycle: later };
    }
    return null;
  });
}
