// Landings: what the proved calls say landed in the last cycle, and whose it is.
import { ROWS } from './calls.js';

// What landed in the last cycle, by node. The register is looked at first, since each call tests the whole state.
export function landingsNow(calls, nodes) {
  const found = [];
  for (let node = 0; node < nodes; node++) {
    if (calls.register(ROWS.landingMark, node) === 0) continue;
    const landing = calls.landing(node);
    if (landing) found.push({ node, ...landing });
  }
  return found;
}

// The number of the circuit whose landing it is, by its destination and receive region; null where it is none's.
export function circuitOfLanding(parts, landing) {
  const own = parts.circuits.find(({ words }) => {
    const [, destination, , , offset, length] = words;
    return destination === landing.node && landing.address >= offset && landing.address < offset + length;
  });
  return own ? own.number : null;
}
