// How long words are under way: three cycles in each router, and one more behind each hop north or south where vertical links are long.
import { distance, isVertical, verticalDistance } from './route.js';

export const ROUTER_CYCLES = 3;

// The vertical hops of some steps, each of which costs a cycle more; on a grid without long vertical links they count as none.
export const verticalHopsOf = ({ long }, steps) => (long ? steps.filter(({ side }) => isVertical(side)).length : 0);

// The hops between two nodes, the vertical ones among them as above, and the flight time of a word; all shortest routes have the same.
export function flightBetween({ columns, rows, long }, from, to) {
  const hops = distance(columns, rows, from, to);
  const verticalHops = long ? verticalDistance(columns, rows, from, to) : 0;
  return { hops, verticalHops, flight: ROUTER_CYCLES * (hops + 1) + verticalHops };
}
