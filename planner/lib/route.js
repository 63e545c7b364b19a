// Routes on the torus, reckoned for display and for reading letters; whether a route is right is the checker's to say.

export const SIDES = ['north', 'east', 'south', 'west'];
export const LETTERS = 'NESW';
export const MOST_LETTERS = 15;
const MOST_HOPS = 8;

export const opposite = (side) => (side + 2) % 4;

export function neighbour(columns, rows, node, side) {
  const column = node % columns;
  const row = Math.floor(node / columns);
  const steps = [[0, rows - 1], [1, 0], [0, 1], [columns - 1, 0]];
  return ((row + steps[side][1]) % rows) * columns + ((column + steps[side][0]) % columns);
}

export const isVertical = (side) => side === 0 || side === 2;

// The shorter way round a ring of nodes.
const ring = (size, a, b) => Math.min((b + size - a) % size, (a + size - b) % size);

// The hops north or south of a shortest way, and all of its hops.
export const verticalDistance = (columns, rows, from, to) => ring(rows, Math.floor(from / columns), Math.floor(to / columns));
export const distance = (columns, rows, from, to) => ring(columns, from % columns, to % columns) + verticalDistance(columns, rows, from, to);

// The route of letters as ES, closed by the code that leads out to the memory. Null where the text is no such letters, or turns straight
// back: at a router the code of that side leads out.
export function routeOfLetters(text) {
  if (!/^[NESWnesw]+$/.test(text)) return null;
  const letters = text.toUpperCase();
  if (!/^[NESW]+$/.test(letters) || letters.length > MOST_LETTERS) return null;
  const codes = [...letters].map((letter) => LETTERS.indexOf(letter));
  if (codes.some((code, at) => at > 0 && code === opposite(codes[at - 1]))) return null;
  codes.push(opposite(codes[codes.length - 1]));
  return codes.reduceRight((route, code) => route * 4 + code, 0);
}

// Where a route leads: each step with the node that it leaves and the side; whether it comes out at a memory, and what is left of its bits.
export function walk(columns, rows, source, route) {
  const steps = [];
  let node = source;
  let entered = -1;
  let rest = route;
  for (let hop = 0; hop <= MOST_HOPS; hop++) {
    const code = rest % 4;
    rest = Math.floor(rest / 4);
    if (code === entered) return { steps, out: node, rest };
    const next = neighbour(columns, rows, node, code);
    steps.push({ from: node, side: code, to: next });
    entered = opposite(code);
    node = next;
  }
  return { steps, out: null, rest };
}

// The letters of a route that a planner would write; null where it does not come out or has bits left, which letters cannot say.
export function lettersOfRoute(route) {
  const way = walk(4, 4, 0, route);
  const letters = way.steps.map((step) => LETTERS[step.side]).join('');
  return way.out !== null && routeOfLetters(letters) === route ? letters : null;
}

// All routes of fewest steps between two nodes, as letters.
export function shortestRoutes(columns, rows, from, to) {
  const steps = distance(columns, rows, from, to);
  if (steps === 0) return [];
  const found = [];
  for (let side = 0; side < 4; side++) {
    const next = neighbour(columns, rows, from, side);
    if (distance(columns, rows, next, to) !== steps - 1) continue;
    if (steps === 1) found.push(LETTERS[side]);
    else for (const rest of shortestRoutes(columns, rows, next, to)) found.push(LETTERS[side] + rest);
  }
  return found;
}
