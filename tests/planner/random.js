// A generator of random numbers from a seed (mulberry32), so that a failing test can be repeated.

export function random(seed) {
  let state = seed >>> 0;
  // 32 random bits.
  const word = () => {
    state = (state + 0x6d2b79f5) >>> 0;
    let mixed = Math.imul(state ^ (state >>> 15), state | 1);
    mixed ^= mixed + Math.imul(mixed ^ (mixed >>> 7), mixed | 61);
    return (mixed ^ (mixed >>> 14)) >>> 0;
  };
  const below = (n) => Math.floor((word() / 4294967296) * n);
  return {
    word,
    below,
    between: (a, b) => a + below(b - a + 1),
    choose: (list) => list[below(list.length)],
    chance: (p) => word() / 4294967296 < p,
  };
}
