// Time as tests may bound it: of the processor, not of the clock, since other work may share the machine; the least of twelve tries.

export function leastMilliseconds(work, limit) {
  let least = Infinity;
  for (let tries = 0; tries < 12 && least >= limit; tries++) {
    const before = process.cpuUsage();
    work();
    const { user, system } = process.cpuUsage(before);
    least = Math.min(least, (user + system) / 1000);
  }
  return least;
}
