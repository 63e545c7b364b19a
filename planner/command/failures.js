// Why a command stops with status 2: it was used wrongly, or something could not be read or written.

export function wrongUse(message) {
  return Object.assign(new Error(message), { expected: true, use: true });
}

export function failedBecause(message) {
  return Object.assign(new Error(message), { expected: true, use: false });
}
