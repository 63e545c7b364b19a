// SHA-256 (FIPS 180-4) of bytes: a page that is opened from a file may not have the browser's own.

const BLOCK_BYTES = 64;
const PRIMES = primes(64);
const ROUND = PRIMES.map((prime) => fraction(prime, 3n));
const BEGIN = PRIMES.slice(0, 8).map((prime) => fraction(prime, 2n));

function primes(count) {
  const found = [];
  for (let number = 2; found.length < count; number++) if (found.every((prime) => number % prime !== 0)) found.push(number);
  return found;
}

// The first 32 bits behind the point of a root, found bit by bit: whole numbers do not depend on a browser's rounding.
function fraction(prime, degree) {
  const power = BigInt(prime) << (32n * degree);
  let root = 0n;
  for (let bit = 1n << 37n; bit > 0n; bit >>= 1n) if ((root | bit) ** degree <= power) root |= bit;
  return Number(root & 0xffffffffn);
}

const turned = (word, by) => (word >>> by) | (word << (32 - by));

// The message in whole blocks: a bit 1 behind it, zeros, and its length in bits.
function padded(bytes) {
  const blocks = Math.ceil((bytes.length + 9) / BLOCK_BYTES);
  const message = new Uint8Array(blocks * BLOCK_BYTES);
  message.set(bytes);
  message[bytes.length] = 0x80;
  const view = new DataView(message.buffer);
  view.setUint32(message.length - 8, Math.floor(bytes.length / 2 ** 29));
  view.setUint32(message.length - 4, (bytes.length * 8) >>> 0);
  return view;
}

function spread(view, at, words) {
  for (let i = 0; i < 16; i++) words[i] = view.getUint32(at + 4 * i);
  for (let i = 16; i < 64; i++) {
    const [near, far] = [words[i - 2], words[i - 15]];
    const nearSum = turned(near, 17) ^ turned(near, 19) ^ (near >>> 10);
    const farSum = turned(far, 7) ^ turned(far, 18) ^ (far >>> 3);
    words[i] = words[i - 16] + farSum + words[i - 7] + nearSum;
  }
}

function compress(state, words) {
  let [a, b, c, d, e, f, g, h] = state;
  for (let i = 0; i < 64; i++) {
    const choice = (e & f) ^ (~e & g);
    const majority = (a & b) ^ (a & c) ^ (b & c);
    const first = (h + (turned(e, 6) ^ turned(e, 11) ^ turned(e, 25)) + choice + ROUND[i] + words[i]) | 0;
    const second = ((turned(a, 2) ^ turned(a, 13) ^ turned(a, 22)) + majority) | 0;
    [h, g, f, e, d, c, b, a] = [g, f, e, (d + first) | 0, c, b, a, (first + second) | 0];
  }
  [a, b, c, d, e, f, g, h].forEach((word, i) => (state[i] += word));
}

// The hash of bytes, as 32 bytes.
function sha256Bytes(bytes) {
  const view = padded(bytes);
  const state = Uint32Array.from(BEGIN);
  const words = new Uint32Array(64);
  for (let at = 0; at < view.byteLength; at += BLOCK_BYTES) {
    spread(view, at, words);
    compress(state, words);
  }
  const hash = new DataView(new ArrayBuffer(32));
  state.forEach((word, i) => hash.setUint32(4 * i, word));
  return new Uint8Array(hash.buffer);
}

// The hash of bytes in hexadecimal.
export function sha256(bytes) {
  return Array.from(sha256Bytes(bytes), (byte) => byte.toString(16).padStart(2, '0')).join('');
}

// The hash of bytes in base64, as content policies have it.
export function sha256Base64(bytes) {
  return btoa(String.fromCharCode(...sha256Bytes(bytes)));
}
