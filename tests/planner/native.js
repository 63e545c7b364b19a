// The native archive beside WebAssembly: a program over the archive (native.rs) that is handed requests, and a record of the same requests
// made through the planner's calls.
import { spawnSync } from 'node:child_process';
import { existsSync, mkdirSync, readdirSync, statSync } from 'node:fs';
import { dirname, join } from 'node:path';
import { fileURLToPath } from 'node:url';

const root = join(dirname(fileURLToPath(import.meta.url)), '..', '..');
const archive = join(root, 'target', 'staticlib', 'libexports.a');
const source = join(root, 'tests', 'planner', 'native.rs');
const model = join(root, 'tests', 'second');
const CODES = { load: 3, start: 4, store: 5, fetch: 6, wordsLeft: 7, periodNumber: 8, landedField: 9, order: 10, cycle: 11, startAll: 17, startLists: 18 };
const [VERDICT, ENTRIES, STATE_WORD, MEMORY_WORD, MEMORY_LENGTH, STATE_LENGTH, HOURS] = [1, 2, 12, 13, 14, 15, 16];
// The fields of a timetable's answer, and two that it does not have.
const HOURS_FIELDS = [0, 1, 2, 3, 0xffffffff];

function compile(from, to, words) {
  const { status, stderr, error } = spawnSync('rustc', ['--edition', '2021', '-O', from, ...words, '-o', to], { encoding: 'utf8' });
  if (status !== 0) throw new Error(`${from} does not compile: ${error ?? stderr}`);
}

// The program's path: the environment's, or built where it is missing or older than what it is made of.
function nativeProgram() {
  if (process.env.CALQETUM_NATIVE) return process.env.CALQETUM_NATIVE;
  const program = join(root, 'target', 'tests', 'planner_native');
  if (!existsSync(archive)) throw new Error('target/staticlib/libexports.a is missing: planner/build builds it');
  const age = (path) => statSync(path).mtimeMs;
  const parts = [archive, source, join(root, 'tests', 'exports.rs'), ...readdirSync(model).map((name) => join(model, name))];
  if (existsSync(program) && parts.every((part) => age(part) < age(program))) return program;
  mkdirSync(dirname(program), { recursive: true });
  const second = join(dirname(program), 'libsecond.rlib');
  compile(join(model, 'lib.rs'), second, ['--crate-name', 'second', '--crate-type', 'rlib']);
  compile(source, program, ['-L', dirname(archive), '-l', 'static=exports', '--extern', `second=${second}`]);
  return program;
}

// A list of words that grows.
function wordList() {
  let words = new Uint32Array(1 << 16);
  let length = 0;
  return {
    put(list) {
      if (length + list.length > words.length) {
        const larger = new Uint32Array(2 * (length + list.length));
        larger.set(words);
        words = larger;
      }
      words.set(list, length);
      length += list.length;
    },
    length: () => length,
    all: () => words.subarray(0, length),
  };
}

// Two hashes of 32 bits over lent words, as native.rs has them.
function hashOf(...slices) {
  let [first, second] = [0x811c9dc5, 0x9e3779b9];
  for (const words of slices) {
    for (let at = 0; at < words.length; at++) {
      first = Math.imul(first ^ words[at], 0x01000193);
      second = Math.imul((second ^ (second >>> 15)) + words[at], 0x85ebca6b);
    }
  }
  return [first >>> 0, second >>> 0];
}

// The slices that a call is lent beside state and memory, in the order in which a request has them.
const slicesOf = {
  load: (slices) => slices,
  startAll: ([transfers, answers]) => [transfers.flat(), answers],
  startLists: ([lists, answers]) => [...lists, answers],
};

// A record: every request is made through the calls and written down with its reply.
export function recordOf(calls) {
  const [requests, replies] = [wordList(), wordList()];
  // Where each request that is replied to begins, and its reply.
  const [asked, told] = [wordList(), wordList()];
  const note = (request, reply) => {
    asked.put([requests.length()]);
    told.put([replies.length()]);
    requests.put(request);
    replies.put(reply);
  };
  return {
    calls,
    verdict(sheet) {
      const number = calls.verdict(sheet);
      note([VERDICT, sheet.length, ...sheet], [number]);
      return number;
    },
    entries(sheet, schedule) {
      const { number, place, count } = calls.entries(sheet, schedule);
      note([ENTRIES, sheet.length, ...sheet, schedule], [number, place, number, count, number, 0]);
      return number;
    },
    hours(list, minute) {
      const fields = HOURS_FIELDS.map((field) => calls.hoursField(list, minute, field));
      note([HOURS, list.length, ...list, minute], fields.flatMap(({ number, value }) => [number, value]));
      return { number: fields[0].number, schedule: fields[0].value, changes: fields[1].value === 1, minute: fields[2].value };
    },
    call(name, ...list) {
      const answer = calls[name](...list);
      const { number, value = 0, answers = [] } = typeof answer === 'number' ? { number: answer } : answer;
      const slices = slicesOf[name]?.(list);
      const words = slices ? slices.flatMap((slice) => [slice.length, ...slice]) : list;
      note([CODES[name], ...words], [number, value, ...answers, ...hashOf(calls.lentState(), calls.lentMemory())]);
      return { number, value, answers };
    },
    pokeState(at, word) {
      calls.lentState()[at] = word;
      requests.put([STATE_WORD, at, word]);
    },
    pokeMemory(at, word) {
      calls.lentMemory()[at] = word;
      requests.put([MEMORY_WORD, at, word]);
    },
    lendMemory(length) {
      calls.lendMemory(length);
      requests.put([MEMORY_LENGTH, length]);
    },
    lendState(length) {
      calls.lendState(length);
      requests.put([STATE_LENGTH, length]);
    },
    // Hands the requests to the native program; null where every reply is the same, else the first request that has another.
    difference: () => differenceOf(requests.all(), replies.all(), asked.all(), told.all()),
  };
}

function differenceOf(requests, replies, asked, told) {
  const input = Buffer.from(requests.buffer, 0, requests.length * 4);
  const { status, stdout, stderr, error } = spawnSync(nativeProgram(), { input, maxBuffer: 1 << 28 });
  if (status !== 0) throw new Error(`the native program ended with status ${status}: ${error ?? stderr}`);
  const native = new Uint32Array(stdout.buffer.slice(stdout.byteOffset, stdout.byteOffset + stdout.length));
  const most = Math.max(native.length, replies.length);
  let at = 0;
  while (at < most && native[at] === replies[at]) at++;
  if (at === most) return null;
  const number = told.findLastIndex((place) => place <= at);
  const request = requests.subarray(asked[number], asked[number + 1] ?? requests.length);
  const reply = (words) => [...words.subarray(told[number], told[number + 1] ?? most)].join(' ');
  return `request ${number}: ${request.subarray(0, 60).join(' ')}: the archive replies ${reply(native)}, WebAssembly ${reply(replies)}`;
}
