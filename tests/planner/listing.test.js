// Listings against the proved program landings, byte by byte, and the circuit that each landing is of.
import test from 'node:test';
import assert from 'node:assert/strict';
import { spawnSync } from 'node:child_process';
import { existsSync, readFileSync } from 'node:fs';
import { fileURLToPath } from 'node:url';
import { openProved } from '../../planner/command/proved.js';
import { wordBytes } from '../../planner/lib/certificate.js';
import { documentOfRows, documentOfText, documentOfWords } from '../../planner/lib/document.js';
import { circuitOfLanding } from '../../planner/lib/landings.js';
import { landingLines, landingsOf, listingText } from '../../planner/lib/listing.js';
import { partsOf } from '../../planner/lib/sheet.js';
import { random } from './random.js';
import { sheetParts } from './sheets.js';

const calls = await openProved();
const program = fileURLToPath(new URL('../../target/bin/landings', import.meta.url));
const example = (name) => readFileSync(new URL(`../../examples/${name}`, import.meta.url), 'utf8');
const printed = (document, cycles) => listingText(landingsOf(calls, document, cycles));

// What the program prints for a document whose acts are starts before cycle 0.
function byProgram(document, cycles) {
  assert.ok(existsSync(program), 'target/bin/landings is not built: examples/landings builds it');
  const parts = partsOf(document.words) ?? { columns: 0, rows: 0, memory: 0 };
  const memory = new Array(parts.columns * parts.rows * parts.memory).fill(0);
  const plan = document.plan ?? { memory: [], acts: [] };
  for (const { node, address, words } of plan.memory) words.forEach((word, at) => (memory[node * parts.memory + address + at] = word));
  const starts = plan.acts.map(({ circuit, read, write, count, kind }) => [document.numberOf(circuit), read, write, count, kind]);
  const input = [document.words.length, ...document.words, ...memory, starts.length, ...starts.flat(), cycles];
  const { stdout, status } = spawnSync(program, { input: wordBytes(input), encoding: 'utf8' });
  assert.notEqual(status, null);
  return stdout;
}

// A plan with memory and starts, some of which are refused.
function planWithStarts(seeded) {
  const parts = sheetParts(seeded, (words) => calls.verdict(words) === 0, { circuits: 12, modes: 2, slots: 40, memory: 64, region: 8 });
  const rows = [['network', parts.columns, parts.rows, parts.memory]];
  parts.circuits.forEach(({ words }, number) => rows.push(['circuit', `c${number}`, ...words]));
  parts.schedules.forEach(({ period, entries }, mode) => {
    rows.push(['mode', `m${mode}`, period]);
    for (const { words } of entries) rows.push(['slot', `m${mode}`, `c${words[2]}`, words[0], words[1], words[3]]);
  });
  for (let node = 0; node < parts.columns * parts.rows; node++) {
    const words = Array.from({ length: parts.memory }, () => (seeded.chance(0.2) ? seeded.word() : seeded.below(1000)));
    rows.push(['memory', node, 0, ...words]);
  }
  parts.circuits.forEach(({ words: [, , read, readLength, receive, receiveLength] }, number) => {
    const most = Math.min(readLength, receiveLength) + (seeded.chance(0.03) ? 1 : 0);
    const kind = seeded.chance(0.2) ? 2 : 0;
    for (let times = seeded.chance(0.02) ? 2 : 1; times > 0; times--) {
      const count = kind === 2 && !seeded.chance(0.05) ? 1 : seeded.between(1, most);
      rows.push(['at', 0, 'start', `c${number}`, read, receive, count, kind]);
    }
  });
  return documentOfRows('generated.csv', rows.map((row) => row.map(String)));
}

test("the key's example", () => {
  const document = documentOfText('key.csv', example('key.csv'));
  assert.equal(printed(document, 20), example('key.listing'));
  for (const cycles of [0, 1, 7, 8, 16, 17, 20, 200]) assert.equal(printed(document, cycles), byProgram(document, cycles));
});

test('generated sheets print what the program prints, refused starts as well', () => {
  const seeded = random(20);
  let refused = 0;
  let several = 0;
  for (let made = 0; made < 120; made++) {
    const document = planWithStarts(seeded);
    assert.deepEqual(document.problems, []);
    const cycles = seeded.choose([0, 5, 40, 90, 90]);
    const text = printed(document, cycles);
    assert.equal(text, byProgram(document, cycles));
    if (/^refused 1[67]\n$/.test(text)) refused++;
    if (new Set(text.split('\n').slice(1, -1).map((line) => line.split(' ')[1])).size > 2) several++;
  }
  assert.ok(refused >= 10 && several >= 30, `${refused} refused, ${several} with landings at several nodes`);
});

test('refused sheets print the one line of their number', () => {
  for (const name of ['d', 'f', 'g', 'i', 'l']) {
    const document = documentOfWords(`${name}.sheet`, example(`${name}.sheet`));
    assert.equal(printed(document, 20), byProgram(document, 20));
    assert.match(printed(document, 20), /^refused [0-9]+\n$/);
  }
});

test('no words are an idle network: its cycles are carried out, and nothing lands', () => {
  for (const document of [documentOfWords('b.sheet', example('b.sheet')), documentOfText('idle.csv', example('idle.csv'))]) {
    for (const cycles of [0, 9, 200]) {
      assert.equal(printed(document, cycles), byProgram(document, cycles));
      assert.equal(printed(document, cycles), 'cycle node address word kind\n');
    }
  }
  assert.equal(printed(documentOfText('idle.csv', example('idle.csv') + 'at;4;order;idle;3\nat;40;store;3;0;7\n'), 60), 'cycle node address word kind\n');
});

test('a call refused in a later cycle leaves only its line', () => {
  const late = example('key.csv') + 'at;3;start;first;0;0;1;data\n';
  assert.equal(printed(documentOfText('key.csv', late), 3), 'cycle node address word kind\n');
  assert.equal(printed(documentOfText('key.csv', late), 4), 'refused 17\n');
});

test('names: the circuit of each landing, and its kind', () => {
  const document = documentOfText('cable-car.csv', example('cable-car.csv'));
  const { frames } = landingsOf(calls, document, 120);
  const lines = landingLines(frames, document);
  assert.equal(lines[0], '7 0 0 100 0    # speed, data');
  assert.equal(lines[lines.length - 1], '110 3 0 300 2  # brake, interrupt');
  assert.deepEqual(lines.map((line) => line.split('#')[0].trim()), landingLines(frames));
  // Words of 100, 200 and 300 are those of speed, cabin and brake.
  const nameOf = (line) => ['', 'speed', 'cabin', 'brake'][Math.floor(Number(line.split(' ')[3]) / 100)];
  for (const line of lines) assert.ok(line.includes(`# ${nameOf(line)},`), line);
  const parts = partsOf(document.words);
  assert.equal(circuitOfLanding(parts, { node: 0, address: 12 }), null);
  assert.equal(circuitOfLanding(parts, { node: 1, address: 0 }), null);
});
