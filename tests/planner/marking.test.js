// Marking: right, wrong, missing and surplus lines, what is forgiven, keys of several sheets, and papers changed at random.
import test from 'node:test';
import assert from 'node:assert/strict';
import { readFileSync } from 'node:fs';
import { openProved } from '../../planner/command/proved.js';
import { documentOfText } from '../../planner/lib/document.js';
import { landingsOf, listingText } from '../../planner/lib/listing.js';
import { countsLine, keyOf, markLine, markPaper } from '../../planner/lib/marking.js';
import { SHEET_NUMBERS } from '../../planner/lib/rules.js';
import { random } from './random.js';
import { leastMilliseconds } from './time.js';

const calls = await openProved();
const example = (name) => readFileSync(new URL(`../../examples/${name}`, import.meta.url), 'utf8');
const documentNamed = (name) => documentOfText(name, example(name));
const keyNamed = (name, cycles = null) => keyOf(calls, documentNamed(name), name, cycles);
const counts = ({ right, wrong, missing, surplus, total }) => [right, wrong, missing, surplus, total];
const linesOf = (result, several = false) => result.lines.map((line) => markLine(line, several));
const key = keyNamed('key.csv', 20);
const paper = 'passes\n' + example('key.listing');

test('a right paper, in any order and with all that is forgiven', () => {
  const right = [4, 0, 0, 0, 4];
  assert.deepEqual(counts(markPaper([key], paper, true)), right);
  assert.deepEqual(counts(markPaper([key], paper.split('\n').reverse().join('\n'), true)), right);
  assert.deepEqual(counts(markPaper([key], '\ufeff' + paper.toUpperCase().replaceAll('\n', '\r\n').replaceAll(' ', ' \t '), true)), right);
  assert.deepEqual(counts(markPaper([key], '# mine\n\nkey.csv: passes\n\n7 1 0 11 0 # the first\n08 1 1 22 0\n16 1 2 33 0', true)), right);
  assert.deepEqual(counts(markPaper([key], 'KEY: Passes.\r7 1 0 11 0\r8 1 1 22 0\r16 1 2 33 0\r', true)), right);
  assert.deepEqual(counts(markPaper([key], 'my plan.csv: passes\n7 1 0 11 0\n8 1 1 22 0\n16 1 2 33 0', true)), right);
});

test('each mark, as it is printed', () => {
  const result = markPaper([key], 'passes\n9 1 0 1 0\n7 1 0 11 0\n8 1 1 23 0\nI guess\n8 1 1 24 0\n', true);
  assert.deepEqual(linesOf(result), [
    'right    passes',
    'right    7 1 0 11 0',
    'wrong    8 1 1 23 0   (the paper has 2 different answers; the key has 8 1 1 22 0)',
    'missing  16 1 2 33 0',
    'surplus  9 1 0 1 0',
    'surplus  I guess   (a line that cannot be read)',
    'surplus  8 1 1 24 0   (a further line for this cycle and node)',
  ]);
  assert.equal(countsLine('paper.txt', result), 'paper.txt: 2 right, 1 wrong, 1 missing, 3 surplus of 4');
});

test('different answers to one line are wrong, whichever comes first; a repeated one is right', () => {
  for (const [first, second] of [['7 1 0 11 0', '7 1 0 12 0'], ['7 1 0 12 0', '7 1 0 11 0']]) {
    const result = markPaper([key], paper.replace('7 1 0 11 0', `${first}\n${second}`), true);
    assert.deepEqual(counts(result), [3, 1, 0, 1, 4]);
    assert.equal(linesOf(result)[1], `wrong    ${first}   (the paper has 2 different answers; the key has 7 1 0 11 0)`);
    assert.equal(linesOf(result)[4], `surplus  ${second}   (a further line for this cycle and node)`);
  }
  assert.deepEqual(counts(markPaper([key], paper.replace('7 1 0 11 0', '7 1 0 11 0\n07 1 0 011 0'), true)), [4, 0, 0, 1, 4]);
  const twice = markPaper([keyNamed('key.csv')], 'passes\nPasses.');
  assert.deepEqual(linesOf(twice), ['right    passes', 'surplus  Passes.   (a further verdict)']);
});

test('a paper that gives every verdict has given none', () => {
  const verdicts = ['passes', ...SHEET_NUMBERS.map((number) => `refused ${number}`)];
  for (const name of ['key.csv', 'cable-car-late.csv']) {
    for (const cycles of [null, 20]) {
      const one = { ...keyNamed(name, cycles), landings: null };
      const result = markPaper([one], verdicts.join('\n'), cycles !== null);
      assert.deepEqual(counts(result), [0, 1, 0, 12, 1]);
      const right = name === 'key.csv' ? 'passes' : 'refused 10';
      assert.equal(linesOf(result)[0], `wrong    passes   (the paper has 13 different answers; the key has ${right})`);
      const named = verdicts.map((verdict) => `${name}: ${verdict}`).join('\n');
      assert.deepEqual(counts(markPaper([one], named, cycles !== null)), [0, 1, 0, 12, 1]);
    }
  }
});

test('a key of one sheet takes one name of the candidate, and never two', () => {
  const late = keyNamed('cable-car-late.csv');
  assert.deepEqual(counts(markPaper([late], 'c.csv: refused 10')), [1, 0, 0, 0, 1]);
  assert.deepEqual(counts(markPaper([late], 'mine:\nrefused 10\nMINE: refused 10')), [1, 0, 0, 1, 1]);
  // Headings in the candidate's own words are none of these names.
  assert.deepEqual(counts(markPaper([key], `Verdict:\npasses\nListing:\n${paper.replace('passes\n', '')}`, true)), [4, 0, 0, 0, 4]);
  assert.deepEqual(linesOf(markPaper([late], 'b.csv: passes\nc.csv: refused 10')), [
    'missing  refused 10',
    'surplus  b.csv: passes   (the key has no sheet of this name)',
    'surplus  c.csv: refused 10   (the key has no sheet of this name)',
  ]);
  assert.deepEqual(counts(markPaper([late], 'b.csv:\nrefused 10\nc.csv:\nrefused 10')), [0, 0, 1, 4, 1]);
  assert.deepEqual(counts(markPaper([late], 'refused 10\nb.csv: passes\nc.csv: refused 11')), [1, 0, 0, 2, 1]);
  assert.deepEqual(counts(markPaper([late], 'b.csv: passes\ncable-car-late.csv: refused 10')), [1, 0, 0, 1, 1]);
});

test('names with # in them, and names that differ in capitals alone', () => {
  const named = (...names) => names.map((name) => ({ ...keyNamed('key.csv'), name }));
  for (const name of ['sheet#1.csv', 'sheet #1.csv', '#1.csv', '# 1.csv']) {
    const keys = named(name, 'other.csv');
    for (const line of [`${name}: passes`, `exams/${name}: passes`, `${name}:\npasses`]) {
      assert.deepEqual(counts(markPaper(keys, line)), [1, 0, 1, 0, 2], line);
    }
  }
  assert.deepEqual(counts(markPaper(named('a.csv', 'b.csv'), '# a.csv: passes\n# see exams/b.csv: passes')), [0, 0, 2, 0, 2]);
  assert.deepEqual(counts(markPaper([key], paper.replace('7 1 0 11 0', '7 1 0 11 0  # sheet#1, data'), true)), [4, 0, 0, 0, 4]);
  assert.deepEqual(counts(markPaper([key], paper.replace('7 1 0 11 0', '7 1 0 11 0#1'), true)), [3, 0, 1, 1, 4]);
  const twins = [{ ...keyNamed('key.csv'), name: 'A.csv' }, { ...keyNamed('cable-car-late.csv'), name: 'a.csv' }];
  assert.deepEqual(counts(markPaper(twins, 'A.csv: passes\na.csv: refused 10')), [2, 0, 0, 0, 2]);
  assert.deepEqual(counts(markPaper(twins, 'A: passes\na: refused 10')), [2, 0, 0, 0, 2]);
  assert.deepEqual(counts(markPaper(twins, 'A.CSV: passes')), [0, 0, 2, 1, 2]);
  assert.deepEqual(counts(markPaper(named('Plan.csv', 'b.csv'), 'PLAN.CSV: passes')), [1, 0, 1, 0, 2]);
});

test('a paper that names the sheet of the key has other sheets beside it', () => {
  const names = 'other.csv: refused 4\nkey.csv: passes\nother.csv:\n9 1 0 1 0\nkey:\n7 1 0 11 0\n8 1 1 22 0\n16 1 2 33 0\n';
  const result = markPaper([key], names, true);
  assert.deepEqual(counts(result), [4, 0, 0, 3, 4]);
  assert.equal(linesOf(result)[4], 'surplus  other.csv: refused 4   (the key has no sheet of this name)');
});

test('another address, word or kind is wrong; another cycle or node is surplus, and its line missing', () => {
  const marked = (line) => markPaper([key], paper.replace('7 1 0 11 0', line), true);
  for (const line of ['7 1 1 11 0', '7 1 0 12 0', '7 1 0 11 2']) assert.deepEqual(counts(marked(line)), [3, 1, 0, 0, 4]);
  for (const line of ['6 1 0 11 0', '7 2 0 11 0']) assert.deepEqual(counts(marked(line)), [3, 0, 1, 1, 4]);
  for (const line of ['7 1 0 11', '7 1 0 11 0 0', '7 1 0 -11 0', '7 1 0 4294967296 0', '7,1,0,11,0']) {
    const result = marked(line);
    assert.deepEqual(counts(result), [3, 0, 1, 1, 4]);
    assert.match(linesOf(result)[4], /cannot be read/);
  }
});

test('verdicts', () => {
  const late = keyNamed('cable-car-late.csv');
  assert.deepEqual(counts(markPaper([late], 'refused 10')), [1, 0, 0, 0, 1]);
  assert.deepEqual(linesOf(markPaper([late], 'refused 11')), ['wrong    refused 11   (the key has refused 10)']);
  assert.deepEqual(linesOf(markPaper([late], 'passes')), ['wrong    passes   (the key has refused 10)']);
  assert.deepEqual(linesOf(markPaper([late], '')), ['missing  refused 10']);
  assert.deepEqual(counts(markPaper([late], 'refused 10\nrefused 10')), [1, 0, 0, 1, 1]);
  assert.deepEqual(counts(markPaper([late], 'refused\nrefused x\npasses not')), [0, 0, 1, 3, 1]);
  assert.deepEqual(counts(markPaper([keyNamed('key.csv')], 'refused 0')), [0, 0, 1, 1, 1]);
  assert.deepEqual(counts(markPaper([keyNamed('key.csv')], paper)), [1, 0, 0, 3, 1]);
});

test('a refused key: the listing is the line of the verdict, which may stand twice', () => {
  const late = keyNamed('cable-car-late.csv', 20);
  assert.deepEqual(counts(markPaper([late], 'refused 10', true)), [1, 0, 0, 0, 1]);
  assert.deepEqual(counts(markPaper([late], 'refused 10\nrefused 10', true)), [1, 0, 0, 0, 1]);
  assert.deepEqual(counts(markPaper([late], 'refused 10\nrefused 10\nrefused 10\n7 1 0 11 0', true)), [1, 0, 0, 2, 1]);
});

test('a circuit without a slot: 26 is a verdict, with a listing and without, and no refused call', () => {
  const text = example('cable-car.csv').replace(/^slot;.*;brake;.*$/gm, '#');
  for (const cycles of [null, 20]) {
    const unserved = keyOf(calls, documentOfText('plan.csv', text), 'plan.csv', cycles);
    assert.deepEqual([unserved.verdict, unserved.refusal, unserved.landings], [26, null, null]);
    const marked = (paper) => linesOf(markPaper([unserved], paper, cycles !== null));
    assert.deepEqual(marked('refused 26'), ['right    refused 26']);
    assert.deepEqual(marked('passes'), ['wrong    passes   (the key has refused 26)']);
    assert.deepEqual(marked('refused 11'), ['wrong    refused 11   (the key has refused 26)']);
  }
  // Of a key that passes it is the wrong verdict.
  assert.deepEqual(linesOf(markPaper([key], 'refused 26', true))[0], 'wrong    refused 26   (the key has passes)');
});

test('a key whose start is refused: the verdict and the line of the refusal', () => {
  const text = example('key.csv') + 'at;0;start;first;0;0;1;data\n';
  const busy = keyOf(calls, documentOfText('key.csv', text), 'key.csv', 20);
  assert.deepEqual([busy.verdict, busy.refusal, busy.landings], [0, 17, null]);
  assert.deepEqual(counts(markPaper([busy], 'passes\nrefused 17', true)), [2, 0, 0, 0, 2]);
  assert.deepEqual(linesOf(markPaper([busy], 'refused 16', true)), ['missing  passes', 'wrong    refused 16   (the key has refused 17)']);
  assert.deepEqual(counts(markPaper([busy], paper, true)), [1, 0, 1, 3, 2]);
  assert.deepEqual(counts(markPaper([busy], 'passes\nrefused 16\nrefused 17', true)), [1, 1, 0, 1, 2]);
  // The other way round: a refused call where the key has none says nothing of the verdict.
  const other = markPaper([{ ...key, landings: [] }], 'passes\nrefused 17', true);
  assert.deepEqual(linesOf(other), ['right    passes', 'surplus  refused 17   (the key has no refused call)']);
});

test('a key of several sheets', () => {
  const keys = ['cable-car-clash.csv', 'cable-car-late.csv', 'key.csv'].map((name) => keyNamed(name, 20));
  const listing = example('key.listing');
  const right = `cable-car-late.csv: refused 10\nCable-Car-Clash: refused 11\nexams/key.csv: passes\nkey.csv:\n${listing}`;
  assert.deepEqual(counts(markPaper(keys, right, true)), [6, 0, 0, 0, 6]);
  assert.deepEqual(counts(markPaper(keys, right.replace('\nkey.csv:\n', '\n# key.csv\n'), true)), [6, 0, 0, 0, 6]);
  assert.deepEqual(counts(markPaper(keys, `# a comment\nkey.csv:\npasses\n${listing}\n`, true)), [4, 0, 2, 0, 6]);
  const stray = markPaper(keys, `passes\nnosuch.csv: passes\nnosuch.csv:\n${listing}`, true);
  assert.deepEqual(counts(stray), [0, 0, 6, 6, 6]);
  assert.deepEqual(linesOf(stray, true).slice(2, 9), [
    'missing  key.csv: passes',
    'missing  key.csv: 7 1 0 11 0',
    'missing  key.csv: 8 1 1 22 0',
    'missing  key.csv: 16 1 2 33 0',
    'surplus  passes   (it names no sheet of the key)',
    'surplus  nosuch.csv: passes   (the key has no sheet of this name)',
    'surplus  nosuch.csv:   (the key has no sheet of this name)',
  ]);
});

test('a name without its ending stands for no sheet where two have it', () => {
  const twins = ['a.csv', 'a.tsv'].map((name) => ({ ...keyNamed('key.csv'), name }));
  assert.deepEqual(counts(markPaper(twins, 'a: passes')), [0, 0, 2, 1, 2]);
  assert.deepEqual(counts(markPaper(twins, 'a.tsv: passes')), [1, 0, 1, 0, 2]);
});

test('papers changed at random get the counts of their changes, whatever the order of lines', () => {
  const seeded = random(7);
  const document = documentNamed('cable-car.csv');
  const whole = keyOf(calls, document, 'cable-car.csv', 120);
  const right = listingText(landingsOf(calls, document, 120)).trim().split('\n').slice(1);
  assert.equal(right.length, whole.landings.length);
  for (let made = 0; made < 300; made++) {
    const wanted = { right: 1, wrong: 0, missing: 0, surplus: 0 };
    const lines = ['passes'];
    for (const line of right) {
      const fields = line.split(' ');
      const what = seeded.choose(['right', 'right', 'wrong', 'missing', 'surplus', 'twice']);
      if (what === 'wrong') fields[seeded.between(2, 4)] += '1';
      if (what === 'surplus') fields[0] = String(Number(fields[0]) + 1000);
      if (what !== 'missing') lines.push(fields.join(' '));
      if (what === 'twice') lines.push(fields.join(' '));
      wanted[what === 'twice' ? 'right' : what]++;
      if (what === 'surplus') wanted.missing++;
      if (what === 'twice') wanted.surplus++;
    }
    const mixed = lines.map((line) => ({ line, place: seeded.word() })).sort((a, b) => a.place - b.place);
    const { right: found, wrong, missing, surplus, total } = markPaper([whole], mixed.map(({ line }) => line).join('\n'), true);
    assert.deepEqual({ right: found, wrong, missing, surplus }, wanted);
    assert.equal(total, right.length + 1);
  }
});

test('4 MB of any lines are marked in 2 seconds', () => {
  const size = 4 * 1024 * 1024;
  const filled = (line) => line.repeat(Math.floor(size / Buffer.byteLength(line)));
  const marks = 'a' + '\u0345'.repeat(120) + '\u0334'.repeat(120);
  const lines = ['\n', 'x\n', 'x:\n', '#\n', '# key\n', 'passes\n', '7 1 0 11 0\n', '7\t1\t0\t11\t0\r\n', `${marks}:passes\n`];
  const long = ['# ', ':', '1 ', ' #', '/', '.', 'a\t', '0'].map(filled);
  const counted = (line) => Array.from({ length: 200000 }, (_, at) => line(at)).join('\n');
  const many = [counted((at) => `${at} 1 0 11 0`), counted((at) => `${at}.csv: passes`), counted((at) => `${at.toString(36)}:`)];
  const marked = ['\u0345'.repeat(size / 4) + '\u0334'.repeat(size / 4) + ':', ...lines.map(filled), ...long, ...many];
  for (const text of marked) {
    const time = leastMilliseconds(() => assert.equal(markPaper([key], text, true).total, 4), 2000);
    assert.ok(time < 2000, `it took ${time} ms: ${JSON.stringify(text.slice(0, 20))}`);
  }
  const keys = Array.from({ length: 1000 }, (_, at) => ({ ...key, name: `${at}.csv` }));
  const time = leastMilliseconds(() => assert.equal(markPaper(keys, many[1], true).right, 1000), 2000);
  assert.ok(time < 2000, `it took ${time} ms: a key of 1,000 sheets`);
});

test('of surplus lines the first 1,000 are listed and all are counted; long or strange lines are cut', () => {
  const result = markPaper([key], 'passes\n' + 'x\n7 1 0 11 0\n'.repeat(5000), true);
  assert.deepEqual(counts(result), [2, 0, 2, 9999, 4]);
  assert.deepEqual([result.lines.length, result.unlisted], [1004, 8999]);
  assert.deepEqual(result.lines.slice(4).map(({ at }) => at), [2, ...Array.from({ length: 999 }, (_, at) => at + 4)]);
  const [line] = linesOf(markPaper([key], '\u001b[31mred\u009b2J' + 'y'.repeat(1000), true)).slice(-1);
  assert.ok(line.length < 150 && !/[\u0000-\u001f\u007f-\u009f]/.test(line), line);
});
