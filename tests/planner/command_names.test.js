// The command as a program: names of files that break lines or resemble each other, folders of papers, and what JSON has of all this.
import test from 'node:test';
import assert from 'node:assert/strict';
import { existsSync, mkdirSync, readdirSync, readFileSync, rmSync, symlinkSync } from 'node:fs';
import { COMPARE_PREMISE, PREMISE } from '../../planner/lib/isolation.js';
import { calqetum, example, gives, json, path, text, written } from './command_program.js';

test('a path or a word with a line break gives no line of its own, whatever the command', () => {
  const broken = (name, contents) => written(`${name}.csv: passes\nforged\r\tcar.csv`, contents);
  const [good, late, bad] = [broken('good', text('key.csv')), broken('late', text('cable-car-late.csv')), broken('bad', 'network;x')];
  const busy = written('busy\nforged.csv', text('key.csv') + 'at;3;start;first;0;0;1;data\n');
  const other = written('other\nforged.csv', 'network;2;2;8\ncircuit;other;0;1;0;4;0;4\nmode;only;9\n');
  const paper = written('paper\nforged.txt', 'passes\n');
  mkdirSync(path('papers\nforged/inner'), { recursive: true });
  const uses = [
    ['check', good, late, bad], ['check', `${good}x`], ['explain', bad], ['modes', late], ['modes', good, 'crane\nforged'],
    ['compare', late, good], ['compare', good, other], ['run', busy, '--cycles', '9'], ['run', good, '--cycles', '1\nforged'],
    ['draw', late, '--grid', '-o', '-'], ['draw', good, '-o', '-', '--mode', 'x\nforged'], ['draw', good, '-o', good],
    ['draw', good, '-o', 'no\nforged/x.svg'], ['certificate', late, '-o', 'new\nforged.csv'], ['mark', good, paper, `${paper}x`],
    ['mark', bad, paper], ['mark', good, 'papers\nforged'], ['frob\nforged'], ['check', '--frob\nforged'], ['modes', 'a', 'b', 'c\nforged'],
  ];
  for (const words of uses) {
    const { stdout, stderr } = calqetum(words);
    assert.match(stdout + stderr, /forged/, words.join(' '));
    assert.doesNotMatch(stdout + stderr, /^\s*forged/m, words.join(' '));
  }
  assert.equal(json(['check', good], 0)[0].file, good);
  gives(['check', `${'d/'.repeat(300)}name.csv`], 2, '', /^\.\.[d/]{248}name\.csv: there is no such file\n$/);
});

test('mark: the lines that check prints are right, whatever the names', () => {
  mkdirSync(path('odd'));
  const names = ['sheet#1.csv', 'my #2.csv', '#3.csv', 'a: b.csv', 'A.csv', 'new\nline.csv', 'x\u001by.csv', `${'n'.repeat(251)}.csv`];
  for (const name of names) written(`odd/${name}`, text('key.csv'));
  written('odd/a.csv', text('cable-car-late.csv'));
  const printed = calqetum(['check', ...readdirSync(path('odd')).map((name) => `odd/${name}`)]).stdout;
  assert.match(printed, /^odd\/a\.csv: refused 10$/m);
  gives(['mark', 'odd', written('lines.txt', printed)], 0, /\S*lines\.txt: 9 right, 0 wrong, 0 missing, 0 surplus of 9\n$/);
});

test('mark: verdicts about other sheets, every verdict at once, and more surplus lines than are listed', () => {
  const late = example('cable-car-late.csv');
  written('foreign.txt', 'b.csv: passes\nc.csv: refused 10\n');
  gives(['mark', late, 'foreign.txt'], 0, /\nforeign\.txt: 0 right, 0 wrong, 1 missing, 2 surplus of 1\n$/);
  written('all.txt', ['passes', ...Array.from({ length: 11 }, (_, at) => `refused ${at + 1}`)].join('\n'));
  gives(['mark', late, 'all.txt'], 0, /^wrong {4}passes {3}\(the paper has 12 different answers; the key has refused 10\)\n/);
  written('chatter.txt', 'passes\n' + 'x\n'.repeat(3000));
  const { stdout } = gives(['mark', example('key.csv'), 'chatter.txt'], 0, /^right {4}passes\n/);
  assert.deepEqual(stdout.split('\n').slice(1001), [
    'surplus  .. and 2,000 more lines', 'chatter.txt: 1 right, 0 wrong, 0 missing, 3000 surplus of 1', '',
  ]);
});

test('mark: every folder among papers is named, save for the key and hidden ones', () => {
  for (const name of ['class', 'class/ben', 'class/keys', 'class/.hidden']) mkdirSync(path(name));
  written('class/anna.txt', 'key.csv: passes\n');
  written('class/keys/key.csv', text('key.csv'));
  const found = gives(['mark', 'class/keys', 'class'], 2, /^right {4}passes\n/, /^class\/ben is a folder and is not marked\n$/);
  assert.match(found.stdout, /^class\/anna\.txt +1 +0 +0 +0 +1$/m);
  const both = json(['mark', example('key.csv'), 'class'], 2);
  assert.deepEqual(both.problems, ['class/ben is a folder and is not marked', 'class/keys is a folder and is not marked']);
  rmSync(path('class/ben'), { recursive: true });
  gives(['mark', 'class/keys', 'class'], 0, /./);
  assert.equal(json(['mark', 'class/keys', 'class'], 0).answer, 'marked');
});

test('JSON: unreadable files of compare and papers of mark, and the premises', () => {
  const bad = written('bad.csv', 'network;2;2;x\nmode;m;9\n');
  const [none, good] = [path('none.csv'), example('key.csv')];
  const unreadable = [
    [['compare', bad, none], [`${bad}, D1`, `${none}: there is`]],
    [['mark', good, none, written('right.txt', 'passes\n')], [`${none}: there is`]],
  ];
  for (const [words, problems] of unreadable) {
    const { status, stdout, stderr } = calqetum([...words, '--json']);
    const found = JSON.parse(stdout);
    assert.deepEqual([status, stderr, found.answer, found.problems.length], [2, '', 'unreadable', problems.length]);
    problems.forEach((problem, at) => assert.ok(found.problems[at].startsWith(problem), found.problems[at]));
  }
  const { papers } = json(['mark', good, none, 'right.txt'], 2);
  assert.deepEqual(papers.map(({ answer, right }) => [answer, right]), [['unreadable', undefined], ['marked', 1]]);
  const same = json(['compare', good, good], 0);
  assert.deepEqual([same.answer, same.starts, same.premise], ['passes', null, COMPARE_PREMISE]);
  const modes = json(['modes', good], 0);
  assert.deepEqual([modes.answer, modes.premise], ['passes', PREMISE]);
});

test('draw and certificate: no sheet is a target, and a mode beyond the eighth is drawn by its name', () => {
  const plan = written('mine.csv', text('key.csv'));
  symlinkSync(plan, path('soft.svg'));
  for (const command of ['draw', 'certificate']) {
    gives([command, plan, '-o', 'soft.svg'], 2, '', /is the file that is read/);
    for (const target of ['new.csv', 'new.tsv', 'new.sheet', 'new.Words']) {
      gives([command, plan, '-o', target], 2, '', /is not written/);
      assert.ok(!existsSync(path(target)));
    }
    for (let times = 0; times < 2; times++) gives([command, plan, '-o=again.svg'], 0, '');
    assert.ok(!existsSync(path('=again.svg')));
  }
  assert.equal(readFileSync(plan, 'utf8'), text('key.csv'));
  const bare = written('bare.csv', 'network;2;2;8\ncircuit;a;0;1;0;2;0;2\n');
  for (const more of [['--mode', 'm'], ['--grid']]) gives(['draw', bare, '-o', '-', ...more], 1, '', /nothing is drawn: it has no mode/);
  const modes = Array.from({ length: 12 }, (_, at) => `mode;m${at};9\n`).join('');
  const twelve = written('twelve.csv', `network;2;2;8\n${modes}`);
  assert.match(gives(['draw', twelve, '-o', '-', '--mode', 'm11'], 1, /^<\?xml/, /number 2/).stdout, /Mode m11/);
  gives(['draw', twelve, '-o', '-', '--mode', 'x'], 2, '', /has no mode x; its modes: m0, m1, m2, m3, m4, m5, m6, m7, \.\.\n/);
});
