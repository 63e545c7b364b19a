// The command as a program: page and version, which Node runs it, wrong use, help, hostile names, and output that is closed early.
import test from 'node:test';
import assert from 'node:assert/strict';
import { spawnSync } from 'node:child_process';
import { linkSync, mkdirSync, readFileSync, symlinkSync, writeFileSync } from 'node:fs';
import { join } from 'node:path';
import { pathToFileURL } from 'node:url';
import { about } from '../../planner/command/proved.js';
import { calqetum, example, gives, json, path, program, root, text, written } from './command_program.js';

// A folder with just the programs that the wrapper calls, and a Node where one is given.
function toolsAlone(name, node) {
  mkdirSync(path(name));
  for (const tool of ['readlink', 'dirname']) {
    symlinkSync(spawnSync('sh', ['-c', `command -v ${tool}`], { encoding: 'utf8' }).stdout.trim(), path(`${name}/${tool}`));
  }
  if (node) node(path(`${name}/node`));
  return { PATH: path(name) };
}

test('page and version', () => {
  const place = pathToFileURL(join(root, 'planner', 'calqetum.html')).href;
  const { DISPLAY, WAYLAND_DISPLAY, ...bare } = process.env;
  gives(['page'], 0, `${place}\n`, /^$/, { env: bare });
  // A display, and no program that could open the page.
  const tools = toolsAlone('tools', (node) => symlinkSync(process.execPath, node));
  gives(['page'], 0, `${place}\n`, /^$/, { env: { ...tools, DISPLAY: ':9' } });
  gives(['--version'], 0, `calqetum ${about().version}, calls built with ${about().kit}\n`);
  assert.deepEqual(json(['version'], 0), about());
  assert.deepEqual(json(['page'], 0), { page: place });
});

test('no Node, an old Node, a symbolic link', () => {
  const none = /Node 18 or later is needed, and neither node nor nodejs is in PATH[^]*planner\/setup/;
  gives(['version'], 2, '', none, { env: toolsAlone('none') });
  const old = toolsAlone('old', (node) => writeFileSync(node, '#!/bin/sh\necho v16.20.2\n', { mode: 0o755 }));
  gives(['version'], 2, '', /Node 18 or later is needed, node is v16\.20\.2[^]*planner\/setup/, { env: old });
  symlinkSync(program, path('linked'));
  const linked = spawnSync(path('linked'), ['check', example('key.csv')], { cwd: '/', encoding: 'utf8' });
  assert.deepEqual([linked.status, linked.stdout, linked.stderr], [0, 'passes\n', '']);
});

test('wrong use is told, with status 2 and nothing on standard output', () => {
  const cases = [
    [[], /^usage: calqetum COMMAND/],
    [['frobnicate'], /no command frobnicate; the commands are check, explain/],
    [['check'], /at least one FILE is wanted/],
    [['check', '--frob', 'x'], /no option --frob/],
    [['check', 'x.csv', '--cycles', '3'], /check takes no --cycles/],
    [['run', 'x.csv', '--cycles'], /--cycles needs a value behind it/],
    [['draw', 'x.csv', '-o', '--grid'], /-o needs a value behind it/],
    [['run', 'x.csv', '--cycles', '1', '--cycles', '2'], /--cycles stands twice/],
    [['run', 'x.csv'], /--cycles N is wanted/],
    [['modes', 'a', 'b', 'c'], /c is one name too many/],
    [['draw', 'x.csv'], /-o F\.svg is wanted/],
    [['draw', 'x.csv', '-o', 'y.svg', '--cycles', '9'], /belong to --grid/],
    [['certificate', 'x.csv'], /-o F\.html is wanted/],
  ];
  for (const [words, stderr] of cases) gives(words, 2, '', stderr);
});

test('help for the whole and for each command; -- ends the options', () => {
  gives(['--help'], 0, /^usage: calqetum COMMAND/);
  gives(['run', '-h', 'x'], 0, /^usage: calqetum run FILE --cycles N/);
  gives(['help', 'mark'], 0, /^usage: calqetum mark KEY PAPER\.\./);
  written('-x.csv', text('key.csv'));
  gives(['check', '--', '-x.csv'], 0, 'passes\n');
});

test('hostile names: nothing that a terminal acts on is printed raw', () => {
  const raw = /[\u0000-\u0008\u000b-\u001f\u007f-\u009f\u2028-\u202e\u2066-\u2069]/;
  const names = ['"A" & B', "O'Neil", '<script>alert(1)</script>', '=cmd|calc'];
  const plain = ['speed', 'cabin', 'brake', 'normal'];
  const cell = (name) => `;"${name.replaceAll('"', '""')}"`;
  const plan = names.reduce((rows, name, at) => rows.replaceAll(`;${plain[at]}`, cell(name)), text('cable-car.csv'));
  const file = written('hostile\u001b[31m.csv', plan);
  const uses = [['modes', file], ['run', file, '--cycles', '50', '--names'], ['modes', file, '\u009bx'], ['modes', file, '--json']];
  const unseen = written('unseen.csv', text('cable-car.csv').replaceAll(';speed', ';\u009b31mred').replaceAll(';cabin', ';\u202edesrever'));
  gives(['check', unseen], 2, '', /B4: " 31mred" stands here; wanted: a name for the circuit without characters that cannot be seen/);
  for (const words of [...uses, ['check', unseen], ['check', `${file}\u001b[2J`]]) {
    const { stdout, stderr } = calqetum(words);
    assert.ok(!raw.test(stdout) && !raw.test(stderr), JSON.stringify(stdout + stderr));
  }
  assert.deepEqual(json(['modes', file], 0).circuits.map(({ name }) => name), names.slice(0, 3));
  const picture = calqetum(['draw', file, '-o', '-']).stdout;
  assert.ok(!picture.includes('<script') && picture.includes('&lt;script&gt;'));
});

test('a name of a file forges no line', () => {
  const forged = written('x\ngood.csv: passes\ny.csv', text('cable-car-late.csv'));
  const both = gives(['check', forged, example('key.csv')], 1, /./, /./);
  assert.deepEqual(both.stdout.split('\n').length, 3);
  assert.ok(!/^good\.csv/m.test(both.stdout + both.stderr), both.stdout + both.stderr);
  mkdirSync(path('forging'));
  written('forging/a\nb.txt: 9 right', 'passes\n');
  const marked = gives(['mark', example('key.csv'), 'forging'], 0, /./).stdout;
  assert.ok(!/^b\.txt/m.test(marked), marked);
});

test('-o writes over no plan, by whatever name', () => {
  const plan = written('kept.csv', text('key.csv'));
  const other = written('other.csv', text('cable-car.csv'));
  linkSync(plan, path('twin.svg'));
  symlinkSync(other, path('linked.html'));
  gives(['draw', plan, '-o', 'twin.svg'], 2, '', /is the file that is read/);
  gives(['certificate', '-o', 'other.csv', plan], 2, '', /other\.csv is not written: \.csv, \.tsv, \.sheet and \.words are plans and sheets/);
  gives(['certificate', plan, '-o', 'linked.html'], 2, '', /is not written/);
  assert.deepEqual([plan, other].map((file) => readFileSync(file, 'utf8')), [text('key.csv'), text('cable-car.csv')]);
  gives(['draw', plan, '-o=equals.svg'], 0, '');
  assert.match(readFileSync(path('equals.svg'), 'utf8'), /^<\?xml/);
  gives(['draw', plan, '-o='], 2, '', /-o needs a value/);
});

test('--json tells also what cannot be read, and nothing stands on standard error', () => {
  const broken = written('broken.csv', 'network;2;2;x\n');
  const uses = [['check', broken], ['explain', broken], ['modes', broken], ['run', broken, '--cycles', '1']];
  for (const words of [...uses, ['compare', broken, example('key.csv')], ['mark', broken, example('key.listing')]]) {
    const { status, stdout, stderr } = calqetum([...words, '--json']);
    const found = [JSON.parse(stdout)].flat()[0];
    assert.deepEqual([status, stderr, found.answer], [2, '', 'unreadable'], words[0]);
    assert.match(found.problems.join(), /D1: "x" stands here/);
  }
});

test('folders among papers are named, and more cells than are listed are counted honestly', () => {
  mkdirSync(path('class/bob'), { recursive: true });
  written('class/alice.txt', 'passes\n');
  written('class/bob/answer.txt', 'passes\n');
  gives(['mark', example('key.csv'), 'class'], 2, /1 right/, /bob is a folder and is not marked/);
  const head = 'network;2;2;8\nmode;m;9\n';
  const many = written('many-bad.csv', head + 'slot;x;x;x;x;x\n'.repeat(9000));
  gives(['check', many], 2, '', /at least 9,800 more cells cannot be read/);
});

test('standard output that is closed early is no error', () => {
  const words = `"${program}" draw "${example('cable-car.csv')}" --grid --cycles 400 -o - | head -c 10 >&2; exit \${PIPESTATUS[0]}`;
  const { status, stderr } = spawnSync('bash', ['-c', words], { encoding: 'utf8' });
  assert.deepEqual([status, stderr], [0, '<?xml vers']);
});
