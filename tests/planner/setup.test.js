// planner/setup on machines that lack something, with an apt-get of the test's own.
import test from 'node:test';
import assert from 'node:assert/strict';
import { spawnSync } from 'node:child_process';
import { chmodSync, existsSync, mkdtempSync, readFileSync, rmSync, symlinkSync, writeFileSync } from 'node:fs';
import { tmpdir } from 'node:os';
import { dirname, join } from 'node:path';
import { fileURLToPath } from 'node:url';

const setup = join(dirname(fileURLToPath(import.meta.url)), '..', '..', 'planner', 'setup');
const command = join(dirname(dirname(setup)), 'calqetum');
const TOOLS = ['bash', 'sh', 'env', 'readlink', 'dirname', 'mktemp', 'tail', 'rm', 'sleep', 'cat', 'chmod'];
const PACKAGES = { nodejs: 'node', chromium: 'chromium', 'chromium-driver': 'chromedriver' };

// A folder of commands that is all of PATH: bash and its tools, and what the test puts there.
function machine({ node = null, browser = false, apt = true, root = true, fails = 0, installs = '18.0.0' }) {
  const folder = mkdtempSync(join(tmpdir(), 'calqetum-setup-'));
  const put = (name, ...lines) => {
    writeFileSync(join(folder, name), ['#!/usr/bin/env bash', ...lines, ''].join('\n'));
    chmodSync(join(folder, name), 0o755);
  };
  const pathOf = (tool) => spawnSync('bash', ['-c', `type -P ${tool}`], { encoding: 'utf8' }).stdout.trim();
  for (const tool of TOOLS) symlinkSync(pathOf(tool), join(folder, tool));
  put('id', `echo ${root ? 0 : 1000}`);
  if (node) put('node', `echo v${node}`);
  if (browser) for (const name of ['chromium', 'chromedriver']) put(name, ':');
  if (apt) {
    const cases = Object.entries(PACKAGES).map(([name, command]) =>
      `  ${name}) printf '#!/usr/bin/env bash\\necho v${installs}\\n' >'${folder}/${command}'; chmod +x '${folder}/${command}' ;;`,
    );
    put(
      'apt-get',
      `echo "$DEBIAN_FRONTEND $*" >>'${folder}/asked'`,
      `case $* in *update*) echo x >>'${folder}/tries'; mapfile -t tries <'${folder}/tries'`,
      `  [ \${#tries[@]} -gt ${fails} ] || { echo 'E: the network is down'; exit 100; } ;;`,
      'esac',
      'for word in "$@"; do case $word in', ...cases, 'esac; done', 'exit 0',
    );
  }
  return folder;
}

// Runs planner/setup there, and gives its status, what it said and what apt-get was asked.
const run = (options, ...words) => runProgram(setup, options, words);

function runProgram(program, options, words) {
  const folder = machine(options);
  const { status, stdout, stderr } = spawnSync(program, words, { encoding: 'utf8', env: { PATH: folder, CALQETUM_SETUP_PAUSE: '0' } });
  const asked = existsSync(join(folder, 'asked')) ? readFileSync(join(folder, 'asked'), 'utf8').trim().split('\n') : [];
  rmSync(folder, { recursive: true });
  return { status, said: stdout + stderr, stdout, asked };
}

const installed = (asked) => asked.filter((line) => line.includes(' install ')).map((line) => line.split('--no-install-recommends ')[1]);

test('where all is there, nothing is asked and one line is said', () => {
  const { status, said, asked } = run({ node: '18.0.0', browser: true });
  assert.deepEqual([status, asked, said.split('\n').length], [0, [], 2]);
  assert.match(said, /node v18\.0\.0, chromium, chromedriver: all there/);
  assert.equal(run({ node: '20.1.0' }, 'command').status, 0);
});

test('just what is missing is installed, without a question', () => {
  const all = run({});
  assert.deepEqual([all.status, installed(all.asked)], [0, ['nodejs chromium chromium-driver']]);
  assert.ok(all.asked.every((line) => line.startsWith('noninteractive ')));
  assert.deepEqual(installed(run({ node: '22.0.0' }).asked), ['chromium chromium-driver']);
  assert.deepEqual(installed(run({}, 'command').asked), ['nodejs']);
  assert.deepEqual(installed(run({ node: '16.20.2', browser: true }).asked), ['nodejs']);
});

test('three tries, no more', () => {
  const third = run({ fails: 2 });
  assert.deepEqual([third.status, third.asked.filter((line) => line.endsWith(' update')).length], [0, 3]);
  const none = run({ fails: 9 });
  assert.deepEqual([none.status, none.asked.length], [2, 3]);
  assert.match(none.said, /E: the network is down/);
  assert.match(none.said, /could not install nodejs chromium chromium-driver/);
});

test('where nothing can be installed, it says what to do', () => {
  const plain = run({ apt: false });
  assert.equal(plain.status, 2);
  assert.match(plain.said, /no apt-get/);
  const user = run({ root: false }, 'command');
  assert.deepEqual([user.status, user.asked], [2, []]);
  assert.match(user.said, /sudo .*planner\/setup command\n/);
  assert.match(user.said, /sudo apt-get install -y nodejs\n/);
  const old = run({ installs: '12.22.0' });
  assert.equal(old.status, 2);
  assert.match(old.said, /still missing: node \(node here: v12\.22\.0\)/);
});

test('the command installs Node where it can, and runs', () => {
  // What apt-get puts there says its version whatever it is told, so that this is what the command then prints.
  const fresh = runProgram(command, {}, ['check', 'x.csv']);
  assert.deepEqual([fresh.status, fresh.stdout, installed(fresh.asked)], [0, 'v18.0.0\n', ['nodejs']]);
  const old = runProgram(command, { node: '16.0.0' }, ['check']);
  assert.deepEqual([old.status, installed(old.asked)], [0, ['nodejs']]);
  const user = runProgram(command, { root: false }, ['check']);
  assert.deepEqual([user.status, user.stdout, user.asked], [2, '', []]);
  assert.match(user.said, /planner\/setup command installs it/);
  assert.equal(runProgram(command, { fails: 9 }, ['check']).status, 2);
});

test('usage', () => {
  const help = run({}, '--help');
  assert.deepEqual([help.status, help.asked], [0, []]);
  assert.match(help.stdout, /^usage: planner\/setup/);
  for (const words of [['other'], ['command', 'more']]) assert.deepEqual([run({}, ...words).status, run({}, ...words).stdout], [2, '']);
});
