// Runs the command as a program from a folder of its own, which is removed at the end.
import test from 'node:test';
import assert from 'node:assert/strict';
import { spawnSync } from 'node:child_process';
import { mkdtempSync, readFileSync, rmSync, writeFileSync } from 'node:fs';
import { tmpdir } from 'node:os';
import { dirname, join } from 'node:path';
import { fileURLToPath } from 'node:url';

export const root = dirname(dirname(dirname(fileURLToPath(import.meta.url))));
export const program = join(root, 'calqetum');
export const example = (name) => join(root, 'examples', name);
export const text = (name) => readFileSync(example(name), 'utf8');
export const folder = mkdtempSync(join(tmpdir(), 'calqetum-command-'));
export const path = (name) => join(folder, name);
test.after(() => rmSync(folder, { recursive: true, force: true }));

export function written(name, contents) {
  writeFileSync(path(name), contents);
  return path(name);
}

export function calqetum(words, options = {}) {
  const { status, stdout, stderr } = spawnSync(program, words, { cwd: folder, encoding: 'utf8', maxBuffer: 1 << 28, ...options });
  return { status, stdout, stderr };
}

// Holds what a use gave to its exit status, its standard output, and a pattern of its standard error.
export function holdUse(found, status, stdout, stderr = /^$/) {
  assert.match(found.stderr, stderr);
  if (stdout instanceof RegExp) assert.ok(stdout.test(found.stdout), `${stdout} is not in: ${found.stdout.slice(0, 1000)}`);
  else assert.equal(found.stdout, stdout);
  assert.equal(found.status, status, found.stderr);
  return found;
}

export function gives(words, status, stdout, stderr = /^$/, options = {}) {
  return holdUse(calqetum(words, options), status, stdout, stderr);
}

// What several uses give, all carried out in one process.
export function carriedOut(uses) {
  const words = [fileURLToPath(new URL('command_uses.js', import.meta.url)), JSON.stringify(uses)];
  const { stdout, stderr } = spawnSync(process.execPath, words, { cwd: folder, encoding: 'utf8', maxBuffer: 1 << 28 });
  assert.equal(stderr, '');
  return JSON.parse(stdout);
}

// What a use with --json prints.
export function json(words, status) {
  const found = calqetum([...words, '--json']);
  assert.equal(found.status, status, found.stderr);
  return JSON.parse(found.stdout);
}
