// What README.md and docs/PLANNER.md show of the command is what it prints.
import test from 'node:test';
import assert from 'node:assert/strict';
import { spawnSync } from 'node:child_process';
import { readFileSync } from 'node:fs';
import { dirname, join } from 'node:path';
import { fileURLToPath } from 'node:url';

const root = dirname(dirname(dirname(fileURLToPath(import.meta.url))));

// The commands of a page's blocks, each with the lines below it.
function shown(page) {
  const blocks = readFileSync(join(root, page), 'utf8').split(/^```.*$/m).filter((_, at) => at % 2 === 1);
  return blocks.flatMap((block) => block.split(/^\$ (?=\.\/calqetum )/m).slice(1)).map((text) => {
    const [command, ...lines] = text.split('\n');
    return { command, text: lines.join('\n') };
  });
}

const examples = ['README.md', 'docs/PLANNER.md'].flatMap((page) => shown(page).map((example) => ({ page, ...example })));

test('there are commands in the pages', () => assert.ok(examples.length >= 2));

for (const { page, command, text } of examples) {
  test(`${page}: ${command}`, () => {
    const { stdout } = spawnSync('sh', ['-c', command], { cwd: root, encoding: 'utf8' });
    assert.equal(stdout, text);
  });
}

test("the README's first command judges the example", () => {
  const first = /```sh\n(\S.*?)\s+#/.exec(readFileSync(join(root, 'README.md'), 'utf8'))[1];
  assert.equal(first, './calqetum check examples/cable-car.csv');
  const { stdout, status } = spawnSync('sh', ['-c', first], { cwd: root, encoding: 'utf8' });
  assert.deepEqual([stdout, status], ['passes\n', 0]);
});
