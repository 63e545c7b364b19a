// The page that is kept is what its modules give, and the bundle refuses modules that it would put together wrongly.
import test, { after } from 'node:test';
import assert from 'node:assert/strict';
import { spawnSync } from 'node:child_process';
import { cpSync, mkdtempSync, readFileSync, rmSync, writeFileSync } from 'node:fs';
import { tmpdir } from 'node:os';
import { dirname, join } from 'node:path';
import { fileURLToPath } from 'node:url';
import { pagePath, provedBytes } from '../../planner/command/proved.js';

const root = dirname(dirname(dirname(fileURLToPath(import.meta.url))));
const folder = mkdtempSync(join(tmpdir(), 'calqetum-bundle-test-'));
after(() => rmSync(folder, { recursive: true }));
for (const part of ['planner', 'examples']) cpSync(join(root, part), join(folder, part), { recursive: true });
writeFileSync(join(folder, 'exports.wasm'), provedBytes());

// Bundles the copy with a module changed, and puts it right again.
function bundled(module, edit) {
  const path = join(folder, 'planner', module);
  const text = readFileSync(path, 'utf8');
  writeFileSync(path, edit(text));
  const words = [join(folder, 'planner/bundle.js'), join(folder, 'exports.wasm'), join(folder, 'out.html')];
  const { status, stderr } = spawnSync(process.execPath, words, { encoding: 'utf8' });
  writeFileSync(path, text);
  return { status, stderr };
}

test('the kept page is what the modules give, to the byte', () => {
  assert.equal(bundled('lib/cells.js', (text) => text).status, 0);
  assert.ok(readFileSync(join(folder, 'out.html')).equals(readFileSync(pagePath)));
});

test('a change of a module, the style or an example changes the page', () => {
  for (const part of ['lib/cells.js', 'page/page.css', '../examples/key.csv']) {
    assert.equal(bundled(part, (text) => text.replace(/\n$/, ' \n')).status, 0, part);
    const kept = readFileSync(pagePath);
    assert.ok(!readFileSync(join(folder, 'out.html')).equals(kept), part);
  }
});

test('forms that the bundle would put together wrongly are refused', () => {
  const cases = {
    'two names in one export': ['export const A = 1, B = 2;\n', /imports B, which .* does not export/, "import { B } from './x.js';\n"],
    'a name that is not there': ['', /imports noSuch, which/, "import { noSuch } from './markup.js';\n"],
    'an import of its own': ["const later = () => import('./cells.js');\n", /does not know: import\(/],
    'import.meta': ['const here = import.meta.url;\n', /does not know: import\.meta/],
    'export list': ['const a = 1;\nexport { a };\n', /does not know: export/],
    'a default export': ['export default 1;\n', /does not know: export/],
    'await in a library': ['const waited = await 1;\n', /is not JavaScript/],
    'no JavaScript': ['const = 1;\n', /is not JavaScript/],
    'the end of its element': ["const end = '</script>';\n", /closes its own element/],
    'a comment of HTML': ["const begin = '<!-- <script>';\n", /does not know: <!--/],
  };
  for (const [name, [added, said, imported = '']] of Object.entries(cases)) {
    const target = imported.includes('./x.js') ? imported.replace('./x.js', './sha256.js') : imported;
    const part = name === 'two names in one export' ? 'lib/sha256.js' : 'lib/cells.js';
    const own = part === 'lib/sha256.js' ? bundledTwice(added, target) : bundled(part, (text) => target + text + added);
    assert.notEqual(own.status, 0, name);
    assert.match(own.stderr, said, name);
  }
  // A last line without an end is no danger.
  assert.equal(bundled('lib/cells.js', (text) => text + '// end').status, 0);
});

// One module exports two names in one statement, another imports the second.
function bundledTwice(added, imported) {
  const path = join(folder, 'planner/lib/certificate.js');
  const text = readFileSync(path, 'utf8');
  writeFileSync(path, imported + text);
  const found = bundled('lib/sha256.js', (own) => own + added);
  writeFileSync(path, text);
  return found;
}
