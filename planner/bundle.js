// Writes the page as one file: the modules that page/main.js reaches, the style, the examples and the proved calls.
// Usage: node planner/bundle.js WASM OUT
import { spawnSync } from 'node:child_process';
import { createHash } from 'node:crypto';
import { mkdtempSync, readFileSync, rmSync, writeFileSync } from 'node:fs';
import { tmpdir } from 'node:os';
import { basename, dirname, join, relative } from 'node:path';
import { fileURLToPath } from 'node:url';

const folder = dirname(fileURLToPath(import.meta.url));
const root = dirname(folder);
const EXAMPLES = ['cable-car.csv', 'cable-car-late.csv', 'cable-car-clash.csv', 'cable-car-week.csv', 'key.csv', 'idle.csv'];
const IMPORT = /^import \{([^}]*)\} from '(\.[^']*)';$/gms;
const EXPORT = /^export (?=(?:async )?function (\w+)|const (\w+)|class (\w+))/gm;

function stop(message) {
  console.error(`planner/bundle.js: ${message}`);
  process.exit(1);
}

// The modules that a module reaches, each behind those that it imports.
function reached(path, found = [], open = []) {
  if (open.includes(path)) stop(`modules import each other in a circle: ${[...open, path].map((one) => relative(root, one)).join(' ')}`);
  if (found.includes(path)) return found;
  for (const [, , other] of readFileSync(path, 'utf8').matchAll(IMPORT)) reached(join(dirname(path), other), found, [...open, path]);
  found.push(path);
  return found;
}

const textOf = (path) => readFileSync(path, 'utf8').replace(/\n*$/, '\n');
const exportsOf = (path) => [...textOf(path).matchAll(EXPORT)].map((match) => match[1] ?? match[2] ?? match[3]);

// Holds every imported name to what the module exports, and the text to forms that the bundle knows.
function hold(path) {
  const stray = /\bimport\s*\(|\bimport\.meta\b|<!--/.exec(textOf(path));
  if (stray) stop(`${relative(root, path)} has a form that the bundle does not know: ${stray[0]}`);
  for (const [, names, other] of textOf(path).matchAll(IMPORT)) {
    const known = exportsOf(join(dirname(path), other));
    const wanted = names.split(',').map((name) => name.trim().split(' as ')[0]).filter((name) => name !== '');
    const missing = wanted.find((name) => !known.includes(name));
    if (missing) stop(`${relative(root, path)} imports ${missing}, which ${other} does not export`);
  }
}

// Holds the whole script to the language.
function holdScript(script) {
  const folder = mkdtempSync(join(tmpdir(), 'calqetum-bundle-'));
  writeFileSync(join(folder, 'page.mjs'), script);
  const { status, stderr } = spawnSync(process.execPath, ['--check', join(folder, 'page.mjs')], { encoding: 'utf8' });
  rmSync(folder, { recursive: true });
  if (status !== 0) stop(`the page's script is not JavaScript: ${stderr}`);
}

const nameOf = (path) => relative(folder, path).replace(/\.js$/, '').replace(/\W/g, '_');

// A module as a function that gives its exports; the last, which may wait, as a block.
function wrapped(path, last) {
  hold(path);
  const exported = exportsOf(path);
  const code = textOf(path)
    .replace(IMPORT, (_, names, other) => `const {${names.replace(/(\w+) as (\w+)/g, '$1: $2')}} = ${nameOf(join(dirname(path), other))};`)
    .replace(EXPORT, '');
  const stray = /^\s*(import|export)\b.*$/m.exec(code);
  if (stray) stop(`${relative(root, path)} has a form that the bundle does not know: ${stray[0]}`);
  if (last) return `{\n${code}}\n`;
  return `const ${nameOf(path)} = (() => {\n${code}return { ${exported.join(', ')} };\n})();\n`;
}

const hash = (text) => `'sha256-${createHash('sha256').update(text).digest('base64')}'`;
const data = (value) => JSON.stringify(value).replaceAll('<', '\\u003c');
const line = (name) => readFileSync(join(folder, name), 'utf8').trim();

const [wasm, out] = process.argv.slice(2);
if (!wasm || !out) stop('usage: node planner/bundle.js WASM OUT');
const modules = reached(join(folder, 'page', 'main.js'));
const script = '\n' + modules.map((path) => wrapped(path, path === modules[modules.length - 1])).join('');
holdScript(script);
const style = '\n' + readFileSync(join(folder, 'page', 'page.css'), 'utf8');
if (/<\/(script|style)/i.test(script + style)) stop('a module or the style closes its own element');
const policy = [
  "default-src 'none'",
  `script-src ${hash(script)} 'wasm-unsafe-eval'`,
  `style-src ${hash(style)}`,
  "base-uri 'none'",
  "form-action 'none'",
].join('; ');
const examples = EXAMPLES.map((name) => ({ name, text: readFileSync(join(root, 'examples', name), 'utf8') }));
const parts = {
  POLICY: policy,
  STYLE: style,
  SCRIPT: script,
  EXAMPLES: data(examples),
  ABOUT: data({ version: line('version'), kit: line('kit') }),
  PROVED: readFileSync(wasm).toString('base64'),
};
const template = readFileSync(join(folder, 'page', 'page.html'), 'utf8');
const page = template.replace(/\{\{([A-Z]+)\}\}/g, (_, name) => parts[name] ?? stop(`page.html asks for ${name}`));
writeFileSync(out, page);
console.log(`${basename(out)}: ${modules.length} modules, ${page.length} characters`);
