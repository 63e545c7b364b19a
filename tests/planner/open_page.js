// What the tests of the page share: one browser with the page open, and what they do with it again and again.
import { after, before } from 'node:test';
import { mkdtempSync, readFileSync, rmSync, statSync, writeFileSync } from 'node:fs';
import { tmpdir } from 'node:os';
import { dirname, join } from 'node:path';
import { fileURLToPath, pathToFileURL } from 'node:url';
import { openBrowser } from './browser.js';

const root = dirname(dirname(dirname(fileURLToPath(import.meta.url))));
export const page = pathToFileURL(join(root, 'planner', 'calqetum.html')).href;
export const example = (name) => join(root, 'examples', name);
const folder = mkdtempSync(join(tmpdir(), 'calqetum-page-'));
export let browser;

before(async () => {
  browser = await openBrowser({ width: 1280, height: 900 });
  await openPage();
});
after(async () => {
  await browser?.close();
  rmSync(folder, { recursive: true, force: true });
});

// Opens the page anew and waits until it is ready.
export async function openPage() {
  await browser.open(page);
  await browser.until("return document.documentElement.dataset.ready === 'yes'");
  await drawn();
}

// Waits until all that is said of the open plan is drawn.
export const drawn = () => browser.until("return document.documentElement.dataset.drawn === 'yes'");
export const textOf = async (css) => browser.text(await browser.find(css));
export const verdict = () => textOf('#verdict');
export const says = (text) => browser.until("return document.getElementById('verdict').textContent.includes(arguments[0])", text);
export const cell = (name) => browser.script('return document.getElementById(`cell-${arguments[0]}`).textContent', name);
export const isMarked = async (name) => (await browser.attribute(await browser.find(`#cell-${name}`), 'aria-invalid')) === 'true';
// The texts of a table's rows, once there are any.
export function rowsOf(css) {
  const texts = "(row) => [...row.cells].map((cell) => cell.textContent)";
  return browser.until(`const rows = [...document.querySelectorAll('${css} tbody tr')].map(${texts}); return rows.length ? rows : null`);
}

// Chooses a file; where it can be opened, all that is said of it is waited for.
export async function choose(path) {
  await browser.script("document.documentElement.dataset.drawn = 'no'; document.getElementById('file').value = ''");
  await browser.upload(await browser.find('#file'), path);
}
export async function upload(path) {
  await choose(path);
  await drawn();
}

// What the page saves under a name. The browser first puts an empty file there, so that its bytes are waited for, and until there are no more.
export async function saved(name) {
  const path = join(browser.downloads, name);
  const bytes = () => statSync(path, { throwIfNoEntry: false })?.size ?? 0;
  rmSync(path, { force: true });
  await browser.click(await browser.find('#save'));
  let before = 0;
  for (let wait = 0; wait < 400 && (before === 0 || bytes() !== before); wait++) {
    before = bytes();
    await new Promise((go) => setTimeout(go, 50));
  }
  return readFileSync(path, 'utf8');
}

// Writes a file for the page to read.
export function written(name, text) {
  const path = join(folder, name);
  writeFileSync(path, text);
  return path;
}

// Types into a cell by keyboard.
export async function type(name, text) {
  await browser.click(await browser.find(`#cell-${name}`));
  await browser.press('Enter');
  await browser.press('Control', 'a');
  const input = await browser.find(`#cell-${name} input`);
  await browser.keys(input, text);
  return input;
}

// Pastes a text into a cell.
export async function paste(name, text) {
  const code = `const data = new DataTransfer();
    data.setData('text/plain', arguments[1]);
    const cell = document.getElementById('cell-' + arguments[0]);
    cell.focus();
    cell.dispatchEvent(new ClipboardEvent('paste', { clipboardData: data, bubbles: true, cancelable: true }));`;
  await browser.script(code, name, text);
  await drawn();
}

// Chooses in a select as a reader does.
export function select(id, value) {
  const code = 'const select = document.getElementById(arguments[0]); select.value = arguments[1]; select.dispatchEvent(new Event("change"))';
  return browser.script(code, id, value);
}
