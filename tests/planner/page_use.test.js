// The page in a real Chromium: keyboard alone, a screen reader's view, widths, light and dark, the certificate, bad files, no stall.
import test from 'node:test';
import assert from 'node:assert/strict';
import { readFileSync } from 'node:fs';
import { about, openProved } from '../../planner/command/proved.js';
import { certificate } from '../../planner/lib/certificate.js';
import { readFile } from '../../planner/lib/document.js';
import { explain } from '../../planner/lib/explain.js';
import { sha256 } from '../../planner/lib/sha256.js';
import { browser, cell, choose, example, openPage, says, textOf, upload, written } from './open_page.js';

test('everything by keyboard alone', async () => {
  await openPage();
  const reach = async (id) => {
    for (let presses = 0; presses < 80; presses++) {
      await browser.press('Tab');
      if ((await browser.script('return document.activeElement.id')) === id) return;
    }
    assert.fail(`Tab does not reach ${id}`);
  };
  await reach('file');
  await reach('example');
  await browser.keys(await browser.focused(), 'cable-car-late');
  await says('refused 10');
  await browser.script('document.activeElement.blur(); window.scrollTo(0, 0)');
  const inTable = async () => browser.script("return document.activeElement.closest('#table') !== null");
  for (let presses = 0; presses < 80 && !(await inTable()); presses++) await browser.press('Tab');
  assert.ok(await inTable(), 'Tab reaches the table');
  for (let presses = 0; presses < 14; presses++) await browser.press('ArrowDown');
  for (let presses = 0; presses < 3; presses++) await browser.press('ArrowRight');
  assert.equal(await browser.script('return document.activeElement.id'), 'cell-D15');
  assert.match(await textOf('#cell-help'), /^D15: offset/);
  await browser.press('4');
  await browser.press('Enter');
  await says('passes');
  await reach('grid-step');
  await browser.press('Enter');
  assert.match(await textOf('#grid-caption'), /^Cycle 1:/);
});

test('a screen reader is told roles and names', async () => {
  assert.equal(await browser.role(await browser.find('#verdict')), 'status');
  assert.equal(await browser.role(await browser.find('#table table')), 'grid');
  assert.equal(await browser.role(await browser.find('#cell-A3')), 'gridcell');
  assert.match(await browser.label(await browser.find('#file')), /Open a file/);
  for (const id of ['example', 'circuit', 'mode', 'traffic', 'cycles', 'grid-speed']) {
    assert.notEqual(await browser.label(await browser.find(`#${id}`)), '', `${id} has a name`);
  }
  assert.equal(await browser.script("return document.querySelectorAll('img:not([alt]), button:empty').length"), 0);
});

test('360 pixels wide nothing is cut off, and a lecture screen is filled', async () => {
  for (const width of [360, 768, 1920]) {
    await browser.size(width, 900);
    const wide = await browser.script('return [document.documentElement.scrollWidth, document.documentElement.clientWidth]');
    assert.ok(wide[0] <= wide[1], `${width} wide: the page is ${wide[0]} wide`);
    // The network's letters stay readable: its picture is scrolled and not shrunk.
    const picture = await browser.script("return document.querySelector('#grid svg').getBoundingClientRect().width");
    assert.ok(picture >= 700, `${width} wide: the picture is ${picture} wide`);
  }
  await browser.size(1280, 900);
});

test('the lecture screen is the network alone, as large as the screen', async () => {
  await upload(example('cable-car.csv'));
  await browser.size(1920, 1080);
  await browser.click(await browser.find('#grid-full'));
  const width = await browser.until("return document.fullscreenElement?.id === 'stage' && document.querySelector('#grid svg').clientWidth");
  assert.ok(width > 1500, `the picture is ${width} wide`);
  await browser.click(await browser.find('#grid-step'));
  assert.match(await textOf('#grid-caption'), /^Cycle 1:/);
  await browser.script('return document.exitFullscreen()');
  await browser.size(1280, 900);
});

test('light and dark have readable text', async () => {
  for (const scheme of ['light', 'dark']) {
    await browser.devtools('Emulation.setEmulatedMedia', { features: [{ name: 'prefers-color-scheme', value: scheme }] });
    const worst = await browser.script(`
      const light = (colour) => {
        const linear = (part) => (part <= 0.04045 ? part / 12.92 : ((part + 0.055) / 1.055) ** 2.4);
        const [red, green, blue] = colour.match(/[\\d.]+/g).slice(0, 3).map((part) => linear(part / 255));
        return 0.2126 * red + 0.7152 * green + 0.0722 * blue;
      };
      const ground = (node) => {
        for (let at = node; at; at = at.parentElement) {
          const colour = getComputedStyle(at).backgroundColor;
          if (!/, 0\\)$/.test(colour)) return colour;
        }
        return 'rgb(255, 255, 255)';
      };
      let worst = 21;
      for (const node of document.querySelectorAll('h1, h2, p, a, button, th, td, label, .verdict')) {
        if (!node.textContent.trim() || node.disabled) continue;
        const [a, b] = [light(getComputedStyle(node).color), light(ground(node))].sort((x, y) => y - x);
        worst = Math.min(worst, (a + 0.05) / (b + 0.05));
      }
      return worst;`);
    assert.ok(worst >= 4.5, `${scheme}: the least contrast is ${worst}`);
  }
  await browser.devtools('Emulation.setEmulatedMedia', { features: [] });
});

test('the certificate is printed', async () => {
  await upload(example('cable-car.csv'));
  await says('passes');
  await browser.script('window.print = () => { window.printed = true; }; document.getElementById("print").click()');
  assert.equal(await browser.script('return window.printed'), true);
  await browser.script("window.dispatchEvent(new Event('beforeprint'))");
  const text = await browser.script("return document.getElementById('certificate').textContent");
  assert.match(text, /[0-9a-f]{64}/);
  assert.match(text, /undisturbed/);
  const pdf = await browser.pdf();
  assert.equal(pdf.subarray(0, 5).toString(), '%PDF-');
  assert.ok(pdf.length > 10000);
});

test('the certificate is the one that the command makes, for plans and for words, passing and refused', async () => {
  const calls = await openProved();
  for (const name of ['cable-car.csv', 'cable-car-clash.csv', 'a.sheet', 'b.sheet', 'g.sheet']) {
    await upload(example(name));
    await browser.script("window.dispatchEvent(new Event('beforeprint'))");
    const bytes = readFileSync(example(name));
    const filed = readFile(name, bytes);
    const explanation = explain(filed, calls.verdict);
    const made = certificate(filed, { verdict: calls.verdict(filed.words), about: about(), fileHash: sha256(bytes), explanation });
    const text = (item) => (typeof item === 'object' ? item.children.map(text).join('') : String(item));
    assert.equal(await browser.script("return document.getElementById('certificate').textContent"), text(made));
  }
});

test('bad files are told and what is open stays', async () => {
  await upload(example('cable-car.csv'));
  await says('passes');
  await choose(written('binary.csv', Buffer.from([0x50, 0x4b, 3, 4, 0, 0, 1, 2])));
  await says('cannot be opened');
  assert.equal(await cell('A2'), 'network');
  await choose(written('large.csv', Buffer.alloc(10 * 1024 * 1024, 'a')));
  await says('large.csv cannot be opened');
  await upload(written('empty.csv', ''));
  await says('cannot be read');
  await upload(example('g.sheet'));
  await says('refused 3');
  await upload(example('i.sheet'));
  await says('refused 11');
});

test('the largest sheet does not stall the page', async () => {
  const rows = ['network;4;4;1024'];
  for (let circuit = 0; circuit < 64; circuit++) {
    const offset = 8 * Math.floor(circuit / 16);
    rows.push(`circuit;c${circuit};${circuit % 16};${(circuit + 1) % 16};${512 + offset};8;${offset};8`);
  }
  for (let mode = 0; mode < 8; mode++) {
    rows.push(`mode;m${mode};1024`);
    for (let slot = 0; slot < 256; slot++) {
      const circuit = slot % 64;
      const offset = 40 * Math.floor(slot / 64) + 3 * Math.floor(circuit / 16) + 200 * (circuit % 2);
      rows.push(`slot;m${mode};c${circuit};${offset};3;${circuit % 4 === 3 ? 'ES' : 'E'}`);
    }
  }
  const path = written('largest.csv', rows.join('\n'));
  // The least of twelve tries, and more where a loop of the same length takes longer than on an idle machine: others may share it.
  let least = Infinity;
  for (let tries = 0; tries < 12 && least >= 1000; tries++) least = Math.min(least, (await longestPause(path)) / (await slowness()));
  assert.ok(least < 1000, `the page stood still for ${least} ms`);
});

// How long the page answers nothing, at the longest, while it opens a file and draws.
async function longestPause(path) {
  await browser.script(`window.longest = 0;
    window.last = performance.now();
    window.watch = setInterval(() => {
      const now = performance.now();
      window.longest = Math.max(window.longest, now - window.last);
      window.last = now;
    }, 10);`);
  await upload(path);
  await new Promise((go) => setTimeout(go, 1000));
  return browser.script('clearInterval(window.watch); return window.longest');
}

// How many times longer a loop takes than the 240 ms that it may take on an idle machine.
async function slowness() {
  const loop = 'const begin = performance.now(); let sum = 0; for (let at = 0; at < 3e7; at++) sum = (sum * 31 + at) | 0; window.sum = sum;';
  return Math.max(1, (await browser.script(`${loop} return performance.now() - begin;`)) / 240);
}
