// Certificates: hashes, contents, hostile names, and that what they name is there.
import test from 'node:test';
import assert from 'node:assert/strict';
import { createHash } from 'node:crypto';
import { existsSync, readFileSync } from 'node:fs';
import { about, openProved } from '../../planner/command/proved.js';
import { certificate, certificateFile, wordBytes } from '../../planner/lib/certificate.js';
import { LONG_LINKS_NOTE, NOT_PROVED, STATEMENTS, STYLE } from '../../planner/lib/certificate_texts.js';
import { documentOfText, readFile } from '../../planner/lib/document.js';
import { explain } from '../../planner/lib/explain.js';
import { PREMISE } from '../../planner/lib/isolation.js';
import { escaped } from '../../planner/lib/markup.js';
import { sha256, sha256Base64 } from '../../planner/lib/sha256.js';
import { ODD_NAMES } from './generate.js';

const calls = await openProved();
const root = new URL('../../', import.meta.url);
const bytesOf = (name) => readFileSync(new URL(`examples/${name}`, root));
const hashed = (bytes, form = 'hex') => createHash('sha256').update(bytes).digest(form);

function fileOf(name, bytes = bytesOf(name), exam = false) {
  const document = readFile(name, bytes, exam);
  assert.deepEqual(document.problems, []);
  const verdict = calls.verdict(document.words);
  return certificateFile(document, { verdict, about: about(), fileHash: sha256(bytes), explanation: explain(document, calls.verdict) });
}

test('sha256 of lengths 0 to 200 and of 100,000 bytes', () => {
  const bytes = Uint8Array.from({ length: 100000 }, (_, at) => (at * 167 + (at >> 8)) & 255);
  for (let length = 0; length <= 200; length++) assert.equal(sha256(bytes.subarray(0, length)), hashed(bytes.subarray(0, length)));
  assert.equal(sha256(bytes), hashed(bytes));
  assert.equal(sha256Base64(bytes), hashed(bytes, 'base64'));
});

test('a passing sheet: verdict, hashes, circuits, isolation, statements', () => {
  const text = fileOf('cable-car.csv');
  const { words } = readFile('cable-car.csv', bytesOf('cable-car.csv'));
  const little = Buffer.alloc(words.length * 4);
  words.forEach((word, at) => little.writeUInt32LE(word, at * 4));
  assert.deepEqual([...wordBytes(words)], [...little]);
  const wanted = [
    'The sheet passes: it keeps the rules 1 to 11 and 26.',
    hashed(bytesOf('cable-car.csv')), hashed(little), about().version, about().kit, escaped(PREMISE),
    '<td>brake</td><td>0</td><td>3</td><td>2</td><td>9 cycles</td><td>evacuation</td><td>12</td><td>4+5</td><td>4</td><td>0.3333</td>',
    '<td>speed</td><td>normal</td><td>high wind</td><td>undisturbed</td>',
    'sha256sum cable-car.csv', './calqetum certificate cable-car.csv -o again.html',
    ...STATEMENTS.map(([name]) => `<code>${name}</code>`), ...NOT_PROVED.map(escaped),
  ];
  for (const part of wanted) assert.ok(text.includes(part), part);
  assert.ok(!/<script|style=| on\w+=|javascript:|https?:/i.test(text));
  assert.equal(text, fileOf('cable-car.csv'));
});

test('on a grid with long vertical links the vertical hops have a column, and what they cost is said', () => {
  const text = fileOf('long.sheet');
  const heads = '<th scope="col">hops</th><th scope="col">vertical</th><th scope="col">a word lands after</th>';
  const row = '<td>circuit 1</td><td>0</td><td>3</td><td>2</td><td>1</td><td>10 cycles</td>';
  for (const part of [heads, row, escaped(LONG_LINKS_NOTE), '<td>2 long</td>', '2 258 8 3 1\n']) assert.ok(text.includes(part), part);
  assert.ok(!/<th scope="col">vertical</.test(fileOf('cable-car.csv')) && !fileOf('cable-car.csv').includes(escaped(LONG_LINKS_NOTE)));
});

test('a refused sheet gets a certificate of refusal, with its explanation and without claims of isolation', () => {
  // The cable car's plan, without the slots of its brake.
  const unserved = Buffer.from(bytesOf('cable-car.csv').toString().replace(/^slot;.*;brake;.*$/gm, '#'));
  const files = ['cable-car-late.csv', 'cable-car-clash.csv', 'f.sheet', 'g.sheet'].map((name) => [name, bytesOf(name)]);
  for (const [name, bytes] of [...files, ['unserved.csv', unserved]]) {
    const text = fileOf(name, bytes);
    const document = readFile(name, bytes);
    const { number, title, lines } = explain(document, calls.verdict);
    const wanted = ['Certificate of refusal', `refused with number ${number}: ${escaped(title)}`, ...lines.map(escaped)];
    for (const part of wanted) assert.ok(text.includes(part), part);
    assert.equal(number === 26, name === 'unserved.csv');
    assert.ok(text.includes('argo_verdict') && !/demand ?3/i.test(text) && !text.includes('undisturbed'));
  }
});

test('no words are certified as the idle network that they stand for', () => {
  const text = fileOf('b.sheet');
  for (const part of ['The sheet passes', 'no words, which stand for an idle network', 'The sheet has no circuits', '2 2 1 0 1\n9 0']) {
    assert.ok(text.includes(part), part);
  }
  assert.ok(text.includes(hashed('', 'hex')) && text.includes('<code>check_number</code>'));
});

test('an exam says so, and how to check it again', () => {
  const text = fileOf('cable-car.csv', bytesOf('cable-car.csv'), true);
  assert.ok(text.includes('--exam -o again.html') && text.includes('order of the rows'));
  assert.ok(!fileOf('cable-car.csv').includes('--exam'));
});

test('the policy allows just this style', () => {
  const text = fileOf('key.csv');
  const style = /<style>([^]*?)<\/style>/.exec(text)[1];
  assert.equal(style, STYLE);
  const policy = /Content-Security-Policy" content="([^"]*)"/.exec(text)[1].replaceAll('&#39;', "'");
  assert.equal(policy, `default-src 'none'; style-src 'sha256-${hashed(style, 'base64')}'`);
});

test('hostile names are escaped, in cells, tables and the name of the file', () => {
  for (const name of ODD_NAMES.filter((one) => !/[;"\n\r\t]/.test(one) && one.trim() !== '')) {
    const text = bytesOf('cable-car.csv').toString().replaceAll(';speed;', `;${name};`);
    const document = documentOfText(`${name}.csv`, text);
    if (document.problems.length > 0) continue;
    const options = { verdict: calls.verdict(document.words), about: about(), fileHash: '', explanation: explain(document, calls.verdict) };
    const page = certificateFile(document, options);
    assert.ok(!page.includes('<script') && !page.includes('</script'), name);
    assert.equal(page.match(/</g).length, certificateTags(certificate(document, options)), name);
  }
});

// How many tags the certificate and the file around it have: each element opens, and all but three meta elements close.
function certificateTags(tree) {
  const elements = (item) => (typeof item === 'object' ? 1 + item.children.reduce((sum, child) => sum + elements(child), 0) : 0);
  const around = '<!doctype html> <html> <head> <meta> <meta> <meta> <title> </title> <style> </style> </head> <body> </body> </html>';
  return 2 * elements(tree) + around.match(/</g).length;
}

test('shell words: a name that a shell would take apart is quoted', () => {
  const again = (name) => /sha256sum (.*)\n/.exec(fileOf(name, bytesOf('key.csv')).replaceAll('&#39;', "'"))[1];
  assert.equal(again('plan.csv'), 'plan.csv');
  assert.equal(again('my plan.csv'), "'my plan.csv'");
  assert.equal(again("it's $(rm).csv"), "'it'\\''s $(rm).csv'");
  assert.equal(again('-x.csv'), "'./-x.csv'");
});

test('every statement is in the file that is named, and the tests are there', () => {
  for (const [name, file] of STATEMENTS) {
    const text = readFileSync(new URL(file, root), 'utf8');
    const forms = `pub (extern "C" )?fn ${name}\\b|pub record ${name}\\b|pub ${name} :|^(abbrev |unfoldable )?pub ${name} `;
    const declared = new RegExp(forms, 'm');
    assert.match(text, declared, `${name} in ${file}`);
  }
  const named = STATEMENTS.map(([name, file]) => `${name} ${file}`);
  assert.ok(named.includes('demand3 crates/isolation/proofs/DemandProved.antt') && named.includes('argo_verdict crates/exports/src/lib.rt'));
  // What judged the sheet is the number that the contract of the call cites, and number 26 is a rule of its own.
  for (const name of ['check_number', 'rule26']) assert.ok(named.includes(`${name} crates/sheet/specs/Rules.antt`), name);
  const contract = /fn argo_verdict\b[^{]*\{([^}]*)\}/.exec(readFileSync(new URL('crates/exports/src/lib.rt', root), 'utf8'))[1];
  assert.match(contract, /\bcheck_number\b/);
  const files = NOT_PROVED.flatMap((text) => text.match(/tests\/planner\/[\w.]+\.js/g) ?? []);
  assert.ok(files.length > 0);
  for (const file of files) assert.ok(existsSync(new URL(file, root)), file);
});
