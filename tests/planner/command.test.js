// The command as a program: what check, explain, modes, compare, run, draw, mark and certificate print, their files and exit statuses.
import test from 'node:test';
import assert from 'node:assert/strict';
import { chmodSync, mkdirSync, readFileSync, truncateSync } from 'node:fs';
import { calqetum, example, folder, gives, json, path, root, text, written } from './command_program.js';
import { parsed } from './picture_checks.js';

test('check: one file, several, an exam', () => {
  gives(['check', example('cable-car.csv')], 0, 'passes\n');
  gives(['check', example('cable-car-late.csv')], 1, 'refused 10\n', /number 10: A slot ends too late.*\n.*brake.*\n.*D15/);
  const names = [example('key.csv'), example('cable-car-clash.csv'), example('a.sheet')];
  gives(['check', ...names], 1, `${names[0]}: passes\n${names[1]}: refused 11\n${names[2]}: passes\n`, /number 11/);
  const circuits = 'network;2;2;8\ncircuit;b;0;3;0;2;0;2\ncircuit;a;0;1;0;2;0;2\nmode;m;12\n';
  const unsorted = written('unsorted.csv', `${circuits}slot;m;b;0;2;ES\nslot;m;a;2;2;E\n`);
  gives(['check', unsorted], 0, 'passes\n');
  gives(['--exam', 'check', unsorted], 1, 'refused 5\n', /number 5/);
  const why = /number 26: A circuit has no slot\.\n.*Circuit a \(B3\) has no slot/;
  gives(['check', written('unserved.csv', circuits)], 1, 'refused 26\n', why);
});

test('check: a file that cannot be read does not keep the others from being judged', () => {
  const bad = written('bad.csv', 'network;2;2;x\ncircuit;a;0;one;0;2;0;2\nmode;m;9\n');
  const found = gives(['check', bad, example('key.csv'), path('no such file'), folder], 2, `${example('key.csv')}: passes\n`, /./);
  const lines = found.stderr.trim().split('\n');
  assert.deepEqual(lines.map((line) => line.replace(folder, '')), [
    '/bad.csv, D1: "x" stands here; wanted: memory: a whole number from 0 to 4294967295',
    '/bad.csv, D2: "one" stands here; wanted: destination: a whole number from 0 to 4294967295',
    '/no such file: there is no such file',
    ': it is a folder, and a file is wanted',
  ]);
});

test('check: JSON has every answer', () => {
  const found = json(['check', example('key.csv'), example('cable-car-late.csv'), path('nothing.csv')], 2);
  assert.deepEqual(found.map(({ answer, number }) => [answer, number]), [['passes', 0], ['refused', 10], ['unreadable', undefined]]);
  assert.match(found[1].lines.join(' '), /D15/);
  assert.deepEqual(found[2].problems, [`${path('nothing.csv')}: there is no such file`]);
});

test('check: at most 200 cells are named, and how many more there are', () => {
  const many = written('many.csv', 'network;2;2;8\n' + 'slot;x\n'.repeat(100));
  const lines = calqetum(['check', many]).stderr.trim().split('\n');
  assert.equal(lines.length, 201);
  assert.match(lines[200], /: 300 more cells cannot be read$/);
});

test('check: too large, no text, a spreadsheet, standard input', () => {
  const large = written('large.csv', '');
  truncateSync(large, 5 * 1024 * 1024);
  const files = [large, written('binary.csv', Buffer.from([1, 2, 3, 0])), written('book.csv', Buffer.from('PK\u0003\u0004')), '-'];
  const found = gives(['check', ...files], 2, '', /5,242,880 bytes, and at most 4,194,304 are read/);
  assert.match(found.stderr, /binary\.csv: it is not a text/);
  assert.match(found.stderr, /book\.csv: it is a spreadsheet's own file/);
  assert.match(found.stderr, /-: standard input is not read/);
  if (process.getuid() !== 0) {
    chmodSync(written('locked.csv', text('key.csv')), 0);
    gives(['check', path('locked.csv')], 2, '', /it may not be read/);
  }
});

test('explain', () => {
  gives(['explain', example('key.csv')], 0, 'passes\n');
  const whole = /^refused 10\nA slot ends too late[^]*D15[^]*What would help[^]*\n- Put 7 into D15.*passes\.\n/;
  gives(['explain', example('cable-car-late.csv')], 1, whole);
  const found = json(['explain', example('cable-car-clash.csv')], 1);
  assert.deepEqual([found.answer, found.number], ['refused', 11]);
  assert.deepEqual(found.cells.map(({ cell }) => /^[A-F]1[34]$/.test(cell)).includes(true), true);
  assert.ok(found.help.length > 0 && found.help.every((one) => Object.keys(one).join() === 'text,number'));
  const unserved = json(['explain', written('unserved.csv', text('cable-car.csv').replace(/^slot;.*;brake;.*$/gm, '#'))], 1);
  assert.deepEqual([unserved.number, unserved.cells], [26, [{ cell: 'B6', text: 'no mode has a slot row for this circuit' }]]);
});

test('modes: all circuits, one circuit, one that is not there, a refused sheet', () => {
  const first = /^speed: node 1 to node 0, 1 hop; a word lands 6 cycles after it left\n/;
  const whole = gives(['modes', example('cable-car.csv')], 0, first).stdout;
  assert.match(whole, /^ {2}high wind and evacuation: {2}undisturbed$/m);
  assert.match(whole, /^ {2}normal +12 {2}2\+4 +3 +0\.2500$/m);
  assert.match(whole, /\nUndisturbed means: /);
  const one = gives(['modes', example('cable-car.csv'), '  brake '], 0, /^brake: node 0 to node 3, 2 hops; a word lands 9 cycles/).stdout;
  assert.ok(!one.includes('speed:') && one.includes('Undisturbed means: '));
  gives(['modes', example('cable-car.csv'), 'crane'], 2, '', /no circuit crane; its circuits: speed, cabin, brake/);
  gives(['modes', example('cable-car-late.csv')], 1, 'refused 10\n', /number 10/);
  const found = json(['modes', example('cable-car.csv'), 'speed'], 0);
  assert.deepEqual(found.pairs.map(({ first, second, answer }) => [first, second, answer]), [
    ['normal', 'high wind', 'undisturbed'], ['normal', 'evacuation', 'undisturbed'], ['high wind', 'evacuation', 'undisturbed'],
  ]);
  assert.deepEqual([found.circuits.length, found.circuits[0].flight], [1, 6]);
  gives(['modes', example('long.sheet'), 'circuit 1'], 0, /^circuit 1: node 0 to node 3, 2 hops \(1 vertical\); a word lands 10 cycles/);
  const { circuits } = json(['modes', example('long.sheet')], 0);
  assert.deepEqual(circuits.map(({ verticalHops, flight }) => [verticalHops, flight]), [[1, 7], [1, 10], [0, 6]]);
});

test('compare', () => {
  const longer = text('cable-car.csv').replace('slot;high wind;cabin;2;2;N', 'slot;high wind;cabin;2;3;N');
  const changed = written('changed.csv', longer.replaceAll(';brake;', ';crane;'));
  const lines = gives(['compare', example('cable-car.csv'), changed], 0, /./).stdout.split('\n');
  assert.deepEqual(lines.slice(0, 10), [
    'speed', '  normal:      undisturbed', '  high wind:   undisturbed', '  evacuation:  undisturbed',
    'cabin', '  normal:      undisturbed', '  high wind:   differs: slots 2+2 and 2+3',
    '  evacuation:  silent in both: nothing of the circuit leaves',
    `circuit brake: in ${example('cable-car.csv')} alone`, `circuit crane: in ${changed} alone`,
  ]);
  const wide = written('wide.csv', 'network;3;2;8\nmode;m;9');
  gives(['compare', example('cable-car.csv'), wide], 1, 'Nothing can be said: the grids differ (2 by 2 and 3 by 2 nodes).\n');
  assert.equal(json(['compare', example('cable-car.csv'), wide], 1).answer, 'grids differ');
  const long = written('long.csv', text('key.csv').replace('network;2;2;', 'network;2;2 long;'));
  const kinds = 'the grids are of two kinds (the vertical links of the new sheet are long, those of the old sheet are not)';
  gives(['compare', example('key.csv'), long], 1, `Nothing can be said: ${kinds}.\n`);
  assert.equal(json(['compare', long, example('key.csv')], 1).answer, 'grids differ');
  gives(['compare', long, long], 0, /^first\n {2}only: {2}undisturbed\n/);
  const swapped = text('cable-car.csv').replace('mode;normal;12\n', '').replace('mode;high wind;12\n', 'mode;high wind;12\nmode;normal;12\n');
  const order = gives(['compare', example('cable-car.csv'), written('swapped.csv', swapped)], 0, /./).stdout;
  assert.match(order.replace(/\n/g, ' '), /begin in different modes: the old sheet in normal, the new sheet in high wind/);
  assert.match(order.replace(/\n/g, ' '), /every period has the two modes of one line in force, a line that says undisturbed/);
  const refused = json(['compare', example('cable-car-clash.csv'), example('cable-car-late.csv')], 1);
  assert.deepEqual(refused.sheets.map(({ number }) => number), [11, 10]);
});

test('run: the listing, names, a refused sheet, a refused row', () => {
  gives(['run', '--cycles', '20', example('key.csv')], 0, text('key.listing'));
  const named = 'cycle node address word kind\n7 0 0 100 0  # speed, data\n9 0 4 200 0  # cabin, data\n';
  gives(['run', example('cable-car.csv'), '--cycles=10', '--names'], 0, named);
  gives(['run', example('cable-car-clash.csv'), '--cycles', '9'], 1, 'refused 11\n', /number 11/);
  const busy = written('busy.csv', text('key.csv') + 'at;3;start;first;0;0;1;data\n');
  gives(['run', busy, '--cycles', '20'], 1, 'refused 17\n', /busy\.csv: refused with number 17: .*first/);
  const early = written('early.csv', text('key.csv') + 'at;12;start;first;0;0;1;data\n');
  gives(['run', early, '--cycles', '20'], 1, 'refused 17\n', /early\.csv: .*1 word of it has not landed; .* this start is 17\.$/m);
  assert.match(json(['run', early, '--cycles', '20'], 1).why[0], /^Row 8: .*cycle 12 \(B8\) is too early: circuit first \(D8\)/);
  const landed = written('landed.csv', text('key.csv') + 'at;17;start;first;0;0;1;data\n');
  gives(['run', landed, '--cycles', '30'], 0, `${text('key.listing')}25 1 0 11 0\n`);
  const found = json(['run', example('key.csv'), '--cycles', '20'], 0);
  assert.deepEqual(found.landings[0], { cycle: 7, node: 1, kind: 0, address: 0, word: 11, circuit: 'first', kindName: 'data' });
  gives(['run', example('key.csv'), '--cycles', '65537'], 2, '', /from 0 to 65,536, and not 65537/);
});

test('draw: slots of one mode and of all, the grid still and moving', () => {
  gives(['draw', example('cable-car.csv'), '-o', 'all.svg'], 0, '');
  const all = parsed(readFileSync(path('all.svg'), 'utf8'));
  const nested = all.children.filter((child) => child.name === 'svg').map((child) => Number(child.attributes.y));
  assert.ok(nested.length === 3 && nested[0] < nested[1] && nested[1] < nested[2], nested.join());
  const one = gives(['draw', example('cable-car.csv'), '--mode', 'high wind', '-o', '-'], 0, /^<\?xml/).stdout;
  assert.ok(one.includes('Mode high wind') && !one.includes('Mode normal'));
  gives(['draw', example('cable-car.csv'), '--grid', '--cycles', '15', '-ogrid.svg'], 0, '');
  assert.equal(readFileSync(path('grid.svg'), 'utf8').match(/<animate /g).length, 15);
  const still = gives(['draw', example('cable-car.csv'), '--grid', '--cycle', '50', '-o', '-'], 0, /^<\?xml/).stdout;
  assert.ok(still.includes('cycle 50 (cycle 2 of period 4, mode high wind)') && !still.includes('<animate'));
  const sending = gives(['draw', example('a.sheet'), '--grid', '--cycle', '7', '-o', '-'], 0, /^<\?xml/).stdout;
  assert.ok(sending.includes('schedule 0') && sending.includes('100'));
  // A mode is drawn alone also where it has no slot for some circuit.
  for (const [mode, cycle, word] of [['normal', '9', 200], ['evacuation', '8', 300]]) {
    const alone = gives(['draw', example('cable-car.csv'), '--grid', '--mode', mode, '--cycle', cycle, '-o', '-'], 0, /^<\?xml/).stdout;
    assert.ok(alone.includes(`mode ${mode})`) && alone.includes(`>${word}<`));
  }
});

test('draw: a refused sheet, and what cannot be drawn', () => {
  gives(['draw', example('cable-car-clash.csv'), '-o', '-'], 1, /slots-1-shared/, /number 11/);
  const onlyPassing = /nothing is drawn: words move only on a sheet that passes/;
  gives(['draw', example('cable-car-clash.csv'), '--grid', '-o', 'no.svg'], 1, '', onlyPassing);
  const begun = written('begun.csv', 'network;2;2;8\ncircuit;a;0;1;0;2;0;2\nmode;m;9\n');
  gives(['draw', begun, '-o', '-'], 1, /This mode has no slots/, /number 26/);
  gives(['draw', begun, '--grid', '-o', 'no.svg'], 1, '', onlyPassing);
  gives(['draw', example('g.sheet'), '-o', 'no.svg'], 1, '', /nothing is drawn: its words do not divide/);
  assert.throws(() => readFileSync(path('no.svg')));
  const plan = written('plan.csv', text('key.csv'));
  gives(['draw', plan, '-o', './plan.csv'], 2, '', /is the file that is read/);
  assert.equal(readFileSync(plan, 'utf8'), text('key.csv'));
  gives(['draw', written('bare.csv', 'network;2;2;16\n'), '-o', 'no.svg'], 1, '', /nothing is drawn: it has no mode/);
  const many = 'network;2;2;16\n' + Array.from({ length: 20 }, (_, at) => `mode;m${at};9\n`).join('');
  const first = gives(['draw', written('many.csv', many), '-o', '-'], 1, /^<\?xml/, /the first 8 of its 20 modes are drawn/).stdout;
  assert.equal(first.match(/<svg /g).length, 9);
  gives(['draw', plan, '-o', 'no folder/x.svg'], 2, '', /cannot be written: there is no such folder/);
  gives(['draw', plan, '--mode', 'other', '-o', 'no.svg'], 2, '', /no mode other; its modes: only/);
});

test('mark: a paper, a folder of papers, a folder of sheets', () => {
  mkdirSync(path('papers'));
  written('papers/anna.txt', 'passes\n' + text('key.listing'));
  written('papers/ben.txt', 'refused 3\r\n7 1 0 11 0\r\n8 1 1 23 0\r\n9 1 0 1 0\r\n');
  written('papers/.hidden', 'passes\n');
  const paper = gives(['mark', example('key.csv'), 'papers/ben.txt', '--cycles', '20'], 0, /./).stdout;
  assert.equal(paper, [
    'wrong    refused 3   (the key has passes)',
    'right    7 1 0 11 0',
    'wrong    8 1 1 23 0   (the key has 8 1 1 22 0)',
    'missing  16 1 2 33 0',
    'surplus  9 1 0 1 0',
    'papers/ben.txt: 1 right, 2 wrong, 1 missing, 1 surplus of 4', '',
  ].join('\n'));
  const whole = gives(['mark', example('key.csv'), 'papers', '--cycles', '20'], 0, /./).stdout.split('\n').slice(-4);
  assert.deepEqual(whole, [
    'paper            right  wrong  missing  surplus  total',
    'papers/anna.txt      4      0        0        0      4',
    'papers/ben.txt       1      2        1        1      4',
    '',
  ]);
  mkdirSync(path('keys'));
  for (const name of ['key.csv', 'cable-car-late.csv']) written(`keys/${name}`, text(name));
  written('keys/README.txt', 'not a sheet');
  const found = json(['mark', 'keys', written('both.txt', 'key: passes\ncable-car-late.csv: refused 10\n')], 0);
  assert.deepEqual([found.papers[0].right, found.papers[0].total], [2, 2]);
});

test('mark: papers and keys that cannot be read', () => {
  written('paper.txt', 'passes\n');
  const marked = /^right {4}passes\npaper\.txt: 1 right/;
  const found = gives(['mark', example('key.csv'), 'paper.txt', 'nosuch.txt'], 2, marked, /^nosuch\.txt: there is no such file\n$/);
  assert.match(found.stdout, /^nosuch\.txt +- +- +- +- +-$/m);
  gives(['mark', written('broken.csv', 'circuit;a'), 'paper.txt'], 2, '', /broken\.csv, [A-Z]1: /);
  mkdirSync(path('empty'));
  gives(['mark', 'empty', 'paper.txt'], 2, '', /the folder has no sheet/);
  gives(['mark', example('key.csv'), 'empty'], 2, /./, /the folder has no paper/);
});

test('certificate: the same to the byte, and of a refusal too', () => {
  gives(['certificate', example('cable-car.csv'), '-o', 'one.html'], 0, '');
  gives(['certificate', '-o', '-', example('cable-car.csv')], 0, readFileSync(path('one.html'), 'utf8'));
  gives(['certificate', example('cable-car-late.csv'), '-o', '-'], 1, /Certificate of refusal[^]*refused with number 10/, /number 10/);
  assert.ok(!readFileSync(path('one.html'), 'utf8').includes(root));
});
