// The pictures: well-formed, told, escaped, and every slot and word at its place.
import test from 'node:test';
import assert from 'node:assert/strict';
import { openProved } from '../../planner/command/proved.js';
import { colourOf, fillOf, patternsOf, tintOf } from '../../planner/lib/colours.js';
import { documentOfText } from '../../planner/lib/document.js';
import { gridAnimation, gridPicture, MOST_FRAMES } from '../../planner/lib/grid_picture.js';
import { markup, svgFile } from '../../planner/lib/markup.js';
import { wordsOf } from '../../planner/lib/sheet.js';
import { packetsOf, wireName } from '../../planner/lib/slots.js';
import { slotsPicture } from '../../planner/lib/slots_picture.js';
import { checkedPicture, everyItem, textIn, toldParts } from './picture_checks.js';
import { random } from './random.js';
import { served } from './sheets.js';
import { anySchedule, circuitsOn, documentOf, gridOf, passingSchedule, sendingFrames } from './slot_sheets.js';
import { leastMilliseconds } from './time.js';

const calls = await openProved();

test('any words give a picture, and soon', () => {
  const draw = random(6);
  const odd = [0, 1, 2, 4, 5, 9, 16, 256, 258, 261, 514, 1024, 1025, 65535, 65536, 4294967295];
  for (let sheet = 0; sheet < 150; sheet++) {
    const parts = gridOf(draw, draw.between(1, 5), true);
    parts.schedules = [anySchedule(draw, parts, draw.between(9, 40), draw.between(1, 5), false)];
    const words = wordsOf(parts);
    for (let edit = draw.between(1, 3); edit > 0; edit--) words[draw.below(words.length)] = draw.choose(odd);
    const document = documentOf(words, () => 'name', () => 'name');
    checkedPicture(svgFile(slotsPicture({ ...document, circuitNames: ['only one'] }, 0)));
    checkedPicture(svgFile(gridPicture(document, null)));
  }
  for (const document of [documentOf([1, 2], String, String), { words: null, circuitNames: [], modeNames: [] }]) {
    checkedPicture(svgFile(slotsPicture(document, 0)));
    checkedPicture(svgFile(gridPicture(document, null)));
  }
});

// The slots that a picture of two periods should have, as texts: circuit and wire, first and last cycle drawn.
function slotsWanted(parts, period) {
  const wires = packetsOf(parts, 0).flatMap((packet) => packet.wires.map((use) => ({ ...use, circuit: packet.circuit })));
  return [-1, 0, 1].flatMap((number) =>
    wires
      .filter((use) => use.to + number * period >= 0)
      .map((use) => {
        const name = `c${use.circuit}: ${wireName(parts.columns, parts.rows, use.node, use.wire)}`;
        return `${name}, ${Math.max(0, use.from + number * period)} to ${use.to + number * period}`;
      }),
  );
}

// The slots that a picture has: what is told of each, and where its box lies.
function slotsShown(root) {
  return toldParts(root).map((part) => {
    const [, wire, from, to] = /^(.*), cycles? (\d+)(?: to (\d+))? \(/.exec(part.attributes['aria-label']);
    const { x, y, width } = everyItem(part).find((item) => item.name === 'rect').attributes;
    const cycles = Number(to ?? from) - Number(from) + 1;
    const place = { from: Number(from), cycles, x: Number(x), y: Number(y), width: Number(width) };
    return { text: `${wire}, ${from} to ${to ?? from}`, wire: wire.replace(/^c\d+: /, ''), ...place };
  });
}

test('every slot on a wire stands in the picture once, where its text says; lines mark the ends of periods and of number 10', () => {
  const draw = random(7);
  for (let sheet = 0; sheet < 60; sheet++) {
    const parts = gridOf(draw, draw.between(1, 8), true);
    const period = draw.choose([9, 12, 26, 60, 100, 300, 1024]);
    parts.schedules = [passingSchedule(draw, calls, parts, period, 12)];
    if (parts.schedules[0].entries.length === 0) continue;
    const document = documentOf(wordsOf(parts), (number) => `c${number}`, String);
    const root = checkedPicture(svgFile(slotsPicture(document, 0, { background: true })));
    const shown = slotsShown(root);
    assert.deepEqual(shown.map((slot) => slot.text).sort(), slotsWanted(parts, period).sort());
    const cycle = shown[0].width / shown[0].cycles;
    const zero = shown[0].x - shown[0].from * cycle;
    for (const slot of shown) assert.deepEqual([slot.x, slot.width], [zero + slot.from * cycle, slot.cycles * cycle]);
    const rows = new Set(shown.map((slot) => `${slot.wire}, ${slot.y}`));
    assert.equal(new Set(shown.map((slot) => slot.wire)).size, rows.size, 'a wire has one row');
    assert.equal(new Set(shown.map((slot) => slot.y)).size, rows.size, 'a row has one wire');
    const [first, last] = [Math.min, Math.max].map((most) => most(...shown.map((slot) => slot.y)));
    const lines = everyItem(root).filter((item) => item.name === 'line');
    const through = lines.filter(({ attributes: { y1, y2 } }) => Number(y1) < first && Number(y2) > last);
    const ends = through.filter((item) => item.attributes['stroke-width'] !== undefined).map(({ attributes }) => {
      return `${attributes['stroke-dasharray'] ? 'number 10' : 'period'}: ${(Number(attributes.x1) - zero) / cycle}`;
    });
    const wanted = [`number 10: ${period + 3}`, `number 10: ${2 * period + 3}`, `period: ${period}`, `period: ${2 * period}`];
    assert.deepEqual(ends.sort(), wanted.sort());
  }
});

const HOSTILE = '<script>alert("1")</script>&\'"]]>';

test('hostile names are escaped in every picture', () => {
  const name = HOSTILE.replaceAll('"', '""');
  const text = `network;2;2;16\ncircuit;"${name}";0;1;0;4;0;4\nmode;"${name}";12\nslot;"${name}";"${name}";0;5;E\n`;
  const document = documentOfText('hostile.csv', text);
  assert.deepEqual(document.problems, []);
  const frames = sendingFrames(calls, document.words, 30);
  const pictures = [
    slotsPicture(document, 0, { prefix: 'a', background: true }),
    gridPicture(document, frames[5], { prefix: 'b' }),
    gridAnimation(document, frames, { prefix: 'c' }),
  ];
  for (const picture of pictures) {
    const root = checkedPicture(svgFile(picture));
    assert.ok(everyItem(root).some((item) => textIn(item).includes('<script>alert("1")</script>&')));
    assert.ok(!markup(picture).includes('<script'));
  }
  const together = pictures.map((one) => markup(one, true)).join('');
  checkedPicture(`<svg viewBox="0 0 1 1" width="1" height="1"><title>t</title><desc>d</desc>${together}</svg>`);
});

test('a grid of frames: one size, each word and each landing told, a node and a cycle in words', () => {
  const draw = random(8);
  for (const [columns, rows, long] of [[2, 2, false], [3, 2, false], [4, 4, false], [2, 3, true], [3, 4, true]]) {
    const parts = { columns, rows, long, memory: 2048, circuits: circuitsOn(draw, columns, rows, 8, true), schedules: [] };
    parts.schedules = [passingSchedule(draw, calls, parts, 20, 20)];
    const document = documentOf(wordsOf(served(parts)), (number) => `c${number}`, () => 'only');
    const frames = sendingFrames(calls, document.words, 45);
    const sizes = new Set();
    assert.equal(frames.some(({ registers }) => registers.length > 0), long);
    for (const frame of frames) {
      const root = checkedPicture(svgFile(gridPicture(document, frame, { background: true })));
      sizes.add(root.attributes.viewBox);
      assert.equal(toldParts(root).length, frame.wires.length + frame.registers.length + frame.landings.length);
      assert.equal(textIn(root.children[0]), `cycle ${frame.cycle} (cycle ${frame.cycleInPeriod} of period ${frame.period}, mode only)`);
      const texts = toldParts(root).map((part) => part.attributes['aria-label']);
      for (const { node, wire, word } of frame.wires) {
        const begin = `${wireName(columns, rows, node, wire)}: `;
        assert.ok(texts.some((text) => text.startsWith(begin) && / of c\d/.test(text) && text.includes(`word ${word}`)), begin);
      }
      for (const { node, wire, word } of frame.registers) {
        const begin = `${wireName(columns, rows, node, wire)}, in its register: `;
        assert.ok(texts.some((text) => text.startsWith(begin) && / of c\d/.test(text) && text.includes(`word ${word}`)), begin);
      }
      for (const { node, address, word } of frame.landings) {
        assert.ok(texts.includes(`node ${node}: the word ${word} landed at address ${address}`));
      }
    }
    assert.equal(sizes.size, 1);
    const alone = everyItem(checkedPicture(svgFile(gridPicture(document, null))));
    const stubs = alone.filter((item) => item.name === 'text' && /^to node \d+$/.test(textIn(item)));
    assert.equal(stubs.length, 2 * (columns + rows), 'each link that wraps round says where it leads');
    holdRegisters(alone, columns, rows, long);
  }
});

// Each vertical link of a grid whose vertical links are long has a register, told by its title; a legend says what it is.
function holdRegisters(items, columns, rows, long) {
  const titles = items.filter((item) => item.name === 'title').map(textIn).filter((title) => title.startsWith('register of the link '));
  const nodes = Array.from({ length: columns * rows }, (_, node) => node);
  const wanted = nodes.flatMap((node) => [0, 2].map((side) => `register of the link from ${wireName(columns, rows, node, side)}`));
  assert.deepEqual(titles.sort(), long ? wanted.sort() : []);
  const texts = items.filter((item) => item.name === 'text').map(textIn);
  assert.equal(texts.includes('register of a long vertical link: one cycle more'), long);
}

test('an animation shows each frame in its turn, and no more than it may', () => {
  const document = documentOfText('key.csv', 'network;2;2;8\ncircuit;first;0;1;0;4;0;4\nmode;only;9\nslot;only;first;0;3;E\n');
  const frames = sendingFrames(calls, document.words, 20);
  const turnsOf = (animation) => everyItem(checkedPicture(svgFile(animation))).filter((item) => item.name === 'animate');
  const turns = turnsOf(gridAnimation(document, frames, { seconds: 0.25 }));
  assert.equal(turns.length, 20);
  for (let time = 0.02; time < 1; time += 0.05) {
    const shown = turns.filter(({ attributes: { keyTimes, values, dur } }) => {
      assert.equal(dur, '5s');
      const at = keyTimes.split(';').findLastIndex((key) => Number(key) <= time);
      return values.split(';')[at] === 'inline';
    });
    assert.deepEqual(shown.map((turn) => turns.indexOf(turn)), [Math.floor(time * 20)]);
  }
  assert.equal(turnsOf(gridAnimation(document, frames.slice(0, 1))).length, 0);
  checkedPicture(svgFile(gridAnimation(document, [])));
  assert.throws(() => gridAnimation(document, new Array(MOST_FRAMES + 1).fill(frames[0])), RangeError);
});

// The contrast of two colours as the guidelines for accessible pages reckon it.
function contrast(one, other) {
  const light = (colour) => {
    const parts = [1, 3, 5].map((at) => parseInt(colour.slice(at, at + 2), 16) / 255);
    const [red, green, blue] = parts.map((part) => (part <= 0.04045 ? part / 12.92 : ((part + 0.055) / 1.055) ** 2.4));
    return 0.2126 * red + 0.7152 * green + 0.0722 * blue;
  };
  return (Math.max(light(one), light(other)) + 0.05) / (Math.min(light(one), light(other)) + 0.05);
}

test('64 circuits look different, also without colour; lines and letters can be read on white and on black', () => {
  const circuits = Array.from({ length: 64 }, (_, number) => number);
  const patterns = patternsOf(circuits, 'p').map((pattern) => ({ ...pattern, attributes: { ...pattern.attributes, id: null } }));
  assert.equal(new Set(patterns.map((pattern) => markup(pattern))).size, 64);
  const lines = patterns.map((pattern) => pattern.children[1]?.attributes.d);
  for (let first = 0; first + 16 <= 64; first++) assert.equal(new Set(lines.slice(first, first + 16)).size, 16);
  assert.equal(patternsOf([3], 'p')[0].attributes.id, 'p-circuit-3');
  assert.equal(fillOf(3, 'p'), 'url(#p-circuit-3)');
  for (const circuit of circuits) {
    assert.ok(contrast(colourOf(circuit), '#ffffff') >= 3 && contrast(colourOf(circuit), '#000000') >= 3, colourOf(circuit));
    assert.ok(contrast(tintOf(circuit), '#111111') >= 7, tintOf(circuit));
  }
});

test('the largest mode is drawn in less than a second and 6 million characters', () => {
  const draw = random(9);
  const parts = { columns: 4, rows: 4, memory: 16384, circuits: circuitsOn(draw, 4, 4, 64, true), schedules: [] };
  for (const circuit of parts.circuits) circuit.length = draw.between(2, 16);
  const schedule = anySchedule(draw, parts, 1024, 400, false);
  parts.schedules = [{ ...schedule, entries: schedule.entries.slice(0, 256) }];
  assert.equal(parts.schedules[0].entries.length, 256);
  const document = documentOf(wordsOf(parts), (number) => `${number} ${'<'.repeat(57)}`, () => 'largest');
  const text = svgFile(slotsPicture(document, 0, { background: true }));
  const time = leastMilliseconds(() => svgFile(slotsPicture(document, 0, { background: true })), 1000);
  assert.ok(time < 1000, `${time} ms`);
  assert.ok(text.length < 6e6, `${text.length} characters`);
  const frames = sendingFrames(calls, wordsOf(served({ ...parts, schedules: [passingSchedule(draw, calls, parts, 40, 60)] })), MOST_FRAMES);
  assert.ok(svgFile(gridAnimation(document, frames, { mode: 0 })).length < 6e6);
});

test('a mode without slots, and files that have no slots to draw, say so', () => {
  const document = documentOfText('none.csv', 'network;2;2;16\ncircuit;a;0;1;0;4;0;4\nmode;quiet;12\n');
  assert.match(textIn(checkedPicture(svgFile(slotsPicture(document, 0)))), /Mode quiet.*This mode has no slots/);
  assert.match(textIn(checkedPicture(svgFile(slotsPicture(document, 3)))), /no mode number 3/);
  const told = (words) => textIn(checkedPicture(svgFile(slotsPicture(documentOf(words, String, String), 0))));
  assert.match(told([2, 2, 8, 0]), /does not divide/);
  const sheet = (columns, period, circuit, slots = 1) => [columns, 2, 8, 1, 1, 0, 1, 0, 4, 0, 4, period, slots, 0, 3, circuit, 13];
  assert.doesNotMatch(told(sheet(2, 9, 0)), /No /);
  assert.match(told(sheet(5, 9, 0)), /No grid has 5 columns and 2 rows/);
  for (const period of [0, 1025, 4294967295]) assert.match(told(sheet(2, period, 0)), new RegExp(`No period has ${period} cycles`));
  assert.match(told(sheet(2, 9, 1)), /No slot can be drawn: its circuit is not there/);
  const withSecond = (...entry) => [...sheet(2, 9, 0, 2), ...entry];
  assert.doesNotMatch(told(withSecond(4, 2, 0, 13)), /not drawn/);
  for (const entry of [[4, 0, 0, 13], [4, 2, 1, 13], [400, 2, 0, 13]]) assert.match(told(withSecond(...entry)), /slots not drawn .*: 1/);
});
