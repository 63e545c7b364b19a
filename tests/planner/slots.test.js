// The slots on the wires, held against the proved calls: what a run shows on the wires, and the verdicts 10 and 11.
import test from 'node:test';
import assert from 'node:assert/strict';
import { openProved } from '../../planner/command/proved.js';
import { gridAnimation } from '../../planner/lib/grid_picture.js';
import { svgFile } from '../../planner/lib/markup.js';
import { MEMORY_WIRE, sheetBeginningIn, sheetOfMode, SOURCE_WIRE } from '../../planner/lib/run.js';
import { partsOf, wordsOf } from '../../planner/lib/sheet.js';
import { circuitFinder, packetsOf, sharedCycles, wireName } from '../../planner/lib/slots.js';
import { slotsPicture } from '../../planner/lib/slots_picture.js';
import { checkedPicture, toldParts } from './picture_checks.js';
import { random } from './random.js';
import { served } from './sheets.js';
import { anySchedule, documentOf, gridOf, passingSchedule, sendingFrames } from './slot_sheets.js';

const calls = await openProved();
const PERIODS = 3;

// How many words should leave in each slot of a run in which every circuit sends: a transfer has as many as the regions hold, and the next
// one starts in the cycle after its last word has landed (number 17 until then).
function sentWords(parts, period) {
  const sent = new Map();
  for (const { number, words: [, , , readLength, , receiveLength] } of parts.circuits) {
    let [left, free] = [0, 0];
    const own = packetsOf(parts, 0).filter((packet) => packet.circuit === number).sort((a, b) => a.offset - b.offset);
    for (let turn = 0; turn < PERIODS; turn++) {
      for (const { entry, offset, length, hops, verticalHops } of own) {
        const begin = turn * period + offset;
        if (left === 0 && begin >= free) left = Math.min(readLength, receiveLength);
        const words = Math.min(length - 1, left);
        left -= words;
        if (words > 0 && left === 0) free = begin + words + 3 * (hops + 1) + verticalHops + 1;
        sent.set(`${turn}.${entry}`, words);
      }
    }
  }
  return sent;
}

// What such a run should show: for each wire in each cycle the mark and the circuit.
function reckoned(parts, period, sent) {
  const cells = new Map();
  for (let turn = 0; turn < PERIODS; turn++) {
    for (const packet of packetsOf(parts, 0)) {
      const words = sent.get(`${turn}.${packet.entry}`);
      for (const { node, wire, from } of words > 0 ? packet.wires : []) {
        for (let cycle = from; cycle <= from + words; cycle++) {
          const at = cycle + turn * period;
          if (at >= PERIODS * period) continue;
          const key = `cycle ${at}, node ${node}, wire ${wire}`;
          assert.ok(!cells.has(key), `${key} is used twice`);
          cells.set(key, { mark: cycle === from ? 1 : cycle === from + words ? 3 : 2, circuit: packet.circuit });
        }
      }
    }
  }
  return cells;
}

const circuitOfPayload = (word) => Math.floor(word / 100) - 1;
const isVertical = (wire) => wire === 0 || wire === 2;

// The registers of long vertical links have what was on their wires in the cycle before; other grids have none.
function holdRegisters(long, before, frame) {
  const wires = long && before ? before.wires.filter(({ wire }) => isVertical(wire)) : [];
  assert.deepEqual(frame.registers, wires, `cycle ${frame.cycle}`);
  return wires.length;
}

// Holds a run of a mode in which every circuit sends to what is reckoned, wire by wire and landing by landing: how many cells were compared,
// how many words were in registers, and how many slots were full, shorter and empty.
function heldRun(whole, mode) {
  const parts = partsOf(sheetOfMode(whole, mode));
  const { period } = parts.schedules[0];
  const sent = sentWords(parts, period);
  const cells = reckoned(parts, period, sent);
  const [found, landed] = [new Map(), new Set()];
  let [before, registers] = [null, 0];
  for (const frame of sendingFrames(calls, sheetBeginningIn(whole, mode), PERIODS * period)) {
    assert.equal(frame.mode, 0);
    registers += holdRegisters(parts.long, before, frame);
    before = frame;
    for (const { node, wire, mark, word } of frame.wires) {
      const key = `cycle ${frame.cycle}, node ${node}, wire ${wire}`;
      const cell = cells.get(key);
      assert.ok(cell, `${key} has a word, and none is reckoned there`);
      found.set(key, { mark, circuit: mark === 1 ? cell.circuit : circuitOfPayload(word) });
    }
    for (const { node } of frame.landings) landed.add(`cycle ${frame.cycle}, node ${node}, wire ${MEMORY_WIRE}`);
  }
  const byKey = (a, b) => (a[0] < b[0] ? -1 : 1);
  assert.deepEqual([...found].sort(byKey), [...cells].sort(byKey));
  const landing = [...cells.keys()].filter((key) => key.endsWith(`wire ${MEMORY_WIRE}`) && cells.get(key).mark !== 1);
  assert.deepEqual([...landed].sort(), landing.sort());
  return { cells: cells.size, registers, ...slotCounts(parts, sent) };
}

// How many slots of a run are full, shorter and empty.
function slotCounts(parts, sent) {
  const counts = { full: 0, shorter: 0, empty: 0 };
  for (const { entry, length } of packetsOf(parts, 0)) {
    for (let turn = 0; turn < PERIODS; turn++) {
      const words = sent.get(`${turn}.${entry}`);
      counts[words === length - 1 ? 'full' : words > 0 ? 'shorter' : 'empty']++;
    }
  }
  return counts;
}

test('full slots: a run shows on the wires exactly what is reckoned, and lands it', () => {
  const draw = random(1);
  let [seen, inRegisters, silent] = [0, 0, 0];
  for (let sheet = 0; sheet < 300; sheet++) {
    const parts = gridOf(draw, draw.between(1, 8), true);
    const modes = draw.between(1, 3);
    parts.schedules = Array.from({ length: modes }, () => passingSchedule(draw, calls, parts, draw.between(9, 30), 12));
    const mode = draw.below(modes);
    const whole = wordsOf(served(parts));
    if (calls.verdict(sheetOfMode(whole, mode)) === 26) silent++;
    const { cells, registers, shorter, empty } = heldRun(whole, mode);
    assert.deepEqual([shorter, empty], [0, 0], 'the regions hold all words of the run');
    seen += cells;
    inRegisters += registers;
  }
  assert.ok(seen > 50000, `only ${seen} cells were compared`);
  assert.ok(inRegisters > 5000, `only ${inRegisters} words were seen in registers`);
  assert.ok(silent > 50, `only ${silent} modes have no slot for some circuit, and would not be loaded alone`);
});

test('slots of circuits that run out of words: a header and what is left, then nothing until the last word has landed (number 17)', () => {
  const draw = random(2);
  const slots = { full: 0, shorter: 0, empty: 0 };
  for (let sheet = 0; sheet < 300; sheet++) {
    const parts = gridOf(draw, draw.between(1, 8), false);
    parts.schedules = [passingSchedule(draw, calls, parts, draw.between(9, 30), 12)];
    const { full, shorter, empty } = heldRun(wordsOf(served(parts)), 0);
    slots.full += full;
    slots.shorter += shorter;
    slots.empty += empty;
  }
  assert.ok(Math.min(slots.full, slots.shorter, slots.empty) > 500, JSON.stringify(slots));
});

test('two packets share a wire in a cycle exactly where the verdict is 11, and the picture marks it', () => {
  const draw = random(3);
  const count = { 0: 0, 11: 0 };
  for (let sheet = 0; sheet < 1500; sheet++) {
    const grid = gridOf(draw, draw.between(1, 6), true);
    const parts = served({ ...grid, schedules: [anySchedule(draw, grid, draw.between(12, 40), draw.between(1, 5), false)] });
    const words = wordsOf(parts);
    const verdict = calls.verdict(words);
    const packets = packetsOf(parts, 0);
    assert.equal(verdict, sharedCycles(packets.flatMap((packet) => packet.wires)).length > 0 ? 11 : 0);
    count[verdict]++;
    if (sheet % 10 > 0 || packets.length === 0) continue;
    const told = toldParts(checkedPicture(svgFile(slotsPicture(documentOf(words, String, String), 0))));
    assert.equal(verdict === 11, told.some((part) => part.attributes['aria-label'].startsWith('Shared: ')));
    assert.ok(!told.some((part) => part.attributes['aria-label'].startsWith('Late: ')));
  }
  assert.ok(count[0] > 200 && count[11] > 200, JSON.stringify(count));
});

test('a packet is on a link, or in its register, behind cycle P + 2 exactly where the verdict is 10, and the picture marks it', () => {
  const draw = random(4);
  const count = { early: 0, late: 0, lateInRegister: 0 };
  for (let sheet = 0; sheet < 1500; sheet++) {
    const parts = gridOf(draw, draw.between(1, 6), true);
    parts.schedules = [anySchedule(draw, parts, draw.between(9, 40), draw.between(1, 3), true)];
    const words = wordsOf(parts);
    const { period } = parts.schedules[0];
    const lastOn = ({ wire, to }) => to + (parts.long && isVertical(wire) ? 1 : 0);
    const linksOf = (packet) => packet.wires.filter((use) => use.wire < MEMORY_WIRE);
    const links = packetsOf(parts, 0).flatMap(linksOf);
    const late = links.some((use) => lastOn(use) > period + 2);
    for (const packet of packetsOf(parts, 0)) {
      const end = packet.offset + packet.length - 1 + 3 * packet.hops + packet.verticalHops;
      assert.equal(Math.max(...linksOf(packet).map(lastOn)), end);
    }
    assert.equal(calls.verdict(words) === 10, late);
    count[late ? 'late' : 'early']++;
    if (late && !links.some((use) => use.to > period + 2)) count.lateInRegister++;
    if (sheet % 10 > 0) continue;
    const told = toldParts(checkedPicture(svgFile(slotsPicture(documentOf(words, String, String), 0))));
    assert.equal(late, told.some((part) => part.attributes['aria-label'].startsWith('Late: ')));
  }
  assert.ok(count.early > 200 && count.late > 200 && count.lateInRegister > 20, JSON.stringify(count));
});

// A run through all modes of a sheet, each for three periods.
function switchingRun(draw, full) {
  const parts = gridOf(draw, draw.between(2, 8), full);
  parts.schedules = Array.from({ length: 4 }, () => passingSchedule(draw, calls, parts, draw.between(9, 24), 14));
  const words = wordsOf(served(parts));
  let next = 1;
  const frames = sendingFrames(calls, words, 220, () => {
    if (next < 4 && calls.order(next, calls.periodNumber().value + 3) === 0) next++;
  });
  return { words, frames };
}

test('across switches of modes the words on the wires are given to their circuits, and never to others', () => {
  const draw = random(5);
  let [known, unknown] = [0, 0];
  for (let sheet = 0; sheet < 24; sheet++) {
    const { words, frames } = switchingRun(draw, sheet % 2 === 0);
    assert.ok(new Set(frames.map((frame) => frame.mode)).size === 4);
    const circuitOf = circuitFinder(partsOf(words));
    for (const frame of frames) {
      for (const cell of frame.wires.filter(({ mark }) => mark !== 1)) {
        const circuit = circuitOf(frame, cell);
        if (circuit === null) unknown++;
        else assert.equal(circuit, circuitOfPayload(cell.word), `cycle ${frame.cycle}`);
        if (circuit !== null) known++;
      }
    }
    const told = toldParts(checkedPicture(svgFile(gridAnimation(documentOf(words, (number) => `c${number}`, String), frames))));
    for (const part of told.filter((one) => / payload/.test(one.attributes['aria-label']))) {
      const [, name, word] = / of c(\d+), word (\d+)$/.exec(part.attributes['aria-label']) ?? assert.fail(part.attributes['aria-label']);
      assert.equal(Number(name), circuitOfPayload(Number(word)));
    }
  }
  assert.ok(unknown > 0 && known > 20 * unknown, `${known} known, ${unknown} not`);
});

test('sheets that are refused are reckoned as far as their words go', () => {
  const circuits = [{ number: 0, words: [0, 1, 0, 4, 0, 4] }];
  const parts = (entries, columns = 2) => ({ columns, rows: 2, memory: 16, circuits, schedules: [{ period: 12, entries }] });
  const entry = (...words) => ({ number: 0, words });
  const [endless] = packetsOf(parts([entry(0, 2, 0, 21845)]), 0);
  assert.deepEqual([endless.hops, endless.out, endless.wires.length], [8, null, 9]);
  assert.ok(endless.wires.every((use) => use.wire !== MEMORY_WIRE));
  const [wrong] = packetsOf(parts([entry(1, 3, 0, 8)]), 0);
  assert.deepEqual(wrong.wires, [
    { node: 0, wire: SOURCE_WIRE, from: 1, to: 3 },
    { node: 0, wire: 0, from: 4, to: 6 },
    { node: 2, wire: MEMORY_WIRE, from: 7, to: 9 },
  ]);
  assert.deepEqual(packetsOf(parts([entry(0, 2, 7, 13)]), 0)[0].wires, []);
  assert.deepEqual(packetsOf(parts([entry(0, 2, 0, 13)], 5), 0)[0].wires, []);
  assert.equal(wireName(2, 2, 2, SOURCE_WIRE), 'source of node 2');
  assert.equal(wireName(2, 2, 1, 3), 'node 1 to the west (to node 0)');
  assert.equal(wireName(2, 2, 0, MEMORY_WIRE), 'memory of node 0');
});
