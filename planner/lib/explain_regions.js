// Why a sheet is refused by number 6: regions of a memory that share words; and receive offsets that are free.
import { placeOfWord } from './document.js';
import { circuitName, circuitWithRow, counted } from './naming.js';
import { CIRCUIT_WORDS, partsOf } from './sheet.js';
import { bestTrial, nearest, put, tried } from './trials.js';

// Places in a circuit's record; a region's length stands behind its offset.
export const SOURCE = 0;
export const DESTINATION = 1;
export const READ_OFFSET = 2;
export const RECEIVE_OFFSET = 4;
export const REGION_NAMES = { [READ_OFFSET]: 'read region', [RECEIVE_OFFSET]: 'receive region' };

export const recordIn = (words, at) => words.slice(at, at + CIRCUIT_WORDS);

// Number 6: the words that two regions share at a node.
export function explainRegions(context) {
  const { document, found } = context;
  const shared = sharedWords(document, found.circuits);
  const regions = shared.flatMap((pair) => pair.regions);
  const places = new Set(regions.flatMap(({ circuit, at }) => [circuit.at + at, circuit.at + at + 1]));
  const lines = shared.map(({ node, from, to, regions: [one, other] }) => {
    const addresses = from === to ? `address ${from}` : `addresses ${from} to ${to}`;
    return `At node ${node} ${regionText(document, one)} and ${regionText(document, other)} share ${addresses}.`;
  });
  const isReceiving = (circuit) => regions.some((region) => region.circuit === circuit && region.at === RECEIVE_OFFSET);
  const receiving = found.circuits.filter(isReceiving).reverse();
  return {
    marks: [...places].map((at) => ({ at, text: 'this region shares words' })),
    lines,
    help: [...receiving.flatMap((circuit) => freeReceiveOffsets(context, circuit)), ...shared.flatMap((pair) => shorter(context, pair))],
  };
}

// A circuit's region: the node it lies at, its first and its last address.
function regionOf(document, circuit, at) {
  const record = recordIn(document.words, circuit.at);
  return { circuit, at, node: record[at === READ_OFFSET ? SOURCE : DESTINATION], from: record[at], to: record[at] + record[at + 1] - 1 };
}

// Pairs of regions of two circuits that share words, a receive region among them.
function sharedWords(document, [first, second]) {
  const kinds = [[RECEIVE_OFFSET, RECEIVE_OFFSET], [RECEIVE_OFFSET, READ_OFFSET], [READ_OFFSET, RECEIVE_OFFSET]];
  return kinds.flatMap(([one, other]) => {
    const regions = [regionOf(document, first, one), regionOf(document, second, other)];
    const [from, to] = [Math.max(regions[0].from, regions[1].from), Math.min(regions[0].to, regions[1].to)];
    return regions[0].node === regions[1].node && from <= to ? [{ node: regions[0].node, from, to, regions }] : [];
  });
}

function regionText(document, { circuit, at, from, to }) {
  const cells = `${placeOfWord(document, circuit.at + at)}, ${placeOfWord(document, circuit.at + at + 1)}`;
  return `the ${REGION_NAMES[at]} of ${circuitWithRow(document, circuit)}, addresses ${from} to ${to} (${cells}),`;
}

// Receive offsets at which a circuit's region shares nothing with another, the nearest that pass.
export function freeReceiveOffsets({ document, verdict, found }, circuit) {
  const memory = document.words[2];
  const own = recordIn(document.words, circuit.at);
  const length = own[RECEIVE_OFFSET + 1];
  const others = partsOf(document.words).circuits.flatMap((other) => {
    const regions = [regionOf(document, other, READ_OFFSET)];
    if (other.number !== circuit.number) regions.push(regionOf(document, other, RECEIVE_OFFSET));
    return regions.filter((region) => region.node === own[DESTINATION]);
  });
  const isApart = (offset) => others.every(({ from, to }) => offset > to || offset + length <= from);
  const isFree = (offset) => offset >= 0 && offset + length <= memory && isApart(offset);
  const values = new Set([0, memory - length, ...others.flatMap(({ from, to }) => [from - length, to + 1])].filter(isFree));
  const cell = placeOfWord(document, circuit.at + RECEIVE_OFFSET);
  const changes = nearest(values, own[RECEIVE_OFFSET]).map((word) => ({
    text: `Put ${word} into ${cell}: a receive offset at which ${circuitName(document, circuit.number)} shares nothing`,
    change: put(circuit.at + RECEIVE_OFFSET, word),
  }));
  return bestTrial(document, found.number, changes, verdict);
}

// The region that begins first, made to end before the other.
function shorter({ document, verdict }, { regions }) {
  const [one, other] = regions[0].from <= regions[1].from ? regions : [regions[1], regions[0]];
  const length = other.from - one.from;
  if (length === 0) return [];
  const at = one.circuit.at + one.at + 1;
  const less = counted(document.words[at] - length, 'word');
  const region = `the ${REGION_NAMES[one.at]} of ${circuitName(document, one.circuit.number)}, shorter by ${less}`;
  return [tried(document, `Put ${length} into ${placeOfWord(document, at)}: ${region}`, put(at, length), verdict)];
}
