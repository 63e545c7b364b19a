// The proved calls (docs/INTERFACE.md, 'The exported calls') as WebAssembly. A slice is a place in the module's memory and a length in
// words, that of transfers in records. The numbers, the answers and the lent words are theirs; this file only lends words and unpacks answers.

// Rows of the lent state that are read for pictures (docs/STATE.md).
export const ROWS = { clock: 0, linkMark: 1, linkWord: 2, outMark: 7, outWord: 8, landingMark: 12, left: 16, extraMark: 21, extraWord: 22 };
const ROW_WORDS = 80;
const MOST_MEMORY_WORDS = 16 * 16384;
const PAGE_BYTES = 65536;

// Opens the calls of a module; each opening has a state and a memory of its own.
export async function openCalls(bytes) {
  const { instance } = await WebAssembly.instantiate(bytes, {});
  return callsOf(instance.exports);
}

// An answer of 64 bits is number × 2^32 + value.
function unpacked(answer) {
  const bits = BigInt.asUintN(64, answer);
  return { number: Number(bits >> 32n), value: Number(bits & 0xffffffffn) };
}

function callsOf(exported) {
  const stateWords = exported.argo_state_words();
  const statePlace = (exported.__heap_base.value + 3) >> 2;
  const memoryPlace = statePlace + stateWords;
  const listPlace = memoryPlace + MOST_MEMORY_WORDS;
  let words = new Uint32Array(0);
  let memoryWords = 0;

  // Makes the module's memory reach to a place, in words; growing it makes earlier views void.
  function reach(place) {
    const missing = place * 4 - exported.memory.buffer.byteLength;
    if (missing > 0) exported.memory.grow(Math.ceil(missing / PAGE_BYTES));
    if (words.buffer !== exported.memory.buffer) words = new Uint32Array(exported.memory.buffer);
  }

  // Lends a list that a call only reads: a sheet or a timetable.
  function lendList(list) {
    reach(listPlace + list.length);
    words.set(list, listPlace);
    return [listPlace * 4, BigInt(list.length)];
  }

  // Makes a call on lists that it only reads and on words that it writes, lent one behind another: its number, and those words then.
  function answered(lists, answers, slices, call) {
    const lent = [];
    let end = listPlace;
    for (const list of [...lists, answers]) {
      lent.push({ place: end, list });
      end += list.length;
    }
    reach(end);
    for (const { place, list } of lent) words.set(list, place);
    const places = lent.map(({ place, list }) => [place * 4, BigInt(list.length)]);
    const number = call(...state, ...slices(places.slice(0, -1)), ...places.at(-1));
    return { number, answers: [...words.subarray(end - answers.length, end)] };
  }

  const state = [statePlace * 4, BigInt(stateWords)];
  const memory = () => [memoryPlace * 4, BigInt(memoryWords)];
  const lentState = () => words.subarray(statePlace, statePlace + stateWords);
  const lentMemory = () => words.subarray(memoryPlace, memoryPlace + memoryWords);

  return {
    stateWords,

    // 0 where the sheet passes, else the first of the numbers 1 to 11 and 26 that applies, in this order.
    verdict: (sheet) => exported.argo_verdict(...lendList(sheet)),

    // Where a schedule's entries begin in a sheet, and how many words they are.
    entries(sheet, schedule) {
      const lent = lendList(sheet);
      const place = unpacked(exported.argo_entries(...lent, schedule, 0));
      return { number: place.number, place: place.value, count: unpacked(exported.argo_entries(...lent, schedule, 1)).value };
    },

    // Loads a sheet for a memory, which is copied: store and fetch reach it afterwards.
    load(sheet, contents) {
      if (contents.length > MOST_MEMORY_WORDS) throw new RangeError('no network has so large a memory');
      const lent = lendList(sheet);
      words.set(contents, memoryPlace);
      memoryWords = contents.length;
      return exported.argo_load(...lent, ...state, ...memory());
    },

    start: (circuit, read, write, count, kind) => exported.argo_start(...state, circuit, read, write, count, kind),

    // Starts a list of transfers by one call, each as [circuit, read, write, count, kind]: its number and the answer words, which are 0 or
    // the number of a transfer's refusal where the list is taken; and the same of five lists of words, for tests.
    startAll: (transfers, answers = transfers.map(() => 0)) =>
      answered([transfers.flat()], answers, ([[place]]) => [place, BigInt(transfers.length)], exported.argo_start_all),
    startLists: (lists, answers) => answered(lists, answers, (lent) => lent.flat(), exported.argo_start_lists),

    store: (node, address, word) => exported.argo_store(...state, ...memory(), node, address, word),
    fetch: (node, address) => unpacked(exported.argo_fetch(...state, ...memory(), node, address)),
    wordsLeft: (circuit) => unpacked(exported.argo_words_left(...state, circuit)),
    periodNumber: () => unpacked(exported.argo_period_number(...state)),
    landedField: (node, field) => unpacked(exported.argo_landed(...state, node, field)),
    order: (schedule, period) => exported.argo_order(...state, schedule, period),
    cycle: () => exported.argo_cycle(...state, ...memory()),

    // What a weekly timetable says of a minute of the week: the schedule, whether it ever changes, and the next minute at which it does.
    hours(list, minute) {
      const lent = lendList(list);
      const field = (number) => unpacked(exported.argo_hours(...lent, minute, number));
      const { number, value: schedule } = field(0);
      return { number, schedule, changes: field(1).value === 1, minute: field(2).value };
    },
    hoursField: (list, minute, field) => unpacked(exported.argo_hours(...lendList(list), minute, field)),

    // What landed at a node in the last cycle, or null.
    landing(node) {
      const field = (number) => unpacked(exported.argo_landed(...state, node, number)).value;
      return field(0) === 1 ? { kind: field(1), address: field(2), word: field(3) } : null;
    },

    // Makes calls on the session to see what they answer, and puts every lent word back as it was.
    asIf(ask) {
      const kept = [lentState().slice(), lentMemory().slice()];
      const told = ask();
      lentState().set(kept[0]);
      lentMemory().set(kept[1]);
      return told;
    },

    // A register of the state (docs/STATE.md), read for pictures; and all lent words, for tests.
    register: (row, place) => words[statePlace + row * ROW_WORDS + place],
    lentState,
    lentMemory,
    lendMemory(length) {
      reach(listPlace);
      memoryWords = length;
    },
  };
}
