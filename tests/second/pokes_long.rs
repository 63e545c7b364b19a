//! Runs the states about long vertical links (L7): the hand-made ones, on links of both kinds; and states from the
//! midst of generated sessions with cells put into the two rows of extra registers, where they count and where they
//! do not. Besides what the second machine says, the words that take part in nothing have to stay as they were.

use super::calls::{Call, Calls};
use super::coverage::Coverage;
use super::hand_made::hand_made_plan;
use super::hand_made_long::{
    busy_on_long_links, cycles_on_links, hand_made_long_plan, states_on_long_links, states_on_short_links,
};
use super::hand_made_travelling::hand_made_flights;
use super::lent::{Clause, Row, MOVING_WORDS, ROW_WORDS, SHEET, STATE_WORDS};
use super::machine::{Fault, Machine, DATA, HEADER, INTERRUPT, LAST, PAYLOAD, PORTS, VERTICAL_SIDES};
use super::pokes::{filled_registers, met_name, snapshot, some_cell, some_pokes, written_over, Runner};
use super::sessions::LONG_LINKS_FROM;
use super::sheets::{sheet_a, Plan, Random};
use super::words::{Lent, Words};

const SNAPSHOTS_ON_LONG_LINKS: u64 = 72;
const SNAPSHOTS_ON_SHORT_LINKS: u64 = 36;
const POKED_STATES_OF_EACH: usize = 40;
const FILLED_STATES_OF_EACH: usize = 8;
/// Snapshots for who is only to be noticed or not.
const SNAPSHOTS_FOR_NOTICING: u64 = 12;

const ON_LONG: &str = "long links, poked";
const ON_SHORT: &str = "short links, poked";
const FILLED: &str = "long links, filled";
const MADE_ON_LONG: &str = "long links, hand-made";
const MADE_ON_SHORT: &str = "short links, hand-made";
/// The stored second head word was changed by 256, whatever was on the wires.
const MADE_LONG: &str = "links made long in the midst";
const MADE_SHORT: &str = "links made short in the midst";
const LOADS: &str = "long links, load";

/// What should be met, and how often.
fn wanted() -> Vec<(u64, String)> {
    let clauses = [Clause::ExtraMark, Clause::ExtraKind];
    let mut names = Vec::new();
    for group in [ON_LONG, MADE_ON_LONG] {
        names.extend(clauses.map(|clause| (30, format!("{group}: 13 by {clause:?} alone"))));
    }
    for group in [ON_LONG, ON_SHORT, FILLED, MADE_ON_LONG, MADE_ON_SHORT] {
        names.push((60, format!("{group}: cycle carried out")));
    }
    for (count, fault) in [(200, Fault::PayloadWithoutLatch), (5, Fault::OutputWantedTwice)] {
        names.push((count, format!("{ON_LONG}: 20 by {fault:?} alone")));
    }
    for group in [MADE_LONG, MADE_SHORT] {
        names.push((10, format!("{group}: cycle carried out")));
        names.push((5, format!("{group}: not sound")));
    }
    for place in ["there", "of another output", "of a missing node"] {
        names.push((200, format!("{ON_LONG}: extra register {place}")));
    }
    names.push((1_000, format!("{ON_SHORT}: extra register on short links")));
    names.extend([0, 2, 10, 11].map(|number| (1, format!("{LOADS}, {number}"))));
    names
}

/// Says what was not met; true where nothing is missing.
pub fn are_met(coverage: &Coverage) -> bool {
    wanted().into_iter().fold(true, |complete, (count, name)| complete & coverage.has_at_least(count, &name))
}

/// Whether a state made by hand about extra registers tells someone from what it was made for, or a state with cells
/// put into them from the second machine.
pub fn is_noticed_by_links(tested: &mut impl Calls) -> bool {
    let mut runner = Runner::new(tested);
    runner.run_cycles(&cycles_on_links());
    if !runner.is_noticed() {
        runner.run_busy(&busy_on_long_links(), true);
    }
    if !runner.is_noticed() {
        runner.run_made_on_links();
    }
    for turn in 0..SNAPSHOTS_FOR_NOTICING {
        if runner.is_noticed() {
            break;
        }
        runner.run_snapshot_on_long_links(LONG_LINKS_FROM + turn);
        runner.run_snapshot_on_short_links(turn);
    }
    runner.is_noticed()
}

/// The words of a state that a cycle has to leave, whatever they are: of the two rows all that is no extra register.
fn free_places(machine: &Machine) -> impl Iterator<Item = usize> + '_ {
    let is_free = |place: usize| {
        let (node, output) = (place / PORTS, place % PORTS);
        !machine.sheet.has_long_links() || node >= machine.nodes.len() || !VERTICAL_SIDES.contains(&output)
    };
    (0..ROW_WORDS).filter(move |&place| is_free(place))
}

/// Whether the words that take part in nothing are those of before.
fn compare_free(before: &Words, after: &Words, machine: &Machine) -> Result<(), String> {
    for place in free_places(machine) {
        for row in [Row::ExtraMark, Row::ExtraWord] {
            let (was, is) = (before.state[row.at(place)], after.state[row.at(place)]);
            if was != is {
                return Err(format!("{row:?}, place {place}: {is}, before {was}, and nothing is there"));
            }
        }
    }
    Ok(())
}

impl<C: Calls> Runner<'_, C> {
    /// All of them.
    pub fn run_long_links(&mut self) {
        self.run_cycles(&cycles_on_links());
        self.run_made_on_links();
        self.run_loads_of_long_links();
        for turn in 0..SNAPSHOTS_ON_LONG_LINKS {
            self.run_snapshot_on_long_links(LONG_LINKS_FROM + turn);
        }
        for session in 0..SNAPSHOTS_ON_SHORT_LINKS {
            self.run_snapshot_on_short_links(session);
        }
    }

    fn run_made_on_links(&mut self) {
        self.run_hand_made_on(MADE_ON_LONG, &hand_made_long_plan(), &states_on_long_links());
        self.run_hand_made_on(MADE_ON_SHORT, &hand_made_plan(), &states_on_short_links());
    }

    /// Loads by the second head word: the number, and the rows of extra registers afterwards.
    fn run_loads_of_long_links(&mut self) {
        let with_rows = |plan: &Plan, rows: u32| {
            let mut words = plan.words();
            words[1] = rows;
            words
        };
        let a = sheet_a();
        let late = {
            let south = hand_made_flights().into_iter().find(|flight| flight.name.contains("one hop south, up to"));
            let mut plan = south.expect("a flight of this name").plan;
            plan.schedules[0].entries[0].offset = 6;
            plan
        };
        let meeting = hand_made_plan();
        let mut loads = vec![(with_rows(&late, 2), 0), (with_rows(&late, 258), 10), (with_rows(&meeting, 258), 10)];
        for (rows, number) in [(2, 0), (258, 0), (256, 2), (257, 2), (261, 2), (512, 2), (514, 2), (1 << 16 | 258, 2)] {
            loads.push((with_rows(&a, rows), number));
        }
        // With more rows the one circuit goes east as before, on a memory of more nodes.
        loads.extend([(with_rows(&a, 259), 0), (with_rows(&a, 260), 0)]);
        let mut columns = with_rows(&a, 258);
        columns[0] = 258;
        loads.push((columns, 2));
        loads.push((clashing_on_long_links(), 11));
        for (sheet, expected) in loads {
            let result = self.load_by_head(&sheet, expected);
            self.count(result, || format!("load with the head {:?}", &sheet[..5]));
        }
    }

    fn load_by_head(&mut self, sheet: &[u32], expected: u32) -> Result<(), String> {
        let rows = if sheet[1] < 256 { sheet[1] } else { sheet[1] - 256 };
        let memory_words = if expected == 0 { (sheet[0] * rows * sheet[2]) as usize } else { 32 };
        let words = Words::new(vec![0xA5A5_A5A5; STATE_WORDS + 3], vec![7; memory_words]);
        let (mut actual, mut predicted) = (words.clone(), words.clone());
        let call = Call::Load { sheet: sheet.to_vec() };
        let number = self.compare(&call, words.all(), &mut actual, &mut predicted)?;
        if number != expected {
            return Err(format!("number {number}, expected {expected}"));
        }
        self.coverage.met(&format!("{LOADS}, {number}"));
        if number == 0 && actual.state[..MOVING_WORDS].iter().any(|&word| word != 0) {
            return Err("some moving word is not 0".to_string());
        }
        let cut = Lent { memory: memory_words - 1, ..words.all() };
        let on_short_memory = self.compare(&call, cut, &mut words.clone(), &mut words.clone())?;
        if on_short_memory != if expected == 0 { 14 } else { expected } {
            return Err(format!("number {on_short_memory} on a memory too short"));
        }
        Ok(())
    }

    /// A state from the midst of a session on long links, with cells in the two rows, and with every register filled.
    fn run_snapshot_on_long_links(&mut self, session: u64) {
        let (words, machine, plan) = snapshot(session);
        let mut random = Random::new(0x0E17_0000 + session);
        for _ in 0..POKED_STATES_OF_EACH {
            let pokes = self.some_extra_pokes(&mut random, &machine);
            let result = self.run_links_state(&mut random, ON_LONG, &words, &machine, &pokes);
            self.count(result, || format!("session {session} on long links with {pokes:?}"));
        }
        for turn in 0..FILLED_STATES_OF_EACH {
            let mut pokes = filled_registers(&mut random, &machine);
            for node in 0..machine.nodes.len() {
                for side in VERTICAL_SIDES {
                    let cell = some_cell(&mut random);
                    pokes.push((Row::ExtraMark.of_port(node, side), cell.mark));
                    pokes.push((Row::ExtraWord.of_port(node, side), cell.word));
                }
            }
            let result = self.run_links_state(&mut random, FILLED, &words, &machine, &pokes);
            self.count(result, || format!("session {session} on long links, registers filled, {turn}"));
        }
        self.run_aimed_states(session, &words, &machine, &plan);
        self.run_exchanged(session, MADE_SHORT, &words);
    }

    fn run_snapshot_on_short_links(&mut self, session: u64) {
        let (words, machine, _) = snapshot(session);
        let mut random = Random::new(0x0E18_0000 + session);
        for _ in 0..POKED_STATES_OF_EACH {
            let mut pokes = Vec::new();
            for _ in 0..random.between(1, 6) {
                self.coverage.met(&format!("{ON_SHORT}: extra register on short links"));
                let place = random.position(ROW_WORDS);
                pokes.extend(some_extra_cell(&mut random, place));
            }
            let result = self.run_links_state(&mut random, ON_SHORT, &words, &machine, &pokes);
            self.count(result, || format!("session {session} on short links with {pokes:?}"));
        }
        self.run_exchanged(session, MADE_LONG, &words);
    }

    /// The same words with links of the other kind: where the sheet still passes, the registers count as there.
    fn run_exchanged(&mut self, session: u64, group: &str, words: &Words) {
        let mut random = Random::new(0x0E19_0000 + session);
        let rows = words.state[SHEET + 1];
        let exchanged = written_over(words, &[(SHEET + 1, if rows < 256 { rows + 256 } else { rows - 256 })]);
        let Ok(machine) = self.reader.machine(&exchanged.state) else {
            let (mut actual, mut expected) = (exchanged.clone(), exchanged.clone());
            let result = self.compare(&Call::Cycle, exchanged.all(), &mut actual, &mut expected).map(|_| ());
            self.coverage.met(&format!("{group}: not sound"));
            self.count(result, || format!("session {session}, {group}"));
            return;
        };
        for turn in 0..4 {
            let place = random.position(PORTS * machine.nodes.len());
            let pokes = if turn % 2 == 0 { Vec::new() } else { some_extra_cell(&mut random, place) };
            let result = self.run_links_state(&mut random, group, &exchanged, &machine, &pokes);
            self.count(result, || format!("session {session}, {group}, with {pokes:?}"));
        }
    }

    /// Mostly cells in extra registers that are there; now and then other words besides.
    fn some_extra_pokes(&mut self, random: &mut Random, machine: &Machine) -> Vec<(usize, u32)> {
        let mut pokes = Vec::new();
        for _ in 0..random.choose(&[1, 1, 2, 4]) {
            let (node, output) = match random.between(0, 9) {
                0 if machine.nodes.len() < 16 => {
                    (random.between(machine.nodes.len() as u32, 15) as usize, random.position(PORTS))
                }
                1 | 2 => (random.position(machine.nodes.len()), random.choose(&[1, 3, 4])),
                _ => (random.position(machine.nodes.len()), random.choose(&VERTICAL_SIDES)),
            };
            let place = if node >= machine.nodes.len() {
                "of a missing node"
            } else if VERTICAL_SIDES.contains(&output) {
                "there"
            } else {
                "of another output"
            };
            self.coverage.met(&format!("{ON_LONG}: extra register {place}"));
            pokes.extend(some_extra_cell(random, PORTS * node + output));
        }
        if random.once_in(4) {
            pokes.extend(some_pokes(random, machine));
        }
        pokes
    }

    /// Some cycles and starts one behind the other; a cycle leaves the words that take part in nothing.
    fn run_links_state(
        &mut self,
        random: &mut Random,
        group: &str,
        words: &Words,
        machine: &Machine,
        pokes: &[(usize, u32)],
    ) -> Result<(), String> {
        let mut actual = written_over(words, pokes);
        let mut expected = actual.clone();
        for _ in 0..random.between(2, 5) {
            let before = actual.clone();
            let circuits = machine.senders.len();
            let call = if circuits > 0 && random.once_in(4) {
                let circuit = random.position(circuits);
                let record = &machine.sheet.sheet.circuits[circuit];
                Call::Start {
                    circuit: circuit as u32,
                    read: record.read_offset as u32,
                    write: record.receive_offset as u32,
                    count: 1,
                    kind: DATA,
                }
            } else {
                Call::Cycle
            };
            if matches!(call, Call::Cycle) {
                let read = self.reader.machine(&expected.state);
                self.coverage.met(&format!("{group}: {}", met_name(&read)));
            }
            let number = self.compare(&call, words.all(), &mut actual, &mut expected)?;
            if group == ON_SHORT && number == 13 {
                return Err(format!("{}: not sound by words that take part in nothing", call.start_of_text()));
            }
            compare_free(&before, &actual, machine)?;
        }
        Ok(())
    }
}

/// A mark and a word for a place of the two rows: headers of every kind, payload, and marks that are none.
fn some_extra_cell(random: &mut Random, place: usize) -> Vec<(usize, u32)> {
    let mark = random.choose(&[HEADER, HEADER, HEADER, PAYLOAD, PAYLOAD, LAST, LAST, 0, 4, u32::MAX]);
    let kind = random.choose(&[DATA, DATA, DATA, INTERRUPT, 1, 3]);
    vec![(Row::ExtraMark.at(place), mark), (Row::ExtraWord.at(place), kind << 30 | random.word() >> 2)]
}

/// Two slots that meet on long links alone.
fn clashing_on_long_links() -> Vec<u32> {
    vec![
        2, 258, 8, 2, 1, // the head
        0, 3, 0, 4, 0, 4, // from node 0 to 3
        2, 3, 0, 4, 4, 4, // from node 2 to 3
        20, 2, // a period of 20 cycles
        0, 2, 0, 54, // south and east
        5, 2, 1, 13, // east
    ]
}
