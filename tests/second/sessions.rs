//! Sessions for the tests, always the same ones: sheets that pass, lent words of any
//! content, and calls that are chosen one by one with an eye on how the machine stands, so
//! that most of them are carried out and every refusal is met too.
//!
//! Covered: all nine grids; memories of 1 to 16,384 words; no circuit to 64; one to eight
//! schedules, mostly crowded, of periods 9 to 48 that differ, some up to 1,024; circuits that
//! every schedule serves and circuits that only one does; starts that are right, too early (17)
//! and wrong in each way of 15 and 16; starts while words travel, and directly after the last of
//! them landed (sessions_travelling.rs); stores and fetches
//! anywhere, mostly in regions in use; orders 3 and more periods ahead, 2^31 − 1 ahead, and
//! refused in each way of 15, 18, 19; loads in the midst, carried out and refused with each of
//! 1 to 12, 14 and 26; states and memories lent too short or too long; the idle network, loaded
//! by no words at first or in the midst; period numbers that wrap, for which the first period's
//! number is written into the state directly after the load, the only word that no call has
//! written; in the sessions behind `LISTS_FROM` lists of transfers too (lists.rs), behind
//! `TRAVELLING_FROM` many starts of circuits whose words travel, and behind `LONG_LINKS_FROM` long
//! vertical links (sessions_long.rs).
//! Not covered: other states that no calls lead to (tests/states.rs has those, with unserved
//! circuits too), and switches between schedules of more than some hundred cycles, which three
//! periods would make long.

use super::calls::Call;
use super::lent::{MOVING_WORDS, ROW_WORDS, STATE_WORDS};
use super::machine::{Machine, Transfer, DATA, INTERRUPT};
use super::near_misses::{add_fault, GRIDS};
use super::session_plans::{plan_of_four_hops, plan_of_short_periods, plan_of_style};
use super::sessions_long::Style;
use super::sessions_travelling::Aim;
use super::sheets::{idle_network, largest, Grid, Plan, Random};
use super::words::{Lent, Words};

/// Words behind the published length of a state and behind a memory.
pub const SPARE_WORDS: usize = 16;

/// From here on sessions have the largest sheet.
const LARGEST_FROM: u64 = 2_196;
/// From here on no words are loaded first, and another sheet or no words again in the midst.
pub const NO_WORDS_FROM: u64 = LARGEST_FROM + 2;
/// From here on another sheet is loaded first, and no words in the midst.
const NO_WORDS_LATER_FROM: u64 = NO_WORDS_FROM + 72;
/// From here on lists of transfers are among the calls.
pub const LISTS_FROM: u64 = NO_WORDS_LATER_FROM + 24;
/// From here on circuits are started while their words travel; lists before met each grid, and there
/// each style of sheet that is not a usual one.
pub const TRAVELLING_FROM: u64 = LISTS_FROM + 108;
/// Every so many of these have circuits of four hops.
const FOUR_HOPS_EVERY: u64 = 2;
/// From here on sessions are as at first, and every so many load no words first.
pub const FURTHER_FROM: u64 = TRAVELLING_FROM + 72;
const NO_WORDS_EVERY: u64 = 4;
/// From here on vertical links are long, and mostly circuits are started while their words travel.
pub const LONG_LINKS_FROM: u64 = FURTHER_FROM + 36;
/// All sessions.
pub const SESSIONS: u64 = LONG_LINKS_FROM + 1_000;
/// Every so many of the sessions with lists begin on the idle network.
const LISTS_ON_IDLE_EVERY: u64 = 13;

/// The loads of a sheet with an unserved circuit, by the slices lent.
pub const UNSERVED_LOADS: [&str; 4] = [
    "load: unserved circuit",
    "load: unserved circuit, short state",
    "load: unserved circuit, memory of another length",
    "load: unserved circuit, short state and memory of another length",
];

/// A call with the way it was made and the number that this calls for.
pub struct Made {
    pub name: &'static str,
    pub call: Call,
    pub lent: Lent,
    pub expected: u32,
    /// What the records of a list that is carried out are answered.
    pub answers: Vec<u32>,
}

impl Made {
    pub fn new(name: &'static str, call: Call, lent: Lent, expected: u32) -> Made {
        Made { name, call, lent, expected, answers: Vec::new() }
    }
}

/// A start with the way it was made and the number that this calls for; 17 is not counted in.
#[derive(Clone, Copy)]
pub struct Start {
    pub name: &'static str,
    pub transfer: Transfer,
    pub expected: u32,
}

pub struct Generator {
    pub random: Random,
    plans: Vec<Plan>,
    /// Which plan is the idle network, loaded by no words; mostly none.
    idle: Option<usize>,
    /// Which plan is loaded.
    current: usize,
    /// Circuits that are still to be started at first.
    to_start: usize,
    pub has_lists: bool,
    pub aim: Aim,
    state_words: usize,
    /// Cycles that the session has to carry out.
    pub cycles: u32,
    /// The number of the first period, where it is not 0.
    pub first_period: Option<u32>,
}

fn memory_words_of(plan: &Plan) -> usize {
    (plan.nodes() * plan.memory_words) as usize
}

impl Generator {
    pub fn new(session: u64) -> Generator {
        let mut random = Random::new(0x5E55_1000 + session);
        let (columns, rows) = GRIDS[session as usize % GRIDS.len()];
        let grid = Grid { columns, rows, long_links: false };
        let style = session / GRIDS.len() as u64 % 24;
        let is_largest = (LARGEST_FROM..NO_WORDS_FROM).contains(&session);
        let long_style = session.checked_sub(LONG_LINKS_FROM).map(Style::of);
        let about_landings = match long_style {
            Some(style) => style != Style::Usual,
            None => (TRAVELLING_FROM..FURTHER_FROM).contains(&session),
        };
        let four_hops = about_landings && long_style.is_none() && session % FOUR_HOPS_EVERY == 0;
        let plan = match long_style {
            Some(long_style) => long_style.plan(&mut random, columns, rows),
            None if is_largest => largest(session),
            None if four_hops => plan_of_four_hops(&mut random),
            None if about_landings => plan_of_short_periods(&mut random, grid),
            None => plan_of_style(&mut random, grid, style),
        };
        let (columns, rows) = random.choose(&GRIDS);
        let long_links = long_style.is_some() && random.once_in(2);
        let other = plan_of_style(&mut random, Grid { columns, rows, long_links }, 0);
        let mut plans = vec![plan, other];
        let has_lists = (LISTS_FROM..TRAVELLING_FROM).contains(&session);
        let idle = match session {
            LONG_LINKS_FROM.. => None,
            FURTHER_FROM.. => (session % NO_WORDS_EVERY == 0).then_some(0),
            TRAVELLING_FROM.. => None,
            LISTS_FROM.. => (session % LISTS_ON_IDLE_EVERY == 0).then_some(0),
            NO_WORDS_LATER_FROM.. => Some(1),
            NO_WORDS_FROM.. => Some(0),
            _ => None,
        };
        if let Some(idle) = idle {
            plans[idle] = idle_network();
        }
        let state_words = STATE_WORDS + random.choose(&[0, 0, 0, 1, SPARE_WORDS]);
        let cycles = match long_style {
            Some(long_style) if long_style.switches_soon() => random.between(60, 84),
            Some(_) => random.between(36, 56),
            None if is_largest => 300,
            None if about_landings => random.between(55, 80),
            None if has_lists => random.between(20, 50),
            None => random.between(40, 170),
        };
        let wraps = random.once_in(if idle == Some(0) { 2 } else { 6 });
        let first_period = wraps.then(|| u32::MAX - random.between(0, 4));
        let to_start = plans[0].circuits.len();
        let switches_soon = long_style.map_or(four_hops, Style::switches_soon);
        let aim = if about_landings { Aim::at_landings(switches_soon) } else { Aim::default() };
        Generator { random, plans, idle, current: 0, to_start, has_lists, aim, state_words, cycles, first_period }
    }

    /// Lent words of any content: the state's, and memory enough for every sheet of the session.
    pub fn lent_words(&mut self) -> Words {
        let memory_words = self.plans.iter().map(memory_words_of).max().unwrap_or(0);
        let mut any = |count: usize| (0..count).map(|_| self.random.word()).collect();
        let mut words = Words::new(any(STATE_WORDS + SPARE_WORDS), any(memory_words + SPARE_WORDS));
        self.put_headers_to_be_sent(&mut words.memory);
        words
    }

    pub fn first_load(&self) -> Made {
        self.made("first load", self.load(), 0)
    }

    /// The plan that is loaded.
    pub fn plan(&self) -> &Plan {
        &self.plans[self.current]
    }

    /// The load of the present plan.
    pub fn load(&self) -> Call {
        Call::Load { sheet: if self.is_idle() { Vec::new() } else { self.plan().words() } }
    }

    fn is_idle(&self) -> bool {
        self.idle == Some(self.current)
    }

    pub fn made(&self, name: &'static str, call: Call, expected: u32) -> Made {
        let lent = Lent { state: self.state_words, memory: memory_words_of(self.plan()) };
        Made::new(name, call, lent, expected)
    }

    /// First most circuits are started, then calls come in any order.
    pub fn next(&mut self, machine: &Machine) -> Made {
        if let Some(made) = self.about_landings(machine) {
            return made;
        }
        if self.has_lists && self.to_start > 0 && self.random.once_in(4) {
            self.to_start = 0;
            return self.list_of_every_circuit(machine);
        }
        if self.has_lists && self.random.once_in(5) {
            return self.list(machine);
        }
        if self.to_start > 0 && !self.random.once_in(5) {
            self.to_start -= 1;
            return self.start_of(self.to_start, machine);
        }
        match self.random.between(0, 99) {
            0..=54 => self.made("cycle", Call::Cycle, 0),
            55..=66 => self.start(machine),
            67..=70 => self.refused_start(),
            71..=77 => self.store(machine),
            78..=79 => self.refused_place(),
            80..=83 => self.fetch(),
            84..=89 => self.question(),
            90..=91 => self.refused_question(),
            92..=94 => self.order(machine),
            95 => self.refused_order(machine),
            96 => self.refused_load(),
            97 if self.random.once_in(if self.loads_often() { 2 } else { 12 }) => self.further_load(),
            97 => self.made("cycle", Call::Cycle, 0),
            _ => self.wrong_buffers(machine),
        }
    }

    /// Where the sheets of the session are of two sorts.
    fn loads_often(&self) -> bool {
        self.idle.is_some() || self.plans.iter().any(|plan| plan.long_links)
    }

    /// A right start, mostly of a circuit that is free. Nothing to start: a cycle.
    fn start(&mut self, machine: &Machine) -> Made {
        if machine.senders.is_empty() {
            return self.made("cycle", Call::Cycle, 0);
        }
        let is_free = |&circuit: &usize| !machine.is_busy(circuit);
        let free: Vec<usize> = (0..machine.senders.len()).filter(is_free).collect();
        let circuit = if free.is_empty() || self.random.once_in(8) {
            self.random.position(machine.senders.len())
        } else {
            self.random.choose(&free)
        };
        self.start_of(circuit, machine)
    }

    /// A right start of a circuit, which words left or travelling still turn away.
    fn start_of(&mut self, circuit: usize, machine: &Machine) -> Made {
        let expected = if machine.is_busy(circuit) { 17 } else { 0 };
        let start = self.right_start(circuit);
        self.made(start.name, Call::start(start.transfer), expected)
    }

    pub fn right_start(&mut self, circuit: usize) -> Start {
        let kind = self.random.choose(&[DATA, DATA, DATA, INTERRUPT]);
        self.right_start_of_kind(circuit, kind)
    }

    pub fn right_start_of_kind(&mut self, circuit: usize, kind: u32) -> Start {
        let record = self.plan().circuits[circuit];
        let most = record.read_length.min(record.receive_length);
        let random = &mut self.random;
        let count = match kind {
            INTERRUPT => 1,
            _ if random.once_in(2) => most,
            _ => random.between(1, most),
        };
        let read = record.read_offset + random.between(0, record.read_length - count);
        let write = record.receive_offset + random.between(0, record.receive_length - count);
        let transfer = Transfer { circuit: circuit as u32, read, write, count, kind };
        Start { name: "start", transfer, expected: 0 }
    }

    fn refused_start(&mut self) -> Made {
        let start = self.wrong_start();
        self.made(start.name, Call::start(start.transfer), start.expected)
    }

    /// A start with one thing wrong. Numbers 15 and 16 come before 17, so the circuit may be busy.
    pub fn wrong_start(&mut self) -> Start {
        let circuits = self.plan().circuits.len();
        if circuits == 0 {
            // The count may be wrong too: 16 comes later.
            let random = &mut self.random;
            let (circuit, count) = (random.choose(&[0, 1, 63, u32::MAX]), random.choose(&[1, 1, 0, 2]));
            let transfer = Transfer { circuit, read: 0, write: 0, count, kind: random.choose(&[DATA, INTERRUPT]) };
            return Start { name: "start: no such circuit", transfer, expected: 15 };
        }
        let circuit = self.random.position(circuits);
        let transfer = self.right_start(circuit).transfer;
        if self.random.between(1, 12) <= 5 {
            self.start_with_15(transfer)
        } else {
            self.start_with_16(transfer)
        }
    }

    pub fn start_with_15(&mut self, mut transfer: Transfer) -> Start {
        let memory_words = self.plan().memory_words;
        let circuits = self.plan().circuits.len() as u32;
        let random = &mut self.random;
        let name = match random.between(0, 4) {
            0 => {
                transfer.circuit = random.choose(&[circuits, 64, u32::MAX]);
                "start: no such circuit"
            }
            1 => {
                transfer.read = random.choose(&[memory_words, u32::MAX]);
                "start: no such read address"
            }
            2 => {
                transfer.write = random.choose(&[memory_words, u32::MAX]);
                "start: no such write address"
            }
            3 => {
                transfer.kind = 1;
                "start: kind 1"
            }
            _ => {
                transfer.kind = random.choose(&[3, 4, 6, 1 << 30, u32::MAX]);
                "start: no such kind"
            }
        };
        Start { name, transfer, expected: 15 }
    }

    /// A region's end may be the memory's; the address behind it is then number 15.
    pub fn start_with_16(&mut self, mut transfer: Transfer) -> Start {
        let memory_words = self.plan().memory_words;
        let record = self.plan().circuits[transfer.circuit as usize];
        let random = &mut self.random;
        let name = match random.between(0, 6) {
            0 => {
                transfer.count = 0;
                "start: count 0"
            }
            1 => {
                (transfer.kind, transfer.count) = (INTERRUPT, random.choose(&[0, 2, 3]));
                "start: interrupt of another count"
            }
            2 => {
                // The sum of address and count is small in 32 bits.
                transfer.count = u32::MAX - random.between(0, 20);
                "start: count that wraps"
            }
            3 if record.read_offset > 0 => {
                transfer.read = record.read_offset - 1;
                "start: reads before its region"
            }
            4 if record.receive_offset > 0 => {
                transfer.write = record.receive_offset - 1;
                "start: writes before its region"
            }
            5 => {
                transfer.read = record.read_offset + record.read_length - transfer.count + 1;
                "start: reads beyond its region"
            }
            _ => {
                transfer.write = record.receive_offset + record.receive_length - transfer.count + 1;
                "start: writes beyond its region"
            }
        };
        let expected = if transfer.read < memory_words && transfer.write < memory_words { 16 } else { 15 };
        Start { name, transfer, expected }
    }

    /// A place in memory, mostly in a circuit's regions, and there often one in use.
    fn place(&mut self, machine: &Machine) -> (u32, u32) {
        let plan = &self.plans[self.current];
        let random = &mut self.random;
        if plan.circuits.is_empty() || random.once_in(4) {
            return (random.between(0, plan.nodes() - 1), random.between(0, plan.memory_words - 1));
        }
        let circuit = random.position(plan.circuits.len());
        let record = plan.circuits[circuit];
        let sender = &machine.senders[circuit];
        match random.between(0, 2) {
            0 if sender.left > 0 => (record.source, sender.read + random.between(0, sender.left - 1)),
            1 => (record.source, record.read_offset + random.between(0, record.read_length - 1)),
            _ => (record.destination, record.receive_offset + random.between(0, record.receive_length - 1)),
        }
    }

    fn store(&mut self, machine: &Machine) -> Made {
        let (node, address) = self.place(machine);
        let word = self.random.word();
        self.made("store", Call::Store { node, address, word }, 0)
    }

    fn fetch(&mut self) -> Made {
        let (nodes, memory_words) = (self.plan().nodes(), self.plan().memory_words);
        let node = self.random.between(0, nodes - 1);
        let address = self.random.between(0, memory_words - 1);
        self.made("fetch", Call::Fetch { node, address }, 0)
    }

    fn refused_place(&mut self) -> Made {
        let (nodes, memory_words) = (self.plan().nodes(), self.plan().memory_words);
        let random = &mut self.random;
        let mut node = random.between(0, nodes - 1);
        let mut address = random.between(0, memory_words - 1);
        let no_such_node = random.once_in(2);
        if no_such_node {
            node = random.choose(&[nodes, 16, u32::MAX]);
        } else {
            address = random.choose(&[memory_words, 16_384, u32::MAX]);
        }
        let word = random.word();
        match (random.once_in(2), no_such_node) {
            (true, true) => self.made("store: no such node", Call::Store { node, address, word }, 15),
            (true, false) => self.made("store: no such address", Call::Store { node, address, word }, 15),
            (false, true) => self.made("fetch: no such node", Call::Fetch { node, address }, 15),
            (false, false) => self.made("fetch: no such address", Call::Fetch { node, address }, 15),
        }
    }

    /// A call that only answers.
    fn question(&mut self) -> Made {
        let circuits = self.plan().circuits.len() as u32;
        let nodes = self.plan().nodes();
        match self.random.between(0, 2) {
            0 if circuits > 0 => {
                let circuit = self.random.between(0, circuits - 1);
                self.made("words left", Call::WordsLeft { circuit }, 0)
            }
            1 => self.made("period number", Call::PeriodNumber, 0),
            _ => {
                let node = self.random.between(0, nodes - 1);
                let field = self.random.choose(&[0, 1, 2, 3, 4, u32::MAX]);
                self.made("what landed", Call::WhatLanded { node, field }, 0)
            }
        }
    }

    fn refused_question(&mut self) -> Made {
        let circuits = self.plan().circuits.len() as u32;
        let nodes = self.plan().nodes();
        if self.random.once_in(2) {
            let circuit = self.random.choose(&[circuits, 64, u32::MAX]);
            self.made("words left: no such circuit", Call::WordsLeft { circuit }, 15)
        } else {
            let node = self.random.choose(&[nodes, 16, u32::MAX]);
            let field = self.random.between(0, 4);
            self.made("what landed: no such node", Call::WhatLanded { node, field }, 15)
        }
    }

    /// A right order, which a pending one still turns away.
    pub fn order(&mut self, machine: &Machine) -> Made {
        let schedules = self.plan().schedules.len() as u32;
        let schedule = self.random.between(0, schedules - 1);
        let ahead = match self.random.between(0, 29) {
            0 => (1 << 31) - 1,
            1..=7 => self.random.between(4, 6),
            _ => 3,
        };
        let period_number = machine.period_number().wrapping_add(ahead);
        let expected = if machine.clock.order.mark == 1 { 18 } else { 0 };
        self.made("order", Call::Order { schedule, period_number }, expected)
    }

    fn refused_order(&mut self, machine: &Machine) -> Made {
        let schedules = self.plan().schedules.len() as u32;
        let now = machine.period_number();
        if self.random.once_in(3) {
            let schedule = self.random.choose(&[schedules, 8, u32::MAX]);
            let period_number = now.wrapping_add(self.random.choose(&[3, 0]));
            return self.made("order: no such schedule", Call::Order { schedule, period_number }, 15);
        }
        let (name, ahead) = match self.random.between(0, 2) {
            0 => ("order: too soon", self.random.between(0, 2)),
            1 => ("order: half way round", 1 << 31),
            _ => ("order: behind", self.random.between((1 << 31) + 1, u32::MAX)),
        };
        let schedule = self.random.between(0, schedules - 1);
        let expected = if machine.clock.order.mark == 1 { 18 } else { 19 };
        self.made(name, Call::Order { schedule, period_number: now.wrapping_add(ahead) }, expected)
    }

    /// A load of a sheet with a circuit that no schedule serves, on right slices or on wrong ones:
    /// the sheet is tested before them. Nothing where no plan has a circuit.
    fn unserved_load(&mut self) -> Option<Made> {
        let with_circuits = |&plan: &usize| !self.plans[plan].circuits.is_empty();
        let plans: Vec<usize> = (0..self.plans.len()).filter(with_circuits).collect();
        if plans.is_empty() {
            return None;
        }
        let mut plan = self.plans[self.random.choose(&plans)].clone();
        plan.unserve(self.random.position(plan.circuits.len()));
        let way = self.random.position(4);
        let mut made = self.made(UNSERVED_LOADS[way], Call::Load { sheet: plan.words() }, 26);
        made.lent.memory = memory_words_of(&plan);
        if way == 1 || way == 3 {
            made.lent.state = self.short_state();
        }
        if way >= 2 {
            made.lent.memory = self.wrong_memory(made.lent.memory);
        }
        Some(made)
    }

    /// A load of a sheet with one fault, of each number in turn by chance.
    pub fn refused_load(&mut self) -> Made {
        if self.random.once_in(8) {
            if let Some(made) = self.unserved_load() {
                return made;
            }
        }
        let mut plan = self.random.choose(&[0, 1]);
        let rich =
            |plan: &Plan| plan.circuits.len() > 1 && plan.schedules.iter().all(|schedule| schedule.entries.len() > 1);
        if !rich(&self.plans[plan]) {
            plan = 1 - plan;
        }
        let number = if self.is_idle() && self.random.once_in(2) { 1 } else { self.random.between(1, 11) };
        let mut changed = self.plans[plan].clone();
        let mut made = if number == 1 || !rich(&changed) {
            let length = self.random.between(1, 4) as usize;
            let sheet = changed.words()[..length].to_vec();
            self.made("load: fault in the sheet", Call::Load { sheet }, 1)
        } else {
            let schedule = self.random.position(changed.schedules.len());
            // Room for an entry more, so that number 11 is not 3.
            changed.schedules[schedule].entries.truncate(255);
            if add_fault(&mut self.random, &mut changed, number, schedule) {
                self.made("load: fault in the sheet", Call::Load { sheet: changed.words() }, number)
            } else {
                let sheet = [changed.words(), vec![0]].concat();
                self.made("load: fault in the sheet", Call::Load { sheet }, 3)
            }
        };
        // The sheet is tested before the lent slices.
        if self.random.once_in(3) {
            made.lent.state = self.short_state();
        }
        made
    }

    /// A load that is carried out and starts another session. The idle network may follow upon itself.
    fn further_load(&mut self) -> Made {
        if !(self.is_idle() && self.random.once_in(3)) {
            self.current = 1 - self.current;
        }
        self.start_anew();
        self.made("further load", self.load(), 0)
    }

    /// Every circuit is free and still to be started.
    pub fn start_anew(&mut self) {
        self.to_start = self.plan().circuits.len();
        self.aim.forget();
    }

    pub fn short_state(&mut self) -> usize {
        let any = self.random.position(STATE_WORDS);
        // The last but one would do without the rows of extra registers.
        self.random.choose(&[0, 1, MOVING_WORDS, MOVING_WORDS + 1, STATE_WORDS - 1, STATE_WORDS - 2 * ROW_WORDS, any])
    }

    /// A memory of another length than the sheet asks for.
    fn wrong_memory(&mut self, right: usize) -> usize {
        self.random.choose(&[0, right - 1, right + 1, right + SPARE_WORDS])
    }

    /// A call that would be carried out, or refused with a later number, on slices too short or too long.
    fn wrong_buffers(&mut self, machine: &Machine) -> Made {
        let mut made = match self.random.between(0, 9) {
            0 if machine.senders.is_empty() => self.refused_start(),
            0 => self.start(machine),
            1 => self.store(machine),
            2 => self.fetch(),
            3 => self.question(),
            4 => self.order(machine),
            5 => self.made("load again", self.load(), 0),
            6 => self.refused_place(),
            7 => self.refused_order(machine),
            8 if machine.senders.is_empty() => self.refused_question(),
            _ => self.made("cycle", Call::Cycle, 0),
        };
        let lends_memory =
            matches!(made.call, Call::Load { .. } | Call::Store { .. } | Call::Fetch { .. } | Call::Cycle);
        let short = !lends_memory || self.random.once_in(2);
        if lends_memory && (!short || self.random.once_in(2)) {
            made.lent.memory = self.wrong_memory(made.lent.memory);
            (made.name, made.expected) = ("memory of another length", 14);
        }
        if short {
            made.lent.state = self.short_state();
            (made.name, made.expected) = ("short state", 12);
        }
        made
    }
}
