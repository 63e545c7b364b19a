//! The lent words of docs/STATE.md: where each register of the second machine stands,
//! machines read from words and written to them, and which states are sound (number 13).

use super::checker;
use super::machine::{
    kind_of, lies_within, Cell, CheckedSheet, Machine, Node, Sender, DATA, EMPTY, HEADER, INTERRUPT, LAST, PORTS,
    VERTICAL_SIDES,
};
use std::rc::Rc;

pub const STATE_WORDS: usize = 10_438;
pub const MOVING_WORDS: usize = 1_840;
pub const SHEET_LENGTH: usize = MOVING_WORDS;
pub const SHEET: usize = SHEET_LENGTH + 1;
pub const MOST_SHEET_WORDS: usize = 8_597;
pub const ROW_WORDS: usize = 80;

/// The rows of the moving words, in their order.
#[derive(Clone, Copy, Debug, PartialEq, Eq)]
pub enum Row {
    Clock,
    LinkMark,
    LinkWord,
    HeadMark,
    HeadWord,
    Choice,
    Latch,
    OutMark,
    OutWord,
    ReceiveMark,
    ReceiveKind,
    ReceiveAddress,
    LandingMark,
    LandingKind,
    LandingAddress,
    LandingWord,
    Left,
    Read,
    Write,
    Kind,
    ToGo,
    ExtraMark,
    ExtraWord,
}

// The places of the clock's row.
pub const CYCLE: usize = 0;
pub const PERIOD_NUMBER: usize = 1;
pub const SCHEDULE: usize = 2;
pub const ORDER_MARK: usize = 3;
pub const ORDER_SCHEDULE: usize = 4;
pub const ORDER_PERIOD: usize = 5;

impl Row {
    pub fn at(self, place: usize) -> usize {
        self as usize * ROW_WORDS + place
    }

    /// The register of a node's input or output.
    pub fn of_port(self, node: usize, port: usize) -> usize {
        self.at(PORTS * node + port)
    }
}

/// A part of soundness, each of them met by a hand-made state.
#[derive(Clone, Copy, Debug, PartialEq, Eq, PartialOrd, Ord)]
pub enum Clause {
    NoSheet,
    SheetLength,
    Sheet(u32),
    Schedule,
    Cycle,
    OrderMark,
    OrderSchedule,
    ReadRegion,
    ReceiveRegion,
    TransferKind,
    InterruptLeft,
    ToGo,
    LinkMark,
    LinkKind,
    HeadMark,
    HeadKind,
    OutMark,
    OutKind,
    ExtraMark,
    ExtraKind,
    Choice,
    Latch,
    ReceiveMark,
    ReceiveKind,
    LandingMark,
}

impl Machine {
    /// Every register with its place in the lent words, for reading and for writing.
    fn each_register(&mut self, mut visit: impl FnMut(usize, &mut u32)) {
        let has_long_links = self.sheet.has_long_links();
        let clock = &mut self.clock;
        visit(Row::Clock.at(CYCLE), &mut clock.cycle);
        visit(Row::Clock.at(PERIOD_NUMBER), &mut clock.period_number);
        visit(Row::Clock.at(SCHEDULE), &mut clock.schedule);
        visit(Row::Clock.at(ORDER_MARK), &mut clock.order.mark);
        visit(Row::Clock.at(ORDER_SCHEDULE), &mut clock.order.schedule);
        visit(Row::Clock.at(ORDER_PERIOD), &mut clock.order.period_number);
        for (number, node) in self.nodes.iter_mut().enumerate() {
            for (port, input) in node.inputs.iter_mut().enumerate() {
                visit(Row::LinkMark.of_port(number, port), &mut input.link.mark);
                visit(Row::LinkWord.of_port(number, port), &mut input.link.word);
                visit(Row::HeadMark.of_port(number, port), &mut input.head.mark);
                visit(Row::HeadWord.of_port(number, port), &mut input.head.word);
                visit(Row::Choice.of_port(number, port), &mut input.choice);
                visit(Row::Latch.of_port(number, port), &mut input.latch);
            }
            for (port, output) in node.outputs.iter_mut().enumerate() {
                visit(Row::OutMark.of_port(number, port), &mut output.mark);
                visit(Row::OutWord.of_port(number, port), &mut output.word);
            }
            if has_long_links {
                for (side, extra) in VERTICAL_SIDES.into_iter().zip(&mut node.extras) {
                    visit(Row::ExtraMark.of_port(number, side), &mut extra.mark);
                    visit(Row::ExtraWord.of_port(number, side), &mut extra.word);
                }
            }
            visit(Row::ReceiveMark.at(number), &mut node.receiver.mark);
            visit(Row::ReceiveKind.at(number), &mut node.receiver.kind);
            visit(Row::ReceiveAddress.at(number), &mut node.receiver.address);
            visit(Row::LandingMark.at(number), &mut node.landing.mark);
            visit(Row::LandingKind.at(number), &mut node.landing.kind);
            visit(Row::LandingAddress.at(number), &mut node.landing.address);
            visit(Row::LandingWord.at(number), &mut node.landing.word);
        }
        for (circuit, sender) in self.senders.iter_mut().enumerate() {
            visit(Row::Left.at(circuit), &mut sender.left);
            visit(Row::Read.at(circuit), &mut sender.read);
            visit(Row::Write.at(circuit), &mut sender.write);
            visit(Row::Kind.at(circuit), &mut sender.kind);
            visit(Row::ToGo.at(circuit), &mut sender.to_go);
        }
    }

    /// Writes the registers that the sheet has; all other lent words stay.
    pub fn write_to(&mut self, state: &mut [u32]) {
        self.each_register(|place, register| state[place] = *register);
    }

    /// What a load leaves in the lent state.
    pub fn write_loaded(&self, state: &mut [u32]) {
        state[..MOVING_WORDS].fill(0);
        let words = &self.sheet.words;
        state[SHEET_LENGTH] = words.len() as u32;
        state[SHEET..SHEET + words.len()].copy_from_slice(words);
    }

    /// The clauses that the registers break; those of the sheet hold by then.
    fn broken_clauses(&self) -> Vec<Clause> {
        let mut broken = Vec::new();
        self.add_broken_by_clock(&mut broken);
        for (circuit, sender) in self.senders.iter().enumerate() {
            add_broken_by_sender(&self.sheet, circuit, sender, &mut broken);
        }
        for node in &self.nodes {
            add_broken_by_node(node, &mut broken);
        }
        broken
    }

    fn add_broken_by_clock(&self, broken: &mut Vec<Clause>) {
        let schedules = &self.sheet.sheet.schedules;
        let clock = &self.clock;
        match schedules.get(clock.schedule as usize) {
            None => broken.push(Clause::Schedule),
            Some(schedule) if u64::from(clock.cycle) >= schedule.period => broken.push(Clause::Cycle),
            Some(_) => {}
        }
        match clock.order.mark {
            0 => {}
            1 if (clock.order.schedule as usize) < schedules.len() => {}
            1 => broken.push(Clause::OrderSchedule),
            _ => broken.push(Clause::OrderMark),
        }
    }
}

fn add_broken_by_sender(sheet: &CheckedSheet, circuit: usize, sender: &Sender, broken: &mut Vec<Clause>) {
    let record = &sheet.sheet.circuits[circuit];
    if sender.left > 0 {
        if !lies_within(sender.read, sender.left, record.read_offset, record.read_length) {
            broken.push(Clause::ReadRegion);
        }
        if !lies_within(sender.write, sender.left, record.receive_offset, record.receive_length) {
            broken.push(Clause::ReceiveRegion);
        }
        if !may_travel(sender.kind) {
            broken.push(Clause::TransferKind);
        }
        if sender.kind == INTERRUPT && sender.left > 1 {
            broken.push(Clause::InterruptLeft);
        }
    }
    if sender.to_go > sender.left {
        broken.push(Clause::ToGo);
    }
}

fn add_broken_by_node(node: &Node, broken: &mut Vec<Clause>) {
    for input in &node.inputs {
        add_broken_by_cell(input.link, Clause::LinkMark, Clause::LinkKind, broken);
        add_broken_by_cell(input.head, Clause::HeadMark, Clause::HeadKind, broken);
        if input.head.mark != EMPTY && input.choice as usize > PORTS {
            broken.push(Clause::Choice);
        }
        if input.latch as usize > PORTS {
            broken.push(Clause::Latch);
        }
    }
    for output in node.outputs {
        add_broken_by_cell(output, Clause::OutMark, Clause::OutKind, broken);
    }
    for extra in node.extras {
        add_broken_by_cell(extra, Clause::ExtraMark, Clause::ExtraKind, broken);
    }
    match node.receiver.mark {
        0 => {}
        1 if may_travel(node.receiver.kind) => {}
        1 => broken.push(Clause::ReceiveKind),
        _ => broken.push(Clause::ReceiveMark),
    }
    if node.landing.mark > 1 {
        broken.push(Clause::LandingMark);
    }
}

fn add_broken_by_cell(cell: Cell, mark: Clause, kind: Clause, broken: &mut Vec<Clause>) {
    if cell.mark > LAST {
        broken.push(mark);
    } else if cell.mark == HEADER && !may_travel(kind_of(cell.word)) {
        broken.push(kind);
    }
}

/// Kind 1 does not travel before configuration packets come; 3 is unused.
fn may_travel(kind: u32) -> bool {
    kind == DATA || kind == INTERRUPT
}

/// Reads lent states. The last sheet that passed 1 to 11 is not checked again while its very words
/// come back.
#[derive(Default)]
pub struct Reader {
    known: Option<Rc<CheckedSheet>>,
}

impl Reader {
    /// The sheet of a state, or the first of the numbers 1 to 11 that applies.
    fn sheet(&mut self, words: &[u32]) -> Result<Rc<CheckedSheet>, u32> {
        match &self.known {
            Some(sheet) if sheet.words == words => Ok(Rc::clone(sheet)),
            _ => {
                let sheet = Rc::new(CheckedSheet::check_by(checker::verdict_to_11, words)?);
                self.known = Some(Rc::clone(&sheet));
                Ok(sheet)
            }
        }
    }

    /// The sheet of a load, or the first of the numbers 1 to 11 and 26 that applies.
    pub fn sheet_to_load(&mut self, words: &[u32]) -> Result<Rc<CheckedSheet>, u32> {
        let sheet = self.sheet(words)?;
        if checker::rule26(&sheet.sheet) {
            return Err(26);
        }
        Ok(sheet)
    }

    /// The machine of a sound state, or every clause that the state breaks. The state has
    /// its published length.
    pub fn machine(&mut self, state: &[u32]) -> Result<Machine, Vec<Clause>> {
        let length = state[SHEET_LENGTH] as usize;
        // A load of no words leaves the words that they stand for, so such a state was never loaded.
        if length == 0 {
            return Err(vec![Clause::NoSheet]);
        }
        if length > MOST_SHEET_WORDS {
            return Err(vec![Clause::SheetLength]);
        }
        let sheet = self.sheet(&state[SHEET..SHEET + length]).map_err(|number| vec![Clause::Sheet(number)])?;
        let mut machine = Machine::new(sheet);
        machine.each_register(|place, register| *register = state[place]);
        machine.forget_count();
        let broken = machine.broken_clauses();
        if broken.is_empty() {
            Ok(machine)
        } else {
            Err(broken)
        }
    }

    /// The same for a state of any length: the number 12 or 13 that applies.
    pub fn from_words(&mut self, state: &[u32]) -> Result<Machine, u32> {
        if state.len() < STATE_WORDS {
            return Err(12);
        }
        self.machine(state).map_err(|_| 13)
    }
}
