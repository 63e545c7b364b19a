//! The ten calls on lent words, one of them in two forms, as whoever carries them out has to
//! offer them, and the second machine as one who does. An answer is number × 2^32 + value.

use super::lent::{Reader, STATE_WORDS};
use super::machine::{Landing, Machine, Transfer};

/// How many words a record of a list has.
pub const FIELDS: usize = 5;

pub trait Calls {
    fn load(&mut self, sheet: &[u32], state: &mut [u32], memory: &[u32]) -> u32;
    fn start(&mut self, state: &mut [u32], circuit: u32, read: u32, write: u32, count: u32, kind: u32) -> u32;
    fn store(&mut self, state: &[u32], memory: &mut [u32], node: u32, address: u32, word: u32) -> u32;
    fn fetch(&mut self, state: &[u32], memory: &[u32], node: u32, address: u32) -> u64;
    fn words_left(&mut self, state: &[u32], circuit: u32) -> u64;
    fn period_number(&mut self, state: &[u32]) -> u64;
    /// Field 0: 1 if something landed, else 0; 1 kind; 2 address; 3 word; any other: 0.
    fn landed(&mut self, state: &[u32], node: u32, field: u32) -> u64;
    fn order(&mut self, state: &mut [u32], schedule: u32, period_number: u32) -> u32;
    fn cycle(&mut self, state: &mut [u32], memory: &mut [u32]) -> u32;
    /// A list of transfers, and a word for the answer to each.
    fn start_all(&mut self, state: &mut [u32], transfers: &[Transfer], answers: &mut [u32]) -> u32;
    /// The same over lists of words: circuits, read addresses, write addresses, counts, kinds.
    fn start_lists(&mut self, state: &mut [u32], lists: [&[u32]; FIELDS], answers: &mut [u32]) -> u32;
    fn state_words(&mut self) -> u32;
}

/// A call with its arguments; the answers of a list are the words lent for them, as they are before it.
#[derive(Clone, Debug)]
pub enum Call {
    Load { sheet: Vec<u32> },
    Start { circuit: u32, read: u32, write: u32, count: u32, kind: u32 },
    Store { node: u32, address: u32, word: u32 },
    Fetch { node: u32, address: u32 },
    WordsLeft { circuit: u32 },
    PeriodNumber,
    WhatLanded { node: u32, field: u32 },
    Order { schedule: u32, period_number: u32 },
    Cycle,
    StartAll { transfers: Vec<Transfer>, answers: Vec<u32> },
    StartLists { lists: [Vec<u32>; FIELDS], answers: Vec<u32> },
}

impl Call {
    /// The single start of a transfer.
    pub fn start(transfer: Transfer) -> Call {
        let Transfer { circuit, read, write, count, kind } = transfer;
        Call::Start { circuit, read, write, count, kind }
    }

    pub fn name(&self) -> &'static str {
        match self {
            Call::Load { .. } => "load",
            Call::Start { .. } => "start",
            Call::Store { .. } => "store",
            Call::Fetch { .. } => "fetch",
            Call::WordsLeft { .. } => "words left",
            Call::PeriodNumber => "period number",
            Call::WhatLanded { .. } => "what landed",
            Call::Order { .. } => "order",
            Call::Cycle => "cycle",
            Call::StartAll { .. } => "start all",
            Call::StartLists { .. } => "start lists",
        }
    }

    /// Whether the call only answers.
    pub fn is_question(&self) -> bool {
        matches!(self, Call::Fetch { .. } | Call::WordsLeft { .. } | Call::PeriodNumber | Call::WhatLanded { .. })
    }

    /// The words that a list is lent for answers, as they are before the call.
    pub fn unanswered(&self) -> Option<&[u32]> {
        match self {
            Call::StartAll { answers, .. } | Call::StartLists { answers, .. } => Some(answers),
            _ => None,
        }
    }

    /// The records of a list in either form; none where the lists of words differ in length.
    pub fn transfers(&self) -> Option<Vec<Transfer>> {
        match self {
            Call::StartAll { transfers, .. } => Some(transfers.clone()),
            Call::StartLists { lists, .. } => transfers_of(slices(lists)),
            _ => None,
        }
    }

    /// What is to be started, by a single start or by a list.
    pub fn starts(&self) -> Vec<Transfer> {
        match *self {
            Call::Start { circuit, read, write, count, kind } => vec![Transfer { circuit, read, write, count, kind }],
            _ => self.transfers().unwrap_or_default(),
        }
    }

    /// The call for a reader; a long sheet or list is cut.
    pub fn start_of_text(&self) -> String {
        format!("{self:?}").chars().take(300).collect()
    }

    /// Makes the call on the lent slices; only a list is lent words for answers.
    pub fn make(&self, calls: &mut impl Calls, state: &mut [u32], memory: &mut [u32], answers: &mut [u32]) -> u64 {
        match *self {
            Call::Load { ref sheet } => only_number(calls.load(sheet, state, memory)),
            Call::Start { circuit, read, write, count, kind } => {
                only_number(calls.start(state, circuit, read, write, count, kind))
            }
            Call::Store { node, address, word } => only_number(calls.store(state, memory, node, address, word)),
            Call::Fetch { node, address } => calls.fetch(state, memory, node, address),
            Call::WordsLeft { circuit } => calls.words_left(state, circuit),
            Call::PeriodNumber => calls.period_number(state),
            Call::WhatLanded { node, field } => calls.landed(state, node, field),
            Call::Order { schedule, period_number } => only_number(calls.order(state, schedule, period_number)),
            Call::Cycle => only_number(calls.cycle(state, memory)),
            Call::StartAll { ref transfers, .. } => only_number(calls.start_all(state, transfers, answers)),
            Call::StartLists { ref lists, .. } => only_number(calls.start_lists(state, slices(lists), answers)),
        }
    }
}

fn slices(lists: &[Vec<u32>; FIELDS]) -> [&[u32]; FIELDS] {
    lists.each_ref().map(Vec::as_slice)
}

/// Records as lists of words.
pub fn lists_of(transfers: &[Transfer]) -> [Vec<u32>; FIELDS] {
    let list = |field: fn(&Transfer) -> u32| transfers.iter().map(field).collect();
    [
        list(|transfer| transfer.circuit),
        list(|transfer| transfer.read),
        list(|transfer| transfer.write),
        list(|transfer| transfer.count),
        list(|transfer| transfer.kind),
    ]
}

/// Lists of words as records; none where their lengths differ.
pub fn transfers_of(lists: [&[u32]; FIELDS]) -> Option<Vec<Transfer>> {
    let length = lists[0].len();
    if lists.iter().any(|list| list.len() != length) {
        return None;
    }
    let record = |place: usize| {
        let [circuit, read, write, count, kind] = lists.map(|list| list[place]);
        Transfer { circuit, read, write, count, kind }
    };
    Some((0..length).map(record).collect())
}

fn only_number(number: u32) -> u64 {
    u64::from(number) << 32
}

pub fn number_of(answer: u64) -> u32 {
    (answer >> 32) as u32
}

/// A call that answers a number alone.
pub fn number(result: Result<(), u32>) -> u32 {
    result.err().unwrap_or(0)
}

/// A call that answers a value; beside a refusal the value is 0.
pub fn answer(result: Result<u32, u32>) -> u64 {
    match result {
        Ok(value) => u64::from(value),
        Err(number) => only_number(number),
    }
}

/// One field of what landed; all are 0 where nothing did.
pub fn landing_field(landing: Option<Landing>, field: u32) -> u32 {
    match (landing, field) {
        (Some(_), 0) => 1,
        (Some(landing), 1) => landing.kind,
        (Some(landing), 2) => landing.address,
        (Some(landing), 3) => landing.word,
        _ => 0,
    }
}

/// The second machine. It either lives on from call to call and only writes the lent words,
/// or is read from them anew for each call.
pub struct Second {
    reader: Reader,
    machine: Option<Machine>,
    lives_on: bool,
}

impl Second {
    pub fn living() -> Second {
        Second { reader: Reader::default(), machine: None, lives_on: true }
    }

    pub fn reading() -> Second {
        Second { reader: Reader::default(), machine: None, lives_on: false }
    }

    /// The machine after the calls so far; there has been a load.
    pub fn view(&self) -> &Machine {
        self.machine.as_ref().expect("a load was carried out")
    }

    /// Takes up a sound state of which only the clock was made by hand.
    pub fn take_up(&mut self, state: &[u32]) {
        let mut taken = self.reader.from_words(state).expect("a sound state");
        taken.go_on_counting_from(self.view());
        self.machine = Some(taken);
    }

    fn machine(&mut self, state: &[u32]) -> Result<&mut Machine, u32> {
        if state.len() < STATE_WORDS {
            return Err(12);
        }
        if !self.lives_on {
            self.machine = Some(self.reader.from_words(state)?);
        }
        Ok(self.machine.as_mut().expect("a load was carried out"))
    }

    /// Carries a call out on the machine; a refused one writes nothing.
    fn change(&mut self, state: &mut [u32], call: impl FnOnce(&mut Machine) -> Result<(), u32>) -> u32 {
        let result = self.machine(state).and_then(|machine| {
            call(machine)?;
            machine.write_to(state);
            Ok(())
        });
        number(result)
    }
}

impl Calls for Second {
    fn load(&mut self, sheet: &[u32], state: &mut [u32], memory: &[u32]) -> u32 {
        let sheet = match self.reader.sheet_to_load(sheet) {
            Ok(sheet) => sheet,
            Err(number) => return number,
        };
        if state.len() < STATE_WORDS {
            return 12;
        }
        if memory.len() != sheet.all_memory_words() {
            return 14;
        }
        let machine = Machine::new(sheet);
        machine.write_loaded(state);
        self.machine = Some(machine);
        0
    }

    fn start(&mut self, state: &mut [u32], circuit: u32, read: u32, write: u32, count: u32, kind: u32) -> u32 {
        self.change(state, |machine| machine.start(circuit, read, write, count, kind))
    }

    fn store(&mut self, state: &[u32], memory: &mut [u32], node: u32, address: u32, word: u32) -> u32 {
        number(self.machine(state).and_then(|machine| machine.store(memory, node, address, word)))
    }

    fn fetch(&mut self, state: &[u32], memory: &[u32], node: u32, address: u32) -> u64 {
        answer(self.machine(state).and_then(|machine| machine.fetch(memory, node, address)))
    }

    fn words_left(&mut self, state: &[u32], circuit: u32) -> u64 {
        answer(self.machine(state).and_then(|machine| machine.words_left(circuit)))
    }

    fn period_number(&mut self, state: &[u32]) -> u64 {
        answer(self.machine(state).map(|machine| machine.period_number()))
    }

    fn landed(&mut self, state: &[u32], node: u32, field: u32) -> u64 {
        let landing = self.machine(state).and_then(|machine| machine.what_landed(node));
        answer(landing.map(|landing| landing_field(landing, field)))
    }

    fn order(&mut self, state: &mut [u32], schedule: u32, period_number: u32) -> u32 {
        self.change(state, |machine| machine.order(schedule, period_number))
    }

    fn cycle(&mut self, state: &mut [u32], memory: &mut [u32]) -> u32 {
        self.change(state, |machine| machine.cycle(memory))
    }

    fn start_all(&mut self, state: &mut [u32], transfers: &[Transfer], answers: &mut [u32]) -> u32 {
        self.change(state, |machine| machine.start_all(transfers, answers))
    }

    fn start_lists(&mut self, state: &mut [u32], lists: [&[u32]; FIELDS], answers: &mut [u32]) -> u32 {
        self.change(state, |machine| machine.start_all(&transfers_of(lists).ok_or(21u32)?, answers))
    }

    fn state_words(&mut self) -> u32 {
        STATE_WORDS as u32
    }
}
