//! Machines that are wrong about sheets of no words, about circuits that no schedule serves, about
//! lists of transfers, about words that travel or about long links, planted for the self tests: each of them has to
//! be noticed.

use super::calls::{number_of, Calls, Second, FIELDS};
use super::checker;
use super::lent::{MOVING_WORDS, SHEET, SHEET_LENGTH, STATE_WORDS};
use super::machine::Transfer;
use super::planted_lists::WrongList;
use super::planted_long::WrongLinks;
use super::planted_travelling::{Remembered, WrongTravelling};
use super::sheets::idle_network;

#[derive(Clone, Copy, Debug, PartialEq, Eq)]
pub enum Wrong {
    /// No words are refused by number 1.
    RefusesNoWords,
    /// Sheets of one to four words are taken for the idle network too.
    TakesShortSheets,
    /// The idle network has a period of 10 cycles.
    LongerPeriod,
    /// The idle network's words stand behind a length of 0.
    StoresNoLength,
    /// What lay on the wires is left there.
    LeavesMovingWords,
    /// The memory is tested before the state's length.
    MemoryFirst,
    /// A stored length of 0 is taken for the idle network.
    TakesStatesWithoutSheet,
    /// A sheet with an unserved circuit is loaded.
    LoadsUnserved,
    /// Such a sheet has number 11.
    Answers11For26,
    /// The state's length is tested before 26.
    StateBefore26,
    /// The memory is tested before 26.
    MemoryBefore26,
    /// A load that is refused by 26 starts the session anew all the same.
    WritesBefore26,
    /// A state whose sheet has an unserved circuit is not sound.
    RefusesUnservedStates,
    /// A start on an unserved circuit is refused by 26.
    RefusesUnservedStarts,
    List(WrongList),
    Travelling(WrongTravelling),
    Links(WrongLinks),
}

/// What a load can have wrong, and so a session can show.
pub const WRONG_LOADS: [Wrong; 11] = [
    Wrong::RefusesNoWords,
    Wrong::TakesShortSheets,
    Wrong::LongerPeriod,
    Wrong::StoresNoLength,
    Wrong::LeavesMovingWords,
    Wrong::MemoryFirst,
    Wrong::LoadsUnserved,
    Wrong::Answers11For26,
    Wrong::StateBefore26,
    Wrong::MemoryBefore26,
    Wrong::WritesBefore26,
];

/// What only a state made by hand can show.
pub const WRONG_ON_STATES: [Wrong; 3] =
    [Wrong::TakesStatesWithoutSheet, Wrong::RefusesUnservedStates, Wrong::RefusesUnservedStarts];

/// The second machine with one thing wrong.
pub struct Planted {
    second: Second,
    wrong: Wrong,
    remembered: Remembered,
}

impl Planted {
    pub fn new(wrong: Wrong) -> Planted {
        Planted { second: Second::reading(), wrong, remembered: Remembered::default() }
    }

    /// The state that a call works on.
    fn taken(&self, state: &[u32]) -> Vec<u32> {
        let mut taken = state.to_vec();
        let no_sheet = state.len() >= STATE_WORDS && state[SHEET_LENGTH] == 0;
        if self.wrong == Wrong::TakesStatesWithoutSheet && no_sheet {
            write_sheet(&mut taken, &idle_network().words());
        }
        if self.wrong == Wrong::RefusesUnservedStates && stored_sheet(state).is_some_and(has_26) {
            taken[SHEET_LENGTH] = 0;
        }
        if let Wrong::Links(wrong) = self.wrong {
            if state.len() >= STATE_WORDS {
                wrong.take(&mut taken);
            }
        }
        taken
    }

    /// A load of a sheet whose number is 26.
    fn load_unserved(&self, sheet: &[u32], state: &mut [u32], memory: &[u32]) -> u32 {
        let short_state = state.len() < STATE_WORDS;
        let read = checker::read(sheet).expect("number 3 does not apply");
        let wrong_memory = memory.len() as u64 != read.columns * read.rows * read.memory_words;
        match self.wrong {
            Wrong::Answers11For26 => 11,
            Wrong::StateBefore26 | Wrong::LoadsUnserved if short_state => 12,
            Wrong::MemoryBefore26 | Wrong::LoadsUnserved if wrong_memory => 14,
            Wrong::LoadsUnserved => {
                state[..MOVING_WORDS].fill(0);
                write_sheet(state, sheet);
                0
            }
            Wrong::WritesBefore26 => {
                let moving_words = state.len().min(MOVING_WORDS);
                state[..moving_words].fill(0);
                26
            }
            _ => 26,
        }
    }

    /// A call that changes the state; the sheet in it stays as it was.
    fn change(&mut self, state: &mut [u32], call: impl FnOnce(&mut Second, &mut [u32]) -> u32) -> u32 {
        let mut taken = self.taken(state);
        let number = call(&mut self.second, &mut taken);
        if number == 0 {
            state[..MOVING_WORDS].copy_from_slice(&taken[..MOVING_WORDS]);
        }
        number
    }
}

/// The sheet in a state that is long enough for it.
pub fn stored_sheet(state: &[u32]) -> Option<&[u32]> {
    let length = *state.get(SHEET_LENGTH)? as usize;
    state.get(SHEET..)?.get(..length)
}

fn has_26(sheet: &[u32]) -> bool {
    checker::verdict(sheet) == 26
}

pub fn is_served(sheet: &[u32], circuit: u32) -> bool {
    let sheet = checker::read(sheet).expect("the sheet of a sound state");
    let mut entries = sheet.schedules.iter().flat_map(|schedule| &schedule.entries);
    entries.any(|entry| entry.circuit == u64::from(circuit))
}

fn write_sheet(state: &mut [u32], sheet: &[u32]) {
    state[SHEET_LENGTH] = sheet.len() as u32;
    state[SHEET..SHEET + sheet.len()].copy_from_slice(sheet);
}

impl Calls for Planted {
    fn load(&mut self, sheet: &[u32], state: &mut [u32], memory: &[u32]) -> u32 {
        let blank = sheet.is_empty();
        match self.wrong {
            Wrong::RefusesNoWords if blank => return 1,
            Wrong::MemoryFirst if blank && memory.len() != 4 => return 14,
            Wrong::TakesShortSheets if sheet.len() < 5 => return self.second.load(&[], state, memory),
            _ => {}
        }
        let before = state.to_vec();
        let number = self.second.load(sheet, state, memory);
        if number == 0 && matches!(self.wrong, Wrong::Travelling(_)) {
            self.remembered.note_load(&before, &mut self.second);
        }
        if let (0, Wrong::Links(wrong)) = (number, self.wrong) {
            wrong.after_load(&before, state);
        }
        if number == 26 {
            return self.load_unserved(sheet, state, memory);
        }
        if number == 0 && blank {
            match self.wrong {
                Wrong::LongerPeriod => write_sheet(state, &[2, 2, 1, 0, 1, 10, 0]),
                Wrong::StoresNoLength => state[SHEET_LENGTH] = 0,
                Wrong::LeavesMovingWords => state[..MOVING_WORDS].copy_from_slice(&before[..MOVING_WORDS]),
                _ => {}
            }
        }
        number
    }

    fn start(&mut self, state: &mut [u32], circuit: u32, read: u32, write: u32, count: u32, kind: u32) -> u32 {
        if let Wrong::Travelling(wrong) = self.wrong {
            let transfer = Transfer { circuit, read, write, count, kind };
            return wrong.start(&mut self.remembered, &mut self.second, state, transfer);
        }
        if let Wrong::Links(wrong) = self.wrong {
            let transfer = Transfer { circuit, read, write, count, kind };
            return self.change(state, |second, state| wrong.start(second, state, transfer));
        }
        if self.wrong == Wrong::RefusesUnservedStarts {
            let number = self.second.start(&mut state.to_vec(), circuit, read, write, count, kind);
            if number == 0 && stored_sheet(state).is_some_and(|sheet| !is_served(sheet, circuit)) {
                return 26;
            }
        }
        self.change(state, |second, state| second.start(state, circuit, read, write, count, kind))
    }

    fn store(&mut self, state: &[u32], memory: &mut [u32], node: u32, address: u32, word: u32) -> u32 {
        let number = self.second.store(&self.taken(state), memory, node, address, word);
        self.remembered.stored |= number == 0;
        number
    }

    fn fetch(&mut self, state: &[u32], memory: &[u32], node: u32, address: u32) -> u64 {
        let answer = self.second.fetch(&self.taken(state), memory, node, address);
        self.remembered.asked |= number_of(answer) == 0;
        answer
    }

    fn words_left(&mut self, state: &[u32], circuit: u32) -> u64 {
        let taken = self.taken(state);
        let answer = match self.wrong {
            Wrong::Travelling(wrong) => wrong.words_left(&mut self.second, &taken, circuit),
            _ => self.second.words_left(&taken, circuit),
        };
        self.remembered.asked |= number_of(answer) == 0;
        answer
    }

    fn period_number(&mut self, state: &[u32]) -> u64 {
        let answer = self.second.period_number(&self.taken(state));
        self.remembered.asked |= number_of(answer) == 0;
        answer
    }

    fn landed(&mut self, state: &[u32], node: u32, field: u32) -> u64 {
        let answer = self.second.landed(&self.taken(state), node, field);
        self.remembered.asked |= number_of(answer) == 0;
        answer
    }

    fn order(&mut self, state: &mut [u32], schedule: u32, period_number: u32) -> u32 {
        let number = self.change(state, |second, state| second.order(state, schedule, period_number));
        self.remembered.ordered |= number == 0;
        number
    }

    fn cycle(&mut self, state: &mut [u32], memory: &mut [u32]) -> u32 {
        let number = match self.wrong {
            Wrong::Links(wrong) => self.change(state, |second, state| wrong.cycle(second, state, memory)),
            _ => self.change(state, |second, state| second.cycle(state, memory)),
        };
        if number == 0 {
            self.remembered.forget();
        }
        number
    }

    fn start_all(&mut self, state: &mut [u32], transfers: &[Transfer], answers: &mut [u32]) -> u32 {
        match self.wrong {
            Wrong::List(wrong) => wrong.start_all(&mut self.second, state, transfers, answers),
            Wrong::Travelling(wrong) => {
                wrong.start_all(&mut self.remembered, &mut self.second, state, transfers, answers)
            }
            Wrong::Links(wrong) => {
                self.change(state, |second, state| wrong.start_all(second, state, transfers, answers))
            }
            _ => self.change(state, |second, state| second.start_all(state, transfers, answers)),
        }
    }

    fn start_lists(&mut self, state: &mut [u32], lists: [&[u32]; FIELDS], answers: &mut [u32]) -> u32 {
        match self.wrong {
            Wrong::List(wrong) => wrong.start_lists(&mut self.second, state, lists, answers),
            Wrong::Travelling(wrong) => {
                wrong.start_lists(&mut self.remembered, &mut self.second, state, lists, answers)
            }
            Wrong::Links(wrong) => self.change(state, |second, state| wrong.start_lists(second, state, lists, answers)),
            _ => self.change(state, |second, state| second.start_lists(state, lists, answers)),
        }
    }

    fn state_words(&mut self) -> u32 {
        self.second.state_words()
    }
}

/// Says which wrong machines go unnoticed; true where none does.
pub fn are_noticed(wrongs: &[Wrong], is_noticed: impl Fn(&mut Planted) -> bool) -> bool {
    let unnoticed: Vec<Wrong> = wrongs.iter().copied().filter(|&wrong| !is_noticed(&mut Planted::new(wrong))).collect();
    println!("{} of {} wrong machines noticed", wrongs.len() - unnoticed.len(), wrongs.len());
    for wrong in &unnoticed {
        println!("not noticed: {wrong:?}");
    }
    unnoticed.is_empty()
}

/// Says where a right machine in a wrong one's place is noticed too; true where it is not.
pub fn goes_unnoticed(right: Wrong, is_noticed: impl Fn(&mut Planted) -> bool) -> bool {
    let noticed = is_noticed(&mut Planted::new(right));
    if noticed {
        println!("noticed without a fault: {right:?}");
    }
    !noticed
}
