//! What a machine can have wrong about lists of transfers, for the machines that are planted
//! for the self tests.

use super::calls::{number_of, transfers_of, Calls, Second, FIELDS};
use super::lent::Row;
use super::machine::{Transfer, DATA, INTERRUPT, MOST_TRANSFERS};
use super::planted::{is_served, stored_sheet};

#[derive(Clone, Copy, Debug, PartialEq, Eq)]
pub enum WrongList {
    /// For comparison, a right machine of the same shape.
    Nothing,
    /// Every record is answered from the state before the list, and a later one replaces an earlier.
    AnswersFromFirstState,
    ExchangesCountAndKind,
    /// The read address is taken for the write address too.
    WritesWhereItReads,
    /// An interrupt is started as data.
    TakesAllAsData,
    Takes65Records,
    Refuses64Records,
    /// Of a list with fewer answer words, the records that have one are started.
    TakesShortAnswers,
    /// An empty list without an answer word is refused.
    WantsAnswerWord,
    /// An empty list is carried out on any state.
    TakesEmptyFirst,
    Tests21First,
    /// The state's length is tested first, its soundness last.
    Tests21Before13,
    /// The state's soundness is not tested; nothing is done on an unsound one.
    TakesUnsound,
    /// A list that is refused by 21 has its answer words written.
    WritesAnswersOf21,
    /// A list that is refused by 21 is started all the same, as far as it may be.
    StartsBefore21,
    /// The answer words behind the list become 0.
    ClearsAnswersBehind,
    /// A record that is taken has its answer word left as it was.
    LeavesAnswersOfTaken,
    StopsAtRefused,
    /// A refused record undoes the whole list.
    UndoesOnRefused,
    /// A circuit that a refused record names counts as started.
    BusyByRefused,
    /// Words left are tested before 15 and 16.
    Tests17First,
    StartsFromBack,
    LeavesState,
    /// The last record of 64 is left out.
    LeavesOut64th,
    /// A record on a circuit that no schedule serves is answered by 26.
    RefusesUnserved,
    /// Lists of different lengths are taken by the shortest.
    TakesShortestList,
    /// The length of one of the lists is not compared; words that it lacks are 0.
    LeavesOutLength(usize),
    /// As lists of words alone, read and write addresses are exchanged.
    ExchangesAddressLists,
}

/// What a session can show.
pub const WRONG_LISTS: [WrongList; 28] = [
    WrongList::AnswersFromFirstState,
    WrongList::ExchangesCountAndKind,
    WrongList::WritesWhereItReads,
    WrongList::TakesAllAsData,
    WrongList::Takes65Records,
    WrongList::Refuses64Records,
    WrongList::TakesShortAnswers,
    WrongList::WantsAnswerWord,
    WrongList::TakesEmptyFirst,
    WrongList::Tests21First,
    WrongList::WritesAnswersOf21,
    WrongList::StartsBefore21,
    WrongList::ClearsAnswersBehind,
    WrongList::LeavesAnswersOfTaken,
    WrongList::StopsAtRefused,
    WrongList::UndoesOnRefused,
    WrongList::BusyByRefused,
    WrongList::Tests17First,
    WrongList::StartsFromBack,
    WrongList::LeavesState,
    WrongList::LeavesOut64th,
    WrongList::TakesShortestList,
    WrongList::LeavesOutLength(0),
    WrongList::LeavesOutLength(1),
    WrongList::LeavesOutLength(2),
    WrongList::LeavesOutLength(3),
    WrongList::LeavesOutLength(4),
    WrongList::ExchangesAddressLists,
];

/// What only a state made by hand can show.
pub const WRONG_LISTS_ON_STATES: [WrongList; 3] =
    [WrongList::Tests21Before13, WrongList::TakesUnsound, WrongList::RefusesUnserved];

impl WrongList {
    pub fn start_all(self, second: &mut Second, state: &mut [u32], transfers: &[Transfer], answers: &mut [u32]) -> u32 {
        if self == WrongList::TakesEmptyFirst && transfers.is_empty() {
            return 0;
        }
        let number_of_state = number_of(second.period_number(state));
        let number = self.number(number_of_state, self.has_21(transfers.len(), answers.len()));
        let transfers: Vec<Transfer> = transfers.iter().map(|&transfer| self.taken(transfer)).collect();
        if number_of_state == 0 && (number == 0 || self == WrongList::StartsBefore21) {
            let mut written = answers.to_vec();
            self.carry_out(second, state, &transfers, &mut written);
            if number == 0 {
                answers.copy_from_slice(&written);
            }
        }
        if number == 21 && self == WrongList::WritesAnswersOf21 {
            answers.fill(21);
        }
        number
    }

    pub fn start_lists(
        self,
        second: &mut Second,
        state: &mut [u32],
        lists: [&[u32]; FIELDS],
        answers: &mut [u32],
    ) -> u32 {
        let mut lists = lists.map(|list| list.to_vec());
        match self {
            WrongList::TakesShortestList => {
                let shortest = lists.iter().map(Vec::len).min().unwrap_or(0);
                lists.iter_mut().for_each(|list| list.truncate(shortest));
            }
            WrongList::LeavesOutLength(field) => {
                let length = lists[(field + 1) % FIELDS].len();
                lists[field].resize(length, 0);
            }
            WrongList::ExchangesAddressLists => lists.swap(1, 2),
            _ => {}
        }
        match transfers_of(lists.each_ref().map(Vec::as_slice)) {
            Some(transfers) => self.start_all(second, state, &transfers, answers),
            None => self.number(number_of(second.period_number(state)), true),
        }
    }

    fn has_21(self, records: usize, answer_words: usize) -> bool {
        let most = match self {
            WrongList::Takes65Records => 65,
            WrongList::Refuses64Records => 63,
            _ => MOST_TRANSFERS,
        };
        let wanted = match self {
            WrongList::TakesShortAnswers => 0,
            WrongList::WantsAnswerWord => records.max(1),
            _ => records,
        };
        records > most || answer_words < wanted
    }

    /// The number of the list, from the one of its state.
    fn number(self, number_of_state: u32, has_21: bool) -> u32 {
        let first = match self {
            WrongList::Tests21First => true,
            WrongList::Tests21Before13 => number_of_state == 13,
            _ => false,
        };
        match number_of_state {
            13 if self == WrongList::TakesUnsound => 0,
            0 if has_21 => 21,
            _ if has_21 && first => 21,
            number => number,
        }
    }

    /// What a record is taken for.
    fn taken(self, transfer: Transfer) -> Transfer {
        let Transfer { read, count, kind, .. } = transfer;
        match self {
            WrongList::ExchangesCountAndKind => Transfer { count: kind, kind: count, ..transfer },
            WrongList::WritesWhereItReads => Transfer { write: read, ..transfer },
            WrongList::TakesAllAsData if kind == INTERRUPT && count == 1 => Transfer { kind: DATA, ..transfer },
            _ => transfer,
        }
    }

    /// Single starts, as far as there are words for their answers.
    fn carry_out(self, second: &mut Second, state: &mut [u32], transfers: &[Transfer], answers: &mut [u32]) {
        let before = state.to_vec();
        let count = transfers.len().min(answers.len());
        let mut places: Vec<usize> = (0..count).collect();
        match self {
            WrongList::StartsFromBack => places.reverse(),
            WrongList::LeavesOut64th => places.truncate(63),
            _ => {}
        }
        for place in places {
            let number = self.start_one(second, &before, state, &transfers[..=place]);
            if number != 0 || self != WrongList::LeavesAnswersOfTaken {
                answers[place] = number;
            }
            if number != 0 && self == WrongList::StopsAtRefused {
                break;
            }
        }
        let has_refused = answers[..count].iter().any(|&answer| answer != 0);
        if self == WrongList::LeavesState || (self == WrongList::UndoesOnRefused && has_refused) {
            state.copy_from_slice(&before);
        }
        if self == WrongList::ClearsAnswersBehind {
            answers[count..].fill(0);
        }
    }

    /// The last of the records so far.
    fn start_one(self, second: &mut Second, before: &[u32], state: &mut [u32], so_far: &[Transfer]) -> u32 {
        let transfer = so_far[so_far.len() - 1];
        let circuit = transfer.circuit;
        let is_named = so_far[..so_far.len() - 1].iter().any(|earlier| earlier.circuit == circuit);
        match self {
            WrongList::AnswersFromFirstState if would_start(second, before, transfer) => {
                state[Row::Left.at(circuit as usize)] = 0;
            }
            WrongList::Tests17First if has_words_left(second, state, circuit) => return 17,
            WrongList::BusyByRefused if is_named && would_start(second, state, transfer) => return 17,
            WrongList::RefusesUnserved if would_start(second, state, transfer) => {
                if stored_sheet(state).is_some_and(|sheet| !is_served(sheet, circuit)) {
                    return 26;
                }
            }
            _ => {}
        }
        start(second, state, transfer)
    }
}

fn start(second: &mut Second, state: &mut [u32], transfer: Transfer) -> u32 {
    let Transfer { circuit, read, write, count, kind } = transfer;
    second.start(state, circuit, read, write, count, kind)
}

fn would_start(second: &mut Second, state: &[u32], transfer: Transfer) -> bool {
    start(second, &mut state.to_vec(), transfer) == 0
}

/// Not so where there is no such circuit.
fn has_words_left(second: &mut Second, state: &[u32], circuit: u32) -> bool {
    let answer = second.words_left(state, circuit);
    number_of(answer) == 0 && answer > 0
}
