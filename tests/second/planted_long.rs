//! What a machine can have wrong about long vertical links (L7), for the machines that are planted for the self tests.
//! They alter the lent words before or after the second machine works on them.

use super::calls::{Calls, Second, FIELDS};
use super::checker::{self, Sheet};
use super::lent::{Row, ROW_WORDS, SHEET_LENGTH};
use super::machine::{Transfer, EMPTY, HEADER, LAST, MEMORY, MOST_NODES, PAYLOAD, PORTS, VERTICAL_SIDES};
use super::planted::stored_sheet;

#[derive(Clone, Copy, Debug, PartialEq, Eq)]
pub enum WrongLinks {
    /// For comparison, a right machine of the same shape.
    Nothing,
    /// What is on an output is at the link's end a cycle later, as on short links.
    LinksFromOutputs,
    /// The links by east and west are the long ones.
    DelaysHorizontalHops,
    /// The extra register lies before the side output.
    DelaysBeforeOutputs,
    /// A link's end takes the extra register of the output by its own side.
    TakesOwnSide,
    /// An extra register keeps its word until another comes.
    KeepsExtras,
    /// A word that goes into an extra register is payload, whatever it was.
    LosesHeaders,
    /// A load leaves what was in the extra registers.
    LoadLeavesExtras,
    /// Headers in extra registers make no circuit busy.
    LeavesOutExtras,
    /// Payload in extra registers is read as a header.
    ReadsPayload,
    /// A header in an extra register is read as if its first code had been taken off.
    TakesCodeOffExtra,
    /// Short vertical links have the extra registers too.
    DelaysOnShortLinks,
    /// Soundness tests more registers than there are.
    TestsOnShortLinks,
    TestsOtherOutputs,
    TestsMissingNodes,
    /// Soundness tests no marks, or no kinds, of extra registers.
    LeavesMarksUntested,
    LeavesKindsUntested,
    /// A cycle writes words that take part in nothing.
    WritesOnShortLinks,
    ClearsOnShortLinks,
    WritesOtherOutputs,
    ClearsMissingNodes,
    /// Headers in words that take part in nothing make a circuit busy.
    ReadsOnShortLinks,
    ReadsOtherOutputs,
    ReadsMissingNodes,
    /// Payload in an extra register is refused where no choice is held at the link's end.
    RefusesPayloadEarly,
}

/// What a session and a state made by hand can show.
pub const WRONG_LINKS: [WrongLinks; 9] = [
    WrongLinks::LinksFromOutputs,
    WrongLinks::DelaysHorizontalHops,
    WrongLinks::DelaysBeforeOutputs,
    WrongLinks::TakesOwnSide,
    WrongLinks::KeepsExtras,
    WrongLinks::LosesHeaders,
    WrongLinks::LeavesOutExtras,
    WrongLinks::ReadsPayload,
    WrongLinks::TakesCodeOffExtra,
];

/// What a session alone can show.
pub const WRONG_LINKS_IN_SESSIONS: [WrongLinks; 2] = [WrongLinks::LoadLeavesExtras, WrongLinks::DelaysOnShortLinks];

/// What only a state made by hand can show.
pub const WRONG_LINKS_ON_STATES: [WrongLinks; 13] = [
    WrongLinks::TestsOnShortLinks,
    WrongLinks::TestsOtherOutputs,
    WrongLinks::TestsMissingNodes,
    WrongLinks::LeavesMarksUntested,
    WrongLinks::LeavesKindsUntested,
    WrongLinks::WritesOnShortLinks,
    WrongLinks::ClearsOnShortLinks,
    WrongLinks::WritesOtherOutputs,
    WrongLinks::ClearsMissingNodes,
    WrongLinks::ReadsOnShortLinks,
    WrongLinks::ReadsOtherOutputs,
    WrongLinks::ReadsMissingNodes,
    WrongLinks::RefusesPayloadEarly,
];

const OTHER_OUTPUTS: [usize; 3] = [1, 3, 4];
const HORIZONTAL_SIDES: [usize; 2] = [1, 3];
const EXTRA: [Row; 2] = [Row::ExtraMark, Row::ExtraWord];
const OUT: [Row; 2] = [Row::OutMark, Row::OutWord];
const LINK: [Row; 2] = [Row::LinkMark, Row::LinkWord];

/// A mark and its word.
type MarkedWord = [u32; 2];

fn cell(state: &[u32], rows: [Row; 2], node: usize, port: usize) -> MarkedWord {
    rows.map(|row| state[row.of_port(node, port)])
}

fn put(state: &mut [u32], rows: [Row; 2], node: usize, port: usize, cell: MarkedWord) {
    for (row, word) in rows.into_iter().zip(cell) {
        state[row.of_port(node, port)] = word;
    }
}

fn is_unsound([mark, word]: MarkedWord) -> bool {
    mark > LAST || (mark == HEADER && word >> 30 & 1 == 1)
}

/// The sheet of a state, where there is one that passes; of a state that is known to be sound the sheet is not checked.
fn sheet_of(state: &[u32], is_sound: bool) -> Option<Sheet> {
    let passes = |words: &&[u32]| is_sound || (!words.is_empty() && checker::verdict_to_11(words) == 0);
    checker::read(stored_sheet(state).filter(passes)?)
}

fn nodes_of(sheet: &Sheet) -> usize {
    (sheet.columns * sheet.rows) as usize
}

fn beside(sheet: &Sheet, node: usize, side: usize) -> usize {
    checker::neighbour(sheet, node as u64, checker::side_of_code(side as u64)) as usize
}

impl WrongLinks {
    /// The registers that are tested without being there, or that a start reads so.
    fn places_besides(self, sheet: &Sheet) -> Vec<(usize, usize)> {
        let nodes = nodes_of(sheet);
        let places = |nodes: std::ops::Range<usize>, outputs: &[usize]| -> Vec<(usize, usize)> {
            nodes.flat_map(|node| outputs.iter().map(move |&output| (node, output))).collect()
        };
        match self {
            WrongLinks::TestsOnShortLinks | WrongLinks::ReadsOnShortLinks if !sheet.long_links => {
                places(0..nodes, &VERTICAL_SIDES)
            }
            WrongLinks::TestsOtherOutputs | WrongLinks::ReadsOtherOutputs if sheet.long_links => {
                places(0..nodes, &OTHER_OUTPUTS)
            }
            WrongLinks::TestsMissingNodes | WrongLinks::ReadsMissingNodes if sheet.long_links => {
                places(nodes..MOST_NODES, &VERTICAL_SIDES)
            }
            _ => Vec::new(),
        }
    }

    /// The state as the machine takes it for sound or not.
    pub fn take(self, state: &mut [u32]) {
        let tests_more = matches!(
            self,
            WrongLinks::TestsOnShortLinks | WrongLinks::TestsOtherOutputs | WrongLinks::TestsMissingNodes
        );
        let tests_less = matches!(self, WrongLinks::LeavesMarksUntested | WrongLinks::LeavesKindsUntested);
        if !tests_more && !tests_less {
            return;
        }
        let Some(sheet) = sheet_of(state, false) else { return };
        if self.places_besides(&sheet).iter().any(|&(node, port)| is_unsound(cell(state, EXTRA, node, port))) {
            state[SHEET_LENGTH] = 0;
        }
        if tests_less && sheet.long_links {
            for node in 0..nodes_of(&sheet) {
                for side in VERTICAL_SIDES {
                    let [mark, word] = cell(state, EXTRA, node, side);
                    let untested = (mark > LAST) == (self == WrongLinks::LeavesMarksUntested);
                    if untested && is_unsound([mark, word]) {
                        put(state, EXTRA, node, side, [EMPTY, 0]);
                    }
                }
            }
        }
    }

    /// What a load leaves besides.
    pub fn after_load(self, before: &[u32], state: &mut [u32]) {
        if self == WrongLinks::LoadLeavesExtras {
            let rows = Row::ExtraMark.at(0)..Row::ExtraWord.at(ROW_WORDS);
            state[rows.clone()].copy_from_slice(&before[rows]);
        }
    }

    pub fn cycle(self, second: &mut Second, state: &mut [u32], memory: &mut [u32]) -> u32 {
        let before = state.to_vec();
        let mut written = memory.to_vec();
        let number = second.cycle(state, &mut written);
        if number != 0 {
            return number;
        }
        let sheet = sheet_of(&before, true).expect("the sheet of a sound state");
        if self == WrongLinks::RefusesPayloadEarly && has_payload_without_latch(&before, &sheet) {
            state.copy_from_slice(&before);
            return 20;
        }
        memory.copy_from_slice(&written);
        self.alter_cycle(&before, state, &sheet);
        0
    }

    /// Each node's registers behind a cycle that was right.
    fn alter_cycle(self, before: &[u32], state: &mut [u32], sheet: &Sheet) {
        for node in 0..nodes_of(sheet) {
            for side in VERTICAL_SIDES {
                let (far, opposite) = (beside(sheet, node, side), side ^ 2);
                let on_output = cell(before, OUT, far, opposite);
                let own_output = cell(before, OUT, node, side);
                match (self, sheet.long_links) {
                    (WrongLinks::LinksFromOutputs, true) => put(state, LINK, node, side, on_output),
                    (WrongLinks::DelaysHorizontalHops, true) => {
                        put(state, LINK, node, side, on_output);
                        put(state, EXTRA, node, side, cell(before, EXTRA, node, side));
                    }
                    (WrongLinks::DelaysBeforeOutputs, true) => {
                        put(state, LINK, node, side, on_output);
                        let crossed = cell(state, OUT, node, side);
                        put(state, OUT, node, side, cell(before, EXTRA, node, side));
                        put(state, EXTRA, node, side, crossed);
                    }
                    (WrongLinks::TakesOwnSide, true) => put(state, LINK, node, side, cell(before, EXTRA, far, side)),
                    (WrongLinks::KeepsExtras, true) if own_output[0] == EMPTY => {
                        put(state, EXTRA, node, side, cell(before, EXTRA, node, side));
                    }
                    (WrongLinks::LosesHeaders, true) if own_output[0] == HEADER => {
                        put(state, EXTRA, node, side, [PAYLOAD, own_output[1]]);
                    }
                    (WrongLinks::DelaysOnShortLinks, false) => {
                        put(state, LINK, node, side, cell(before, EXTRA, far, opposite));
                        put(state, EXTRA, node, side, own_output);
                    }
                    (WrongLinks::WritesOnShortLinks, false) => put(state, EXTRA, node, side, own_output),
                    (WrongLinks::ClearsOnShortLinks, false) => put(state, EXTRA, node, side, [EMPTY, 0]),
                    _ => {}
                }
            }
            if self == WrongLinks::DelaysHorizontalHops && sheet.long_links {
                for side in HORIZONTAL_SIDES {
                    put(state, LINK, node, side, cell(before, EXTRA, beside(sheet, node, side), side ^ 2));
                    put(state, EXTRA, node, side, cell(before, OUT, node, side));
                }
            }
            if self == WrongLinks::WritesOtherOutputs && sheet.long_links {
                for output in OTHER_OUTPUTS {
                    put(state, EXTRA, node, output, cell(before, OUT, node, output));
                }
            }
        }
        if self == WrongLinks::ClearsMissingNodes && sheet.long_links {
            let first = PORTS * nodes_of(sheet);
            for row in EXTRA {
                state[row.at(first)..row.at(PORTS * MOST_NODES)].fill(0);
            }
        }
    }

    /// A copy of the state in which the right machine finds on their way what this one does.
    fn as_read_by_starts(self, state: &[u32]) -> Vec<u32> {
        let mut read = state.to_vec();
        let Some(sheet) = sheet_of(state, false) else { return read };
        for (node, port) in self.places_besides(&sheet) {
            let header = cell(state, EXTRA, node, port);
            let is_sound_header = header[0] == HEADER && !is_unsound(header);
            // As on its output; one of a missing node as on the last node's memory.
            let last = nodes_of(&sheet) - 1;
            let (node, port) = if node <= last { (node, port) } else { (last, MEMORY) };
            if is_sound_header && cell(state, OUT, node, port)[0] == EMPTY {
                put(&mut read, OUT, node, port, header);
            }
        }
        if sheet.long_links {
            for node in 0..nodes_of(&sheet) {
                for side in VERTICAL_SIDES {
                    let [mark, word] = cell(state, EXTRA, node, side);
                    let seen = match self {
                        WrongLinks::LeavesOutExtras if mark == HEADER => [EMPTY, word],
                        WrongLinks::ReadsPayload if mark == PAYLOAD || mark == LAST => [HEADER, word & !(1 << 30)],
                        WrongLinks::TakesCodeOffExtra if mark == HEADER => {
                            [HEADER, word & 0xFFFF_0000 | (word & 0xFFFF) >> 2]
                        }
                        _ => [mark, word],
                    };
                    put(&mut read, EXTRA, node, side, seen);
                }
            }
        }
        read
    }

    /// Starts on the state as this machine reads it; of what they leave, the transfers are taken over.
    fn start_on_read(self, state: &mut [u32], call: impl FnOnce(&mut [u32]) -> u32) -> u32 {
        let mut read = self.as_read_by_starts(state);
        let number = call(&mut read);
        if number == 0 {
            for row in [Row::Left, Row::Read, Row::Write, Row::Kind] {
                let places = row.at(0)..row.at(ROW_WORDS);
                state[places.clone()].copy_from_slice(&read[places]);
            }
        }
        number
    }

    pub fn start(self, second: &mut Second, state: &mut [u32], transfer: Transfer) -> u32 {
        let Transfer { circuit, read, write, count, kind } = transfer;
        self.start_on_read(state, |state| second.start(state, circuit, read, write, count, kind))
    }

    pub fn start_all(self, second: &mut Second, state: &mut [u32], transfers: &[Transfer], answers: &mut [u32]) -> u32 {
        self.start_on_read(state, |state| second.start_all(state, transfers, answers))
    }

    pub fn start_lists(
        self,
        second: &mut Second,
        state: &mut [u32],
        lists: [&[u32]; FIELDS],
        answers: &mut [u32],
    ) -> u32 {
        self.start_on_read(state, |state| second.start_lists(state, lists, answers))
    }
}

fn has_payload_without_latch(state: &[u32], sheet: &Sheet) -> bool {
    (0..nodes_of(sheet)).any(|node| {
        VERTICAL_SIDES.iter().any(|&side| {
            let [mark, _] = cell(state, EXTRA, beside(sheet, node, side), side ^ 2);
            let latch = state[Row::Latch.of_port(node, side)];
            sheet.long_links && matches!(mark, PAYLOAD | LAST) && latch == 0
        })
    })
}
