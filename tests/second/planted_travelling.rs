//! What a machine can have wrong about words that travel (L3), for the machines that are planted for the self tests.
//! They read the lent words by themselves and follow a header for a number of steps.

use super::calls::{number_of, transfers_of, Calls, Second, FIELDS};
use super::checker::{self, Circuit, Sheet};
use super::lent::{Reader, Row, ROW_WORDS};
use super::machine::{Transfer, EMPTY, HEADER, INTERRUPT, LAST, MEMORY, MOST_NODES, PORTS, VERTICAL_SIDES};
use super::planted::stored_sheet;
use super::travelling::Place;

#[derive(Clone, Copy, Debug, PartialEq, Eq)]
pub enum WrongTravelling {
    /// For comparison, a right machine of another shape: it also lets each header run alone through the network, to
    /// see where it comes out.
    Nothing,
    /// Busy by words left alone.
    WordsLeftAlone,
    /// The same in single starts only, and in lists only.
    WordsLeftAloneInStarts,
    WordsLeftAloneInLists,
    /// Free once the last word is on the memory's wire, a cycle too early.
    FreeBeforeLanding,
    /// Busy while the last landing is to be seen, a cycle too late.
    BusyAfterLanding,
    /// A landed packet frees the circuit, though another travels.
    FreeByAnyPacket,
    /// Busy while any header travels anywhere.
    BusyByAnyHeader,
    /// Tested before 15 and 16.
    Tests17First,
    /// Words that travel are among those left.
    AnswersTravellingAsLeft,
    /// A region is taken to have no end, no beginning, or its length for its end.
    IgnoresLength,
    IgnoresOffset,
    TakesLengthForEnd,
    LeavesOutFirstAddress,
    LeavesOutLastAddress,
    TakesAddressBefore,
    TakesAddressBehind,
    LeavesOutInterrupts,
    LeavesOutHeaders,
    LeavesOut(Place),
    ReadsIdleUnits,
    ReadsPayload,
    ReadsEmptyWires,
    ReadsMissingNodes,
    /// Words on their way to any node make the circuit busy, or to its source, or such as only pass by its
    /// destination.
    IgnoresDestination,
    ComparesSource,
    TakesPassingBy,
    /// A header's code is not taken off in a link register, or once more behind it.
    KeepsCodeOfLink,
    FollowsHeadByCode,
    TakesCodeOffOut,
    /// A header comes in by the side that it left by.
    WrongOppositeSide,
    /// A header without a choice goes north.
    NoChoiceIsNorth,
    /// A header leaves by what is held for the packet.
    FollowsLatch,
    /// Ways of more steps than these are not followed to their ends.
    FollowsSteps(u32),
    /// A header without codes goes nowhere.
    StopsWithoutCodes,
    /// A header that goes north for ever comes to a memory all the same.
    EndlessLands,
    /// A call that does nothing for the circuit frees it until the next cycle.
    FreedByStore,
    FreedByOrder,
    FreedByQuestion,
    /// A load leaves circuits busy until the next cycle.
    BusyOverLoad,
}

/// What a session and a state made by hand can show.
pub const WRONG_TRAVELLING: [WrongTravelling; 34] = [
    WrongTravelling::WordsLeftAlone,
    WrongTravelling::WordsLeftAloneInStarts,
    WrongTravelling::WordsLeftAloneInLists,
    WrongTravelling::FreeBeforeLanding,
    WrongTravelling::BusyAfterLanding,
    WrongTravelling::FreeByAnyPacket,
    WrongTravelling::BusyByAnyHeader,
    WrongTravelling::Tests17First,
    WrongTravelling::AnswersTravellingAsLeft,
    WrongTravelling::IgnoresLength,
    WrongTravelling::IgnoresOffset,
    WrongTravelling::TakesLengthForEnd,
    WrongTravelling::LeavesOutFirstAddress,
    WrongTravelling::LeavesOutLastAddress,
    WrongTravelling::TakesAddressBefore,
    WrongTravelling::TakesAddressBehind,
    WrongTravelling::LeavesOutInterrupts,
    WrongTravelling::LeavesOutHeaders,
    WrongTravelling::LeavesOut(Place::Link),
    WrongTravelling::LeavesOut(Place::Head),
    WrongTravelling::LeavesOut(Place::Out),
    WrongTravelling::LeavesOut(Place::Receiver),
    WrongTravelling::ReadsIdleUnits,
    WrongTravelling::ReadsPayload,
    WrongTravelling::ReadsEmptyWires,
    WrongTravelling::IgnoresDestination,
    WrongTravelling::ComparesSource,
    WrongTravelling::TakesPassingBy,
    WrongTravelling::KeepsCodeOfLink,
    WrongTravelling::FollowsHeadByCode,
    WrongTravelling::TakesCodeOffOut,
    WrongTravelling::WrongOppositeSide,
    WrongTravelling::FollowsSteps(3),
    WrongTravelling::StopsWithoutCodes,
];

/// What a session alone can show: it takes a call before the start.
pub const WRONG_TRAVELLING_IN_SESSIONS: [WrongTravelling; 4] = [
    WrongTravelling::FreedByStore,
    WrongTravelling::FreedByOrder,
    WrongTravelling::FreedByQuestion,
    WrongTravelling::BusyOverLoad,
];

/// What only a state made by hand can show: no session has such words.
pub const WRONG_TRAVELLING_ON_STATES: [WrongTravelling; 7] = [
    WrongTravelling::ReadsMissingNodes,
    WrongTravelling::NoChoiceIsNorth,
    WrongTravelling::FollowsLatch,
    WrongTravelling::FollowsSteps(4),
    WrongTravelling::FollowsSteps(7),
    WrongTravelling::FollowsSteps(8),
    WrongTravelling::EndlessLands,
];

/// More than a header goes: one by its output, eight by its codes.
const MOST_STEPS: u32 = 12;
/// A router takes three, and a long link one more.
const MOST_CYCLES: u32 = 4 * MOST_STEPS;

/// What a planted machine remembers up to the next cycle.
#[derive(Default)]
pub struct Remembered {
    pub stored: bool,
    pub ordered: bool,
    pub asked: bool,
    busy_before_load: Vec<usize>,
    /// Kept longer: it knows a sheet that passed.
    reader: Reader,
}

impl Remembered {
    pub fn forget(&mut self) {
        *self = Remembered { reader: std::mem::take(&mut self.reader), ..Remembered::default() };
    }

    /// A load ends the words of these circuits.
    pub fn note_load(&mut self, state: &[u32], second: &mut Second) {
        self.forget();
        if number_of(second.period_number(state)) == 0 {
            let sheet = read_sheet(state);
            let wrong = WrongTravelling::BusyOverLoad;
            let travels = |&circuit: &usize| wrong.travels(&mut Reader::default(), state, &sheet, circuit);
            self.busy_before_load = (0..sheet.circuits.len()).filter(travels).collect();
        }
    }
}

fn read_sheet(state: &[u32]) -> Sheet {
    stored_sheet(state).and_then(checker::read).expect("the sheet of a sound state")
}

impl WrongTravelling {
    pub fn start(self, remembered: &mut Remembered, second: &mut Second, state: &mut [u32], transfer: Transfer) -> u32 {
        match number_of(second.period_number(state)) {
            0 => self.start_one(remembered, second, state, transfer, false),
            number => number,
        }
    }

    pub fn start_all(
        self,
        remembered: &mut Remembered,
        second: &mut Second,
        state: &mut [u32],
        transfers: &[Transfer],
        answers: &mut [u32],
    ) -> u32 {
        let number = second.start_all(&mut state.to_vec(), transfers, &mut answers.to_vec());
        if number == 0 {
            for (&transfer, answer) in transfers.iter().zip(answers) {
                *answer = self.start_one(remembered, second, state, transfer, true);
            }
        }
        number
    }

    pub fn start_lists(
        self,
        remembered: &mut Remembered,
        second: &mut Second,
        state: &mut [u32],
        lists: [&[u32]; FIELDS],
        answers: &mut [u32],
    ) -> u32 {
        match transfers_of(lists) {
            Some(transfers) => self.start_all(remembered, second, state, &transfers, answers),
            None => second.start_lists(&mut state.to_vec(), lists, &mut answers.to_vec()),
        }
    }

    pub fn words_left(self, second: &mut Second, state: &[u32], circuit: u32) -> u64 {
        let answer = second.words_left(state, circuit);
        let travels = || self.travels(&mut Reader::default(), state, &read_sheet(state), circuit as usize);
        u64::from(answer == 0 && self == WrongTravelling::AnswersTravellingAsLeft && travels()).max(answer)
    }

    /// A single start, or one in a list, on a sound state.
    fn start_one(
        self,
        remembered: &mut Remembered,
        second: &mut Second,
        state: &mut [u32],
        transfer: Transfer,
        in_list: bool,
    ) -> u32 {
        let sheet = read_sheet(state);
        let circuit = transfer.circuit as usize;
        let forgets = match self {
            WrongTravelling::WordsLeftAlone => true,
            WrongTravelling::WordsLeftAloneInStarts => !in_list,
            WrongTravelling::WordsLeftAloneInLists => in_list,
            WrongTravelling::FreedByStore => remembered.stored,
            WrongTravelling::FreedByOrder => remembered.ordered,
            WrongTravelling::FreedByQuestion => remembered.asked,
            _ => false,
        };
        let over_load = self == WrongTravelling::BusyOverLoad && remembered.busy_before_load.contains(&circuit);
        let reader = &mut remembered.reader;
        let mut refuses = || over_load || (!forgets && self.travels(reader, state, &sheet, circuit));
        if self == WrongTravelling::Tests17First && circuit < sheet.circuits.len() && refuses() {
            return 17;
        }
        // With nothing on the wires, 15, 16 and words left decide.
        let mut quiet = state.to_vec();
        clear(&mut quiet, &[Row::LinkMark, Row::HeadMark, Row::OutMark, Row::ExtraMark, Row::ReceiveMark]);
        let Transfer { read, write, count, kind, .. } = transfer;
        let number = second.start(&mut quiet, transfer.circuit, read, write, count, kind);
        if number != 0 {
            return number;
        }
        if refuses() {
            return 17;
        }
        for row in [Row::Left, Row::Read, Row::Write, Row::Kind] {
            state[row.at(circuit)] = quiet[row.at(circuit)];
        }
        0
    }

    /// Whether words of the circuit travel, by the lent words.
    fn travels(self, reader: &mut Reader, state: &[u32], sheet: &Sheet, circuit: usize) -> bool {
        let reading = Reading { wrong: self, state, sheet, circuit: &sheet.circuits[circuit] };
        reading.travels(reader)
    }
}

/// The marks of the registers in which headers are.
fn mark_row(place: Place) -> Row {
    match place {
        Place::Link => Row::LinkMark,
        Place::Head => Row::HeadMark,
        Place::Extra => Row::ExtraMark,
        _ => Row::OutMark,
    }
}

fn clear(state: &mut [u32], rows: &[Row]) {
    for row in rows {
        state[row.at(0)..row.at(ROW_WORDS)].fill(0);
    }
}

/// The lent words, read for one circuit.
struct Reading<'a> {
    wrong: WrongTravelling,
    state: &'a [u32],
    sheet: &'a Sheet,
    circuit: &'a Circuit,
}

/// A word on a wire with the output it leaves by.
struct Leaving {
    word: u32,
    output: u32,
    route: u32,
}

impl Reading<'_> {
    fn is(&self, wrong: WrongTravelling) -> bool {
        self.wrong == wrong
    }

    fn travels(&self, reader: &mut Reader) -> bool {
        let nodes = if self.is(WrongTravelling::ReadsMissingNodes) {
            MOST_NODES
        } else {
            (self.sheet.columns * self.sheet.rows) as usize
        };
        let mut found = (0..nodes).any(|node| self.arrives_at(node));
        for node in 0..nodes {
            for port in 0..PORTS {
                for place in [Place::Link, Place::Head, Place::Out] {
                    found = found || self.comes(reader, place, node, port);
                }
                if self.sheet.long_links && VERTICAL_SIDES.contains(&port) {
                    found = found || self.comes(reader, Place::Extra, node, port);
                }
            }
        }
        let destination = self.circuit.destination as usize;
        let has_landed =
            self.at(Row::LandingMark, destination) == 1 && self.is_in_region(self.at(Row::LandingAddress, destination));
        match self.wrong {
            WrongTravelling::BusyAfterLanding => found || has_landed,
            WrongTravelling::FreeByAnyPacket => found && !(has_landed && self.at(Row::ReceiveMark, destination) == 0),
            _ => found,
        }
    }

    fn at(&self, row: Row, place: usize) -> u32 {
        self.state[row.at(place)]
    }

    fn arrives_at(&self, node: usize) -> bool {
        let is_marked = self.at(Row::ReceiveMark, node) == 1 || self.is(WrongTravelling::ReadsIdleUnits);
        let left_out = match self.wrong {
            WrongTravelling::LeavesOut(place) => place == Place::Receiver,
            WrongTravelling::LeavesOutInterrupts => self.at(Row::ReceiveKind, node) == INTERRUPT,
            WrongTravelling::FreeBeforeLanding => self.at(Row::OutMark, PORTS * node + MEMORY) == LAST,
            _ => false,
        };
        let address = self.at(Row::ReceiveAddress, node);
        is_marked && !left_out && self.is_destination(node as u32) && self.is_in_region(address)
    }

    /// Whether a register holds a header that comes to the circuit's region.
    fn comes(&self, reader: &mut Reader, place: Place, node: usize, port: usize) -> bool {
        let is_read = match self.at(mark_row(place), PORTS * node + port) {
            HEADER => true,
            EMPTY => self.is(WrongTravelling::ReadsEmptyWires),
            _ => self.is(WrongTravelling::ReadsPayload),
        };
        let left_out = self.is(WrongTravelling::LeavesOut(place)) || self.is(WrongTravelling::LeavesOutHeaders);
        if !is_read || left_out {
            return false;
        }
        if self.is(WrongTravelling::BusyByAnyHeader) {
            return true;
        }
        let Some(leaving) = self.leaving(place, node, port) else { return false };
        if self.is(WrongTravelling::LeavesOutInterrupts) && leaving.word >> 30 == INTERRUPT {
            return false;
        }
        if !self.is_in_region(leaving.word >> 16 & 0x3FFF) {
            return false;
        }
        let goes = self.goes_to_destination(node as u32, leaving.output, leaving.route);
        if self.is(WrongTravelling::Nothing) {
            let runs = self.runs_to_destination(reader, place, node, port);
            assert_eq!(goes, runs, "a header at {place:?} {node} {port} goes where it runs to");
        }
        goes
    }

    fn leaving(&self, place: Place, node: usize, port: usize) -> Option<Leaving> {
        let at = |row: Row| self.at(row, PORTS * node + port);
        let by_code = |word: u32, route: u32| {
            let output = if word & 3 == port as u32 { MEMORY as u32 } else { word & 3 };
            Some(Leaving { word, output, route })
        };
        match place {
            Place::Link => {
                let word = at(Row::LinkWord);
                let taken_off = if self.is(WrongTravelling::KeepsCodeOfLink) { 0 } else { 2 };
                by_code(word, (word & 0xFFFF) >> taken_off)
            }
            Place::Head => {
                let word = at(Row::HeadWord);
                if self.is(WrongTravelling::FollowsHeadByCode) {
                    return by_code(word, (word & 0xFFFF) >> 2);
                }
                let choice = at(if self.is(WrongTravelling::FollowsLatch) { Row::Latch } else { Row::Choice });
                let choice = if self.is(WrongTravelling::NoChoiceIsNorth) { choice.max(1) } else { choice };
                let output = choice.checked_sub(1).filter(|&output| output < PORTS as u32)?;
                Some(Leaving { word, output, route: word & 0xFFFF })
            }
            _ => {
                let word = at(if place == Place::Extra { Row::ExtraWord } else { Row::OutWord });
                let taken_off = if self.is(WrongTravelling::TakesCodeOffOut) { 2 } else { 0 };
                Some(Leaving { word, output: port as u32, route: (word & 0xFFFF) >> taken_off })
            }
        }
    }

    fn goes_to_destination(&self, mut node: u32, mut output: u32, mut route: u32) -> bool {
        let most = match self.wrong {
            WrongTravelling::FollowsSteps(steps) => steps,
            _ => MOST_STEPS,
        };
        for _ in 0..=most {
            if self.is(WrongTravelling::TakesPassingBy) && self.is_destination(node) {
                return true;
            }
            if output == MEMORY as u32 {
                return self.is_destination(node);
            }
            if self.is(WrongTravelling::StopsWithoutCodes) && route == 0 {
                return false;
            }
            node = self.beside(node, output);
            let input = if self.is(WrongTravelling::WrongOppositeSide) { output } else { output ^ 2 };
            output = if route & 3 == input { MEMORY as u32 } else { route & 3 };
            route >>= 2;
        }
        self.is(WrongTravelling::EndlessLands) && self.is_destination(node)
    }

    fn beside(&self, node: u32, side: u32) -> u32 {
        let (columns, rows) = (self.sheet.columns as u32, self.sheet.rows as u32);
        let (column, row) = (node % columns, node / columns);
        match side {
            0 => (row + rows - 1) % rows * columns + column,
            1 => row % rows * columns + (column + 1) % columns,
            2 => (row + 1) % rows * columns + column,
            _ => row % rows * columns + (column + columns - 1) % columns,
        }
    }

    /// The header alone on all wires, until a receive unit takes it.
    fn runs_to_destination(&self, reader: &mut Reader, place: Place, node: usize, port: usize) -> bool {
        let mut alone = self.state.to_vec();
        let marks = [Row::LinkMark, Row::HeadMark, Row::OutMark, Row::ExtraMark, Row::ReceiveMark];
        clear(&mut alone, &[&marks[..], &[Row::Left, Row::ToGo]].concat());
        alone[mark_row(place).of_port(node, port)] = HEADER;
        let mut machine = reader.machine(&alone).expect("a sound state");
        let mut memory = vec![0; machine.sheet.all_memory_words()];
        for _ in 0..MOST_CYCLES {
            machine.cycle(&mut memory).expect("a header alone meets nothing");
            if let Some(taker) = machine.nodes.iter().position(|node| node.receiver.mark == 1) {
                return self.is_destination(taker as u32);
            }
        }
        false
    }

    fn is_destination(&self, node: u32) -> bool {
        match self.wrong {
            WrongTravelling::IgnoresDestination => true,
            WrongTravelling::ComparesSource => u64::from(node) == self.circuit.source,
            _ => u64::from(node) == self.circuit.destination,
        }
    }

    fn is_in_region(&self, address: u32) -> bool {
        let (address, offset, length) = (u64::from(address), self.circuit.receive_offset, self.circuit.receive_length);
        let end = offset + length;
        match self.wrong {
            WrongTravelling::IgnoresLength => offset <= address,
            WrongTravelling::IgnoresOffset => address < end,
            WrongTravelling::TakesLengthForEnd => (offset..length).contains(&address),
            WrongTravelling::LeavesOutFirstAddress => (offset + 1..end).contains(&address),
            WrongTravelling::LeavesOutLastAddress => (offset..end - 1).contains(&address),
            WrongTravelling::TakesAddressBefore => (offset..end + 1).contains(&(address + 1)),
            WrongTravelling::TakesAddressBehind => (offset..end + 1).contains(&address),
            _ => (offset..end).contains(&address),
        }
    }
}
