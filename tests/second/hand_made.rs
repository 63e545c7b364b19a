//! States made by hand: for each clause of soundness values that break it alone, and the
//! nearest values that do not; for each cause of number 20 a state that meets it alone, and
//! near ones that meet none; and states whose sheet no load takes, since a circuit of it is
//! served by no schedule (26). What is expected stands here, whatever the second machine says.

use super::lent::{
    Clause, Row, CYCLE, MOST_SHEET_WORDS, ORDER_MARK, ORDER_PERIOD, ORDER_SCHEDULE, PERIOD_NUMBER, ROW_WORDS, SCHEDULE,
    SHEET, SHEET_LENGTH, STATE_WORDS,
};
use super::machine::{Fault, DATA, EMPTY, HEADER, INTERRUPT, LAST, MEMORY, MOST_NODES, PAYLOAD, PORTS, SOURCE};
use super::near_misses::add_fault;
use super::sheets::{idle_network, sheet_a, sixty_four_circuits, Circuit, Entry, Plan, Random, Schedule};

/// What a state calls for.
#[derive(Clone, Copy, Debug, PartialEq, Eq)]
pub enum Expected {
    /// Sound, and a cycle is carried out.
    CarriedOut,
    /// Sound; the cycle's answer is left to the second machine.
    Sound,
    Unsound(Clause),
    Faulty(Fault),
}

/// Words written over a state directly after a load of `hand_made_plan`.
pub struct HandMade {
    pub name: &'static str,
    pub pokes: Vec<(usize, u32)>,
    pub expected: Expected,
}

/// Words written over the state that a load would leave if it took the plan, which leaves circuits unserved.
pub struct Unserved {
    pub plan: Plan,
    pub made: HandMade,
}

/// A cycle on words written over a load, its number, and what then differs from the load.
pub struct HandMadeCycle {
    pub name: &'static str,
    pub plan: Plan,
    pub pokes: Vec<(usize, u32)>,
    pub number: u32,
    pub after: Vec<(usize, u32)>,
}

const LARGEST: u32 = u32::MAX;
const MEMORY_WORDS: u32 = 8;
const MISSING_NODE: usize = 4;
const MISSING_CIRCUIT: usize = 3;

/// Two circuits of one source and one of another, in a grid of 2 by 2; periods 9 and 12.
pub fn hand_made_plan() -> Plan {
    let first = sheet_a().circuits[0];
    let entry = |offset, length, circuit, route| Entry { offset, length, circuit, route };
    Plan {
        circuits: vec![
            first,
            Circuit { source: 3, read_offset: 2, receive_offset: 4, ..first },
            Circuit { destination: 3, read_offset: 2, receive_offset: 6, receive_length: 2, ..first },
        ],
        schedules: vec![
            Schedule { period: 9, entries: vec![entry(0, 3, 0, 13), entry(3, 2, 1, 8), entry(3, 3, 2, 9)] },
            Schedule { period: 12, entries: vec![entry(1, 2, 0, 13), entry(6, 3, 2, 9)] },
        ],
        memory_words: MEMORY_WORDS,
        ..sheet_a()
    }
}

/// Collects states by the register that is varied.
#[derive(Default)]
struct Collection {
    states: Vec<HandMade>,
}

impl Collection {
    fn add(&mut self, name: &'static str, pokes: Vec<(usize, u32)>, expected: Expected) {
        self.states.push(HandMade { name, pokes, expected });
    }

    /// Beside the given words, one register with values that are sound and values that break a clause.
    fn vary(
        &mut self,
        name: &'static str,
        clause: Clause,
        beside: &[(usize, u32)],
        place: usize,
        sound: &[u32],
        broken: &[u32],
    ) {
        let with = |value: u32| [beside, &[(place, value)]].concat();
        for &value in sound {
            self.add(name, with(value), Expected::Sound);
        }
        for &value in broken {
            self.add(name, with(value), Expected::Unsound(clause));
        }
    }
}

pub fn hand_made_states() -> Vec<HandMade> {
    let mut all = Collection::default();
    sheets(&mut all);
    no_sheets(&mut all);
    clocks(&mut all);
    transfers(&mut all);
    cells(&mut all);
    receivers(&mut all);
    free_words(&mut all);
    output_collisions(&mut all);
    source_collisions(&mut all);
    missing_headers(&mut all);
    missing_choices(&mut all);
    all.states
}

fn sheets(all: &mut Collection) {
    let words = hand_made_plan().words();
    let right = words.len() as u32;
    let broken_lengths = [MOST_SHEET_WORDS as u32 + 1, 1 << 31, LARGEST];
    all.vary("sheet's length", Clause::SheetLength, &[], SHEET_LENGTH, &[right], &broken_lengths);
    all.vary("sheet's length", Clause::Sheet(1), &[], SHEET_LENGTH, &[right], &[1, 4]);
    let cut_or_longer = [5, right - 1, right + 1, MOST_SHEET_WORDS as u32];
    all.vary("sheet's length", Clause::Sheet(3), &[], SHEET_LENGTH, &[right], &cut_or_longer);
    let mut random = Random::new(20);
    for number in 2..=11 {
        for schedule in 0..2 {
            let mut changed = hand_made_plan();
            // Number 6 needs a circuit that another one reads behind; the plan has one.
            while !add_fault(&mut random, &mut changed, number, schedule) {}
            let words = changed.words();
            let mut pokes = vec![(SHEET_LENGTH, words.len() as u32)];
            pokes.extend(words.iter().enumerate().map(|(place, &word)| (SHEET + place, word)));
            all.add("sheet with a fault", pokes, Expected::Unsound(Clause::Sheet(number)));
        }
    }
}

/// A stored length of 0, whatever else the state holds. A load of no words stores the idle network's
/// seven words, so that no call takes a state that nobody loaded for a network.
fn no_sheets(all: &mut Collection) {
    let no_sheet = Expected::Unsound(Clause::NoSheet);
    let no_length = vec![(SHEET_LENGTH, 0)];
    let all_zero: Vec<(usize, u32)> = (0..STATE_WORDS).map(|place| (place, 0)).collect();
    let behind = |words: &[u32]| -> Vec<(usize, u32)> { (SHEET..).zip(words.iter().copied()).collect() };
    let idle = behind(&idle_network().words());
    all.add("no sheet, the plan behind", no_length.clone(), no_sheet);
    all.add("no sheet, all words zero", all_zero.clone(), no_sheet);
    all.add("no sheet, the idle network behind", [&no_length[..], &idle].concat(), no_sheet);
    all.add("no sheet, zeros but the idle network", [&all_zero[..], &idle].concat(), no_sheet);
    let other_sheets = [sheet_a().words(), vec![0; MOST_SHEET_WORDS], vec![LARGEST; MOST_SHEET_WORDS]];
    for words in other_sheets {
        all.add("no sheet, other words behind", [&no_length[..], &behind(&words)].concat(), no_sheet);
    }
    // Registers as the idle network could have them.
    let clock = |place| Row::Clock.at(place);
    let ordered = [(clock(ORDER_MARK), 1), (clock(ORDER_PERIOD), 5)];
    let registers =
        [&[(clock(CYCLE), 8)][..], &[(clock(PERIOD_NUMBER), LARGEST)], &ordered, &[(Row::LandingMark.at(3), 1)]];
    for register in registers {
        all.add("no sheet, zeros but a register", [&all_zero[..], register].concat(), no_sheet);
        all.add("no sheet, idle network and a register", [&all_zero[..], &idle, register].concat(), no_sheet);
    }
}

fn clocks(all: &mut Collection) {
    let clock = |place| Row::Clock.at(place);
    all.vary("schedule in force", Clause::Schedule, &[], clock(SCHEDULE), &[0, 1], &[2, 8, LARGEST]);
    all.vary("cycle", Clause::Cycle, &[], clock(CYCLE), &[0, 8], &[9, 11, 12, LARGEST]);
    all.vary("cycle", Clause::Cycle, &[(clock(SCHEDULE), 1)], clock(CYCLE), &[9, 11], &[12, LARGEST]);
    all.vary("period number", Clause::Cycle, &[], clock(PERIOD_NUMBER), &[1, 1 << 31, LARGEST], &[]);
    all.vary("order's mark", Clause::OrderMark, &[], clock(ORDER_MARK), &[0, 1], &[2, 3, LARGEST]);
    let pending = [(clock(ORDER_MARK), 1)];
    let schedule = clock(ORDER_SCHEDULE);
    all.vary("pending order's schedule", Clause::OrderSchedule, &pending, schedule, &[0, 1], &[2, 8, LARGEST]);
    all.vary("schedule beside no order", Clause::OrderSchedule, &[], schedule, &[2, LARGEST], &[]);
    all.vary("pending order's period", Clause::OrderMark, &pending, clock(ORDER_PERIOD), &[0, 1, LARGEST], &[]);
}

/// Circuit 1 reads from 2 to 5 at node 3 and writes from 4 to 7 at node 1.
fn transfers(all: &mut Collection) {
    let circuit = 1;
    let [left, read, write] = [Row::Left.at(circuit), Row::Read.at(circuit), Row::Write.at(circuit)];
    let [kind, to_go] = [Row::Kind.at(circuit), Row::ToGo.at(circuit)];
    let rest = |words: u32| [(left, words), (read, 3), (write, 5)];
    all.vary("rest is read", Clause::ReadRegion, &rest(2), read, &[2, 3, 4], &[0, 1, 5, 6, LARGEST, LARGEST - 1]);
    all.vary("rest is written", Clause::ReceiveRegion, &rest(2), write, &[4, 5, 6], &[0, 3, 7, 8, LARGEST]);
    // From the regions' starts, three words more may be left than from their ends.
    let reads_first = [(read, 2), (write, 4)];
    all.vary("words left", Clause::ReadRegion, &reads_first, left, &[0, 1, 4], &[]);
    all.vary("words left", Clause::ReadRegion, &[(read, 5), (write, 4)], left, &[0, 1], &[2, 4]);
    all.vary("words left", Clause::ReceiveRegion, &[(read, 2), (write, 7)], left, &[0, 1], &[2, 4]);
    all.vary("addresses beside no words", Clause::ReadRegion, &[(left, 0)], read, &[0, 8, LARGEST], &[]);
    all.vary("addresses beside no words", Clause::ReceiveRegion, &[(left, 0)], write, &[0, 8, LARGEST], &[]);
    all.vary("transfer's kind", Clause::TransferKind, &rest(1), kind, &[DATA, INTERRUPT], &[1, 3, 4, 1 << 30, LARGEST]);
    all.vary("kind beside no words", Clause::TransferKind, &[(left, 0)], kind, &[1, 3, LARGEST], &[]);
    let interrupt = [(kind, INTERRUPT), (read, 2), (write, 4)];
    all.vary("interrupt's words left", Clause::InterruptLeft, &interrupt, left, &[0, 1], &[2, 3, 4]);
    all.vary("words to go", Clause::ToGo, &rest(2), to_go, &[0, 1, 2], &[3, 4, LARGEST]);
    all.vary("words to go beside none left", Clause::ToGo, &[(left, 0)], to_go, &[0], &[1, LARGEST]);
}

fn cells(all: &mut Collection) {
    let configuration = 1 << 30;
    let unused = 3 << 30;
    for (node, port) in [(0, 0), (1, 3), (2, 1), (3, 4)] {
        let latch = (Row::Latch.of_port(node, port), 1);
        let receives = (Row::ReceiveMark.at(node), 1);
        let registers = [
            (Clause::LinkMark, Clause::LinkKind, Row::LinkMark, Row::LinkWord),
            (Clause::HeadMark, Clause::HeadKind, Row::HeadMark, Row::HeadWord),
            (Clause::OutMark, Clause::OutKind, Row::OutMark, Row::OutWord),
        ];
        for (mark_clause, kind_clause, mark, word) in registers {
            let [mark, word] = [mark.of_port(node, port), word.of_port(node, port)];
            let beside = [latch, receives];
            let marks = [EMPTY, HEADER, PAYLOAD, LAST];
            all.vary("mark on a wire", mark_clause, &beside, mark, &marks, &[4, 5, 256, LARGEST]);
            let kinds = [0, 0x3FFF_FFFF, 2 << 30, 0xBFFF_FFFF];
            let wrong = [configuration, configuration + 13, unused, LARGEST];
            all.vary("header's kind", kind_clause, &[latch, receives, (mark, HEADER)], word, &kinds, &wrong);
            for no_header in [EMPTY, PAYLOAD, LAST] {
                all.vary("word of no header", kind_clause, &[latch, receives, (mark, no_header)], word, &wrong, &[]);
            }
        }
        let choice = Row::Choice.of_port(node, port);
        let head = Row::HeadMark.of_port(node, port);
        for mark in [HEADER, PAYLOAD, LAST] {
            all.vary("choice beside a word", Clause::Choice, &[(head, mark)], choice, &[0, 1, 5], &[6, 7, LARGEST]);
        }
        all.vary("choice beside no word", Clause::Choice, &[(head, EMPTY)], choice, &[6, 7, LARGEST], &[]);
        all.vary("latch", Clause::Latch, &[], latch.0, &[0, 1, 5], &[6, 7, LARGEST]);
    }
}

fn receivers(all: &mut Collection) {
    for node in 0..4 {
        let at = |row: Row| row.at(node);
        let wrong_kinds = [1, 3, 4, LARGEST];
        all.vary("receive mark", Clause::ReceiveMark, &[], at(Row::ReceiveMark), &[0, 1], &[2, 3, LARGEST]);
        let arriving = [(at(Row::ReceiveMark), 1)];
        let kinds = [DATA, INTERRUPT];
        all.vary("arriving packet's kind", Clause::ReceiveKind, &arriving, at(Row::ReceiveKind), &kinds, &wrong_kinds);
        all.vary("kind beside no packet", Clause::ReceiveKind, &[], at(Row::ReceiveKind), &wrong_kinds, &[]);
        let addresses = [7, 8, 16_384, LARGEST];
        all.vary("arriving address", Clause::ReceiveKind, &arriving, at(Row::ReceiveAddress), &addresses, &[]);
        all.vary("landing's mark", Clause::LandingMark, &[], at(Row::LandingMark), &[0, 1], &[2, 3, LARGEST]);
        let landed = [(at(Row::LandingMark), 1)];
        for row in [Row::LandingKind, Row::LandingAddress, Row::LandingWord] {
            all.vary("landing beside its mark", Clause::LandingMark, &landed, at(row), &[0, 1, 3, LARGEST], &[]);
            all.vary("landing beside no mark", Clause::LandingMark, &[], at(row), &[0, 1, 3, LARGEST], &[]);
        }
    }
}

/// Registers of nodes and circuits that the sheet lacks, words of row 0 and behind the sheet.
fn free_words(all: &mut Collection) {
    let ports = [
        Row::LinkMark,
        Row::LinkWord,
        Row::HeadMark,
        Row::HeadWord,
        Row::Choice,
        Row::Latch,
        Row::OutMark,
        Row::OutWord,
        Row::ExtraMark,
        Row::ExtraWord,
    ];
    let nodes = [
        Row::ReceiveMark,
        Row::ReceiveKind,
        Row::ReceiveAddress,
        Row::LandingMark,
        Row::LandingKind,
        Row::LandingAddress,
        Row::LandingWord,
    ];
    let circuits = [Row::Left, Row::Read, Row::Write, Row::Kind, Row::ToGo];
    let mut places = Vec::new();
    for (rows, first) in [
        (&ports[..], PORTS * MISSING_NODE),
        (&nodes[..], MISSING_NODE),
        (&circuits[..], MISSING_CIRCUIT),
        (&[Row::Clock][..], ORDER_PERIOD + 1),
    ] {
        for row in rows {
            places.extend([first, first + 1, ROW_WORDS - 1].map(|place| row.at(place)));
        }
    }
    let sheet_end = SHEET + hand_made_plan().words().len();
    places.extend([sheet_end, sheet_end + 1, STATE_WORDS - 1]);
    for &place in &places {
        for value in [1, 2, 6, LARGEST] {
            all.add("free word", vec![(place, value)], Expected::CarriedOut);
        }
    }
    all.add("all free words", places.iter().map(|&place| (place, LARGEST)).collect(), Expected::CarriedOut);
}

/// Heads of one router that ask for outputs.
fn output_collisions(all: &mut Collection) {
    let head = |port: usize, mark: u32, choice: u32| {
        [(Row::HeadMark.of_port(1, port), mark), (Row::Choice.of_port(1, port), choice)]
    };
    for output in 1..=5 {
        for (first, second) in [(0, 1), (3, 4), (1, 4), (2, 3)] {
            for marks in [(HEADER, HEADER), (PAYLOAD, LAST), (LAST, HEADER)] {
                let first = head(first, marks.0, output);
                let pokes = [first, head(second, marks.1, output)].concat();
                all.add("two words want one output", pokes, Expected::Faulty(Fault::OutputWantedTwice));
                let pokes = [first, head(second, marks.1, output % 5 + 1)].concat();
                all.add("two words want two outputs", pokes, Expected::CarriedOut);
                let pokes = [first, head(second, EMPTY, output)].concat();
                all.add("a word and an empty stage", pokes, Expected::CarriedOut);
            }
        }
    }
    let nowhere = [head(0, HEADER, 0), head(1, HEADER, 0)].concat();
    all.add("two headers want no output", nowhere, Expected::CarriedOut);
}

fn cycle(cycle: u32) -> Vec<(usize, u32)> {
    vec![(Row::Clock.at(CYCLE), cycle)]
}

/// A transfer's rest that lies at the start of its regions.
fn rest(circuit: usize, left: u32, to_go: u32) -> Vec<(usize, u32)> {
    rest_in(&hand_made_plan(), circuit, left, to_go)
}

/// The same of another plan.
pub fn rest_in(plan: &Plan, circuit: usize, left: u32, to_go: u32) -> Vec<(usize, u32)> {
    let record = plan.circuits[circuit];
    vec![
        (Row::Left.at(circuit), left),
        (Row::Read.at(circuit), record.read_offset),
        (Row::Write.at(circuit), record.receive_offset),
        (Row::ToGo.at(circuit), to_go),
    ]
}

/// A payload word on a memory output, beside a receive unit.
fn arrives(node: usize, mark: u32, receives: u32, address: u32) -> Vec<(usize, u32)> {
    vec![
        (Row::OutMark.of_port(node, MEMORY), mark),
        (Row::OutWord.of_port(node, MEMORY), 77),
        (Row::ReceiveMark.at(node), receives),
        (Row::ReceiveAddress.at(node), address),
    ]
}

/// Circuits 0 and 2 have one source; circuit 0's slot begins in cycle 0, circuit 2's in cycle 3.
fn source_collisions(all: &mut Collection) {
    let wire_twice = Expected::Faulty(Fault::SourceWireWantedTwice);
    let while_sending = Expected::Faulty(Fault::SlotWhileSending);
    let other_schedule = vec![(Row::Clock.at(SCHEDULE), 1)];
    let cases = [
        ("two packets of one source", [cycle(1), rest(0, 1, 1), rest(2, 2, 2)], wire_twice),
        ("two packets of two sources", [cycle(1), rest(0, 1, 1), rest(1, 2, 2)], Expected::CarriedOut),
        ("header and payload of one source", [cycle(0), rest(0, 1, 0), rest(2, 2, 1)], wire_twice),
        ("header and payload of one source", [cycle(3), rest(0, 1, 1), rest(2, 2, 0)], wire_twice),
        ("slot without words left, payload", [cycle(0), rest(0, 0, 0), rest(2, 2, 1)], Expected::CarriedOut),
        ("slot of the other, none to go", [cycle(3), rest(0, 1, 0), rest(2, 2, 0)], Expected::CarriedOut),
        ("slot while its circuit sends", [cycle(0), rest(0, 2, 1), Vec::new()], while_sending),
        ("slot while its circuit sends", [cycle(0), rest(0, 4, 4), Vec::new()], while_sending),
        ("slot while its circuit sends", [cycle(3), rest(2, 1, 1), Vec::new()], while_sending),
        ("a cycle after the slot", [cycle(1), rest(0, 2, 1), Vec::new()], Expected::CarriedOut),
        ("slot of the other schedule", [other_schedule, rest(0, 2, 1), Vec::new()], Expected::CarriedOut),
    ];
    for (name, pokes, expected) in cases {
        all.add(name, pokes.concat(), expected);
    }
    // A cycle's reads come before its stores.
    for address in 0..2 {
        let pokes = [cycle(1), rest(0, 2, 2), arrives(0, LAST, 1, address)].concat();
        all.add("landing at or behind the address being read", pokes, Expected::CarriedOut);
    }
}

fn missing_headers(all: &mut Collection) {
    for (node, port) in [(0, 0), (1, 1), (2, 4), (3, 3)] {
        let link = |mark: u32, latch: u32| {
            vec![(Row::LinkMark.of_port(node, port), mark), (Row::Latch.of_port(node, port), latch)]
        };
        for mark in [PAYLOAD, LAST] {
            let without = Expected::Faulty(Fault::PayloadWithoutLatch);
            all.add("payload without a choice held", link(mark, 0), without);
            for latch in 1..=5 {
                all.add("payload with a choice held", link(mark, latch), Expected::CarriedOut);
            }
        }
        all.add("header without a choice held", link(HEADER, 0), Expected::CarriedOut);
        all.add("nothing, without a choice held", link(EMPTY, 0), Expected::CarriedOut);
    }
    for node in 0..4 {
        for mark in [PAYLOAD, LAST] {
            let no_packet = Expected::Faulty(Fault::PayloadWithoutPacket);
            let beyond = Expected::Faulty(Fault::LandingBeyondMemory);
            all.add("payload without a packet", arrives(node, mark, 0, 0), no_packet);
            all.add("payload of a packet", arrives(node, mark, 1, 0), Expected::CarriedOut);
            all.add("landing at the memory's end", arrives(node, mark, 1, MEMORY_WORDS - 1), Expected::CarriedOut);
            for address in [MEMORY_WORDS, MEMORY_WORDS + 1, 16_384, 1 << 31, LARGEST] {
                all.add("landing beyond the memory", arrives(node, mark, 1, address), beyond);
            }
        }
        for mark in [EMPTY, HEADER] {
            for receives in [0, 1] {
                all.add("no payload, any address", arrives(node, mark, receives, LARGEST), Expected::CarriedOut);
            }
        }
    }
}

/// A word that left the header stage, beside its choice.
fn leaves(node: usize, port: usize, mark: u32, choice: u32) -> Vec<(usize, u32)> {
    vec![
        (Row::HeadMark.of_port(node, port), mark),
        (Row::HeadWord.of_port(node, port), leaving_word(mark)),
        (Row::Choice.of_port(node, port), choice),
    ]
}

/// A header's kind has to be sound; any other word is free.
fn leaving_word(mark: u32) -> u32 {
    match mark {
        HEADER => INTERRUPT << 30 | 13,
        _ => LARGEST,
    }
}

fn missing_choices(all: &mut Collection) {
    let without = Expected::Faulty(Fault::PayloadWithoutChoice);
    for node in 0..MISSING_NODE {
        for port in 0..PORTS {
            let next_port = (port + 1) % PORTS;
            let latch = [(Row::Latch.of_port(node, port), 1)];
            for mark in [PAYLOAD, LAST] {
                let beside = |others: &[(usize, u32)]| [&leaves(node, port, mark, 0), others].concat();
                all.add("payload leaves without a choice", beside(&[]), without);
                all.add("payload leaves without a choice, one is held", beside(&latch), without);
                let header = leaves(node, next_port, HEADER, 0);
                all.add("payload and header leave without a choice", beside(&header), without);
                let payload = leaves(node, next_port, mark, 1);
                all.add("of two payloads one leaves without a choice", beside(&payload), without);
                for choice in 1..=5 {
                    all.add("payload leaves with a choice", leaves(node, port, mark, choice), Expected::CarriedOut);
                }
            }
            all.add("header leaves without a choice", leaves(node, port, HEADER, 0), Expected::CarriedOut);
            all.add("nothing leaves without a choice", leaves(node, port, EMPTY, 0), Expected::CarriedOut);
        }
    }
    for node in MISSING_NODE..MOST_NODES {
        for port in 0..PORTS {
            for mark in [EMPTY, HEADER, PAYLOAD, LAST] {
                all.add("no choice at a missing node", leaves(node, port, mark, 0), Expected::CarriedOut);
            }
        }
    }
}

/// Sheets that pass 1 to 11 and leave a circuit unserved, some of them or all.
pub fn unserved_plans() -> Vec<Plan> {
    let mut plans: Vec<Plan> = vec![hand_made_plan(); 4];
    for circuit in 0..3 {
        plans[circuit].unserve(circuit);
        plans[3].unserve(circuit);
    }
    let mut no_entry = sheet_a();
    no_entry.unserve(0);
    let no_entries = Plan { schedules: vec![no_entry.schedules[0].clone(); 8], ..no_entry.clone() };
    plans.extend([no_entry, no_entries]);
    let mut one_served = sixty_four_circuits(2);
    one_served.add_slot(1, 20);
    let mut one_unserved = sixty_four_circuits(2);
    for circuit in 0..63 {
        one_unserved.add_slot(circuit % 2, circuit);
    }
    plans.extend([one_served, one_unserved]);
    plans
}

/// As many words as a transfer on the circuit can have.
pub fn most_words(plan: &Plan, circuit: usize) -> u32 {
    plan.circuits[circuit].read_length.min(plan.circuits[circuit].receive_length)
}

pub fn unserved_states() -> Vec<Unserved> {
    let mut states = Vec::new();
    for plan in unserved_plans() {
        let mut all = Collection::default();
        unserved_transfers(&mut all, &plan);
        unserved_clocks(&mut all, &plan);
        served_packets(&mut all, &plan);
        unserved_faults(&mut all, &plan);
        states.extend(all.states.into_iter().map(|made| Unserved { plan: plan.clone(), made }));
    }
    // Any other number of the sheet is still the reason.
    let mut random = Random::new(26);
    for number in 3..=11 {
        for unserved in 0..3 {
            let mut plan = hand_made_plan();
            plan.unserve(unserved);
            while !add_fault(&mut random, &mut plan, number, 0) {}
            let expected = Expected::Unsound(Clause::Sheet(number));
            let made = HandMade { name: "unserved circuit and a fault in the sheet", pokes: Vec::new(), expected };
            states.push(Unserved { plan, made });
        }
    }
    states
}

/// Transfers on circuits that no schedule serves.
fn unserved_transfers(all: &mut Collection, plan: &Plan) {
    all.add("unserved circuit, nothing moves", Vec::new(), Expected::CarriedOut);
    let mut waiting = Vec::new();
    for circuit in 0..plan.circuits.len() {
        waiting.extend(rest_in(plan, circuit, most_words(plan, circuit), 0));
    }
    let later = vec![(Row::Clock.at(CYCLE), plan.schedules[0].period - 1)];
    all.add("unserved circuit, all have words left", [waiting, later].concat(), Expected::CarriedOut);

    let unserved = plan.unserved();
    let record = plan.circuits[unserved[0]];
    for circuit in [unserved[0], unserved[unserved.len() - 1]] {
        let most = most_words(plan, circuit);
        let [left, read, write] = [Row::Left.at(circuit), Row::Read.at(circuit), Row::Write.at(circuit)];
        let [kind, to_go] = [Row::Kind.at(circuit), Row::ToGo.at(circuit)];
        let with = |others: &[(usize, u32)]| [&rest_in(plan, circuit, most, 0), others].concat();
        all.add("unserved circuit has words left", with(&[]), Expected::CarriedOut);
        all.add("unserved circuit has an interrupt left", with(&[(left, 1), (kind, INTERRUPT)]), Expected::CarriedOut);
        all.add("unserved circuit sends all the same", with(&[(to_go, 1)]), Expected::CarriedOut);
        for (name, clause, pokes) in [
            ("unserved circuit, rest is read", Clause::ReadRegion, [(read, plan.memory_words), (left, 1)]),
            ("unserved circuit, rest is written", Clause::ReceiveRegion, [(write, plan.memory_words), (left, 1)]),
            ("unserved circuit, transfer's kind", Clause::TransferKind, [(kind, 1), (left, 1)]),
            ("unserved circuit, interrupt's words left", Clause::InterruptLeft, [(kind, INTERRUPT), (left, 2)]),
            ("unserved circuit, words to go", Clause::ToGo, [(to_go, 2), (left, 1)]),
        ] {
            all.add(name, with(&pokes), Expected::Unsound(clause));
        }
    }
    // Words for its receive region, as if a slot had been there.
    let arriving = arrives(record.destination as usize, LAST, 1, record.receive_offset);
    all.add("unserved circuit, a word lands in its region", arriving, Expected::CarriedOut);
}

/// The ends of periods, with and without an order, in the first and in the last schedule.
fn unserved_clocks(all: &mut Collection, plan: &Plan) {
    let clock = |place| Row::Clock.at(place);
    let last = plan.schedules.len() - 1;
    for schedule in [0, last] {
        let period = plan.schedules[schedule].period;
        let in_force =
            [(clock(SCHEDULE), schedule as u32), (clock(CYCLE), period - 1), (clock(PERIOD_NUMBER), LARGEST)];
        let order = [(clock(ORDER_MARK), 1), (clock(ORDER_SCHEDULE), (last - schedule) as u32)];
        let with = |others: &[(usize, u32)]| [&in_force[..], others].concat();
        all.add("unserved circuit, period's end", with(&[]), Expected::CarriedOut);
        all.add("unserved circuit, order due", with(&order), Expected::CarriedOut);
        let later = [&order[..], &[(clock(ORDER_PERIOD), 2)]].concat();
        all.add("unserved circuit, order pending", with(&later), Expected::CarriedOut);
        for (name, clause, poke) in [
            ("unserved circuit, cycle", Clause::Cycle, (clock(CYCLE), period)),
            ("unserved circuit, schedule in force", Clause::Schedule, (clock(SCHEDULE), last as u32 + 1)),
            ("unserved circuit, order's mark", Clause::OrderMark, (clock(ORDER_MARK), 2)),
        ] {
            all.add(name, with(&[poke]), Expected::Unsound(clause));
        }
    }
}

/// A cycle after a served circuit's slot began: its header is on the wire, its words are to go, and
/// the unserved circuits have words left.
fn served_packets(all: &mut Collection, plan: &Plan) {
    for (number, schedule) in plan.schedules.iter().enumerate() {
        for entry in schedule.entries.iter().take(2) {
            let circuit = entry.circuit as usize;
            let record = plan.circuits[circuit];
            let most = most_words(plan, circuit);
            let link = |row: Row| row.of_port(record.source as usize, SOURCE);
            let mut pokes = vec![
                (Row::Clock.at(SCHEDULE), number as u32),
                (Row::Clock.at(CYCLE), entry.offset + 1),
                (link(Row::LinkMark), HEADER),
                (link(Row::LinkWord), record.receive_offset << 16 | entry.route),
            ];
            pokes.extend(rest_in(plan, circuit, most, most.min(entry.length - 1)));
            for unserved in plan.unserved() {
                pokes.extend(rest_in(plan, unserved, 1, 0));
            }
            all.add("unserved circuit, another sends", pokes, Expected::CarriedOut);
        }
    }
}

/// What else can be wrong with a state, beside an unserved circuit.
fn unserved_faults(all: &mut Collection, plan: &Plan) {
    let node = plan.nodes() as usize - 1;
    let at = |row: Row| row.of_port(node, MEMORY);
    for (name, pokes, expected) in [
        ("unserved circuit, mark on a wire", vec![(at(Row::OutMark), 4)], Expected::Unsound(Clause::OutMark)),
        ("unserved circuit, latch", vec![(at(Row::Latch), 6)], Expected::Unsound(Clause::Latch)),
        (
            "unserved circuit, header's kind",
            vec![(at(Row::LinkMark), HEADER), (at(Row::LinkWord), 1 << 30)],
            Expected::Unsound(Clause::LinkKind),
        ),
        (
            "unserved circuit, payload without a packet",
            arrives(node, PAYLOAD, 0, 0),
            Expected::Faulty(Fault::PayloadWithoutPacket),
        ),
        (
            "unserved circuit, payload leaves without a choice",
            leaves(node, 0, LAST, 0),
            Expected::Faulty(Fault::PayloadWithoutChoice),
        ),
    ] {
        all.add(name, pokes, expected);
    }
}

/// Words that left the header stage, in sheet A and in larger grids; no transfer was started.
pub fn hand_made_cycles() -> Vec<HandMadeCycle> {
    let mut cycles = Vec::new();
    for (columns, rows) in [(2, 2), (3, 2), (4, 4)] {
        let plan = Plan { columns, rows, ..sheet_a() };
        let nodes = plan.nodes() as usize;
        let mut add = |name, pokes, number, after| {
            cycles.push(HandMadeCycle { name, plan: plan.clone(), pokes, number, after });
        };
        for node in [0, nodes - 1] {
            for port in [0, 3, SOURCE] {
                for mark in [PAYLOAD, LAST] {
                    let pokes = leaves(node, port, mark, 0);
                    add("payload leaves without a choice", pokes.clone(), 20, pokes);
                    for output in 0..PORTS {
                        let pokes = leaves(node, port, mark, output as u32 + 1);
                        let put = vec![
                            (Row::OutMark.of_port(node, output), mark),
                            (Row::OutWord.of_port(node, output), leaving_word(mark)),
                        ];
                        add("payload leaves with a choice", pokes, 0, [cycle(1), put].concat());
                    }
                }
                add("header leaves without a choice", leaves(node, port, HEADER, 0), 0, cycle(1));
                add("nothing leaves without a choice", leaves(node, port, EMPTY, 0), 0, cycle(1));
            }
        }
        for node in nodes..MOST_NODES {
            for mark in [EMPTY, HEADER, PAYLOAD, LAST] {
                let pokes = leaves(node, SOURCE, mark, 0);
                add("no choice at a missing node", pokes.clone(), 0, [cycle(1), pokes].concat());
            }
        }
    }
    cycles
}
