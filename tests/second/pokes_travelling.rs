//! Runs the states about words that travel (L3): the hand-made ones, with single starts and with lists; the
//! hand-made transfers, asked before each cycle up to the last landing and behind it; and states from the midst of
//! generated sessions with headers and packets put where they may come to a circuit's region.

use super::calls::{Call, Calls};
use super::coverage::Coverage;
use super::hand_made_lists::{both_forms, started};
use super::hand_made_travelling::{hand_made_busy, hand_made_flights, HandMadeBusy, HandMadeFlight};
use super::lent::Row;
use super::machine::{Machine, Transfer, DATA, HEADER, INTERRUPT, MEMORY, PORTS, SOURCE};
use super::pokes::{snapshot, written_over, Runner};
use super::sheets::{is_vertical, route_of, shortest_path, Plan, Random};
use super::travelling::Place;
use super::words::Words;
use std::ops::Range;
use std::rc::Rc;

/// Snapshots for who is only to be noticed or not.
const SNAPSHOTS_FOR_NOTICING: u64 = 36;
const AIMED_STATES_OF_EACH: usize = 6;
const AIMED_REQUIRED: u64 = 500;

const FREE: &str = "taken";
const BUSY: &str = "17";

/// By register kind, what a header may have about it, and whether it makes a circuit busy.
const OF_HEADERS: [(&str, &str); 16] = [
    ("first address", BUSY),
    ("last address", BUSY),
    ("interrupt", BUSY),
    ("address before the region", FREE),
    ("address behind the region", FREE),
    ("address of 14 bits", FREE),
    ("code that leads to another node", FREE),
    ("code that leads nowhere", FREE),
    ("from another node", FREE),
    ("empty", FREE),
    ("payload", FREE),
    ("last payload", FREE),
    ("at missing nodes", FREE),
    ("route that never ends", FREE),
    ("eight codes", BUSY),
    ("eight codes, then zeros", BUSY),
];

/// The others, by what is varied.
const OF_OTHERS: [(&str, &str, &str); 31] = [
    ("head", "no choice", FREE),
    ("head", "no choice, one is held", FREE),
    ("head", "choice, another is held", BUSY),
    ("head", "eight codes taken off, then zeros", BUSY),
    ("out", "eight codes taken off, then zeros", BUSY),
    ("link", "zeros among the codes", BUSY),
    ("extra", "of another output", FREE),
    ("extra", "on short links", FREE),
    ("receive unit", "next address before the region", FREE),
    ("receive unit", "next address is the first", BUSY),
    ("receive unit", "next address is the last", BUSY),
    ("receive unit", "next address behind the region", FREE),
    ("receive unit", "idle", FREE),
    ("receive unit", "of another node", FREE),
    ("receive unit", "next address is huge", FREE),
    ("receive unit", "last word on the memory's wire", BUSY),
    ("receive unit", "at missing nodes", FREE),
    ("link", "last address of 14 bits", BUSY),
    ("head", "last address of 14 bits", BUSY),
    ("out", "last address of 14 bits", BUSY),
    ("receive unit", "next address is the last of 14 bits", BUSY),
    ("receive unit", "next address behind 14 bits", FREE),
    ("other registers", "nothing moves", FREE),
    ("other registers", "last word has landed", FREE),
    ("other registers", "last word has landed in the midst", FREE),
    ("other registers", "a packet has landed, another travels", BUSY),
    ("other registers", "payload without a packet", FREE),
    ("other registers", "words left", BUSY),
    ("other registers", "words left and travelling", BUSY),
    ("other registers", "words left, another's travel", BUSY),
    ("other registers", "all travel", BUSY),
];

fn name_of(form: &str, place: &str, name: &str, answer: &str) -> String {
    format!("travelling, {form}, {place}: {name}, {answer}")
}

fn aimed_name(form: &str, answer: &str) -> String {
    format!("aimed, {form} without words left: {answer}")
}

/// Says what was not met; true where nothing is missing.
pub fn are_met(coverage: &Coverage) -> bool {
    let mut names = Vec::new();
    for form in ["start", "start all", "start lists"] {
        for place in ["link", "head", "out", "extra"] {
            names.extend(OF_HEADERS.map(|(name, answer)| name_of(form, place, name, answer)));
        }
        names.extend(OF_OTHERS.map(|(place, name, answer)| name_of(form, place, name, answer)));
    }
    names.extend(hand_made_flights().iter().flat_map(|flight| [FREE, BUSY].map(|answer| flight_name(flight, answer))));
    let mut complete = coverage.has_all(names.iter().map(String::as_str));
    for form in ["start", "list"] {
        for answer in [FREE, BUSY] {
            complete &= coverage.has_at_least(AIMED_REQUIRED, &aimed_name(form, answer));
        }
    }
    complete
}

fn flight_name(flight: &HandMadeFlight, answer: &str) -> String {
    format!("flight, {}: {answer}", flight.name)
}

fn text_of(number: u32) -> &'static str {
    match number {
        0 => FREE,
        17 => BUSY,
        _ => "neither",
    }
}

/// Whether a state or a transfer made by hand tells someone from what it was made for, or a state with headers put
/// about it from the second machine.
pub fn is_noticed_by_starts(tested: &mut impl Calls) -> bool {
    let mut runner = Runner::new(tested);
    runner.run_busy(&hand_made_busy(), true);
    if !runner.is_noticed() {
        runner.run_flights();
    }
    for session in 0..SNAPSHOTS_FOR_NOTICING {
        if runner.is_noticed() {
            break;
        }
        let (words, machine, plan) = snapshot(session);
        runner.run_aimed_states(session, &words, &machine, &plan);
    }
    runner.is_noticed()
}

/// A right start of one word on a circuit.
fn one_word(plan: &Plan, circuit: usize) -> Transfer {
    let record = plan.circuits[circuit];
    Transfer { circuit: circuit as u32, read: record.read_offset, write: record.receive_offset, count: 1, kind: DATA }
}

impl<C: Calls> Runner<'_, C> {
    /// All of them, or up to the first that is not as it was made for.
    pub fn run_busy(&mut self, states: &[HandMadeBusy], until_noticed: bool) {
        let mut loaded = self.loaded(&states[0].plan);
        for (turn, made) in states.iter().enumerate() {
            if turn > 0 && !Rc::ptr_eq(&made.plan, &states[turn - 1].plan) {
                loaded = self.loaded(&made.plan);
            }
            let words = written_over(&loaded, &made.pokes);
            let forms = if until_noticed { turn % 2..turn % 2 + 1 } else { 0..2 };
            let result = self
                .start_each(made, &words)
                .and_then(|()| self.start_wrong(made, &words))
                .and_then(|()| self.start_by_lists(made, &words, turn, forms));
            self.count(result, || {
                format!("{}: {} {:?}", made.place, made.name, &made.pokes[..made.pokes.len().min(20)])
            });
            if until_noticed && self.is_noticed() {
                return;
            }
        }
    }

    /// A start on a copy of the words, its number and every word afterwards by hand.
    fn expect_start(&mut self, words: &Words, transfer: Transfer, expected: u32) -> Result<(), String> {
        let (mut actual, mut predicted) = (words.clone(), words.clone());
        let call = Call::start(transfer);
        let number = self.compare(&call, words.all(), &mut actual, &mut predicted)?;
        if number != expected {
            return Err(format!("{call:?}: number {number}, expected {expected}"));
        }
        let by_hand = if expected == 0 {
            actual.compare(&written_over(words, &started(&transfer)))
        } else {
            actual.compare(words)
        };
        by_hand.map_err(|what| format!("after {call:?}, by hand: {what}"))
    }

    /// A single start of each circuit; words left are those that were written, whatever travels.
    fn start_each(&mut self, made: &HandMadeBusy, words: &Words) -> Result<(), String> {
        for circuit in 0..made.plan.circuits.len() {
            let left = self.tested.words_left(&words.state, circuit as u32);
            if left != u64::from(words.state[Row::Left.at(circuit)]) {
                return Err(format!("words left of circuit {circuit}: {left:#x}"));
            }
            let expected = if made.busy.contains(&circuit) { 17 } else { 0 };
            self.expect_start(words, one_word(&made.plan, circuit), expected)?;
            self.coverage.met(&name_of("start", made.place, made.name, text_of(expected)));
        }
        Ok(())
    }

    /// Numbers 15 and 16 come before 17.
    fn start_wrong(&mut self, made: &HandMadeBusy, words: &Words) -> Result<(), String> {
        let Some(&circuit) = made.busy.first() else { return Ok(()) };
        let right = one_word(&made.plan, circuit);
        self.expect_start(words, Transfer { kind: 1, ..right }, 15)?;
        self.expect_start(words, Transfer { count: 0, ..right }, 16)
    }

    /// A list of each circuit, and of one again, in one form or in both.
    fn start_by_lists(
        &mut self,
        made: &HandMadeBusy,
        words: &Words,
        turn: usize,
        forms: Range<usize>,
    ) -> Result<(), String> {
        let circuits = made.plan.circuits.len();
        let mut starts: Vec<Transfer> = (0..circuits).map(|circuit| one_word(&made.plan, circuit)).collect();
        starts.push(starts[turn % circuits]);
        let mut after = Vec::new();
        let mut answers = vec![17; starts.len()];
        for circuit in (0..circuits).filter(|circuit| !made.busy.contains(circuit)) {
            after.extend(started(&starts[circuit]));
            answers[circuit] = 0;
        }
        let mut by_hand = written_over(words, &after);
        by_hand.put_answers(&answers);
        for call in &both_forms(starts, answers.len())[forms] {
            let (mut actual, mut predicted) = (words.clone(), words.clone());
            let number = self.compare(call, words.all(), &mut actual, &mut predicted)?;
            actual.compare(&by_hand).map_err(|what| format!("{}, number {number}, by hand: {what}", call.name()))?;
            for &answer in &answers[..circuits] {
                self.coverage.met(&name_of(call.name(), made.place, made.name, text_of(answer)));
            }
        }
        Ok(())
    }

    pub fn run_flights(&mut self) {
        for flight in hand_made_flights() {
            let result = self.run_flight(&flight);
            self.count(result, || flight.name.to_string());
        }
    }

    /// Another start is refused up to the last landing, and taken directly behind it.
    fn run_flight(&mut self, flight: &HandMadeFlight) -> Result<(), String> {
        let mut actual = self.loaded(&flight.plan);
        let mut predicted = actual.clone();
        let lent = actual.all();
        let again = one_word(&flight.plan, 0);
        let order = flight.order.map(|(schedule, period_number)| Call::Order { schedule, period_number });
        let first = Call::start(Transfer { count: flight.count, ..again });
        let calls = order.into_iter().chain((0..flight.cycles).map(|_| Call::Cycle)).chain([first]);
        for call in calls {
            if self.compare(&call, lent, &mut actual, &mut predicted)? != 0 {
                return Err(format!("{call:?} is refused"));
            }
        }
        for cycles in flight.cycles..=flight.last_landing + 2 {
            let expected = if cycles <= flight.last_landing { 17 } else { 0 };
            self.expect_start(&actual, again, expected).map_err(|what| format!("after {cycles} cycles: {what}"))?;
            for call in both_forms(vec![again], 1) {
                let (mut copy, mut predicted) = (actual.clone(), actual.clone());
                self.compare(&call, lent, &mut copy, &mut predicted)?;
                if copy.answers[0] != expected {
                    return Err(format!("{}, after {cycles} cycles: {}", call.name(), copy.answers[0]));
                }
            }
            self.coverage.met(&flight_name(flight, text_of(expected)));
            // Words left are not those that travel.
            if cycles == flight.last_landing && self.tested.words_left(&actual.state, 0) != 0 {
                return Err("words left before the last landing".to_string());
            }
            self.compare(&Call::Cycle, lent, &mut actual, &mut predicted)?;
        }
        Ok(())
    }

    /// States from the midst of a session with some headers and packets besides.
    pub fn run_aimed_states(&mut self, session: u64, words: &Words, machine: &Machine, plan: &Plan) {
        if plan.circuits.is_empty() {
            return;
        }
        let mut random = Random::new(0x1A4D_0000 + session);
        for turn in 0..AIMED_STATES_OF_EACH {
            let mut pokes = Vec::new();
            for _ in 0..random.between(1, 4) {
                pokes.extend(some_arrival(&mut random, plan));
            }
            let result = self.start_on_aimed_state(&mut random, &written_over(words, &pokes), machine, plan, turn);
            self.count(result, || format!("session {session}, aimed {pokes:?}"));
        }
    }

    /// A list of every circuit in either form, and two single starts.
    fn start_on_aimed_state(
        &mut self,
        random: &mut Random,
        words: &Words,
        machine: &Machine,
        plan: &Plan,
        turn: usize,
    ) -> Result<(), String> {
        let starts: Vec<Transfer> = (0..plan.circuits.len()).map(|circuit| one_word(plan, circuit)).collect();
        let waits = |circuit: usize| machine.senders[circuit].left == 0;
        for _ in 0..2 {
            let circuit = random.position(starts.len());
            let (mut actual, mut predicted) = (words.clone(), words.clone());
            let number = self.compare(&Call::start(starts[circuit]), words.all(), &mut actual, &mut predicted)?;
            if !matches!(number, 0 | 17) {
                return Err(format!("a right start gets {number}"));
            }
            if waits(circuit) {
                self.coverage.met(&aimed_name("start", text_of(number)));
            }
        }
        let call = &both_forms(starts, plan.circuits.len())[turn % 2];
        let (mut actual, mut predicted) = (words.clone(), words.clone());
        self.compare(call, words.all(), &mut actual, &mut predicted)?;
        for circuit in (0..plan.circuits.len()).filter(|&circuit| waits(circuit)) {
            self.coverage.met(&aimed_name("list", text_of(actual.answers[circuit])));
        }
        Ok(())
    }
}

/// A header or a packet that may come to some circuit's region, with an address in the region or beside it.
fn some_arrival(random: &mut Random, plan: &Plan) -> Vec<(usize, u32)> {
    let circuit = random.choose(&plan.circuits);
    let (first, last) = (circuit.receive_offset, circuit.receive_offset + circuit.receive_length - 1);
    let some = random.between(first, last);
    let address = random.choose(&[first, last, some, some, first.saturating_sub(1), last + 1]);
    let node = if random.once_in(2) { circuit.destination } else { random.between(0, plan.nodes() - 1) };
    if random.once_in(6) {
        let at = |row: Row| row.at(node as usize);
        return vec![(at(Row::ReceiveMark), 1), (at(Row::ReceiveKind), DATA), (at(Row::ReceiveAddress), address)];
    }
    // The output of a right way from here, and the codes behind it.
    let (output, behind) = if node == circuit.destination {
        (MEMORY as u32, 0)
    } else {
        let path = shortest_path(random, plan, node, circuit.destination);
        (path[0], route_of(&path) >> 2)
    };
    if plan.long_links && is_vertical(output) && random.once_in(3) {
        let header = random.choose(&[DATA, INTERRUPT]) << 30 | (address & 0x3FFF) << 16 | behind;
        let at = |row: Row| row.of_port(node as usize, output as usize);
        return vec![(at(Row::ExtraMark), HEADER), (at(Row::ExtraWord), header)];
    }
    some_header(random, node as usize, output, behind, address & 0x3FFF)
}

/// A header in any register of a node, mostly with the right codes for its output.
fn some_header(random: &mut Random, node: usize, output: u32, behind: u32, address: u32) -> Vec<(usize, u32)> {
    // The code for the memory is the input's, which then is a side; the code for a side is no input's.
    let to_memory = output == MEMORY as u32;
    let inputs = (0..PORTS as u32).filter(|&input| if to_memory { input != SOURCE as u32 } else { input != output });
    let input = random.choose(&inputs.collect::<Vec<u32>>());
    let place = random.choose(&[Place::Link, Place::Head, Place::Out]);
    let code = if to_memory { input } else { output };
    let right = if place == Place::Link { behind << 2 | code } else { behind };
    let any = random.word() & 0xFFFF;
    let route = random.choose(&[right, right, right, right | any << 10 & 0xFFFF, any, 0]);
    let header = random.choose(&[DATA, INTERRUPT]) << 30 | address << 16 | route;
    let any_output = random.position(PORTS) as u32;
    let [input, output] = [input, random.choose(&[output, output, output, any_output])].map(|port| port as usize);
    match place {
        Place::Link => {
            vec![(Row::LinkMark.of_port(node, input), HEADER), (Row::LinkWord.of_port(node, input), header)]
        }
        Place::Head => vec![
            (Row::HeadMark.of_port(node, input), HEADER),
            (Row::HeadWord.of_port(node, input), header),
            (Row::Choice.of_port(node, input), if random.once_in(8) { 0 } else { output as u32 + 1 }),
        ],
        _ => vec![(Row::OutMark.of_port(node, output), HEADER), (Row::OutWord.of_port(node, output), header)],
    }
}
