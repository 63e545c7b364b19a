//! Runs states that no calls need lead to: the hand-made ones, and states from the midst of
//! generated sessions with some words or all registers written over, or with the slots of a circuit
//! dropped from their sheet. The second machine says each answer and every lent word afterwards,
//! refused calls included. What a load of no words leaves, and what is then answered, stands here
//! besides, and that a transfer on a circuit that no schedule serves is taken and never sends. Lists of
//! transfers are asked of every hand-made state, and of some others. pokes_travelling.rs has those about words that travel,
//! pokes_long.rs those about long vertical links.

use super::calls::{lists_of, number_of, Call, Calls, Second};
use super::coverage::Coverage;
use super::hand_made::{
    hand_made_cycles, hand_made_plan, hand_made_states, most_words, rest_in, unserved_plans, unserved_states, Expected,
    HandMade, HandMadeCycle, Unserved,
};
use super::hand_made_lists::{both_forms, hand_made_lists, HandMadeList, ListsOfState};
use super::hand_made_travelling::hand_made_busy;
use super::lent::{
    Clause, Reader, Row, CYCLE, MOVING_WORDS, ORDER_MARK, ORDER_PERIOD, ORDER_SCHEDULE, PERIOD_NUMBER, ROW_WORDS,
    SCHEDULE, SHEET, SHEET_LENGTH, STATE_WORDS,
};
use super::lists::unanswered;
use super::machine::{Cell, Fault, Machine, Transfer, DATA, EMPTY, HEADER, INTERRUPT, LAST, PORTS};
use super::pokes_long;
use super::pokes_travelling::are_met;
use super::sessions::{Generator, NO_WORDS_FROM, SPARE_WORDS};
use super::sheets::{idle_network, sheet_a, Plan, Random};
use super::words::{Lent, Words};
use std::process::ExitCode;

const SNAPSHOTS: u64 = 432;
/// Further ones, from sessions that load no words.
const SNAPSHOTS_OF_NO_WORDS: u64 = 18;
const POKED_STATES_OF_EACH: usize = 60;
const FILLED_STATES_OF_EACH: usize = 12;
const POKED_STATES_REQUIRED: usize = 20_000;
/// Every so many of the snapshots also have a circuit that is served no longer.
const UNSERVED_EVERY: u64 = 4;
const UNSERVED_STATES_OF_EACH: usize = 6;
/// Every so many of the poked states are also lent to a list.
const LISTS_EVERY: usize = 30;
const CYCLES_OF_HAND_MADE: usize = 12;
/// Some periods of most sheets.
const CYCLES_OF_UNSERVED: u32 = 40;
const UNSERVED_SOUND: &str = "unserved: sound state";
const UNSERVED_SOUND_REQUIRED: u64 = 50;
const DIFFERENCES_SHOWN: usize = 10;

pub struct Runner<'a, C> {
    pub tested: &'a mut C,
    second: Second,
    pub reader: Reader,
    pub coverage: Coverage,
    passed: usize,
    differences: Vec<String>,
}

/// All memory words of the idle network.
const IDLE_MEMORY_WORDS: usize = 4;

pub fn run_all(tested: &mut impl Calls) -> ExitCode {
    let mut runner = Runner::new(tested);
    runner.run_hand_made(&hand_made_states());
    runner.run_loads_of_no_words();
    unserved_states().iter().for_each(|state| runner.run_unserved(state));
    unserved_plans().iter().for_each(|plan| runner.run_unserved_transfers(plan));
    runner.run_cycles(&hand_made_cycles());
    runner.run_hand_made_lists();
    runner.run_example_m();
    runner.run_busy(&hand_made_busy(), false);
    runner.run_flights();
    runner.run_long_links();
    let poked = runner.run_poked();
    runner.coverage.print();
    for difference in runner.differences.iter().take(DIFFERENCES_SHOWN) {
        println!("{difference}");
    }
    let complete = runner.coverage.has_all(wanted().iter().map(String::as_str))
        & runner.coverage.has_at_least(UNSERVED_SOUND_REQUIRED, UNSERVED_SOUND)
        & are_met(&runner.coverage)
        & pokes_long::are_met(&runner.coverage)
        && poked >= POKED_STATES_REQUIRED;
    let failed = runner.differences.len() + usize::from(!complete);
    println!("{} passed, {failed} failed", runner.passed);
    if failed == 0 {
        ExitCode::SUCCESS
    } else {
        ExitCode::FAILURE
    }
}

/// Whether a load of no words, a state without a sheet or one with an unserved circuit tells someone
/// from the second machine.
pub fn is_noticed(tested: &mut impl Calls) -> bool {
    let mut runner = Runner::new(tested);
    let mut states = hand_made_states();
    states.retain(|made| made.expected == Expected::Unsound(Clause::NoSheet));
    runner.run_hand_made(&states);
    runner.run_loads_of_no_words();
    let mut noticed = !runner.differences.is_empty();
    for state in unserved_states() {
        if noticed {
            break;
        }
        runner.run_unserved(&state);
        noticed = !runner.differences.is_empty();
    }
    noticed
}

/// Whether a list made by hand, or one on a state with an unserved circuit, tells someone from the second
/// machine. Some of these states are unsound.
pub fn is_noticed_by_lists(tested: &mut impl Calls) -> bool {
    let mut runner = Runner::new(tested);
    runner.run_hand_made_lists();
    if !runner.differences.is_empty() {
        return true;
    }
    unserved_states().iter().any(|Unserved { plan, made }| {
        let words = written_over(&loaded_by(&plan.words(), &unloaded_for(plan)), &made.pokes);
        runner.call_lists("unserved", made, &words, &ListsOfState::new(plan), 0).is_err()
    })
}

/// Every clause and every cause of number 20, made by hand and come upon by chance. By chance
/// only some numbers of the sheet are sure to be met.
fn wanted() -> Vec<String> {
    let clauses = [
        Clause::NoSheet,
        Clause::SheetLength,
        Clause::Schedule,
        Clause::Cycle,
        Clause::OrderMark,
        Clause::OrderSchedule,
        Clause::ReadRegion,
        Clause::ReceiveRegion,
        Clause::TransferKind,
        Clause::InterruptLeft,
        Clause::ToGo,
        Clause::LinkMark,
        Clause::LinkKind,
        Clause::HeadMark,
        Clause::HeadKind,
        Clause::OutMark,
        Clause::OutKind,
        Clause::Choice,
        Clause::Latch,
        Clause::ReceiveMark,
        Clause::ReceiveKind,
        Clause::LandingMark,
    ];
    let faults = [
        Fault::OutputWantedTwice,
        Fault::SourceWireWantedTwice,
        Fault::SlotWhileSending,
        Fault::PayloadWithoutLatch,
        Fault::PayloadWithoutChoice,
        Fault::PayloadWithoutPacket,
        Fault::LandingBeyondMemory,
    ];
    let mut names = Vec::new();
    for kind in ["hand-made", "poked"] {
        names.extend(clauses.iter().map(|clause| format!("{kind}: 13 by {clause:?} alone")));
        names.extend(faults.iter().map(|fault| format!("{kind}: 20 by {fault:?} alone")));
        names.push(format!("{kind}: cycle carried out"));
    }
    names.push("filled: cycle carried out".to_string());
    names.extend((1..=11).map(|number| format!("hand-made: 13 by {:?} alone", Clause::Sheet(number))));
    names.extend(calls_of_idle_network().iter().map(no_sheet_name));
    names.extend(calls_of_idle_network().iter().map(|call| answer_name("unserved", call, 0)));
    names.extend([0, 26].map(|number| answer_name("unserved", &Call::Load { sheet: Vec::new() }, number)));
    for group in ["unserved", "midst, unserved"] {
        names.push(format!("{group}: cycle carried out"));
    }
    names.push("midst, unserved: load refused".to_string());
    for form in ["start all", "start lists"] {
        for group in ["hand-made", "unserved"] {
            names.extend([0, 12, 13, 21].map(|number| format!("{group}: {form}, {number}")));
        }
        names.extend([0, 13].map(|number| format!("poked: {form}, {number}")));
    }
    names
}

/// Each call that tests the state, as the idle network would take it; a circuit it does not have.
fn calls_of_idle_network() -> [Call; 10] {
    let transfer = Transfer { circuit: 0, read: 0, write: 0, count: 1, kind: DATA };
    let answers = unanswered(2);
    [
        Call::StartAll { transfers: vec![transfer], answers: answers.clone() },
        Call::StartLists { lists: lists_of(&[transfer]), answers },
        Call::Start { circuit: 0, read: 0, write: 0, count: 1, kind: DATA },
        Call::Store { node: 3, address: 0, word: 5 },
        Call::Fetch { node: 3, address: 0 },
        Call::WordsLeft { circuit: 0 },
        Call::PeriodNumber,
        Call::WhatLanded { node: 3, field: 0 },
        Call::Order { schedule: 0, period_number: 3 },
        Call::Cycle,
    ]
}

fn no_sheet_name(call: &Call) -> String {
    answer_name("no sheet", call, 13)
}

fn answer_name(group: &str, call: &Call, number: u32) -> String {
    format!("{group}: {}, {number}", call.name())
}

fn calls_of_hand_made(plan: &Plan) -> Vec<Call> {
    let mut calls = vec![
        Call::Load { sheet: plan.words() },
        Call::Start { circuit: 0, read: 0, write: 0, count: 1, kind: INTERRUPT },
        Call::Store { node: 1, address: 7, word: 5 },
        Call::Fetch { node: 1, address: 7 },
        Call::WordsLeft { circuit: 1 },
        Call::PeriodNumber,
        Call::Order { schedule: 1, period_number: 4 },
        Call::Cycle,
    ];
    for node in 0..4 {
        calls.extend((0..5).map(|field| Call::WhatLanded { node, field }));
    }
    calls
}

/// Calls that concern the unserved circuits of a plan, their nodes and regions, and the others.
fn calls_of_unserved(plan: &Plan) -> Vec<Call> {
    let unserved = plan.unserved();
    let last_schedule = plan.schedules.len() as u32 - 1;
    let mut calls = vec![Call::PeriodNumber, Call::Cycle];
    for schedule in [0, last_schedule, last_schedule + 1] {
        calls.extend([3, 4].map(|period_number| Call::Order { schedule, period_number }));
    }
    let mut numbers = vec![0, unserved[0], unserved[unserved.len() - 1], plan.circuits.len() - 1];
    numbers.sort();
    numbers.dedup();
    for number in numbers {
        let (circuit, record) = (number as u32, plan.circuits[number]);
        let (read, write, count) = (record.read_offset, record.receive_offset, most_words(plan, number));
        calls.extend([
            Call::Start { circuit, read, write, count, kind: DATA },
            Call::Start { circuit, read, write, count: 1, kind: INTERRUPT },
            Call::Start { circuit, read, write, count: count + 1, kind: DATA },
            Call::WordsLeft { circuit },
            Call::Store { node: record.source, address: read, word: 5 },
            Call::Fetch { node: record.destination, address: write },
        ]);
        calls.extend((0..5).map(|field| Call::WhatLanded { node: record.destination, field }));
    }
    calls
}

impl<C: Calls> Runner<'_, C> {
    pub fn new(tested: &mut C) -> Runner<'_, C> {
        Runner {
            tested,
            second: Second::reading(),
            reader: Reader::default(),
            coverage: Coverage::default(),
            passed: 0,
            differences: Vec::new(),
        }
    }

    pub fn is_noticed(&self) -> bool {
        !self.differences.is_empty()
    }

    /// Makes a call on both and compares answers and words; its number.
    pub fn compare(
        &mut self,
        call: &Call,
        lent: Lent,
        actual: &mut Words,
        expected: &mut Words,
    ) -> Result<u32, String> {
        let expected_answer = expected.make(call, lent, &mut self.second);
        let answer = actual.make(call, lent, self.tested);
        if answer != expected_answer {
            return Err(format!(
                "{}, {lent:?}: answered {answer:#x}, second machine {expected_answer:#x}",
                call.start_of_text()
            ));
        }
        actual.compare(expected).map_err(|what| format!("after {}, {lent:?}: {what}", call.start_of_text()))?;
        Ok(number_of(answer))
    }

    pub fn count(&mut self, result: Result<(), String>, what: impl FnOnce() -> String) {
        match result {
            Ok(()) => self.passed += 1,
            Err(difference) => self.differences.push(format!("{}: {difference}", what())),
        }
    }

    /// Words on which the second machine carried out a load of the plan.
    pub fn loaded(&mut self, plan: &Plan) -> Words {
        let mut words = unloaded_for(plan);
        assert_eq!(self.second.load(&plan.words(), &mut words.state, &words.memory), 0, "the plan passes");
        words
    }

    fn run_hand_made(&mut self, states: &[HandMade]) {
        self.run_hand_made_on("hand-made", &hand_made_plan(), states);
    }

    /// States of a plan that has the circuits of `hand_made_plan`.
    pub fn run_hand_made_on(&mut self, group: &str, plan: &Plan, states: &[HandMade]) {
        let loaded = self.loaded(plan);
        let calls = calls_of_hand_made(plan);
        let lists = ListsOfState::new(plan);
        for (turn, made) in states.iter().enumerate() {
            let words = written_over(&loaded, &made.pokes);
            let result = self
                .judge(group, made, &words)
                .and_then(|()| self.call_all(group, made, &words, &calls))
                .and_then(|()| self.call_on_short_slices(made, &words))
                .and_then(|()| self.call_lists(group, made, &words, &lists, turn))
                .and_then(|()| self.call_without_sheet(made, &words));
            self.count(result, || format!("{} {:?}", made.name, &made.pokes[..made.pokes.len().min(20)]));
        }
    }

    /// A state whose sheet has an unserved circuit: sound or not as if the sheet passed, but no load takes it.
    fn run_unserved(&mut self, Unserved { plan, made }: &Unserved) {
        let words = written_over(&loaded_by(&plan.words(), &unloaded_for(plan)), &made.pokes);
        let result = self
            .judge("unserved", made, &words)
            .and_then(|()| self.call_all("unserved", made, &words, &calls_of_unserved(plan)))
            .and_then(|()| self.call_on_short_slices(made, &words))
            .and_then(|()| self.call_lists("unserved", made, &words, &ListsOfState::new(plan), made.pokes.len()))
            .and_then(|()| self.load_unserved(plan, made, &words));
        if result.is_ok() && !matches!(made.expected, Expected::Unsound(_)) {
            self.coverage.met(UNSERVED_SOUND);
        }
        self.count(result, || format!("{} {:?}", made.name, &made.pokes[..made.pokes.len().min(20)]));
    }

    /// A load of the state's own sheet is refused and writes nothing, on slices that are right or wrong.
    fn load_unserved(&mut self, plan: &Plan, made: &HandMade, words: &Words) -> Result<(), String> {
        let expected = match made.expected {
            Expected::Unsound(Clause::Sheet(number)) => number,
            _ => 26,
        };
        let call = Call::Load { sheet: plan.words() };
        let all = words.all();
        for state in [all.state, STATE_WORDS - 1, 0] {
            for memory in [all.memory, all.memory - 1] {
                let lent = Lent { state, memory };
                let (mut actual, mut predicted) = (words.clone(), words.clone());
                let number = self.compare(&call, lent, &mut actual, &mut predicted)?;
                if number != expected {
                    return Err(format!("load, {lent:?}: number {number}, expected {expected}"));
                }
                actual.compare(words).map_err(|what| format!("load, {lent:?}, as it was before: {what}"))?;
                self.coverage.met(&answer_name("unserved", &call, number));
            }
        }
        Ok(())
    }

    fn run_unserved_transfers(&mut self, plan: &Plan) {
        let result = self.start_unserved(plan);
        self.count(result, || format!("transfers on the unserved circuits {:?}", plan.unserved()));
    }

    /// A load is refused on words of any content. On a state made by hand a transfer on each unserved circuit
    /// is taken once, and in all cycles only the clock moves; a load without these circuits is carried out.
    fn start_unserved(&mut self, plan: &Plan) -> Result<(), String> {
        let unloaded = unloaded_for(plan);
        let (mut actual, mut predicted) = (unloaded.clone(), unloaded.clone());
        let load = Call::Load { sheet: plan.words() };
        let number = self.compare(&load, unloaded.all(), &mut actual, &mut predicted)?;
        if number != 26 {
            return Err(format!("load: number {number}, expected 26"));
        }
        actual.compare(&unloaded).map_err(|what| format!("load, as it was before: {what}"))?;

        let mut actual = loaded_by(&plan.words(), &unloaded);
        let mut predicted = actual.clone();
        let mut by_hand = actual.clone();
        let lent = actual.all();
        for number in plan.unserved() {
            let (circuit, record, count) = (number as u32, plan.circuits[number], most_words(plan, number));
            let (read, write) = (record.read_offset, record.receive_offset);
            for expected in [0, 17] {
                let start = Call::Start { circuit, read, write, count, kind: DATA };
                let number = self.compare(&start, lent, &mut actual, &mut predicted)?;
                if number != expected {
                    return Err(format!("{start:?}: number {number}, expected {expected}"));
                }
            }
            by_hand = written_over(&by_hand, &rest_in(plan, number, count, 0));
        }
        let period = plan.schedules[0].period;
        for cycles in 1..=CYCLES_OF_UNSERVED {
            let number = self.compare(&Call::Cycle, lent, &mut actual, &mut predicted)?;
            let clock = [(Row::Clock.at(CYCLE), cycles % period), (Row::Clock.at(PERIOD_NUMBER), cycles / period)];
            let by_hand = written_over(&by_hand, &clock);
            actual.compare(&by_hand).map_err(|what| format!("cycle {cycles}, number {number}, by hand: {what}"))?;
        }
        for number in plan.unserved() {
            let answer = self.tested.words_left(&actual.state, number as u32);
            if answer != u64::from(most_words(plan, number)) {
                return Err(format!("words left of circuit {number}: {answer:#x}"));
            }
        }
        let mut served = plan.clone();
        served.drop_unserved();
        let by_hand = loaded_by(&served.words(), &actual);
        let load = Call::Load { sheet: served.words() };
        let number = self.compare(&load, lent, &mut actual, &mut predicted)?;
        self.coverage.met(&answer_name("unserved", &load, number));
        actual.compare(&by_hand).map_err(|what| format!("load, number {number}, by hand: {what}"))
    }

    /// Where the state has no sheet: every call that tests a state is refused and writes nothing, on
    /// the idle network's memory too. A load of no words then makes the state an idle network.
    fn call_without_sheet(&mut self, made: &HandMade, words: &Words) -> Result<(), String> {
        if made.expected != Expected::Unsound(Clause::NoSheet) {
            return Ok(());
        }
        for memory in [0, IDLE_MEMORY_WORDS, words.memory.len()] {
            let lent = Lent { memory, ..words.all() };
            for call in &calls_of_idle_network() {
                let (mut actual, mut expected) = (words.clone(), words.clone());
                let number = self.compare(call, lent, &mut actual, &mut expected)?;
                if number != 13 {
                    return Err(format!("{call:?}, {lent:?}: number {number}, expected 13"));
                }
                actual.compare_unchanged(words, call)?;
                self.coverage.met(&no_sheet_name(call));
            }
        }
        let (mut actual, mut expected) = (words.clone(), words.clone());
        let lent = Lent { memory: IDLE_MEMORY_WORDS, ..words.all() };
        for call in [Call::Load { sheet: Vec::new() }, Call::PeriodNumber, Call::Cycle] {
            let number = self.compare(&call, lent, &mut actual, &mut expected)?;
            if number != 0 {
                return Err(format!("{call:?}, {lent:?}: number {number}, expected 0"));
            }
        }
        Ok(())
    }

    fn run_loads_of_no_words(&mut self) {
        for filler in [0, 0xA5A5_A5A5, u32::MAX] {
            let result = self.load_no_words(filler);
            self.count(result, || format!("load of no words on words {filler}"));
            let result = self.call_on_idle_network(filler);
            self.count(result, || format!("calls on the idle network, loaded on words {filler}"));
        }
    }

    /// The number of each load by the lengths lent, and every word afterwards that is expected by
    /// hand. One to four words are no idle network.
    fn load_no_words(&mut self, filler: u32) -> Result<(), String> {
        let idle = idle_network().words();
        let words = Words::new(vec![filler; STATE_WORDS + SPARE_WORDS], vec![filler; 32]);
        for (sheet_words, state, memory, expected) in [
            (0, STATE_WORDS, 4, 0),
            (0, STATE_WORDS + 1, 4, 0),
            (0, STATE_WORDS + SPARE_WORDS, 4, 0),
            (0, 0, 4, 12),
            (0, SHEET + idle.len(), 4, 12),
            (0, STATE_WORDS - 1, 4, 12),
            (0, STATE_WORDS - 1, 3, 12),
            (0, 0, 0, 12),
            (0, STATE_WORDS, 0, 14),
            (0, STATE_WORDS, 1, 14),
            (0, STATE_WORDS, 3, 14),
            (0, STATE_WORDS, 5, 14),
            (0, STATE_WORDS + SPARE_WORDS, 32, 14),
            (1, STATE_WORDS, 4, 1),
            (2, STATE_WORDS - 1, 4, 1),
            (3, STATE_WORDS, 3, 1),
            (4, STATE_WORDS, 4, 1),
            (7, STATE_WORDS, 4, 0),
        ] {
            let call = Call::Load { sheet: idle[..sheet_words].to_vec() };
            let what = format!("{sheet_words} words on {state} and {memory}");
            let (mut actual, mut predicted) = (words.clone(), words.clone());
            let number = self.compare(&call, Lent { state, memory }, &mut actual, &mut predicted)?;
            if number != expected {
                return Err(format!("{what}: number {number}, expected {expected}"));
            }
            let by_hand = if expected == 0 { loaded_by_no_words(&words) } else { words.clone() };
            actual.compare(&by_hand).map_err(|difference| format!("{what}, by hand: {difference}"))?;
        }
        Ok(())
    }

    /// What the idle network answers, and that its period is of nine cycles in which only the clock moves.
    fn call_on_idle_network(&mut self, filler: u32) -> Result<(), String> {
        let words = Words::new(vec![filler; STATE_WORDS], vec![filler; IDLE_MEMORY_WORDS + 1]);
        let loaded = loaded_by_no_words(&words);
        let store = |node, address| Call::Store { node, address, word: 9 };
        let order = |schedule| Call::Order { schedule, period_number: 3 };
        let start = |circuit, count| Call::Start { circuit, read: 0, write: 0, count, kind: DATA };
        let mut calls = vec![
            (start(0, 1), 4, 15),
            (start(0, 0), 4, 15),
            (start(u32::MAX, 1), 4, 15),
            (Call::WordsLeft { circuit: 0 }, 4, 15),
            (store(4, 0), 4, 15),
            (store(0, 1), 4, 15),
            (Call::Fetch { node: 4, address: 0 }, 4, 15),
            (Call::Fetch { node: 0, address: 1 }, 4, 15),
            (Call::WhatLanded { node: 4, field: 0 }, 4, 15),
            (order(0), 4, 0),
            (order(1), 4, 15),
            (order(u32::MAX), 4, 15),
            (Call::PeriodNumber, 0, 0),
        ];
        for node in 0..4 {
            calls.extend([(store(node, 0), 4, 0), (store(node, 0), 3, 14), (store(node, 0), 5, 14)]);
            calls.extend([(Call::Fetch { node, address: 0 }, 4, 0), (Call::Fetch { node, address: 0 }, 5, 14)]);
            calls.push((Call::WhatLanded { node, field: 0 }, 0, 0));
        }
        calls.extend([0, 3, 5].map(|memory| (Call::Cycle, memory, 14)));
        for (call, memory, expected) in calls {
            let (mut actual, mut predicted) = (loaded.clone(), loaded.clone());
            let lent = Lent { memory, ..loaded.all() };
            let number = self.compare(&call, lent, &mut actual, &mut predicted)?;
            if number != expected {
                return Err(format!("{call:?}, {lent:?}: number {number}, expected {expected}"));
            }
        }
        let (mut actual, mut predicted) = (loaded.clone(), loaded.clone());
        for cycles in 1..=20 {
            let lent = Lent { memory: IDLE_MEMORY_WORDS, ..loaded.all() };
            let number = self.compare(&Call::Cycle, lent, &mut actual, &mut predicted)?;
            let clock = [(Row::Clock.at(CYCLE), cycles % 9), (Row::Clock.at(PERIOD_NUMBER), cycles / 9)];
            let by_hand = written_over(&loaded, &clock);
            actual.compare(&by_hand).map_err(|what| format!("cycle {cycles}, number {number}, by hand: {what}"))?;
        }
        Ok(())
    }

    pub fn run_cycles(&mut self, cycles: &[HandMadeCycle]) {
        for made in cycles {
            let result = self.run_hand_made_cycle(made);
            self.count(result, || format!("{} {:?}", made.name, made.pokes));
        }
    }

    /// The number and every word afterwards that are expected by hand.
    fn run_hand_made_cycle(&mut self, made: &HandMadeCycle) -> Result<(), String> {
        let loaded = self.loaded(&made.plan);
        let mut actual = written_over(&loaded, &made.pokes);
        let mut expected = actual.clone();
        let number = self.compare(&Call::Cycle, loaded.all(), &mut actual, &mut expected)?;
        if number != made.number {
            return Err(format!("number {number}, expected {}", made.number));
        }
        let by_hand = written_over(&loaded, &made.after);
        if actual.state == by_hand.state && actual.memory == by_hand.memory {
            Ok(())
        } else {
            Err(format!("words afterwards, expected {:?}", made.after))
        }
    }

    /// Example (m) of document 01: in period 4,294,967,295 an order for 2 is taken, for 1 it is 19.
    fn run_example_m(&mut self) {
        let plan = sheet_a();
        let memory = vec![0; (plan.nodes() * plan.memory_words) as usize];
        let mut state = vec![0; STATE_WORDS];
        assert_eq!(self.second.load(&plan.words(), &mut state, &memory), 0, "sheet A passes");
        state[Row::Clock.at(PERIOD_NUMBER)] = u32::MAX;
        for (period_number, expected) in [(2, 0), (1, 19)] {
            let call = Call::Order { schedule: 0, period_number };
            let lent = Words::new(state.clone(), memory.clone());
            let (mut actual, mut predicted) = (lent.clone(), lent);
            let all = actual.all();
            let result = self.compare(&call, all, &mut actual, &mut predicted).and_then(|number| {
                if number == expected {
                    Ok(())
                } else {
                    Err(format!("number {number}, expected {expected}"))
                }
            });
            self.count(result, || format!("example (m), order for {period_number}"));
        }
    }

    /// The number that is expected by hand, of the second machine and of the tested calls.
    fn judge(&mut self, group: &str, made: &HandMade, words: &Words) -> Result<(), String> {
        let read = self.reader.machine(&words.state);
        self.coverage.met(&format!("{group}: {}", met_name(&read)));
        let right = match (made.expected, &read) {
            (Expected::Unsound(clause), Err(broken)) => *broken == [clause],
            (Expected::Faulty(fault), Ok(machine)) => machine.faults() == [fault],
            (Expected::CarriedOut, Ok(machine)) => machine.faults().is_empty(),
            (Expected::Sound, Ok(_)) => true,
            _ => false,
        };
        if !right {
            return Err(format!("made for {:?}, second machine: {}", made.expected, met_name(&read)));
        }
        let mut lent = words.clone();
        let soundness = number_of(self.tested.period_number(&lent.state));
        let cycle = self.tested.cycle(&mut lent.state, &mut lent.memory);
        let numbers_right = match made.expected {
            Expected::Unsound(_) => (soundness, cycle) == (13, 13),
            Expected::Faulty(_) => (soundness, cycle) == (0, 20),
            Expected::CarriedOut => (soundness, cycle) == (0, 0),
            Expected::Sound => soundness == 0 && (cycle == 0 || cycle == 20),
        };
        if numbers_right {
            Ok(())
        } else {
            Err(format!("made for {:?}: period number {soundness}, cycle {cycle}", made.expected))
        }
    }

    /// Each call on the state as it is: all but the load have 13 just when it is unsound. Then cycles
    /// one behind the other.
    fn call_all(&mut self, group: &str, made: &HandMade, words: &Words, calls: &[Call]) -> Result<(), String> {
        for call in calls {
            let (mut actual, mut expected) = (words.clone(), words.clone());
            let number = self.compare(call, words.all(), &mut actual, &mut expected)?;
            let unsound = matches!(made.expected, Expected::Unsound(_)) && !matches!(call, Call::Load { .. });
            if (number == 13) != unsound {
                return Err(format!("{}: number {number} by a state for {:?}", call.start_of_text(), made.expected));
            }
            self.coverage.met(&answer_name(group, call, number));
        }
        let (mut actual, mut expected) = (words.clone(), words.clone());
        for _ in 0..CYCLES_OF_HAND_MADE {
            if self.compare(&Call::Cycle, words.all(), &mut actual, &mut expected)? != 0 {
                break;
            }
        }
        Ok(())
    }

    /// Number 12 comes before 13, 13 before 14, and 14 before 20.
    fn call_on_short_slices(&mut self, made: &HandMade, words: &Words) -> Result<(), String> {
        let short_state = Lent { state: STATE_WORDS - 1, ..words.all() };
        let short_memory = Lent { memory: words.memory.len() - 1, ..words.all() };
        let on_short_memory = if matches!(made.expected, Expected::Unsound(_)) { 13 } else { 14 };
        let calls = [Call::Cycle, Call::Store { node: 0, address: 0, word: 1 }, Call::Fetch { node: 0, address: 0 }];
        for call in &calls {
            for (lent, expected) in [(short_state, 12), (short_memory, on_short_memory)] {
                let (mut actual, mut predicted) = (words.clone(), words.clone());
                let number = self.compare(call, lent, &mut actual, &mut predicted)?;
                if number != expected {
                    return Err(format!("{call:?}, {lent:?}: number {number}, expected {expected}"));
                }
            }
        }
        Ok(())
    }

    /// Lists in both forms, one behind the other: refused ones leave the words to the next. Number 12
    /// comes before 13, and 13 before 21.
    fn call_lists(
        &mut self,
        group: &str,
        made: &HandMade,
        words: &Words,
        lists: &ListsOfState,
        turn: usize,
    ) -> Result<(), String> {
        let unsound = matches!(made.expected, Expected::Unsound(_));
        let or_13 = |number: u32| if unsound { 13 } else { number };
        let all = words.all();
        let mut calls = Vec::new();
        for refused in &lists.refused {
            let call = &refused[turn % refused.len()];
            calls.extend([(call, Lent { state: STATE_WORDS - 1, ..all }, 12), (call, all, or_13(21))]);
        }
        calls.extend(lists.right.iter().map(|call| (call, all, or_13(0))));
        let (mut actual, mut predicted) = (words.clone(), words.clone());
        for (call, lent, expected) in calls {
            let number = self.compare(call, lent, &mut actual, &mut predicted)?;
            if number != expected {
                return Err(format!("{}, {lent:?}: number {number}, expected {expected}", call.start_of_text()));
            }
            if number != 0 {
                actual.compare_unchanged(words, call)?;
            }
            self.coverage.met(&answer_name(group, call, number));
        }
        Ok(())
    }

    fn run_hand_made_lists(&mut self) {
        let plan = hand_made_plan();
        let loaded = self.loaded(&plan);
        for made in hand_made_lists(&plan) {
            let result = self.run_hand_made_list(&made, &loaded);
            self.count(result, || format!("{}, {}", made.name, made.call.start_of_text()));
        }
    }

    /// The number and every word afterwards that are expected by hand.
    fn run_hand_made_list(&mut self, made: &HandMadeList, loaded: &Words) -> Result<(), String> {
        let before = written_over(loaded, &made.before);
        let (mut actual, mut predicted) = (before.clone(), before.clone());
        let number = self.compare(&made.call, before.all(), &mut actual, &mut predicted)?;
        if number != made.number {
            return Err(format!("number {number}, expected {}", made.number));
        }
        let mut by_hand = written_over(&before, &made.after);
        let behind = &made.call.unanswered().unwrap_or(&[])[made.answers.len()..];
        by_hand.put_answers(&[&made.answers, behind].concat());
        actual.compare(&by_hand).map_err(|what| format!("by hand: {what}"))
    }

    /// States from the midst of sessions with words written over; the number of those with few.
    fn run_poked(&mut self) -> usize {
        let mut poked = 0;
        for session in (0..SNAPSHOTS).chain(NO_WORDS_FROM..NO_WORDS_FROM + SNAPSHOTS_OF_NO_WORDS) {
            let (words, machine, plan) = snapshot(session);
            let mut random = Random::new(0x0909_0000 + session);
            let mut random_of_lists = Random::new(0x1157_0000 + session);
            for turn in 0..POKED_STATES_OF_EACH {
                let mut pokes = Vec::new();
                for _ in 0..random.choose(&[1, 1, 2, 3, 4]) {
                    pokes.extend(some_pokes(&mut random, &machine));
                }
                let result = self.run_poked_state("poked", &mut random, &words, &machine, &pokes);
                self.count(result, || format!("session {session} with {pokes:?}"));
                poked += 1;
                if turn % LISTS_EVERY == 0 {
                    let result = self.list_on_poked_state(&mut random_of_lists, &words, &machine, &pokes);
                    self.count(result, || format!("session {session}, list with {pokes:?}"));
                }
            }
            for turn in 0..FILLED_STATES_OF_EACH {
                let pokes = filled_registers(&mut random, &machine);
                let result = self.run_poked_state("filled", &mut random, &words, &machine, &pokes);
                self.count(result, || format!("session {session}, registers filled, {turn}"));
            }
            self.run_aimed_states(session, &words, &machine, &plan);
            if session % UNSERVED_EVERY == 0 && !plan.circuits.is_empty() {
                let result = self.run_midst_unserved(&mut random, &words, plan);
                self.count(result, || format!("session {session} with an unserved circuit"));
            }
        }
        poked
    }

    /// A state from the midst of a session whose sheet has lost the slots of a circuit. It is sound as before,
    /// whatever is travelling or left.
    fn run_midst_unserved(&mut self, random: &mut Random, words: &Words, mut plan: Plan) -> Result<(), String> {
        plan.unserve(random.position(plan.circuits.len()));
        let sheet = plan.words();
        let mut words = words.clone();
        words.state[SHEET_LENGTH] = sheet.len() as u32;
        words.state[SHEET..SHEET + sheet.len()].copy_from_slice(&sheet);
        let machine = self.reader.machine(&words.state).map_err(|broken| format!("not sound: {broken:?}"))?;
        for turn in 0..UNSERVED_STATES_OF_EACH {
            let pokes = if turn % 2 == 0 { Vec::new() } else { some_rest(random, &machine) };
            self.run_poked_state("midst, unserved", random, &words, &machine, &pokes)?;
        }
        Ok(())
    }

    /// A list in both forms, one behind the other.
    fn list_on_poked_state(
        &mut self,
        random: &mut Random,
        words: &Words,
        machine: &Machine,
        pokes: &[(usize, u32)],
    ) -> Result<(), String> {
        let mut actual = written_over(words, pokes);
        let mut expected = actual.clone();
        for call in both_forms(some_transfers(random, machine), 8) {
            let number = self.compare(&call, words.all(), &mut actual, &mut expected)?;
            self.coverage.met(&answer_name("poked", &call, number));
        }
        Ok(())
    }

    fn run_poked_state(
        &mut self,
        group: &str,
        random: &mut Random,
        words: &Words,
        machine: &Machine,
        pokes: &[(usize, u32)],
    ) -> Result<(), String> {
        let mut actual = written_over(words, pokes);
        let mut expected = actual.clone();
        for _ in 0..random.between(1, 6) {
            let call = if random.between(0, 9) < 7 { Call::Cycle } else { some_call(random, machine) };
            if matches!(call, Call::Cycle) {
                let read = self.reader.machine(&expected.state);
                self.coverage.met(&format!("{group}: {}", met_name(&read)));
            }
            let number = self.compare(&call, words.all(), &mut actual, &mut expected)?;
            let outcome = if number == 0 { "done" } else { "refused" };
            self.coverage.met(&format!("{group}: {} {outcome}", call.name()));
        }
        Ok(())
    }
}

/// The words with some of the state written over.
pub fn written_over(words: &Words, pokes: &[(usize, u32)]) -> Words {
    let mut words = words.clone();
    for &(place, value) in pokes {
        words.state[place] = value;
    }
    words
}

/// What a load of no words leaves.
fn loaded_by_no_words(words: &Words) -> Words {
    loaded_by(&idle_network().words(), words)
}

/// What a load of a sheet leaves, or would leave if it took the sheet.
fn loaded_by(sheet: &[u32], words: &Words) -> Words {
    let mut loaded = words.clone();
    loaded.state[..MOVING_WORDS].fill(0);
    loaded.state[SHEET_LENGTH] = sheet.len() as u32;
    loaded.state[SHEET..SHEET + sheet.len()].copy_from_slice(sheet);
    loaded
}

/// Words of any content, of the lengths that a load of the plan asks for.
fn unloaded_for(plan: &Plan) -> Words {
    let mut random = Random::new(13);
    let memory = (0..plan.nodes() * plan.memory_words).map(|_| random.word()).collect();
    Words::new(vec![0xA5A5_A5A5; STATE_WORDS + SPARE_WORDS], memory)
}

/// What a state meets in a cycle.
pub fn met_name(read: &Result<Machine, Vec<Clause>>) -> String {
    match read {
        Err(broken) if broken.len() == 1 => format!("13 by {:?} alone", broken[0]),
        Err(_) => "13 by several clauses".to_string(),
        Ok(machine) => match machine.faults()[..] {
            [] => "cycle carried out".to_string(),
            [fault] => format!("20 by {fault:?} alone"),
            _ => "20 by several causes".to_string(),
        },
    }
}

/// How the words of a generated session stand after some of its calls, and the plan that is loaded then.
pub fn snapshot(session: u64) -> (Words, Machine, Plan) {
    let mut generator = Generator::new(session);
    let mut words = generator.lent_words();
    let mut second = Second::living();
    let load = generator.first_load();
    words.make(&load.call, load.lent, &mut second);
    for _ in 0..generator.random.between(20, 120) {
        let made = generator.next(second.view());
        words.make(&made.call, made.lent, &mut second);
    }
    words.memory.truncate(second.view().sheet.all_memory_words());
    (words, second.view().clone(), generator.plan().clone())
}

/// A register written over, or some that stand beside each other, with values that are mostly
/// near the bounds of what is sound.
pub fn some_pokes(random: &mut Random, machine: &Machine) -> Vec<(usize, u32)> {
    let circuits = machine.senders.len();
    match random.between(0, 19) {
        0..=7 => some_cell_pokes(random, machine),
        8..=10 => some_receiver_pokes(random, machine),
        11..=13 => some_clock_pokes(random, machine),
        14 if circuits > 0 => vec![(Row::ToGo.at(random.position(circuits)), random.between(0, 3))],
        15 | 16 if circuits > 0 => some_rest(random, machine),
        17 | 18 => some_sheet_pokes(random, machine),
        // Registers that the sheet lacks too.
        _ => {
            let row = random.position(MOVING_WORDS / ROW_WORDS);
            let value = random.choose(&[0, 1, 2, 3, 4, 6, u32::MAX]);
            vec![(row * ROW_WORDS + random.position(ROW_WORDS), value)]
        }
    }
}

fn some_cell_pokes(random: &mut Random, machine: &Machine) -> Vec<(usize, u32)> {
    let port = random.position(PORTS * machine.nodes.len());
    let header = random.choose(&[0, 0, 2, 2, 1, 3]) << 30 | random.word() >> 2;
    let mark = random.choose(&[0, 1, 1, 2, 2, 3, 3, 4, u32::MAX]);
    let choice = random.choose(&[0, 1, 2, 3, 4, 5, 5, 6]);
    match random.between(0, 7) {
        0 | 1 => vec![(Row::LinkMark.at(port), mark), (Row::LinkWord.at(port), header)],
        2 | 3 => vec![(Row::HeadMark.at(port), mark), (Row::HeadWord.at(port), header), (Row::Choice.at(port), choice)],
        4 | 5 => vec![(Row::OutMark.at(port), mark), (Row::OutWord.at(port), header)],
        6 => vec![(Row::Choice.at(port), choice)],
        _ => vec![(Row::Latch.at(port), choice)],
    }
}

fn some_receiver_pokes(random: &mut Random, machine: &Machine) -> Vec<(usize, u32)> {
    let node = random.position(machine.nodes.len());
    let memory_words = machine.sheet.memory_words() as u32;
    let mark = random.between(0, 2);
    let kind = random.between(0, 4);
    let some_address = random.between(0, memory_words - 1);
    let address = random.choose(&[0, memory_words - 1, memory_words, some_address, u32::MAX]);
    match random.between(0, 2) {
        0 => vec![(Row::ReceiveMark.at(node), mark), (Row::ReceiveKind.at(node), kind)],
        1 => vec![
            (Row::ReceiveMark.at(node), 1),
            (Row::ReceiveKind.at(node), 0),
            (Row::ReceiveAddress.at(node), address),
        ],
        _ => vec![(Row::LandingMark.at(node), mark), (Row::LandingKind.at(node), kind)],
    }
}

fn some_clock_pokes(random: &mut Random, machine: &Machine) -> Vec<(usize, u32)> {
    let schedules = machine.sheet.sheet.schedules.len() as u32;
    let period = machine.sheet.sheet.schedules[machine.clock.schedule as usize].period as u32;
    let some_cycle = random.between(0, period - 1);
    let cycle = random.choose(&[0, period - 1, period, some_cycle]);
    let schedule = random.between(0, schedules);
    match random.between(0, 2) {
        0 => vec![(Row::Clock.at(CYCLE), cycle)],
        1 => vec![(Row::Clock.at(SCHEDULE), schedule)],
        // For the next period, so that the order soon takes effect.
        _ => vec![
            (Row::Clock.at(CYCLE), period - 1),
            (Row::Clock.at(ORDER_MARK), random.between(0, 2)),
            (Row::Clock.at(ORDER_SCHEDULE), schedule),
            (Row::Clock.at(ORDER_PERIOD), machine.period_number().wrapping_add(random.between(0, 2))),
        ],
    }
}

fn some_sheet_pokes(random: &mut Random, machine: &Machine) -> Vec<(usize, u32)> {
    let length = machine.sheet.words.len();
    let place = random.position(length);
    let word = machine.sheet.words[place];
    let changed = random.choose(&[word.wrapping_add(1), word.wrapping_sub(1), 0, u32::MAX]);
    let stated = random.choose(&[0, 4, length as u32 - 1, length as u32 + 1, 8_597, 8_598, u32::MAX]);
    vec![random.choose(&[(SHEET + place, changed), (SHEET + place, changed), (SHEET_LENGTH, stated)])]
}

/// A sound value for every register, with as many words on their way as there can be: each
/// input of a router has an output of its own, a payload word has its choice or its packet.
pub fn filled_registers(random: &mut Random, machine: &Machine) -> Vec<(usize, u32)> {
    let memory_words = machine.sheet.memory_words() as u32;
    let mut pokes = Vec::new();
    for node in 0..machine.nodes.len() {
        let first_output = random.between(0, 4);
        for port in 0..PORTS {
            let [link, head, out] = [0; 3].map(|_| some_cell(random));
            let own_output = (first_output + 2 * port as u32) % 5 + 1;
            let choice = if head.mark == EMPTY { random.word() } else { own_output };
            let latch = if link.is_payload() { random.between(1, 5) } else { random.between(0, 5) };
            pokes.extend([
                (Row::LinkMark.of_port(node, port), link.mark),
                (Row::LinkWord.of_port(node, port), link.word),
                (Row::HeadMark.of_port(node, port), head.mark),
                (Row::HeadWord.of_port(node, port), head.word),
                (Row::Choice.of_port(node, port), choice),
                (Row::Latch.of_port(node, port), latch),
                (Row::OutMark.of_port(node, port), out.mark),
                (Row::OutWord.of_port(node, port), out.word),
            ]);
        }
        pokes.extend([
            (Row::ReceiveMark.at(node), 1),
            (Row::ReceiveKind.at(node), random.choose(&[DATA, INTERRUPT])),
            (Row::ReceiveAddress.at(node), random.between(0, memory_words - 1)),
            (Row::LandingMark.at(node), random.between(0, 1)),
            (Row::LandingKind.at(node), random.word()),
            (Row::LandingAddress.at(node), random.word()),
            (Row::LandingWord.at(node), random.word()),
        ]);
    }
    pokes
}

/// A cell with any mark; a header has a kind that travels.
pub fn some_cell(random: &mut Random) -> Cell {
    let mark = random.between(EMPTY, LAST);
    let word = match mark {
        HEADER => random.choose(&[DATA, INTERRUPT]) << 30 | random.word() >> 2,
        _ => random.word(),
    };
    Cell { mark, word }
}

/// A whole transfer's rest, right or a little wrong.
fn some_rest(random: &mut Random, machine: &Machine) -> Vec<(usize, u32)> {
    let circuit = random.position(machine.senders.len());
    let record = &machine.sheet.sheet.circuits[circuit];
    let left = random.between(0, record.read_length.min(record.receive_length) as u32 + 1);
    let read = record.read_offset as u32 + random.between(0, 1);
    let write = record.receive_offset as u32 + random.between(0, 1);
    vec![
        (Row::Left.at(circuit), left),
        (Row::Read.at(circuit), read),
        (Row::Write.at(circuit), write),
        (Row::Kind.at(circuit), random.choose(&[0, 0, 0, 2, 1, 3])),
        (Row::ToGo.at(circuit), random.choose(&[0, 0, 1, left, left + 1])),
    ]
}

/// Up to eight starts, most of them right on a circuit that is free; none where there is no circuit.
fn some_transfers(random: &mut Random, machine: &Machine) -> Vec<Transfer> {
    let circuits = machine.senders.len();
    let count = if circuits == 0 { 0 } else { random.between(1, 8) };
    let mut transfer = || {
        let circuit = random.position(circuits);
        let record = &machine.sheet.sheet.circuits[circuit];
        let (read, write) = (record.read_offset as u32, record.receive_offset as u32);
        let (count, kind) = (random.choose(&[0, 1, 1, 1, 2]), random.choose(&[DATA, DATA, INTERRUPT, 1]));
        Transfer { circuit: circuit as u32, read, write, count, kind }
    };
    (0..count).map(|_| transfer()).collect()
}

/// Any call but a cycle, with arguments at and about their bounds.
fn some_call(random: &mut Random, machine: &Machine) -> Call {
    let nodes = machine.nodes.len() as u32;
    let circuits = machine.senders.len() as u32;
    let memory_words = machine.sheet.memory_words() as u32;
    let (node, address) = (random.between(0, nodes), random.between(0, memory_words));
    match random.between(0, 7) {
        0 if random.once_in(3) => Call::Load { sheet: Vec::new() },
        0 => Call::Load { sheet: machine.sheet.words.clone() },
        1 if circuits > 0 => {
            let circuit = random.between(0, circuits - 1);
            let record = &machine.sheet.sheet.circuits[circuit as usize];
            let (read, write) = (record.read_offset as u32, record.receive_offset as u32);
            Call::Start { circuit, read, write, count: random.between(0, 2), kind: random.choose(&[0, 2, 1]) }
        }
        2 => Call::Store { node, address, word: random.word() },
        3 => Call::Fetch { node, address },
        4 => Call::WordsLeft { circuit: random.between(0, circuits) },
        5 => Call::PeriodNumber,
        6 => Call::WhatLanded { node, field: random.between(0, 4) },
        _ => {
            let schedule = random.between(0, machine.sheet.sheet.schedules.len() as u32);
            Call::Order { schedule, period_number: machine.period_number().wrapping_add(random.between(0, 5)) }
        }
    }
}
