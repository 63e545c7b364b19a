//! Plays generated sessions call by call: whoever is tested, the second machine and the
//! reckoning of every circuit have to say the same, and every lent word has to be as the
//! second machine says, after refused calls too. A load of no words has to do what a load of
//! the idle network does that they stand for, and a list of transfers the same in both forms.

use super::calls::{lists_of, number_of, Call, Calls, Second};
use super::coverage::Coverage;
use super::lent::{Row, PERIOD_NUMBER, STATE_WORDS};
use super::machine::{Machine, Transfer, INTERRUPT};
use super::play_long;
use super::play_names::{
    answer_name, idle_name, made_name, record_name, wanted, wanted_often, LIST, LOADS_NO_WORDS, LOAD_OF_NO_WORDS,
};
use super::play_travelling::{compare_ways, Flights};
use super::reckoning::{Calendar, Reckoning, Word};
use super::sessions::{
    Generator, Made, FURTHER_FROM, LISTS_FROM, LONG_LINKS_FROM, NO_WORDS_FROM, SESSIONS, TRAVELLING_FROM,
};
use super::sheets::idle_network;
use super::words::{Lent, Words};
use std::ops::Range;
use std::process::ExitCode;

const DIFFERENCES_SHOWN: usize = 5;
/// Sessions on long links for who is only to be noticed or not.
const SESSIONS_FOR_NOTICING: u64 = 100;

/// Cycles between two rounds of questions about every circuit and node.
const QUESTIONS_EVERY: u32 = 9;

struct Player<'a, C> {
    tested: &'a mut C,
    coverage: &'a mut Coverage,
    second: Second,
    reckonings: Vec<Reckoning>,
    /// What holds without circuits too; there is one once a load was carried out.
    calendar: Option<Calendar>,
    /// Which circuits a list started last.
    started_by_list: Vec<bool>,
    flights: Flights,
    /// Whether the network was loaded by no words.
    idle: bool,
    loads_of_no_words: u32,
    actual: Words,
    expected: Words,
    cycles: u32,
}

/// Plays every session and prints what was met. Each session is one pass.
pub fn play_all(tested: &mut impl Calls) -> ExitCode {
    let mut coverage = Coverage::default();
    let mut differences = Vec::new();
    let mut passed = 0;
    for session in 0..SESSIONS {
        match play(tested, &mut coverage, session) {
            Ok(()) => passed += 1,
            Err(difference) => differences.push(format!("session {session}: {difference}")),
        }
    }
    if tested.state_words() as usize == STATE_WORDS {
        passed += 1;
    } else {
        differences.push(format!("the published length is {STATE_WORDS} words"));
    }
    coverage.print();
    for difference in differences.iter().take(DIFFERENCES_SHOWN) {
        println!("{difference}");
    }
    let mut complete = coverage.has_all(wanted().iter().map(String::as_str));
    for (count, name) in wanted_often() {
        complete &= coverage.has_at_least(count, &name);
    }
    let failed = differences.len() + usize::from(!complete);
    println!("{passed} passed, {failed} failed");
    if failed == 0 {
        ExitCode::SUCCESS
    } else {
        ExitCode::FAILURE
    }
}

/// Whether a session in which no words are loaded tells someone from the second machine. Sheets with
/// an unserved circuit are loaded there too.
pub fn is_noticed(tested: &mut impl Calls) -> bool {
    is_noticed_in(tested, NO_WORDS_FROM..LISTS_FROM)
}

/// Whether a session with lists does.
pub fn is_noticed_by_lists(tested: &mut impl Calls) -> bool {
    is_noticed_in(tested, LISTS_FROM..TRAVELLING_FROM)
}

/// Whether a session on long vertical links does.
pub fn is_noticed_on_long_links(tested: &mut impl Calls) -> bool {
    is_noticed_in(tested, LONG_LINKS_FROM..LONG_LINKS_FROM + SESSIONS_FOR_NOTICING)
}

/// Whether a session does in which circuits are started while their words travel.
pub fn is_noticed_by_starts(tested: &mut impl Calls) -> bool {
    is_noticed_in(tested, TRAVELLING_FROM..FURTHER_FROM)
}

fn is_noticed_in(tested: &mut impl Calls, mut sessions: Range<u64>) -> bool {
    sessions.any(|session| play(tested, &mut Coverage::default(), session).is_err())
}

fn play(tested: &mut impl Calls, coverage: &mut Coverage, session: u64) -> Result<(), String> {
    let mut generator = Generator::new(session);
    let words = generator.lent_words();
    let mut player = Player {
        tested,
        coverage,
        second: Second::living(),
        reckonings: Vec::new(),
        calendar: None,
        started_by_list: Vec::new(),
        flights: Flights::default(),
        idle: false,
        loads_of_no_words: 0,
        actual: words.clone(),
        expected: words,
        cycles: 0,
    };
    player.make(&generator.first_load())?;
    if let Some(number) = generator.first_period {
        player.number_periods_from(number);
    }
    let mut calls = 0;
    while player.cycles < generator.cycles {
        let made = generator.next(player.second.view());
        calls += 1;
        player.make(&made).map_err(|difference| format!("call {calls} after the load: {difference}"))?;
        if matches!(made.call, Call::Cycle) && made.expected == 0 && player.cycles % QUESTIONS_EVERY == 0 {
            player.ask_everything(made.lent)?;
        }
    }
    if player.loads_of_no_words > 0 {
        player.coverage.met(LOADS_NO_WORDS);
    }
    Ok(())
}

impl<C: Calls> Player<'_, C> {
    /// Makes one call and compares the answer and every lent word.
    fn make(&mut self, made: &Made) -> Result<(), String> {
        let before = self.calendar.is_some().then(|| self.second.view().clone());
        if let Some(before) = &before {
            compare_ways(before, &self.reckonings, made).map_err(|what| format!("{}: {what}", made.name))?;
        }
        let other_form = other_form(&made.call).map(|call| (call, self.actual.clone()));
        let expected = self.expected.make(&made.call, made.lent, &mut self.second);
        let actual = self.actual.make(&made.call, made.lent, self.tested);
        let complaint =
            |what: String| format!("{} ({}, {:?}): {what}", made.name, made.call.start_of_text(), made.lent);
        if number_of(expected) != made.expected {
            return Err(complaint(format!("made for {}, second machine {expected:#x}", made.expected)));
        }
        if actual != expected {
            return Err(complaint(format!("answered {actual:#x}, second machine {expected:#x}")));
        }
        self.actual.compare(&self.expected).map_err(complaint)?;
        self.compare_answers(made).map_err(complaint)?;
        if let Some((call, words)) = other_form {
            self.make_in_other_form(&call, words, made, actual).map_err(complaint)?;
        }
        self.note_answer(made);
        if let Some(before) = &before {
            self.note_situation(before, made);
        }
        if made.expected == 0 && !made.call.is_question() {
            self.reckon(&made.call);
            self.compare_reckonings().map_err(complaint)?;
        }
        Ok(())
    }

    /// The words lent for answers to a list, by the way its records were made; all others stay.
    fn compare_answers(&self, made: &Made) -> Result<(), String> {
        let Some(unanswered) = made.call.unanswered() else {
            return Ok(());
        };
        let written = if made.expected == 0 { &made.answers[..] } else { &[] };
        let answers = [written, &unanswered[written.len()..]].concat();
        if self.expected.answers.starts_with(&answers) {
            Ok(())
        } else {
            Err(format!("made for the answers {answers:?}, second machine {:?}", self.expected.answers))
        }
    }

    /// Makes the call in its other form on a copy of the words: the answer and every lent word have to
    /// be the same.
    fn make_in_other_form(&mut self, call: &Call, mut words: Words, made: &Made, answer: u64) -> Result<(), String> {
        let other = words.make(call, made.lent, self.tested);
        if other != answer {
            return Err(format!("answered {answer:#x}, as {} {other:#x}", call.start_of_text()));
        }
        words.compare(&self.expected).map_err(|what| format!("as {}: {what}", call.start_of_text()))?;
        if matches!(call, Call::Load { .. }) {
            self.coverage.met(&answer_name(LOAD_OF_NO_WORDS, made.expected));
        } else {
            self.coverage.met(&answer_name(call.name(), made.expected));
            self.coverage.met(LIST);
        }
        Ok(())
    }

    fn note_answer(&mut self, made: &Made) {
        let name = answer_name(made.call.name(), made.expected);
        self.coverage.met(&name);
        if self.idle {
            self.coverage.met(&idle_name(&name));
        }
        self.coverage.met(&made_name(made.name));
        if made.lent.state > STATE_WORDS {
            self.coverage.met("situation: state longer than published");
        }
        if made.expected == 0 {
            made.answers.iter().for_each(|&answer| self.coverage.met(&record_name(answer)));
        }
    }

    /// What words left and what landed answer, for every circuit and node.
    fn ask_everything(&mut self, lent: Lent) -> Result<(), String> {
        let circuits = self.second.view().senders.len();
        for circuit in 0..circuits as u32 {
            let call = Call::WordsLeft { circuit };
            self.make(&Made::new("words left of every circuit", call, lent, 0))?;
        }
        let landed: Vec<bool> = self.second.view().nodes.iter().map(|node| node.landing.mark == 1).collect();
        for (node, landed) in (0..).zip(landed) {
            for field in 0..if landed { 4 } else { 1 } {
                let call = Call::WhatLanded { node, field };
                self.make(&Made::new("what landed at every node", call, lent, 0))?;
            }
        }
        Ok(())
    }

    /// Gives the period another number directly after the load, in all that is compared.
    fn number_periods_from(&mut self, period_number: u32) {
        for words in [&mut self.actual, &mut self.expected] {
            words.state[Row::Clock.at(PERIOD_NUMBER)] = period_number;
        }
        self.second.take_up(&self.expected.state);
        for reckoning in &mut self.reckonings {
            reckoning.number_periods_from(period_number);
        }
        if let Some(calendar) = &mut self.calendar {
            calendar.period_number = period_number;
        }
    }

    /// Tells the reckonings and the calendar of a call that was carried out.
    fn reckon(&mut self, call: &Call) {
        match (call, &mut self.calendar) {
            (Call::Order { schedule, period_number }, Some(calendar)) => calendar.order(*schedule, *period_number),
            (Call::Cycle, Some(calendar)) => calendar.pass_cycle(),
            _ => {}
        }
        match *call {
            Call::Load { sheet: ref loaded } => {
                let sheet = &self.second.view().sheet.sheet;
                self.calendar = Some(Calendar::new(sheet));
                self.idle = loaded.is_empty();
                self.loads_of_no_words += u32::from(self.idle);
                self.reckonings = (0..sheet.circuits.len())
                    .map(|circuit| Reckoning::new(sheet, circuit, &self.actual.memory))
                    .collect();
                self.started_by_list = vec![false; self.reckonings.len()];
            }
            Call::Start { circuit, read, write, count, kind } => {
                self.reckonings[circuit as usize].start(read, write, count, kind);
                self.started_by_list[circuit as usize] = false;
            }
            // A record answered with 0 counts as a start.
            Call::StartAll { .. } | Call::StartLists { .. } => {
                for Transfer { circuit, read, write, count, kind } in self.taken_records(call) {
                    self.reckonings[circuit as usize].start(read, write, count, kind);
                    self.started_by_list[circuit as usize] = true;
                }
            }
            Call::Store { node, address, word } => {
                self.reckonings.iter_mut().for_each(|reckoning| reckoning.store(node, address, word))
            }
            Call::Order { schedule, period_number } => {
                self.reckonings.iter_mut().for_each(|reckoning| reckoning.order(schedule, period_number))
            }
            Call::Cycle => {
                self.cycles += 1;
                self.reckonings.iter_mut().for_each(Reckoning::cycle);
            }
            _ => {}
        }
    }

    /// The records of a list that were answered with 0, in their order.
    fn taken_records(&self, call: &Call) -> Vec<Transfer> {
        let answered = call.transfers().into_iter().flatten().zip(&self.actual.answers);
        answered.filter(|&(_, &answer)| answer == 0).map(|(transfer, _)| transfer).collect()
    }

    /// The machine has the words of the tested state by now; it shows what is reckoned.
    fn compare_reckonings(&self) -> Result<(), String> {
        let machine = self.second.view();
        if let Some(calendar) = &self.calendar {
            let shown = (machine.clock.schedule as usize, machine.period_number(), u64::from(machine.clock.cycle));
            let reckoned = (calendar.schedule, calendar.period_number, calendar.cycle);
            if shown != reckoned {
                return Err(format!("schedule, period number, cycle {shown:?}, reckoned {reckoned:?}"));
            }
        }
        for (circuit, reckoning) in self.reckonings.iter().enumerate() {
            compare_reckoning(machine, circuit, reckoning, &self.actual.memory)
                .map_err(|what| format!("circuit {circuit}: {what}"))?;
        }
        // Whatever landed is some circuit's.
        for node in 0..machine.nodes.len() as u32 {
            if let Ok(Some(landing)) = machine.what_landed(node) {
                if !self.reckonings.iter().any(|reckoning| reckoning.receives_at(node, landing.address)) {
                    return Err(format!("at node {node} landed {landing:?}, in no receive region"));
                }
            }
        }
        Ok(())
    }

    fn note_situation(&mut self, before: &Machine, made: &Made) {
        let mut names = self.flights.note(before, &self.reckonings, made);
        let travelling = self.reckonings.iter().any(Reckoning::has_words_travelling);
        if made.expected != 0 {
            if travelling {
                names.push("refused call on a state with words travelling".to_string());
            }
        } else {
            names.extend(play_long::names(before, self.second.view(), &self.reckonings, made));
            match made.call {
                Call::Load { ref sheet } => self.note_load(before, sheet, travelling, &mut names),
                Call::Start { circuit, .. } => self.note_start(before, circuit as usize, &mut names),
                Call::StartAll { .. } | Call::StartLists { .. } => {
                    self.note_list(before, &made.call, travelling, &mut names)
                }
                Call::Store { node, address, .. } => self.note_store(before, node, address, &mut names),
                Call::Order { period_number, .. } if period_number < before.period_number() => {
                    names.push("order for a period behind the wrap".to_string());
                }
                Call::Cycle => self.note_cycle(before, travelling, &mut names),
                _ => {}
            }
        }
        for name in names {
            self.coverage.met(&format!("situation: {name}"));
            if self.idle {
                self.coverage.met(&idle_name(&name));
            }
        }
    }

    fn note_load(&self, before: &Machine, sheet: &[u32], travelling: bool, names: &mut Vec<String>) {
        let no_words = sheet.is_empty();
        if before.senders.iter().any(|sender| sender.left > 0) {
            names.push("load carried out in the midst of transfers".to_string());
            if no_words {
                names.push("no words loaded in the midst of transfers".to_string());
            }
        }
        if no_words && travelling {
            names.push("no words loaded while words travel".to_string());
        }
        if self.idle {
            names.push(if no_words { "no words loaded again" } else { "another sheet loaded" }.to_string());
        }
    }

    fn note_start(&self, before: &Machine, circuit: usize, names: &mut Vec<String>) {
        let slot_begins = |cycle: u64| {
            let entries = &before.sheet.sheet.schedules[before.clock.schedule as usize].entries;
            entries.iter().any(|entry| entry.circuit == circuit as u64 && entry.offset == cycle)
        };
        if !serves(before, circuit) {
            names.push("start of a circuit that only another schedule serves".to_string());
        }
        let cycle = u64::from(before.clock.cycle);
        if slot_begins(cycle) {
            names.push("start in the first cycle of the circuit's slot".to_string());
        }
        if cycle > 0 && slot_begins(cycle - 1) {
            names.push("start a cycle after its slot began".to_string());
        }
    }

    fn note_list(&self, before: &Machine, call: &Call, travelling: bool, names: &mut Vec<String>) {
        if travelling {
            names.push("list while words travel".to_string());
        }
        let taken = self.taken_records(call);
        if taken.len() > 1 {
            names.push("list starts several circuits".to_string());
        }
        let mut starts = Vec::new();
        taken.iter().for_each(|transfer| self.note_start(before, transfer.circuit as usize, &mut starts));
        names.extend(starts.iter().map(|name| format!("by a list, {name}")));
    }

    fn note_store(&self, before: &Machine, node: u32, address: u32, names: &mut Vec<String>) {
        for (circuit, sender) in before.senders.iter().enumerate() {
            let source = before.sheet.sheet.circuits[circuit].source;
            if u64::from(node) == source && address >= sender.read && address - sender.read < sender.left {
                names.push("store at an address still to be read".to_string());
            }
            let reckoning = &self.reckonings[circuit];
            if reckoning.has_words_travelling() && reckoning.receives_at(node, address) {
                names.push("store into a receive region while words travel to it".to_string());
            }
        }
    }

    fn note_cycle(&self, before: &Machine, travelling: bool, names: &mut Vec<String>) {
        let after = self.second.view();
        let sheet = &after.sheet.sheet;
        let mut landings = 0;
        for (number, node) in after.nodes.iter().enumerate().filter(|(_, node)| node.landing.mark == 1) {
            landings += 1;
            names.push(if node.landing.kind == INTERRUPT { "interrupt lands" } else { "data lands" }.to_string());
            let receives = |reckoning: &Reckoning| reckoning.receives_at(number as u32, node.landing.address);
            if let Some(circuit) = self.reckonings.iter().position(receives) {
                names.push(format!("landing after {} hops", self.reckonings[circuit].hops));
                if self.started_by_list[circuit] {
                    names.push("word of a transfer that a list started lands".to_string());
                }
            }
            if node.landing.address == 16_383 {
                names.push("landing at the last address of a memory of 16,384 words".to_string());
            }
        }
        if landings > 0 {
            names.push(format!("landing in a grid of {} by {}", sheet.columns, sheet.rows));
        }
        if landings > 1 {
            names.push("landings at several nodes in one cycle".to_string());
        }
        for entry in &sheet.schedules[before.clock.schedule as usize].entries {
            let left = u64::from(before.senders[entry.circuit as usize].left);
            if entry.offset == u64::from(before.clock.cycle) && left > 0 && left != entry.length - 1 {
                let more = if left > entry.length - 1 { "more" } else { "fewer" };
                names.push(format!("slot begins with {more} words owed than it holds"));
            }
        }
        if after.clock.cycle == 0 {
            note_period(before, after, travelling, names);
        }
    }
}

/// A call that has to do the same: no words are loaded as the idle network's, a list comes in its other form.
fn other_form(call: &Call) -> Option<Call> {
    match call {
        Call::Load { sheet } if sheet.is_empty() => Some(Call::Load { sheet: idle_network().words() }),
        Call::StartAll { transfers, answers } => {
            Some(Call::StartLists { lists: lists_of(transfers), answers: answers.clone() })
        }
        Call::StartLists { answers, .. } => {
            call.transfers().map(|transfers| Call::StartAll { transfers, answers: answers.clone() })
        }
        _ => None,
    }
}

/// A cycle that ends a period.
fn note_period(before: &Machine, after: &Machine, travelling: bool, names: &mut Vec<String>) {
    if after.period_number() == 0 {
        names.push("period number wraps".to_string());
    }
    if travelling {
        names.push("words travel over the end of a period".to_string());
    }
    if before.clock.order.mark == 1 && after.clock.order.mark == 0 {
        let period = |machine: &Machine| machine.sheet.sheet.schedules[machine.clock.schedule as usize].period;
        let name = if before.clock.schedule == after.clock.schedule {
            "schedule in force ordered again and put in force"
        } else if period(before) == period(after) {
            "switch to another schedule of the same period"
        } else {
            "switch to a schedule of another period"
        };
        names.push(name.to_string());
        if travelling && before.clock.schedule != after.clock.schedule {
            names.push("words travel over a switch".to_string());
        }
        let waits = |circuit: usize| after.senders[circuit].left > 0 && !serves(before, circuit);
        if (0..after.senders.len()).any(|circuit| waits(circuit) && serves(after, circuit)) {
            let name = "switch to a schedule that serves a circuit which the one before did not, with words left";
            names.push(name.to_string());
        }
    }
}

/// Whether the schedule in force has an entry of the circuit.
fn serves(machine: &Machine, circuit: usize) -> bool {
    let entries = &machine.sheet.sheet.schedules[machine.clock.schedule as usize].entries;
    entries.iter().any(|entry| entry.circuit == circuit as u64)
}

fn compare_reckoning(machine: &Machine, circuit: usize, reckoning: &Reckoning, memory: &[u32]) -> Result<(), String> {
    let shown =
        [machine.words_left(circuit as u32).unwrap_or(u32::MAX), machine.period_number(), machine.clock.schedule];
    let reckoned = [reckoning.owed(), reckoning.period_number(), reckoning.schedule()];
    if shown != reckoned {
        return Err(format!("words left, period number, schedule {shown:?}, reckoned {reckoned:?}"));
    }
    let (counted, reckoned) = (machine.words_travelling(circuit), reckoning.words_travelling());
    if counted != Some(reckoned) || reckoning.has_words_travelling() != (reckoned > 0) {
        return Err(format!("words travelling, counted {counted:?}, reckoned {reckoned}"));
    }
    let destination = reckoning.destination();
    let landed = machine.what_landed(destination).ok().flatten();
    let landed = landed.filter(|landing| reckoning.receives_at(destination, landing.address)).map(|landing| Word {
        kind: landing.kind,
        address: landing.address,
        word: landing.word,
    });
    if landed != reckoning.landed() {
        return Err(format!("landed {landed:?}, reckoned {:?}", reckoning.landed()));
    }
    for (node, offset, words) in reckoning.regions() {
        let start = node as usize * machine.sheet.memory_words() + offset as usize;
        if memory[start..start + words.len()] != *words {
            return Err(format!("words from {offset} on at node {node} are not as reckoned: {words:?}"));
        }
    }
    Ok(())
}
