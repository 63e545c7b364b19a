//! Starts about the moment in which a circuit becomes free (L3). In every session circuits are often started again
//! directly after their last word landed; the sessions behind `TRAVELLING_FROM` also start circuits whose words
//! travel, one by one and in lists, again with other calls in between, and load the same sheet anew while words
//! travel.
//!
//! Covered there: payload words that look like headers of another circuit; short periods, so that words travel over a
//! period's end and over a switch, in every other session mostly by four hops.

use super::calls::Call;
use super::machine::{Machine, DATA, INTERRUPT};
use super::sessions::{Generator, Made, Start};
use super::sheets::Circuit;
use std::collections::VecDeque;

/// What is called next, whatever else might be.
#[derive(Clone, Copy)]
enum Planned {
    /// A call that changes nothing for the circuit.
    Between(usize),
    Again(Start),
    ListOfEveryCircuit,
    Order,
}

/// What a generator remembers for this.
#[derive(Default)]
pub struct Aim {
    /// Whether the session is one behind `TRAVELLING_FROM`.
    is_wanted: bool,
    switches_soon: bool,
    /// Which circuits were busy at the last call; empty after a load.
    was_busy: Vec<bool>,
    planned: VecDeque<Planned>,
    /// Period number and schedule at the last call.
    period: (u32, u32),
    /// Whether the present period began with another schedule.
    is_switched: bool,
}

impl Aim {
    /// Of a session behind `TRAVELLING_FROM`, which may switch as soon as can be.
    pub fn at_landings(switches_soon: bool) -> Aim {
        let planned = if switches_soon { VecDeque::from([Planned::Order]) } else { VecDeque::new() };
        Aim { is_wanted: true, switches_soon, planned, ..Aim::default() }
    }

    /// A load leaves every circuit free.
    pub fn forget(&mut self) {
        *self = if self.is_wanted { Aim::at_landings(self.switches_soon) } else { Aim::default() };
    }

    fn note_period(&mut self, machine: &Machine) {
        let period = (machine.period_number(), machine.clock.schedule);
        if period.0 != self.period.0 {
            self.is_switched = period.1 != self.period.1;
            if self.is_switched && self.switches_soon {
                self.planned.push_back(Planned::Order);
            }
        }
        self.period = period;
    }

    /// The circuits that became free since the last call.
    fn freed(&mut self, machine: &Machine) -> Vec<usize> {
        let is_busy: Vec<bool> = (0..machine.senders.len()).map(|circuit| machine.is_busy(circuit)).collect();
        let was_busy = std::mem::replace(&mut self.was_busy, is_busy);
        let freed = was_busy.iter().zip(&self.was_busy).enumerate().filter(|(_, (&was, &is))| was && !is);
        freed.map(|(circuit, _)| circuit).collect()
    }
}

impl Generator {
    /// A call about a landing, where it is time for one.
    pub fn about_landings(&mut self, machine: &Machine) -> Option<Made> {
        let freed = self.aim.freed(machine);
        self.aim.note_period(machine);
        if let Some(planned) = self.aim.planned.pop_front() {
            return Some(self.planned_call(planned, machine));
        }
        if !freed.is_empty() && self.random.once_in(if self.aim.is_wanted { 2 } else { 3 }) {
            if self.has_lists && self.random.once_in(2) {
                return Some(self.list_on_free_circuit(machine));
            }
            let circuit = self.random.choose(&freed);
            return Some(self.start_about_landings(circuit, machine));
        }
        if !self.aim.is_wanted {
            return None;
        }
        // A load puts a switch off.
        if self.random.once_in(if self.aim.switches_soon { 250 } else { 100 }) {
            return Some(self.load_again());
        }
        let waits = |&circuit: &usize| machine.senders[circuit].left == 0 && machine.is_busy(circuit);
        let waiting: Vec<usize> = (0..machine.senders.len()).filter(waits).collect();
        // What travels over a switch lands in the first cycles behind it.
        let now = self.aim.is_switched && machine.clock.cycle < 5;
        if waiting.is_empty() || !self.random.once_in(if now { 2 } else { 4 }) {
            return None;
        }
        let circuit = self.random.choose(&waiting);
        Some(self.start_about_landings(circuit, machine))
    }

    /// A start, now and then as a list with others; where it is refused, it often comes again.
    fn start_about_landings(&mut self, circuit: usize, machine: &Machine) -> Made {
        let start = self.right_start(circuit);
        if self.aim.is_wanted && machine.is_busy(circuit) && self.random.once_in(3) {
            for _ in 0..self.random.between(0, 2) {
                self.aim.planned.push_back(Planned::Between(circuit));
            }
            self.aim.planned.push_back(Planned::Again(start));
        }
        self.start_in_any_form(start, machine)
    }

    fn start_in_any_form(&mut self, start: Start, machine: &Machine) -> Made {
        if (self.aim.is_wanted || self.has_lists) && self.random.once_in(3) {
            return self.list_about_landings(start, machine);
        }
        let expected = if machine.is_busy(start.transfer.circuit as usize) { 17 } else { 0 };
        self.made(start.name, Call::start(start.transfer), expected)
    }

    fn planned_call(&mut self, planned: Planned, machine: &Machine) -> Made {
        match planned {
            Planned::Again(start) => self.start_in_any_form(start, machine),
            Planned::Between(circuit) => self.call_between(circuit, machine),
            Planned::ListOfEveryCircuit => self.list_of_every_circuit(machine),
            Planned::Order => self.switch(machine),
        }
    }

    /// An order of another schedule, as soon as it may come.
    fn switch(&mut self, machine: &Machine) -> Made {
        let others: Vec<u32> =
            (0..self.plan().schedules.len() as u32).filter(|&schedule| schedule != machine.clock.schedule).collect();
        if others.is_empty() || machine.clock.order.mark == 1 {
            return self.order(machine);
        }
        let schedule = self.random.choose(&others);
        let period_number = machine.period_number().wrapping_add(3);
        self.made("order", Call::Order { schedule, period_number }, 0)
    }

    /// A store into the circuit's regions, an order, a question about it, or a call that is refused.
    fn call_between(&mut self, circuit: usize, machine: &Machine) -> Made {
        let record = self.plan().circuits[circuit];
        let random = &mut self.random;
        let (node, address) = if random.once_in(2) {
            (record.source, record.read_offset + random.between(0, record.read_length - 1))
        } else {
            (record.destination, record.receive_offset + random.between(0, record.receive_length - 1))
        };
        let word = random.word();
        if machine.clock.order.mark == 0 && random.once_in(3) {
            return self.order(machine);
        }
        match random.between(0, 5) {
            0 => self.made("store", Call::Store { node, address, word }, 0),
            1 => self.made("fetch", Call::Fetch { node, address }, 0),
            2 => self.made("words left", Call::WordsLeft { circuit: circuit as u32 }, 0),
            3 => self.made("what landed", Call::WhatLanded { node: record.destination, field: 0 }, 0),
            4 => self.made("period number", Call::PeriodNumber, 0),
            _ => self.refused_load(),
        }
    }

    /// Much of what is sent looks like a header of a circuit to the same node.
    pub fn put_headers_to_be_sent(&mut self, memory: &mut [u32]) {
        if !self.aim.is_wanted {
            return;
        }
        let plan = self.plan().clone();
        for circuit in &plan.circuits {
            let same_node: Vec<&Circuit> =
                plan.circuits.iter().filter(|other| other.destination == circuit.destination).collect();
            for address in circuit.read_offset..circuit.read_offset + circuit.read_length {
                let random = &mut self.random;
                let other = random.choose(&same_node);
                let written = other.receive_offset + random.between(0, other.receive_length - 1);
                let header = random.choose(&[DATA, INTERRUPT]) << 30 | written << 16 | random.between(0, 0xFFFF);
                memory[(circuit.source * plan.memory_words + address) as usize] = header;
            }
        }
    }

    /// The same sheet, which ends what travels.
    fn load_again(&mut self) -> Made {
        self.start_anew();
        if self.random.once_in(3) {
            self.aim.planned.push_back(Planned::ListOfEveryCircuit);
        }
        self.made("load again", self.load(), 0)
    }
}
