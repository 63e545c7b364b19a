//! Times the inner cycle on lent words, by the probe that runs many and tests the state once, against the Rust machine's cycle; and the
//! exported cycle call against its parts, a test of the state and an inner cycle. Idle: all that has slots in the schedule in force has
//! landed. Busy: the transfers are started again once a period, outside the timed part. Exits 1 where a bar is missed.

mod bars;
#[path = "../tests/exports.rs"]
mod exports;
mod inputs;
mod least;
#[allow(dead_code)]
mod linear;

use bars::{Bars, JUDGED};
use exports::Exports;
use inputs::{input_of, inputs, Input};
use least::{least, ROUNDS, TURNS};
use second::calls::Calls;
use second::lent::Row;
use second::machine::{CheckedSheet, Machine, Transfer};
use second::sheets::largest;
use std::hint::black_box;
use std::process::ExitCode;
use std::rc::Rc;
use std::time::Instant;

const MOST_IDLE: f64 = 0.6;
const MOST_BUSY: f64 = 1.5;
const MOST_OF_PARTS: f64 = 1.2;
/// Every transfer that can be sent has landed by then.
const UNTIL_IDLE: u32 = 65_536;
const IDLE_CYCLES: u32 = 1_024;
/// So many busy cycles are timed together at least.
const BUSY_CYCLES: u32 = 1_024;
/// So many periods have passed when busy cycles are timed.
const PERIODS_BEFORE: u32 = 3;
/// Calls that are timed together, as one may take little longer than a look at the clock.
const STRETCH: u32 = 8;

extern "C" {
    fn probe_cycles(state: *mut u32, state_words: usize, memory: *mut u32, memory_words: usize, count: u32) -> u64;
}

/// The words that are lent to our calls.
#[derive(Clone)]
struct Lent {
    state: Vec<u32>,
    memory: Vec<u32>,
}

impl Lent {
    fn probe(&mut self, count: u32) -> u64 {
        let Lent { state, memory } = self;
        // The pointers and lengths are those of live slices that do not overlap.
        unsafe { probe_cycles(state.as_mut_ptr(), state.len(), memory.as_mut_ptr(), memory.len(), count) }
    }

    /// The sum of the numbers that so many exported cycles answer.
    fn public(&mut self, count: u32) -> u64 {
        (0..count).map(|_| u64::from(Exports.cycle(&mut self.state, &mut self.memory))).sum()
    }

    fn words_left(&self) -> &[u32] {
        &self.state[Row::Left.at(0)..Row::Left.at(64)]
    }

    fn test(&self) -> u64 {
        Exports.period_number(black_box(&self.state))
    }
}

/// The Rust machine with its memory.
#[derive(Clone)]
struct Rust {
    machine: Machine,
    memory: Vec<u32>,
}

impl Rust {
    /// How many of so many cycles are refused.
    fn run(&mut self, count: u32) -> u64 {
        (0..count).map(|_| u64::from(self.machine.cycle(&mut self.memory).is_err())).sum()
    }
}

/// An input's sheet loaded, before its transfers are started.
struct Session {
    lent: Lent,
    rust: Rust,
    transfers: Vec<Transfer>,
    period: u32,
}

/// Nanoseconds of one inner cycle of ours and of the Rust machine, of one exported cycle, and of one test of the state.
struct Times {
    inner: f64,
    rust: f64,
    public: f64,
    test: f64,
}

impl Session {
    fn new(input: &Input) -> Session {
        let sheet = input.plan.words();
        let mut state = vec![0; Exports.state_words() as usize];
        assert_eq!(Exports.load(&sheet, &mut state, &input.memory), 0, "the sheet passes");
        let checked = CheckedSheet::check_by(linear::verdict, &sheet).expect("the sheet passes");
        let mut machine = Machine::new(Rc::new(checked));
        // A machine that does not count travelling words has the quicker cycle.
        machine.forget_count();
        let transfer = |&[circuit, read, write, count, kind]: &[u32; 5]| Transfer { circuit, read, write, count, kind };
        Session {
            lent: Lent { state, memory: input.memory.clone() },
            rust: Rust { machine, memory: input.memory.clone() },
            transfers: input.transfers.iter().map(transfer).collect(),
            period: input.plan.schedules[0].period,
        }
    }

    /// Starts the transfers on what is lent; those of busy circuits are refused.
    fn start(&self, lent: &mut Lent) -> Vec<u32> {
        let mut answers = vec![0; self.transfers.len()];
        assert_eq!(Exports.start_all(&mut lent.state, &self.transfers, &mut answers), 0, "the list is taken");
        answers
    }

    fn start_in_rust(&self, rust: &mut Rust) -> Vec<u32> {
        let mut answers = vec![0; self.transfers.len()];
        rust.machine.start_all(&self.transfers, &mut answers).expect("the list is taken");
        answers
    }

    fn idle(&self) -> Times {
        let (mut lent, mut rust) = (self.lent.clone(), self.rust.clone());
        assert_eq!(self.start(&mut lent), self.start_in_rust(&mut rust));
        assert_eq!(lent.probe(UNTIL_IDLE), u64::from(UNTIL_IDLE), "no cycle is refused");
        assert_eq!(rust.run(UNTIL_IDLE), 0, "no cycle is refused");
        assert_eq!(lent.memory, rust.memory, "both machines have the same memory");
        let left = lent.words_left().to_vec();
        lent.probe(self.period);
        assert_eq!(lent.words_left(), left, "nothing is sent any more");
        let [mut one, mut other, mut called] = [lent.clone(), lent.clone(), lent.clone()];
        let [many, none, rust, public, test] = least([
            &mut || one.probe(IDLE_CYCLES),
            &mut || other.probe(0),
            &mut || rust.run(IDLE_CYCLES),
            &mut || called.public(1),
            &mut || lent.test(),
        ]);
        let cycles = f64::from(IDLE_CYCLES);
        Times { inner: (many - none) / cycles, rust: rust / cycles, public, test }
    }

    fn busy(&self) -> Times {
        let (inner, rust) = self.busy_inner();
        let (public, test) = self.busy_calls();
        Times { inner, rust, public, test }
    }

    /// How many periods are timed together.
    fn periods(&self) -> u32 {
        BUSY_CYCLES.div_ceil(self.period)
    }

    /// Both amid their traffic. Whatever is timed goes on from here each time: the least of turns with different traffic would be the
    /// time of the quietest.
    fn amid_traffic(&self) -> (Lent, Rust) {
        let (mut lent, mut rust) = (self.lent.clone(), self.rust.clone());
        for _ in 0..PERIODS_BEFORE {
            assert_eq!(self.start(&mut lent), self.start_in_rust(&mut rust), "the same circuits are busy");
            lent.probe(self.period);
            rust.run(self.period);
        }
        (lent, rust)
    }

    /// An inner cycle of ours and one of the Rust machine, over whole periods.
    fn busy_inner(&self) -> (f64, f64) {
        let (lent_before, rust_before) = self.amid_traffic();
        let (mut lent, mut rust) = (lent_before.clone(), rust_before.clone());
        let mut least = [f64::INFINITY; 4];
        for _ in 0..ROUNDS * TURNS {
            lent.clone_from(&lent_before);
            rust.clone_from(&rust_before);
            let mut turn = [0.0; 4];
            for _ in 0..self.periods() {
                assert_eq!(self.start(&mut lent), self.start_in_rust(&mut rust), "the same circuits are busy");
                // Else the first that is timed would fetch the words for both.
                black_box(lent.probe(0));
                let times = [
                    time(|| lent.probe(0)),
                    time(|| lent.probe(self.period)),
                    time(|| rust.run(0)),
                    time(|| rust.run(self.period)),
                ];
                turn.iter_mut().zip(times).for_each(|(sum, time)| *sum += time);
            }
            least.iter_mut().zip(turn).for_each(|(least, sum)| *least = least.min(sum));
        }
        assert_eq!(lent.test(), u64::from(PERIODS_BEFORE + self.periods()), "no cycle is refused");
        assert_eq!(lent.memory, rust.memory, "both machines have the same memory");
        let [no_inner, inner, no_rust, rust] = least;
        let cycles = f64::from(self.periods() * self.period);
        ((inner - no_inner) / cycles, (rust - no_rust) / cycles)
    }

    /// An exported cycle and a test of the state, each stretch by the least of nine rounds.
    fn busy_calls(&self) -> (f64, f64) {
        let (before, _) = self.amid_traffic();
        let mut lent = before.clone();
        let stretches = self.period.div_ceil(STRETCH);
        let mut least = vec![[f64::INFINITY; 2]; (self.periods() * stretches) as usize];
        for _ in 0..ROUNDS {
            lent.clone_from(&before);
            for least in least.chunks_mut(stretches as usize) {
                self.start(&mut lent);
                self.time_calls(&mut lent, least);
            }
        }
        assert_eq!(lent.test(), u64::from(PERIODS_BEFORE + self.periods()), "no cycle is refused");
        let call = |place: usize| {
            let sum: f64 = least.iter().map(|least| least[place]).sum();
            sum / f64::from(self.periods() * self.period)
        };
        (call(0), call(1))
    }

    /// Exported cycles of a period, and as many tests of the state, in short stretches, of each of which the least counts: what else the
    /// machine does meets any long one.
    fn time_calls(&self, lent: &mut Lent, stretches: &mut [[f64; 2]]) {
        let mut left = self.period;
        for least in stretches {
            let count = left.min(STRETCH);
            left -= count;
            let times = [time(|| lent.public(count)), time(|| (0..count).map(|_| lent.test()).sum())];
            least.iter_mut().zip(times).for_each(|(least, time)| *least = least.min(time));
        }
    }
}

/// Nanoseconds of a call.
fn time(mut call: impl FnMut() -> u64) -> f64 {
    let start = Instant::now();
    black_box(call());
    start.elapsed().as_nanos() as f64
}

fn main() -> ExitCode {
    let mut bars = Bars::default();
    let mut inputs = inputs();
    inputs.push(input_of("all always send", largest(1)));
    println!("a cycle, the least of {ROUNDS} rounds in turn, nanoseconds: inner against the Rust machine's, exported against test and inner");
    for (name, most, times) in [("idle", MOST_IDLE, Session::idle as fn(&Session) -> Times), ("busy", MOST_BUSY, Session::busy)] {
        println!("{name:<16} {:>8} {:>8} {JUDGED} {:>10} {:>10} {JUDGED}", "inner", "Rust", "exported", "test");
        for input in &inputs {
            let Times { inner, rust, public, test } = times(&Session::new(input));
            let of_rust = bars.at_most(inner / rust, most);
            let of_parts = bars.at_most(public / (test + inner), MOST_OF_PARTS);
            println!("{:<16} {inner:>8.1} {rust:>8.1} {of_rust} {public:>10.1} {test:>10.1} {of_parts}", input.name);
        }
    }
    bars.exit()
}
