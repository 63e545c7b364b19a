//! Times the proved program `landings` against the same program in Rust, on the second machine (machine.rs) and with a list of the words
//! in flight (flights.rs), whose paths are the arguments: 65,536 cycles, the least of nine runs in turn, process start included; and on
//! grids with long vertical links against those without. Processor time is taken, as a run of many milliseconds is never undisturbed on a
//! machine that has other work. Exits 1 where a bar is missed.

mod bars;
mod inputs;
mod kinds;

use bars::{Bars, JUDGED};
use inputs::{input_of, inputs, sheets, Input, ONE_WORD_A_PERIOD, SHEET_A};
use kinds::{on_both_kinds, MOST_LONG_RATIO};
use second::inputs::{bytes_of, input_words};
use std::fs::{self, File};
use std::path::{Path, PathBuf};
use std::process::{Command, ExitCode, Stdio};

const CYCLES: u32 = 65_536;
const RUNS: usize = 9;
const MOST_OF_FLIGHTS: f64 = 1.5;

fn main() -> ExitCode {
    let arguments: Vec<String> = std::env::args().skip(1).collect();
    let [ours, machine, flights] = &arguments[..] else {
        eprintln!("usage: landings PATH_OF_LANDINGS PATH_OF_MACHINE PATH_OF_FLIGHTS");
        return ExitCode::FAILURE;
    };
    let mut bars = Bars::default();
    println!("{CYCLES} cycles of the program landings, the least of {RUNS} runs in turn, milliseconds of a processor");
    println!(
        "{:<14} {:>8} {:>8} {:>8} {JUDGED} {:>8} {JUDGED}",
        "sheet", "landings", "ours", "machine", "flights"
    );
    for input in inputs() {
        time_programs(&mut bars, &input, ours, machine, flights);
    }
    println!("{:<14} {:>8} {:>8} {:>8} {JUDGED}", "both kinds", "landings", "long", "short");
    for (name, plan) in sheets() {
        let [short, long] = on_both_kinds(&plan).map(|plan| input_of(name, plan));
        time_kinds(&mut bars, ours, &long, &short);
    }
    bars.exit()
}

/// Where little lands, the start of the process is most of the time.
fn most_of_machine(name: &str) -> f64 {
    if [SHEET_A, ONE_WORD_A_PERIOD].contains(&name) { 0.35 } else { 0.15 }
}

fn time_programs(bars: &mut Bars, input: &Input, ours: &str, machine: &str, flights: &str) {
    let file = Lent::new(input);
    let printed = run(ours, &file.path).1;
    for program in [machine, flights] {
        assert!(run(program, &file.path).1 == printed, "{program} prints another listing: {}", input.name);
    }
    let landings = lines_behind_heading(&printed);
    let [our_time, machine_time, flights_time] = least_runs([(ours, &file), (machine, &file), (flights, &file)]);
    let of_machine = bars.at_most(our_time / machine_time, most_of_machine(input.name));
    let of_flights = bars.at_most(our_time / flights_time, MOST_OF_FLIGHTS);
    println!(
        "{:<14} {landings:>8} {our_time:>8.3} {machine_time:>8.3} {of_machine} {flights_time:>8.3} {of_flights}",
        input.name
    );
}

/// Long vertical links against none, with the same circuits and entries.
fn time_kinds(bars: &mut Bars, ours: &str, long: &Input, short: &Input) {
    let [long_file, short_file] = [Lent::new(long), Lent::new(short)];
    let landings = lines_behind_heading(&run(ours, &long_file.path).1);
    let [long_time, short_time] = least_runs([(ours, &long_file), (ours, &short_file)]);
    let judged = bars.at_most(long_time / short_time, MOST_LONG_RATIO);
    println!("{:<14} {landings:>8} {long_time:>8.3} {short_time:>8.3} {judged}", long.name);
}

fn lines_behind_heading(text: &[u8]) -> usize {
    text.iter().filter(|&&byte| byte == b'\n').count() - 1
}

/// An input in a file that goes with this value.
struct Lent {
    path: PathBuf,
}

impl Lent {
    fn new(input: &Input) -> Lent {
        let name = format!("landings_{}_{}", std::process::id(), input.plan.long_links);
        let path = std::env::temp_dir().join(name);
        let words = input_words(&input.plan.words(), &input.memory, &input.transfers, CYCLES);
        fs::write(&path, bytes_of(&words)).expect("a file can be written");
        Lent { path }
    }
}

impl Drop for Lent {
    fn drop(&mut self) {
        let _ = fs::remove_file(&self.path);
    }
}

/// The least milliseconds of each program on its input; a turn runs all, one after the other.
fn least_runs<const COUNT: usize>(runs: [(&str, &Lent); COUNT]) -> [f64; COUNT] {
    let mut least = [f64::INFINITY; COUNT];
    for _ in 0..RUNS {
        for ((program, file), least) in runs.iter().zip(&mut least) {
            *least = least.min(run(program, &file.path).0);
        }
    }
    least
}

/// Milliseconds of a run, and what it prints.
fn run(program: &str, input: &Path) -> (f64, Vec<u8>) {
    let file = File::open(input).expect("the input was written");
    let before = processor_time();
    let output = Command::new(program).stdin(Stdio::from(file)).output().expect(program);
    let milliseconds = processor_time() - before;
    assert!(output.status.success() && !output.stdout.is_empty(), "{program} ended with {}", output.status);
    (milliseconds, output.stdout)
}

/// What the C library's getrusage fills.
#[repr(C)]
#[derive(Default)]
struct Usage {
    /// Seconds and microseconds.
    user: [i64; 2],
    system: [i64; 2],
    counts: [i64; 14],
}

extern "C" {
    fn getrusage(who: i32, usage: *mut Usage) -> i32;
}

/// Milliseconds that this program, which starts the others, and those that it has run took of a processor.
fn processor_time() -> f64 {
    const OWN: i32 = 0;
    const CHILDREN: i32 = -1;
    let taken = |who: i32| {
        let mut usage = Usage::default();
        // The pointer is that of a live record, as long as the C library's.
        assert_eq!(unsafe { getrusage(who, &mut usage) }, 0);
        let [seconds, microseconds] = [0, 1].map(|place| (usage.user[place] + usage.system[place]) as f64);
        seconds * 1e3 + microseconds / 1e3
    };
    taken(OWN) + taken(CHILDREN)
}
