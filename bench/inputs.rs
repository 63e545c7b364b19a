//! The inputs of `landings` that the benchmarks time, in memories as large as the program takes.

use second::inputs::{all_transfers, largest_in_small_memory, middle_in_small_memory, some_memory, Transfer};
use second::sheets::{
    all_shortest_paths, passing_plan, route_of, sheet_a, Circuit, Entry, Plan, Random, Schedule, Wish,
};

pub const SHEET_A: &str = "sheet A";
pub const ONE_WORD_A_PERIOD: &str = "word a period";

pub struct Input {
    pub name: &'static str,
    pub plan: Plan,
    pub memory: Vec<u32>,
    pub transfers: Vec<Transfer>,
}

pub fn input_of(name: &'static str, plan: Plan) -> Input {
    let memory = some_memory(&mut Random::new(3), &plan);
    let transfers = all_transfers(&plan);
    Input { name, plan, memory, transfers }
}

/// The sheets on which every circuit has a transfer.
pub fn sheets() -> [(&'static str, Plan); 3] {
    [(SHEET_A, sheet_a()), ("middle", middle_in_small_memory(1)), ("largest", largest_in_small_memory(1))]
}

pub fn inputs() -> Vec<Input> {
    let mut inputs: Vec<Input> = sheets().map(|(name, plan)| input_of(name, plan)).into();
    inputs.push(input_of("mixed lengths", mixed_in_small_memory(1)));
    inputs.push(input_of("shared reads", shared_reads()));
    let mut trickle = input_of(ONE_WORD_A_PERIOD, one_word_a_period());
    trickle.transfers.truncate(1);
    inputs.push(trickle);
    inputs
}

/// As large as the largest sheet, with slots and routes of every length.
fn mixed_in_small_memory(seed: u64) -> Plan {
    let mut random = Random::new(seed);
    loop {
        let wish = Wish {
            columns: 4,
            rows: 4,
            long_links: false,
            memory_words: 256,
            circuits: 64,
            longest_region: 48,
            schedules: 8,
            period: Some(1_024),
            entries: 256,
            length: None,
        };
        let plan = passing_plan(&mut random, &wish);
        if plan.words().len() == 8_597 {
            return plan;
        }
    }
}

/// Fifteen circuits that read one region: nowhere do more words land.
fn shared_reads() -> Plan {
    let circuit = |destination: u32| Circuit {
        source: 0,
        destination,
        read_offset: 0,
        read_length: 256,
        receive_offset: 0,
        receive_length: 256,
    };
    one_slot_each((1..16).map(circuit).collect(), 400, 16)
}

/// Every circuit could send a word a period; those behind the first are silent.
fn one_word_a_period() -> Plan {
    let circuit = |destination: u32| Circuit {
        source: (destination + 5) % 16,
        destination,
        read_offset: 64,
        read_length: 64,
        receive_offset: 0,
        receive_length: 64,
    };
    one_slot_each((0..16).map(circuit).collect(), 1_024, 2)
}

/// A schedule in which each circuit has one slot, behind that of the circuit before it.
fn one_slot_each(circuits: Vec<Circuit>, period: u32, length: u32) -> Plan {
    let mut plan = Plan { columns: 4, rows: 4, long_links: false, memory_words: 256, circuits, schedules: Vec::new() };
    let slot = |(number, circuit): (usize, &Circuit)| {
        let paths = all_shortest_paths(&plan, circuit.source, circuit.destination);
        Entry { offset: 24 * number as u32, length, circuit: number as u32, route: route_of(&paths[0]) }
    };
    let entries = plan.circuits.iter().enumerate().map(slot).collect();
    plan.schedules.push(Schedule { period, entries });
    plan
}
