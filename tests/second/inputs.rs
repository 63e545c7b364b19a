//! Inputs of the program `landings`: little-endian words, in the order of document 01.

use super::sheets::{largest, some_schedule, wished_plan, Plan, Random, Wish};

/// Circuit, read address, write address, count, kind.
pub type Transfer = [u32; 5];

pub fn bytes_of(words: &[u32]) -> Vec<u8> {
    words.iter().flat_map(|word| word.to_le_bytes()).collect()
}

pub fn input_words(sheet: &[u32], memory: &[u32], transfers: &[Transfer], cycles: u32) -> Vec<u32> {
    let mut words = vec![sheet.len() as u32];
    words.extend(sheet);
    words.extend(memory);
    words.push(transfers.len() as u32);
    words.extend(transfers.concat());
    words.push(cycles);
    words
}

pub fn some_memory(random: &mut Random, plan: &Plan) -> Vec<u32> {
    (0..plan.nodes() * plan.memory_words).map(|_| random.word()).collect()
}

/// Every circuit sends data, as much as its regions allow.
pub fn all_transfers(plan: &Plan) -> Vec<Transfer> {
    let longest = |(number, circuit): (usize, &super::sheets::Circuit)| {
        let count = circuit.read_length.min(circuit.receive_length);
        [number as u32, circuit.read_offset, circuit.receive_offset, count, 0]
    };
    plan.circuits.iter().enumerate().map(longest).collect()
}

/// The largest sheet, with its regions made shorter so that the memory is just the most that
/// the program takes: 4 by 4 nodes of 256 words.
pub fn largest_in_small_memory(seed: u64) -> Plan {
    let mut plan = largest(seed);
    let factor = plan.memory_words / 256;
    plan.memory_words = 256;
    for circuit in &mut plan.circuits {
        circuit.read_offset /= factor;
        circuit.read_length /= factor;
        circuit.receive_offset /= factor;
        circuit.receive_length /= factor;
    }
    plan
}

/// A middle sheet: nine nodes of 256 words, 16 circuits, two crowded schedules.
pub fn middle_in_small_memory(seed: u64) -> Plan {
    let mut random = Random::new(seed);
    loop {
        let wish = Wish {
            columns: 3,
            rows: 3,
            long_links: false,
            memory_words: 256,
            circuits: 16,
            longest_region: 60,
            schedules: 0,
            period: None,
            entries: 32,
            length: None,
        };
        let mut plan = wished_plan(&mut random, &wish);
        for period in [64, 100] {
            let schedule = some_schedule(&mut random, &plan, period, wish.entries, wish.length);
            plan.schedules.push(schedule);
        }
        if plan.circuits.len() == 16 && plan.unserved().is_empty() {
            return plan;
        }
    }
}
