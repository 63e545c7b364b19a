//! How our verdict's time grows with the sheet: nanoseconds for each word of the sheet and each wire that a slot takes, as the entries
//! and then the circuits double, all else staying as it is. Exits 1 where it grows faster than the sheet.

mod bars;
mod least;

use bars::{Bars, JUDGED};
use least::{least, ROUNDS};
use second::sheets::{
    largest, last_offset, route_of, shortest_path, Circuit, Entry, Occupied, Plan, Random, Schedule,
};
use std::hint::black_box;
use std::process::ExitCode;

extern "C" {
    fn argo_verdict(sheet: *const u32, length: usize) -> u32;
}

/// Of the line before. A time that grows with the square would double it.
const MOST_GROWTH: f64 = 1.25;
const PERIOD: u32 = 1_024;
const MOST_ENTRIES: usize = 256;

fn our_verdict(sheet: &[u32]) -> u32 {
    // The pointer and the length are those of a live slice.
    unsafe { argo_verdict(sheet.as_ptr(), sheet.len()) }
}

/// So many of the largest sheet's circuits, spread over its nodes, and entries, each circuit in turn, in as few schedules as hold them.
fn plan_of(circuits: usize, entries: usize, length: u32) -> Plan {
    let mut random = Random::new(1);
    let mut plan = largest(1);
    plan.circuits = plan.circuits.into_iter().step_by(64 / circuits).collect();
    plan.schedules.clear();
    for _ in 0..entries.div_ceil(MOST_ENTRIES) {
        plan.schedules.push(schedule_of(&mut random, &plan, entries.min(MOST_ENTRIES), length));
    }
    plan
}

fn schedule_of(random: &mut Random, plan: &Plan, entries: usize, length: u32) -> Schedule {
    let mut schedule = Schedule { period: PERIOD, entries: Vec::new() };
    let mut occupied = Occupied::new(plan);
    while schedule.entries.len() < entries {
        let circuit = schedule.entries.len() % plan.circuits.len();
        let Circuit { source, destination, .. } = plan.circuits[circuit];
        let path = shortest_path(random, plan, source, destination);
        let last = last_offset(PERIOD, length, plan.delay_of(&path)).expect("a long period");
        let entry = Entry { offset: random.between(0, last), length, circuit: circuit as u32, route: route_of(&path) };
        if occupied.take_entry(plan, &entry) {
            schedule.entries.push(entry);
        }
    }
    schedule.sort_entries();
    schedule
}

/// The wires that the slots take: from the source, one a hop, to the memory.
fn wires(plan: &Plan) -> usize {
    plan.schedules.iter().flat_map(|schedule| &schedule.entries).map(|entry| plan.hops(entry) as usize + 2).sum()
}

fn time_growth<const COUNT: usize>(bars: &mut Bars, what: &str, sizes: [usize; COUNT], plan_of_size: fn(usize) -> Plan) {
    let heads = ["schedules", "words", "wires", "ours, ns", "ns each"].map(|head| format!("{head:>9}")).join(" ");
    println!("{what:<14} {heads} {JUDGED}");
    let plans = sizes.map(plan_of_size);
    let sheets = plans.each_ref().map(Plan::words);
    assert!(sheets.iter().all(|sheet| our_verdict(sheet) == 0), "the sheets pass");
    let mut calls = sheets.each_ref().map(|sheet| || our_verdict(black_box(sheet)).into());
    let times = least(calls.each_mut().map(|call| call as &mut dyn FnMut() -> u64));

    let mut before = None;
    for (((size, plan), sheet), time) in sizes.iter().zip(&plans).zip(&sheets).zip(times) {
        let (words, wires) = (sheet.len(), wires(plan));
        let each = time / (words + wires) as f64;
        let growth = before.map_or(String::new(), |before| bars.at_most(each / before, MOST_GROWTH));
        println!("{size:<14} {:>9} {words:>9} {wires:>9} {time:>9.1} {each:>9.2} {growth}", plan.schedules.len());
        before = Some(each);
    }
}

fn main() -> ExitCode {
    let mut bars = Bars::default();
    println!("our verdict as the sheet grows, the least of {ROUNDS} rounds in turn; the ratio is that of ns each to the line before");
    time_growth(&mut bars, "entries", [32, 64, 128, 256, 512, 1_024, 2_048], |entries| plan_of(32, entries, 16));
    time_growth(&mut bars, "circuits", [1, 2, 4, 8, 16, 32, 64], |circuits| plan_of(circuits, 64, 4));
    bars.exit()
}
