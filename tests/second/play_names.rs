//! The names of what the sessions have to meet, and how often.

use super::lists::{LIST_WAYS, ONE_OF_OTHER_LENGTH};
use super::play_long;
use super::play_travelling;
use super::sessions::UNSERVED_LOADS;

pub const LOADS_NO_WORDS: &str = "situation: session in which no words are loaded";
const SESSIONS_REQUIRED_OF_NO_WORDS: u64 = 40;
/// Of each way to lend slices to a load of a sheet with an unserved circuit.
const UNSERVED_LOADS_REQUIRED: u64 = 50;
pub const LIST: &str = "situation: list in both forms";
const LISTS_REQUIRED: u64 = 600;
/// Of each way to make a list.
const LISTS_OF_WAY_REQUIRED: u64 = 10;
/// Of each number of the two forms, and of each answer to a record.
const LIST_ANSWERS_REQUIRED: u64 = 50;
const RECORD_ANSWERS_REQUIRED: u64 = 500;

/// What should be met often, and how often.
pub fn wanted_often() -> Vec<(u64, String)> {
    let mut names = vec![(SESSIONS_REQUIRED_OF_NO_WORDS, LOADS_NO_WORDS.to_string())];
    names.extend(UNSERVED_LOADS.map(|name| (UNSERVED_LOADS_REQUIRED, made_name(name))));
    names.push((LISTS_REQUIRED, LIST.to_string()));
    let list_ways = LIST_WAYS.iter().chain(ONE_OF_OTHER_LENGTH.iter().flatten());
    names.extend(list_ways.map(|name| (LISTS_OF_WAY_REQUIRED, made_name(name))));
    for form in ["start all", "start lists"] {
        names.extend([0, 12, 21].map(|number| (LIST_ANSWERS_REQUIRED, answer_name(form, number))));
    }
    names.extend([0, 15, 16, 17].map(|answer| (RECORD_ANSWERS_REQUIRED, record_name(answer))));
    names.extend(play_travelling::wanted_often());
    names.extend(play_long::wanted_often());
    names
}

/// Every call with every number that a session can meet, on the idle network too, and the
/// situations that matter.
pub fn wanted() -> Vec<String> {
    let numbers: [(&str, &[u32]); 11] = [
        ("load", &[0, 1, 2, 3, 4, 5, 6, 7, 8, 9, 10, 11, 12, 14, 26]),
        ("start", &[0, 12, 15, 16, 17]),
        ("store", &[0, 12, 14, 15]),
        ("fetch", &[0, 12, 14, 15]),
        ("words left", &[0, 12, 15]),
        ("period number", &[0, 12]),
        ("what landed", &[0, 12, 15]),
        ("order", &[0, 12, 15, 18, 19]),
        ("cycle", &[0, 12, 14]),
        ("start all", &[0, 12, 21]),
        ("start lists", &[0, 12, 21]),
    ];
    let idle_numbers: [(&str, &[u32]); 11] = [
        ("load", &[0, 1, 12, 14, 26]),
        ("start", &[12, 15]),
        ("store", &[0, 12, 14, 15]),
        ("fetch", &[0, 12, 14, 15]),
        ("words left", &[12, 15]),
        ("period number", &[0, 12]),
        ("what landed", &[0, 12, 15]),
        ("order", &[0, 12, 15, 18, 19]),
        ("cycle", &[0, 12, 14]),
        ("start all", &[0, 12, 21]),
        ("start lists", &[0, 12, 21]),
    ];
    let mut names = Vec::new();
    for (call, numbers) in numbers {
        names.extend(numbers.iter().map(|&number| answer_name(call, number)));
    }
    for (call, numbers) in idle_numbers {
        names.extend(numbers.iter().map(|&number| idle_name(&answer_name(call, number))));
    }
    names.extend([0, 12, 14].map(|number| answer_name(LOAD_OF_NO_WORDS, number)));
    names.extend(IDLE_SITUATIONS.map(idle_name));
    names.extend(SITUATIONS.map(|name| format!("situation: {name}")));
    names.extend(WAYS.map(made_name));
    for columns in 2..=4 {
        names.extend((2..=4).map(|rows| grid_name(columns, rows)));
    }
    names
}

pub const LOAD_OF_NO_WORDS: &str = "load of no words";

/// What is met on a network that was loaded by no words is counted apart besides.
pub fn idle_name(name: &str) -> String {
    format!("idle network, {name}")
}

pub fn answer_name(call: &str, number: u32) -> String {
    match number {
        0 => format!("answer: {call}, carried out"),
        _ => format!("answer: {call}, {number}"),
    }
}

/// Of a record in a list.
pub fn record_name(answer: u32) -> String {
    answer_name("record", answer)
}

pub fn made_name(name: &str) -> String {
    format!("made: {name}")
}

pub fn grid_name(columns: u64, rows: u64) -> String {
    format!("situation: landing in a grid of {columns} by {rows}")
}

const IDLE_SITUATIONS: [&str; 5] = [
    "no words loaded again",
    "another sheet loaded",
    "schedule in force ordered again and put in force",
    "order for a period behind the wrap",
    "period number wraps",
];

const SITUATIONS: [&str; 34] = [
    "state longer than published",
    "start of a circuit that only another schedule serves",
    "switch to a schedule that serves a circuit which the one before did not, with words left",
    "start in the first cycle of the circuit's slot",
    "start a cycle after its slot began",
    "slot begins with more words owed than it holds",
    "slot begins with fewer words owed than it holds",
    "store at an address still to be read",
    "store into a receive region while words travel to it",
    "data lands",
    "interrupt lands",
    "landing after 1 hops",
    "landing after 2 hops",
    "landing after 3 hops",
    "landing after 4 hops",
    "landings at several nodes in one cycle",
    "landing at the last address of a memory of 16,384 words",
    "words travel over the end of a period",
    "switch to a schedule of another period",
    "switch to another schedule of the same period",
    "schedule in force ordered again and put in force",
    "words travel over a switch",
    "period number wraps",
    "order for a period behind the wrap",
    "load carried out in the midst of transfers",
    "no words loaded in the midst of transfers",
    "no words loaded while words travel",
    "refused call on a state with words travelling",
    "list while words travel",
    "list starts several circuits",
    "by a list, start of a circuit that only another schedule serves",
    "by a list, start in the first cycle of the circuit's slot",
    "by a list, start a cycle after its slot began",
    "word of a transfer that a list started lands",
];

const WAYS: [&str; 18] = [
    "start: no such circuit",
    "start: no such read address",
    "start: no such write address",
    "start: kind 1",
    "start: no such kind",
    "start: count 0",
    "start: interrupt of another count",
    "start: count that wraps",
    "start: reads before its region",
    "start: reads beyond its region",
    "start: writes before its region",
    "start: writes beyond its region",
    "order: no such schedule",
    "order: too soon",
    "order: half way round",
    "order: behind",
    "short state",
    "memory of another length",
];
