//! Holds the second model against what each case was made for, the cases against their own promises, and the run
//! against planted faults, each of which it must notice.

use second::hours::{cases, is_noticed};
use second::planted_hours::{Plant, Planted, PLANTS};
use second::timetable::{answer, hours, Hours, Week};
use second::timetables::{self, Case};
use std::process::ExitCode;

const WEEK: u64 = 10_080;
const REFUSED_LIST: u64 = 31 << 32;
const REFUSED_MINUTE: u64 = 32 << 32;

fn main() -> ExitCode {
    let mut tally = Tally { passed: 0, failed: 0 };
    hold_literals(&mut tally);
    hold_cases(&mut tally);
    hold_promises(&mut tally);
    hold_walks(&mut tally);
    hold_plants(&mut tally);
    println!("{} passed, {} failed", tally.passed, tally.failed);
    if tally.failed == 0 {
        ExitCode::SUCCESS
    } else {
        ExitCode::FAILURE
    }
}

struct Tally {
    passed: u64,
    failed: u64,
}

impl Tally {
    fn hold(&mut self, right: bool, describe: impl FnOnce() -> String) {
        if right {
            self.passed += 1;
            return;
        }
        self.failed += 1;
        println!("{}", describe());
    }
}

type Literal = (&'static [u32], u32, [u64; 3]);

/// Answers written down by hand from the rule: the list, the minute, and the fields 0, 1 and 2.
const LITERALS: [Literal; 66] = [
    (&[], 0, [0, 0, 0]),
    (&[], 10_079, [0, 0, 0]),
    (&[], 10_080, [REFUSED_MINUTE; 3]),
    (&[], u32::MAX, [REFUSED_MINUTE; 3]),
    (&[0], 0, [REFUSED_LIST; 3]),
    (&[0, 1], 0, [REFUSED_LIST; 3]),
    (&[0, 1, 1, 5], 0, [REFUSED_LIST; 3]),
    (&[0, 1, 1, 5, 1], 10_080, [REFUSED_LIST; 3]),
    (&[0, 10_080, 7], 0, [7, 0, 0]),
    (&[0, 10_080, 7], 10_079, [7, 0, 0]),
    (&[0, 10_080, 0], 5, [0, 0, 0]),
    (&[0, 10_080, 8], 0, [REFUSED_LIST; 3]),
    (&[0, 10_081, 7], 0, [REFUSED_LIST; 3]),
    (&[0, 0, 7], 0, [REFUSED_LIST; 3]),
    (&[0, u32::MAX, 7], 0, [REFUSED_LIST; 3]),
    (&[1, u32::MAX, 7], 0, [REFUSED_LIST; 3]),
    (&[2, u32::MAX, 7], 0, [REFUSED_LIST; 3]),
    (&[10_079, u32::MAX, 7], 0, [REFUSED_LIST; 3]),
    (&[10_079, 1, 3], 10_079, [3, 1, 0]),
    (&[10_079, 1, 3], 0, [0, 1, 10_079]),
    (&[10_079, 1, 3], 10_078, [0, 1, 10_079]),
    (&[10_079, 2, 3], 10_079, [REFUSED_LIST; 3]),
    (&[10_080, 1, 3], 0, [REFUSED_LIST; 3]),
    (&[10_080, 0, 3], 0, [REFUSED_LIST; 3]),
    (&[u32::MAX, 1, 3], 0, [REFUSED_LIST; 3]),
    (&[u32::MAX, 2, 3], 0, [REFUSED_LIST; 3]),
    (&[1 << 31, 1 << 31, 3], 0, [REFUSED_LIST; 3]),
    (&[0, 1, 3], 0, [3, 1, 1]),
    (&[0, 1, 3], 1, [0, 1, 0]),
    (&[0, 1, 3], 10_079, [0, 1, 0]),
    (&[100, 50, 4], 99, [0, 1, 100]),
    (&[100, 50, 4], 100, [4, 1, 150]),
    (&[100, 50, 4], 149, [4, 1, 150]),
    (&[100, 50, 4], 150, [0, 1, 100]),
    (&[100, 50, 4], 10_080, [REFUSED_MINUTE; 3]),
    (&[100, 50, 4], 1 << 31, [REFUSED_MINUTE; 3]),
    (&[100, 50, 0], 100, [0, 0, 0]),
    (&[100, 50, 0], 0, [0, 0, 0]),
    (&[100, 50, 4, 150, 50, 4], 100, [4, 1, 200]),
    (&[100, 50, 4, 150, 50, 4], 150, [4, 1, 200]),
    (&[100, 50, 4, 150, 50, 5], 100, [4, 1, 150]),
    (&[100, 50, 4, 150, 50, 5], 150, [5, 1, 200]),
    (&[100, 50, 4, 150, 50, 0], 149, [4, 1, 150]),
    (&[100, 50, 4, 150, 50, 0], 150, [0, 1, 100]),
    (&[100, 50, 4, 151, 50, 4], 100, [4, 1, 150]),
    (&[100, 50, 4, 151, 50, 4], 150, [0, 1, 151]),
    (&[100, 50, 4, 149, 50, 4], 0, [REFUSED_LIST; 3]),
    (&[100, 50, 4, 100, 50, 4], 0, [REFUSED_LIST; 3]),
    (&[100, 50, 4, 100, 1, 4], 0, [REFUSED_LIST; 3]),
    (&[100, 50, 4, 50, 50, 4], 0, [REFUSED_LIST; 3]),
    (&[100, 50, 4, 50, 10, 4], 0, [REFUSED_LIST; 3]),
    (&[100, 50, 4, 110, 10, 4], 0, [REFUSED_LIST; 3]),
    (&[100, 50, 4, 120, 0, 4], 0, [REFUSED_LIST; 3]),
    (&[0, 5_040, 1, 5_040, 5_040, 1], 3, [1, 0, 0]),
    (&[0, 5_040, 1, 5_040, 5_040, 2], 5_039, [1, 1, 5_040]),
    (&[0, 5_040, 1, 5_040, 5_040, 2], 5_040, [2, 1, 0]),
    (&[0, 10, 6, 10_000, 80, 6], 10_000, [6, 1, 10]),
    (&[0, 10, 6, 10_000, 80, 6], 10_079, [6, 1, 10]),
    (&[0, 10, 6, 10_000, 80, 6], 10, [0, 1, 10_000]),
    (&[0, 10, 6, 10_000, 79, 6], 10_078, [6, 1, 10_079]),
    (&[0, 10, 6, 10_000, 79, 6], 10_079, [0, 1, 0]),
    (&[0, 10, 0, 10_000, 79, 6], 10_079, [0, 1, 10_000]),
    (&[5, 10, 1, 10_000, 80, 0], 9_999, [0, 1, 5]),
    (&[5, 10, 1, 10_000, 80, 0], 10_079, [0, 1, 5]),
    (&[5, 10, 1, 10_000, 80, 1], 10_079, [1, 1, 0]),
    (&[0, 7, 1, 8, 10_072, 1], 8, [1, 1, 7]),
];

fn hold_literals(tally: &mut Tally) {
    for (list, minute, fields) in LITERALS {
        for (field, right) in fields.into_iter().enumerate() {
            let got = answer(list, minute, field as u32);
            tally.hold(got == right, || format!("{list:?}, minute {minute}, field {field}: {got} is not {right}"));
        }
        // Other fields answer 0, and beside a refusal its number alone.
        let other = if fields[0] >= REFUSED_LIST { fields[0] } else { 0 };
        for field in [3, 4, u32::MAX] {
            let got = answer(list, minute, field);
            tally.hold(got == other, || format!("{list:?}, minute {minute}, field {field}: {got} is not {other}"));
        }
    }
    let most: Vec<u32> = (0..64).flat_map(|index| [index, 1, 1]).collect();
    let more: Vec<u32> = (0..65).flat_map(|index| [index, 1, 1]).collect();
    tally.hold(hours(&most, 0) == Hours::Until { schedule: 1, minute: 64 }, || "64 windows".to_string());
    tally.hold(hours(&more, 0) == Hours::Refused(31), || "65 windows".to_string());
}

/// The model against what each case was made for.
fn hold_cases(tally: &mut Tally) {
    for case in cases() {
        let week = Week::of(&case.list);
        for asked in &case.asks {
            let model = week.as_ref().map_or(Hours::Refused(31), |week| week.hours(asked.minute));
            let expected = asked.expected.unwrap_or(model);
            tally.hold(model == expected, || {
                format!("{}: {:?}, minute {}: {model:?}", case.name, case.list, asked.minute)
            });
        }
    }
}

/// The cases against what is promised of them.
fn hold_promises(tally: &mut Tally) {
    tally.hold(timetables::all() == cases(), || "the cases are not always the same".to_string());
    let is_made_to_keep = |case: &&Case| case.name.starts_with("kept");
    let is_made_to_break = |case: &&Case| timetables::break_names().contains(&case.name);
    let kept: Vec<&Case> = cases().iter().filter(is_made_to_keep).collect();
    let broken: Vec<&Case> = cases().iter().filter(is_made_to_break).collect();
    tally.hold(kept.len() >= 3_000, || "fewer than 3,000 timetables".to_string());
    tally.hold(broken.len() >= 1_000, || "fewer than 1,000 broken lists".to_string());
    for case in kept {
        let mut minutes: Vec<u32> = case.asks.iter().map(|asked| asked.minute).collect();
        minutes.sort_unstable();
        minutes.dedup();
        let inside = minutes.iter().filter(|&&minute| u64::from(minute) < WEEK).count();
        let asked = |minute: u32| minutes.contains(&minute);
        let all_asked = [0, 10_079, 10_080, 1 << 31, u32::MAX].into_iter().all(asked);
        tally.hold(inside >= 20 && all_asked, || format!("{}: too few minutes: {minutes:?}", case.name));
        let clauses = broken_clauses(&case.list);
        tally.hold(clauses.is_empty(), || format!("{}: {clauses:?}: {:?}", case.name, case.list));
    }
    for case in broken {
        let clauses = broken_clauses(&case.list);
        let right = clauses == [clause_of(case.name)];
        tally.hold(right, || format!("{}: {clauses:?}: {:?}", case.name, case.list));
        let asked = |minute: u32| case.asks.iter().any(|asked| asked.minute == minute);
        let all_asked = [10_080, 1 << 31, u32::MAX].into_iter().all(asked);
        tally.hold(all_asked && case.asks.len() >= 6, || format!("{}: too few minutes", case.name));
    }
}

/// The one clause that a break is made for.
fn clause_of(name: &str) -> &'static str {
    match name {
        "31: one word too many" | "31: two words too many" => "words",
        "31: one word too few" | "31: two words too few" => "words",
        "31: 65 windows" | "31: more than 65 windows" => "windows",
        "31: a start of 10,080" | "31: a start out of range" => "start",
        "31: a start out of range with a sum that wraps" => "start",
        "31: a length of 0" => "length",
        "31: one minute past the week's end" | "31: far past the week's end" => "end",
        "31: past the week's end with a sum that wraps" => "end",
        "31: a schedule of 8" | "31: a schedule out of range" => "schedule",
        "31: an overlap of one minute" | "31: a larger overlap" => "overlap",
        "31: two windows with one start" => "one start",
        "31: two windows swapped" | "31: a window far out of order" => "order",
        _ => "none",
    }
}

/// The clauses a list breaks, each once; what follows of itself from a window's own break is left out.
fn broken_clauses(list: &[u32]) -> Vec<&'static str> {
    let mut found = Vec::new();
    if list.len() % 3 != 0 {
        found.push("words");
    }
    if list.len() / 3 > 64 {
        found.push("windows");
    }
    let mut sound = Vec::new();
    for window in list.chunks_exact(3) {
        let (start, end) = (u64::from(window[0]), u64::from(window[0]) + u64::from(window[1]));
        let breaks = [
            (start >= WEEK, "start"),
            (window[1] == 0, "length"),
            (start < WEEK && end > WEEK, "end"),
            (window[2] > 7, "schedule"),
        ];
        found.extend(breaks.iter().filter(|clause| clause.0).map(|clause| clause.1));
        // A window that itself is out of range is in no order with others.
        if start < WEEK && end > start && end <= WEEK {
            sound.push((start, end));
        }
    }
    for (index, &(start, end)) in sound.iter().enumerate() {
        for &(next_start, next_end) in &sound[index + 1..] {
            let breaks = [
                (next_start == start, "one start"),
                (next_start != start && next_start < end && start < next_end, "overlap"),
                (next_start < start, "order"),
            ];
            found.extend(breaks.iter().filter(|clause| clause.0).map(|clause| clause.1));
        }
    }
    found.sort_unstable();
    found.dedup();
    found
}

/// The prepared week against the plain walk: some minutes of many weeks, and each minute of some weeks.
fn hold_walks(tally: &mut Tally) {
    for case in cases().iter().step_by(7) {
        let week = Week::of(&case.list);
        for asked in case.asks.iter().take(12) {
            let prepared = week.as_ref().map_or(Hours::Refused(31), |week| week.hours(asked.minute));
            let plain = hours(&case.list, asked.minute);
            tally.hold(prepared == plain, || {
                format!("{}: minute {}: {prepared:?} is not {plain:?}", case.name, asked.minute)
            });
        }
    }
    for case in cases().iter().rev().filter(|case| case.list.len() > 30).step_by(50).take(15) {
        let Some(week) = Week::of(&case.list) else { continue };
        let different = (0..10_080).find(|&minute| week.hours(minute) != week.walked(minute));
        tally.hold(different.is_none(), || format!("{}: {different:?}: {:?}", case.name, case.list));
    }
}

/// The copy without a fault must pass the run, and with each fault it must be noticed.
fn hold_plants(tally: &mut Tally) {
    let mut copy = Planted::new(Plant::Nothing);
    let noticed = is_noticed(&mut |list, minute, field| copy.answer(list, minute, field));
    tally.hold(!noticed, || "the copy without a fault differs".to_string());
    for (plant, name) in PLANTS {
        let mut copy = Planted::new(plant);
        let noticed = is_noticed(&mut |list, minute, field| copy.answer(list, minute, field));
        tally.hold(noticed, || format!("not noticed: {name} ({plant:?})"));
    }
    println!("{} planted faults", PLANTS.len());
}
