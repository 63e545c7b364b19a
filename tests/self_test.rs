//! Holds the second checker against the examples of document 01, against what each sheet
//! was made for, and against the checker written for speed. It needs no library of ours.

#[path = "../bench/linear.rs"]
mod linear;

use second::checker::{Schedule, Sheet};
use second::planted_checkers::unnoticed_checkers;
use second::sheets_long::{self, ABOUT_LONG_LINKS};
use second::{checker, near_misses, sheets};
use std::collections::BTreeMap;
use std::ops::Range;
use std::process::ExitCode;

/// Checkers that are wrong about short sheets: the first knows of no idle network, the second
/// misses words in a sheet that has none, the third takes every sheet without a whole head for
/// the idle network.
const WRONG_CHECKERS: [fn(&[u32]) -> u32; 3] = [
    |words| if words.len() < 5 { 1 } else { checker::verdict(words) },
    |words| if words.is_empty() { 3 } else { checker::verdict(words) },
    |words| if words.len() < 5 { 0 } else { checker::verdict(words) },
];

/// Whether some short sheet is judged otherwise than it was made for.
fn is_noticed(cases: &[sheets::Case], wrong: fn(&[u32]) -> u32) -> bool {
    cases
        .iter()
        .filter(|case| case.words.len() <= 5)
        .any(|case| case.expected.is_some_and(|expected| wrong(&case.words) != expected))
}

/// A checker that is wrong about circuits without an entry: its number for a sheet, beside the right one.
type WrongAbout26 = fn(&Sheet, u32) -> u32;

const WRONG_ABOUT_26: [(&str, WrongAbout26); 16] = [
    ("leaves the first schedule out", |sheet, right| {
        number_by(right, all_met(circuits(sheet), &circuits_met(&sheet.schedules[1..])))
    }),
    ("leaves the last schedule out", |sheet, right| {
        number_by(right, all_met(circuits(sheet), &circuits_met(&sheet.schedules[..sheet.schedules.len() - 1])))
    }),
    ("asks schedule 0 alone", |sheet, right| {
        number_by(right, all_met(circuits(sheet), &circuits_met(&sheet.schedules[..1])))
    }),
    ("asks for an entry in every schedule", |sheet, right| {
        let has_all = |schedule: &[Schedule]| all_met(circuits(sheet), &circuits_met(schedule));
        number_by(right, sheet.schedules.chunks(1).all(has_all))
    }),
    ("leaves the first entry out", |sheet, right| {
        let met = circuits_met(&sheet.schedules);
        number_by(right, all_met(circuits(sheet), met.get(1..).unwrap_or(&[])))
    }),
    ("leaves the last entry out", |sheet, right| {
        let mut met = circuits_met(&sheet.schedules);
        met.pop();
        number_by(right, all_met(circuits(sheet), &met))
    }),
    ("tests as many circuits as there are schedules", |sheet, right| {
        let tested = 0..circuits(sheet).end.min(sheet.schedules.len() as u64);
        number_by(right, all_met(tested, &circuits_met(&sheet.schedules)))
    }),
    ("leaves the first circuit out", |sheet, right| {
        number_by(right, all_met(1..circuits(sheet).end, &circuits_met(&sheet.schedules)))
    }),
    ("leaves the last circuit out", |sheet, right| {
        number_by(right, all_met(0..circuits(sheet).end.saturating_sub(1), &circuits_met(&sheet.schedules)))
    }),
    ("marks circuits in 32 bits", |sheet, right| {
        let met: Vec<u64> = circuits_met(&sheet.schedules).iter().map(|circuit| circuit % 32).collect();
        number_by(right, circuits(sheet).all(|circuit| met.contains(&(circuit % 32))))
    }),
    ("counts entries", |sheet, right| number_by(right, circuits_met(&sheet.schedules).len() >= sheet.circuits.len())),
    ("refuses a sheet without circuits", |sheet, right| number_by(right, right == 0 && !sheet.circuits.is_empty())),
    ("answers 11 for 26", |_, right| if right == 26 { 11 } else { right }),
    ("answers 26 before 11", |sheet, right| if right == 11 && checker::rule26(sheet) { 26 } else { right }),
    ("answers 26 before 4", |sheet, right| if right >= 4 && checker::rule26(sheet) { 26 } else { right }),
    ("knows no 26", |_, right| if right == 26 { 0 } else { right }),
];

/// The number of whoever is right about 1 to 11 and then finds all circuits served or not.
fn number_by(right: u32, all_served: bool) -> u32 {
    match right {
        0 | 26 if all_served => 0,
        0 | 26 => 26,
        _ => right,
    }
}

fn circuits(sheet: &Sheet) -> Range<u64> {
    0..sheet.circuits.len() as u64
}

/// The circuits of all entries, in their order.
fn circuits_met(schedules: &[Schedule]) -> Vec<u64> {
    schedules.iter().flat_map(|schedule| &schedule.entries).map(|entry| entry.circuit).collect()
}

fn all_met(mut circuits: Range<u64>, met: &[u64]) -> bool {
    circuits.all(|circuit| met.contains(&circuit))
}

/// The sheets that were made for 26 or nearly so, with the numbers they were made for.
fn sheets_about_26(cases: &[sheets::Case]) -> Vec<(Sheet, u32)> {
    cases
        .iter()
        .filter(|case| case.name.starts_with("26: "))
        .filter_map(|case| checker::read(&case.words).zip(case.expected))
        .collect()
}

fn main() -> ExitCode {
    let mut passed = 0;
    let mut failed = 0;
    let mut sheets_by_number: BTreeMap<u32, usize> = BTreeMap::new();
    let cases = near_misses::all_cases();
    for case in &cases {
        let plain = checker::verdict(&case.words);
        let fast = linear::verdict(&case.words);
        let tuned = linear::tuned_verdict(&case.words);
        *sheets_by_number.entry(plain).or_default() += 1;
        let passes_to_11 = plain != 26 || checker::verdict_to_11(&case.words) == 0;
        let as_made = case.expected.is_none_or(|expected| expected == plain);
        if plain == fast && plain == tuned && passes_to_11 && as_made {
            passed += 1;
        } else {
            failed += 1;
            if failed <= 10 {
                println!("{}: {plain}, linear {fast}, tuned {tuned}, expected {:?}", case.name, case.expected);
                println!("  {:?}", case.words);
            }
        }
    }

    let about_26 = sheets_about_26(&cases);
    let mut noticed = 0;
    for (name, wrong) in WRONG_ABOUT_26 {
        if about_26.iter().any(|(sheet, expected)| wrong(sheet, *expected) != *expected) {
            noticed += 1;
        } else {
            failed += 1;
            println!("not noticed: a checker that {name}");
        }
    }
    println!("{noticed} of {} checkers that are wrong about 26 noticed", WRONG_ABOUT_26.len());
    passed += noticed;

    let (planted, unnoticed) = unnoticed_checkers(&cases);
    for name in &unnoticed {
        failed += 1;
        println!("not as planted: a checker that {name}");
    }
    println!("{} of {planted} checkers that are wrong about long links noticed", planted - unnoticed.len());
    passed += planted - unnoticed.len();
    let about_long_links: Vec<_> = cases.iter().filter(|case| case.name.starts_with(ABOUT_LONG_LINKS)).collect();
    let on_long_links = about_long_links.iter().filter(|case| sheets_long::is_on_long_links(&case.words)).count();
    println!("{} sheets about long links, {on_long_links} on long ones", about_long_links.len());
    let enough_on_long_links =
        about_long_links.len() >= sheets_long::REQUIRED && on_long_links >= sheets_long::REQUIRED_ON_LONG_LINKS;

    // The entries of sheet A, of a sheet with three circuits and four schedules, whose first
    // and third are without entries, of one that ends where its entries would begin, and of two
    // whose second circuit has no entry and has one; and the sheets that are timed, which have to
    // be of the stated sizes.
    let sheet_a = sheets::sheet_a().words();
    let several = [
        2, 2, 8, 3, 4, // places 0 to 4
        0, 1, 0, 4, 0, 4, // 5 to 10
        0, 3, 4, 2, 0, 2, // 11 to 16
        1, 3, 4, 2, 2, 2, // 17 to 22
        12, 0, // 23 and 24
        9, 2, // 25 and 26
        0, 2, 1, 9, 0, 2, 2, 2, // 27 to 34
        1_024, 0, // 35 and 36
        9, 1, // 37 and 38
        6, 3, 0, 13, // 39 to 42
    ];
    let without_entries = [2, 2, 1, 0, 1, 9, 0];
    let unserved = [
        2, 2, 8, 2, 2, // places 0 to 4
        0, 1, 0, 4, 0, 4, // 5 to 10
        0, 3, 4, 2, 0, 2, // 11 to 16
        9, 1, // 17 and 18
        0, 3, 0, 13, // 19 to 22
        12, 0, // 23 and 24
    ];
    let served = [&unserved[..24], &[1, 0, 2, 1, 9]].concat();
    let no_words = [];
    let largest = sheets::largest(1).words();
    let middle = sheets::middle(1);
    let middle_is_right = middle.nodes() == 16
        && middle.circuits.len() == 30
        && middle.schedules.len() == 3
        && middle.schedules.iter().all(|schedule| schedule.entries.len() == 40);
    for right in [
        checker::entries(&sheet_a, 0, 0) == Ok((13, vec![0, 3, 0, 13])),
        checker::entries(&sheet_a, 0, 1) == Err(15),
        checker::entries(&sheet_a, 9, 1) == Err(9),
        checker::verdict(&several) == 0,
        checker::entries(&several, 0, 0) == Ok((25, vec![])),
        checker::entries(&several, 0, 1) == Ok((27, vec![0, 2, 1, 9, 0, 2, 2, 2])),
        checker::entries(&several, 0, 2) == Ok((37, vec![])),
        checker::entries(&several, 0, 3) == Ok((39, vec![6, 3, 0, 13])),
        checker::entries(&several, 0, 4) == Err(15),
        checker::entries(&several, 0, 4_294_967_295) == Err(15),
        checker::verdict(&without_entries) == 0,
        checker::entries(&without_entries, 0, 0) == Ok((7, vec![])),
        checker::entries(&[2], 1, 4_294_967_295) == Err(1),
        // Entries are handed back by 1 to 11 alone.
        checker::verdict(&unserved) == 26,
        checker::verdict_to_11(&unserved) == 0,
        checker::entries(&unserved, checker::verdict_to_11(&unserved), 0) == Ok((19, vec![0, 3, 0, 13])),
        checker::entries(&unserved, checker::verdict_to_11(&unserved), 1) == Ok((25, vec![])),
        checker::entries(&unserved, checker::verdict_to_11(&unserved), 2) == Err(15),
        checker::entries(&unserved, checker::verdict_to_11(&unserved), 4_294_967_295) == Err(15),
        checker::verdict(&served) == 0,
        checker::entries(&served, checker::verdict_to_11(&served), 1) == Ok((25, vec![0, 2, 1, 9])),
        // A sheet of no words stands for the idle network, whose only schedule has no entries.
        checker::meant(&no_words) == without_entries,
        checker::meant(&sheet_a) == sheet_a,
        sheets::idle_network().words() == without_entries,
        checker::verdict(&no_words) == 0,
        checker::verdict_to_11(&no_words) == 0,
        checker::entries(&no_words, 0, 0) == Ok((0, vec![])),
        checker::entries(&no_words, 0, 1) == Err(15),
        checker::entries(&no_words, 0, 7) == Err(15),
        checker::entries(&no_words, 0, 4_294_967_295) == Err(15),
        [1, 2, 3, 4].iter().all(|&length| checker::verdict(&without_entries[..length]) == 1),
        WRONG_CHECKERS.iter().all(|wrong| is_noticed(&cases, *wrong)),
        largest.len() == 8_597,
        checker::verdict(&largest) == 0,
        enough_on_long_links,
        middle_is_right,
        checker::verdict(&middle.words()) == 0,
    ] {
        if right {
            passed += 1;
        } else {
            failed += 1;
        }
    }

    println!("number  sheets");
    for (number, count) in &sheets_by_number {
        println!("{number:>6}  {count:>6}");
    }
    println!("{passed} passed, {failed} failed");
    if failed == 0 {
        ExitCode::SUCCESS
    } else {
        ExitCode::FAILURE
    }
}
