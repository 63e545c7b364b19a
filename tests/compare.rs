//! Compares our verdicts on circuit sheets, and the entries of a schedule that we hand
//! back, with those of the second checker: first the library calls, then the program
//! `sheet_check`, whose path is the argument.

mod exports;

use second::sheets::{
    all_shortest_paths, largest, last_offset, route_of, sheet_a, Case, Circuit, Entry, Plan, Schedule,
};
use second::sheets_long::{self, ABOUT_LONG_LINKS};
use second::{checker, near_misses};
use std::collections::BTreeMap;
use std::io::Write;
use std::process::{Command, ExitCode, Stdio};

extern "C" {
    fn argo_verdict(sheet: *const u32, length: usize) -> u32;
}

const SHEETS_REQUIRED: usize = 20_000;
const SHEETS_REQUIRED_OF_EACH_NUMBER: usize = 100;
/// Sheets of 26, and schedules whose entries such sheets hand back.
const REQUIRED_OF_26: usize = 300;
const INPUTS_REQUIRED: usize = 250;
const MOST_SHEET_WORDS: u32 = 8_597;
/// What the checker can answer.
const SHEET_NUMBERS: [u32; 13] = [0, 1, 2, 3, 4, 5, 6, 7, 8, 9, 10, 11, 26];
const DIFFERENCES_SHOWN: usize = 10;
const SCHEDULES_ASKED: [u32; 10] = [0, 1, 2, 3, 4, 5, 6, 7, 8, u32::MAX];
const FIELDS_ASKED: [u32; 5] = [0, 1, 2, 3, u32::MAX];
/// Ordered pairs of different nodes, over the nine grids.
const PAIRS_OF_NODES: usize = 760;
/// Routes of up to five codes: four hops, the most that a distance asks for, and the way out.
const ROUTE_BITS: u32 = 10;
const ROUTES_TRIED: u32 = 1 << ROUTE_BITS;

fn our_verdict(sheet: &[u32]) -> u32 {
    // The pointer and the length are those of a live slice.
    unsafe { argo_verdict(sheet.as_ptr(), sheet.len()) }
}

fn main() -> ExitCode {
    let Some(program) = std::env::args().nth(1) else {
        eprintln!("usage: compare PATH_OF_SHEET_CHECK");
        return ExitCode::FAILURE;
    };
    let mut passed = 0;
    let mut differences: Vec<String> = Vec::new();

    let cases = near_misses::all_cases();
    let mut sheets_by_number: BTreeMap<u32, usize> = BTreeMap::new();
    let mut entries_by_number: BTreeMap<u32, usize> = BTreeMap::new();
    let mut entries_by_sheets_of_26 = 0;
    let mut numbers = Vec::new();
    for case in &cases {
        let second = checker::verdict(&case.words);
        let ours = our_verdict(&case.words);
        *sheets_by_number.entry(second).or_default() += 1;
        numbers.push(second);
        if ours == second && case.expected.is_none_or(|expected| expected == second) {
            passed += 1;
        } else {
            differences.push(format!(
                "sheet ({}): ours {ours}, second checker {second}, made for {:?}\n  words {:?}",
                case.name, case.expected, case.words
            ));
        }
        let to_11 = checker::verdict_to_11(&case.words);
        let asked: Result<Vec<u32>, String> =
            SCHEDULES_ASKED.iter().map(|&schedule| entries_agree(&case.words, to_11, schedule)).collect();
        match asked {
            Ok(numbers) => {
                passed += 1;
                for number in numbers {
                    *entries_by_number.entry(number).or_default() += 1;
                    entries_by_sheets_of_26 += usize::from(second == 26 && number == 0);
                }
            }
            Err(said) => differences.push(format!("entries ({}): {said}\n  words {:?}", case.name, case.words)),
        }
    }

    passed += entries_of_no_words(&mut differences);

    let mut pairs = 0;
    let mut routes_by_number = [0; 12];
    let mut on_long_links_by_number = [0; 12];
    for (columns, rows) in (2..=4).flat_map(|columns| (2..=4).map(move |rows| (columns, rows))) {
        for (source, destination) in pairs_of_nodes(columns * rows) {
            pairs += 1;
            let numbers = routes_agree(columns, rows, source, destination, &mut differences);
            add_to(&mut routes_by_number, numbers);
            let on_long_links = routes_on_long_links(columns, rows, source, destination, &mut differences);
            add_to(&mut on_long_links_by_number, on_long_links);
            if numbers[0] == 0 {
                differences
                    .push(format!("grid {columns} x {rows}: no route leads from node {source} to {destination}"));
            }
        }
    }
    let verdicts: usize = routes_by_number.iter().sum();
    passed += verdicts + on_long_links_by_number.iter().sum::<usize>();

    let inputs = inputs(&cases, &numbers);
    let mut inputs_by_line: Vec<(String, usize)> = Vec::new();
    for (name, input) in &inputs {
        let wanted = wanted_line(input);
        let settled = match *name {
            "no words" => "passes",
            "unserved circuit" => "refused 26",
            _ => &wanted,
        };
        if wanted != settled {
            differences.push(format!("input ({name}): the second checker has {wanted:?}\n  {input:?}"));
        }
        match inputs_by_line.iter_mut().find(|(line, _)| *line == wanted) {
            Some((_, count)) => *count += 1,
            None => inputs_by_line.push((wanted.clone(), 1)),
        }
        let printed = run(&program, input);
        if printed == Ok(format!("{wanted}\n")) {
            passed += 1;
        } else {
            let start = &input[..input.len().min(400)];
            differences.push(format!(
                "input ({name}, {} bytes): printed {printed:?}, wanted {wanted:?}\n  {start:?}",
                input.len()
            ));
        }
    }

    println!("number  sheets");
    for (number, count) in &sheets_by_number {
        println!("{number:>6}  {count:>6}");
    }
    println!(" total  {:>6}", cases.len());
    println!("number  routes between two nodes");
    for (number, count) in routes_by_number.iter().enumerate().filter(|&(_, &count)| count > 0) {
        println!("{number:>6}  {count:>6}");
    }
    println!(" total  {verdicts:>6}");
    println!("number  routes between two nodes on long links");
    for (number, count) in on_long_links_by_number.iter().enumerate().filter(|&(_, &count)| count > 0) {
        println!("{number:>6}  {count:>6}");
    }
    println!("number  entries asked for");
    for (number, count) in &entries_by_number {
        println!("{number:>6}  {count:>6}");
    }
    println!("{entries_by_sheets_of_26} of them with 0 by a sheet of 26");
    println!("line of sheet_check  inputs");
    inputs_by_line.sort();
    for (line, count) in &inputs_by_line {
        println!("{line:>19}  {count:>6}");
    }
    println!("              total  {:>6}", inputs.len());

    for difference in differences.iter().take(DIFFERENCES_SHOWN) {
        println!("{difference}");
    }
    let mut enough = true;
    if cases.len() < SHEETS_REQUIRED || inputs.len() < INPUTS_REQUIRED {
        println!("too few sheets or inputs were compared");
        enough = false;
    }
    let about_long_links: Vec<&Case> = cases.iter().filter(|case| case.name.starts_with(ABOUT_LONG_LINKS)).collect();
    let on_long_links = about_long_links.iter().filter(|case| sheets_long::is_on_long_links(&case.words)).count();
    println!("{} sheets about long links, {on_long_links} on long ones", about_long_links.len());
    if about_long_links.len() < sheets_long::REQUIRED || on_long_links < sheets_long::REQUIRED_ON_LONG_LINKS {
        println!("too few sheets about long links were compared");
        enough = false;
    }
    // A right route in time, one too late, and wrong ones between any two nodes.
    if [0, 9, 10].iter().any(|&number| on_long_links_by_number[number] < PAIRS_OF_NODES) {
        println!("too few routes on long links agree");
        enough = false;
    }
    if pairs != PAIRS_OF_NODES || verdicts != PAIRS_OF_NODES * ROUTES_TRIED as usize {
        println!("{verdicts} routes between {pairs} pairs of nodes agree, not all");
        enough = false;
    }
    for number in SHEET_NUMBERS {
        let required = if number == 26 { REQUIRED_OF_26 } else { SHEETS_REQUIRED_OF_EACH_NUMBER };
        if sheets_by_number.get(&number).copied().unwrap_or(0) < required {
            println!("too few sheets have number {number}");
            enough = false;
        }
    }
    for number in (0..12).chain([15]) {
        if entries_by_number.get(&number).copied().unwrap_or(0) < SHEETS_REQUIRED_OF_EACH_NUMBER {
            println!("too few entries were asked for with number {number}");
            enough = false;
        }
    }
    if entries_by_sheets_of_26 < REQUIRED_OF_26 {
        println!("too few entries were handed back by sheets of 26");
        enough = false;
    }
    println!("{passed} passed, {} failed", differences.len());
    if enough && differences.is_empty() {
        ExitCode::SUCCESS
    } else {
        ExitCode::FAILURE
    }
}

fn pairs_of_nodes(nodes: u32) -> impl Iterator<Item = (u32, u32)> {
    (0..nodes).flat_map(move |from| (0..nodes).map(move |to| (from, to))).filter(|(from, to)| from != to)
}

fn add_to(all: &mut [usize; 12], numbers: [usize; 12]) {
    for (all, found) in all.iter_mut().zip(numbers) {
        *all += found;
    }
}

/// A sheet of one circuit and one entry, without its route and its offset.
fn plan_of_one_entry(columns: u32, rows: u32, source: u32, destination: u32, period: u32) -> Plan {
    let circuit = Circuit { source, destination, read_offset: 0, read_length: 1, receive_offset: 0, receive_length: 1 };
    let entry = Entry { offset: 0, length: 2, circuit: 0, route: 0 };
    Plan {
        columns,
        rows,
        long_links: false,
        memory_words: 1,
        circuits: vec![circuit],
        schedules: vec![Schedule { period, entries: vec![entry] }],
    }
}

/// Judges a sheet of one circuit and one entry for each route, and counts the verdicts that agree by their number. The entry ends as
/// late as number 10 allows at the distance that the second checker searches for, so that a distance of ours that were one less would
/// show as a 9, and one that were more as a 10.
fn routes_agree(columns: u32, rows: u32, source: u32, destination: u32, differences: &mut Vec<String>) -> [usize; 12] {
    let (period, length) = (12, 2);
    let mut plan = plan_of_one_entry(columns, rows, source, destination, period);
    let sheet = checker::read(&plan.words()).expect("a sheet of one circuit and one entry");
    let steps = checker::distance(&sheet, source.into(), destination.into()) as u32;
    let mut numbers = [0; 12];
    for route in 0..ROUTES_TRIED {
        plan.schedules[0].entries[0] = Entry { offset: period + 3 - length - 3 * steps, length, circuit: 0, route };
        let words = plan.words();
        let (ours, second) = (our_verdict(&words), checker::verdict(&words));
        if ours == second {
            numbers[second as usize] += 1;
        } else {
            differences.push(format!("route {route}: ours {ours}, second checker {second}\n  words {words:?}"));
        }
    }
    numbers
}

/// The same on long links for each right route and each that differs from one in a bit, in the last offset of the
/// right one and a cycle later.
fn routes_on_long_links(
    columns: u32,
    rows: u32,
    source: u32,
    destination: u32,
    differences: &mut Vec<String>,
) -> [usize; 12] {
    let period = 16;
    let mut plan = plan_of_one_entry(columns, rows, source, destination, period);
    plan.long_links = true;
    let mut numbers = [0; 12];
    for path in all_shortest_paths(&plan, source, destination) {
        let right = route_of(&path);
        let last = last_offset(period, 2, plan.delay_of(&path)).expect("a long period");
        for route in (0..ROUTE_BITS).map(|bit| right ^ 1 << bit).chain([right]) {
            for offset in [last, last + 1] {
                plan.schedules[0].entries[0] = Entry { offset, length: 2, circuit: 0, route };
                let words = plan.words();
                let (ours, second) = (our_verdict(&words), checker::verdict(&words));
                if ours == second {
                    numbers[second as usize] += 1;
                } else {
                    let verdicts = format!("ours {ours}, second checker {second}");
                    differences.push(format!("long links, route {route}: {verdicts}\n  words {words:?}"));
                }
            }
        }
    }
    numbers
}

/// The number beside one schedule's entries, where every field of ours is the second
/// checker's and the words at our place are its words; else what differs. The sheet's own
/// number is that of 1 to 11.
fn entries_agree(words: &[u32], to_11: u32, schedule: u32) -> Result<u32, String> {
    let second = checker::entries(words, to_11, schedule);
    for field in FIELDS_ASKED {
        let wanted = match (&second, field) {
            (Err(number), _) => u64::from(*number) << 32,
            (Ok((place, _)), 0) => *place as u64,
            (Ok((_, part)), 1) => part.len() as u64,
            (Ok(_), _) => 0,
        };
        let ours = exports::entries(words, schedule, field);
        if ours != wanted {
            return Err(format!("schedule {schedule}, field {field}: ours {ours}, second checker {wanted}"));
        }
    }
    let Ok((_, wanted)) = second else {
        return Ok(second.unwrap_err());
    };
    let place = exports::entries(words, schedule, 0) as usize;
    let length = exports::entries(words, schedule, 1) as usize;
    let part: Vec<u64> = words[place..place + length].iter().map(|&word| u64::from(word)).collect();
    if part == wanted {
        Ok(0)
    } else {
        Err(format!("schedule {schedule}: our part {part:?}, second checker {wanted:?}"))
    }
}

/// A sheet of no words has one schedule, whose entries are no words at its start; the answers stand
/// here. How many are right.
fn entries_of_no_words(differences: &mut Vec<String>) -> usize {
    let mut right = 0;
    for (schedule, number) in [(0, 0u64), (1, 15), (7, 15), (u32::MAX, 15)] {
        for field in [0, 1, 2] {
            let ours = exports::entries(&[], schedule, field);
            if ours == number << 32 {
                right += 1;
            } else {
                differences.push(format!("entries of no words, schedule {schedule}, field {field}: ours {ours:#x}"));
            }
        }
    }
    right
}

/// The line that an input calls for: the stated length first, then the words, then the
/// sheet they make. What follows the sheet does not count.
fn wanted_line(input: &[u8]) -> String {
    let word_at = |position: usize| {
        let bytes = input.get(4 * position..4 * position + 4)?;
        Some(u32::from_le_bytes(bytes.try_into().expect("four bytes")))
    };
    let Some(stated) = word_at(0) else {
        return "input ends".to_string();
    };
    if stated > MOST_SHEET_WORDS {
        return "too large".to_string();
    }
    let sheet: Option<Vec<u32>> = (1..=stated as usize).map(word_at).collect();
    match sheet.map(|words| checker::verdict(&words)) {
        None => "input ends".to_string(),
        Some(0) => "passes".to_string(),
        Some(number) => format!("refused {number}"),
    }
}

/// What the program prints, or why it could not be run to its end.
fn run(program: &str, input: &[u8]) -> Result<String, String> {
    let mut child = Command::new(program)
        .stdin(Stdio::piped())
        .stdout(Stdio::piped())
        .spawn()
        .map_err(|error| error.to_string())?;
    // The program may end before it has read all; a broken pipe is then no fault of it.
    let _ = child.stdin.take().expect("a pipe").write_all(input);
    let output = child.wait_with_output().map_err(|error| error.to_string())?;
    if output.status.code().is_none() {
        return Err(format!("{}", output.status));
    }
    String::from_utf8(output.stdout).map_err(|error| error.to_string())
}

fn bytes_of(words: &[u32]) -> Vec<u8> {
    words.iter().flat_map(|word| word.to_le_bytes()).collect()
}

/// The stated length, then the words.
fn input_of(stated: u32, words: &[u32]) -> Vec<u8> {
    [bytes_of(&[stated]), bytes_of(words)].concat()
}

fn inputs(cases: &[Case], numbers: &[u32]) -> Vec<(&'static str, Vec<u8>)> {
    let mut list: Vec<(&'static str, Vec<u8>)> = Vec::new();

    // Sheets of every number, spread over all those compared.
    for number in SHEET_NUMBERS {
        let of_number: Vec<&Case> = cases
            .iter()
            .zip(numbers)
            .filter(|&(case, &found)| found == number && case.words.len() <= 8_597)
            .map(|(case, _)| case)
            .collect();
        let step = of_number.len().div_ceil(14).max(1);
        for case in of_number.iter().step_by(step) {
            list.push(("generated sheet", input_of(case.words.len() as u32, &case.words)));
        }
    }

    // Of the sheets about long links some of every name.
    let mut by_name: BTreeMap<&str, Vec<&Case>> = BTreeMap::new();
    for case in cases.iter().filter(|case| case.name.starts_with(ABOUT_LONG_LINKS)) {
        by_name.entry(case.name).or_default().push(case);
    }
    for of_name in by_name.values() {
        for case in of_name.iter().step_by(of_name.len().div_ceil(3)) {
            list.push(("sheet about long links", input_of(case.words.len() as u32, &case.words)));
        }
    }

    // No words stated, whatever is behind, and what is less than that statement.
    let none = input_of(0, &[]);
    for tail in [vec![], vec![0], vec![255; 3], vec![1; 4], vec![0; 28], vec![255; 1_000]] {
        list.push(("no words", [none.clone(), tail].concat()));
    }
    for length in 0..none.len() {
        list.push(("no words, input cut", none[..length].to_vec()));
    }

    // Sheet A cut after every byte.
    let small = sheet_a().words();
    let whole = input_of(small.len() as u32, &small);
    for length in 0..=whole.len() {
        list.push(("sheet A cut", whole[..length].to_vec()));
    }
    for byte in [1, 255] {
        for length in 1..4 {
            list.push(("less than a word", vec![byte; length]));
        }
    }

    // Bytes behind the sheet.
    for tail in [vec![0], vec![255; 2], vec![1; 3], vec![0; 4], vec![255; 5], whole.clone()] {
        list.push(("bytes behind sheet A", [whole.clone(), tail].concat()));
    }
    list.push(("many bytes behind sheet A", [whole.clone(), vec![7; 100_000]].concat()));

    // Sheet A without its entry, cut after every byte of its last word, and bytes behind it.
    let mut unserved = sheet_a();
    unserved.unserve(0);
    let words = unserved.words();
    let whole_unserved = input_of(words.len() as u32, &words);
    for missing in 1..=4 {
        list.push(("unserved circuit, input cut", whole_unserved[..whole_unserved.len() - missing].to_vec()));
    }
    for tail in [vec![], vec![0], vec![255; 1_000]] {
        list.push(("unserved circuit", [whole_unserved.clone(), tail].concat()));
    }

    // A stated length that is not that of the words.
    for stated in 0..small.len() as u32 {
        list.push(("fewer words stated", input_of(stated, &small)));
    }
    for stated in [18, 19, 100, 8_596, 8_597] {
        list.push(("more words stated", input_of(stated, &small)));
    }
    for stated in [8_598, 8_599, 1 << 16, 1 << 30, (1 << 30) + 17, 1 << 31, u32::MAX - 1, u32::MAX] {
        list.push(("too many words stated, none there", input_of(stated, &[])));
        list.push(("too many words stated, sheet A there", input_of(stated, &small)));
        let mut cut = input_of(stated, &small);
        cut.truncate(7);
        list.push(("too many words stated, input cut", cut));
    }

    // Around the largest sheet.
    let large = largest(1).words();
    let whole = input_of(8_597, &large);
    list.push(("largest sheet", whole.clone()));
    list.push(("largest sheet and bytes behind", [whole.clone(), vec![1; 9]].concat()));
    for missing in [1, 2, 3, 4, 5, 4_000] {
        list.push(("largest sheet cut", whole[..whole.len() - missing].to_vec()));
    }
    list.push(("largest sheet, a word less stated", input_of(8_596, &large)));
    let longer = [large.clone(), vec![0]].concat();
    list.push(("largest sheet, a word more", input_of(8_598, &longer)));
    list.push(("as many zeros", input_of(8_597, &vec![0; 8_597])));
    list.push(("as many words of ones", input_of(8_597, &vec![u32::MAX; 8_597])));
    list
}
