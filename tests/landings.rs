//! Runs the program `landings`, whose path is the argument, and compares what it prints byte
//! for byte with the second machine's listing; where an input settles it, with a line or a
//! listing that stands here.

use second::checker;
use second::inputs::{
    all_transfers, bytes_of, input_words, largest_in_small_memory, middle_in_small_memory, some_memory, Transfer,
};
use second::listing::listing;
use second::near_misses::{all_cases, GRIDS};
use second::sheets::{
    largest_on, passing_plan, route_of, sheet_a, sixty_four_circuits, Circuit, Entry, Plan, Random, Schedule, Wish,
    NORTH, SOUTH,
};
use std::collections::BTreeMap;
use std::io::Write;
use std::process::{Command, ExitCode, Stdio};
use std::thread;

const INPUTS_REQUIRED: usize = 200;
const INPUTS_REQUIRED_ON_LONG_LINKS: usize = 60;
const DIFFERENCES_SHOWN: usize = 10;

const LISTING_OF_SHEET_A: &str = "cycle node address word kind
7 1 0 11 0
8 1 1 22 0
16 1 2 33 0
";
const NO_LANDING: &str = "cycle node address word kind\n";
const TOO_LARGE: &str = "too large\n";
const INPUT_ENDS: &str = "input ends\n";

struct Case {
    name: &'static str,
    input: Vec<u8>,
    /// What is printed, where the way the input is made settles that.
    printed: Option<String>,
}

#[derive(Default)]
struct Cases {
    list: Vec<Case>,
}

impl Cases {
    fn settled(&mut self, name: &'static str, input: Vec<u8>, printed: &str) {
        self.list.push(Case { name, input, printed: Some(printed.to_string()) });
    }

    fn open(&mut self, name: &'static str, input: Vec<u8>) {
        self.list.push(Case { name, input, printed: None });
    }
}

fn main() -> ExitCode {
    let Some(program) = std::env::args().nth(1) else {
        eprintln!("usage: landings PATH_OF_LANDINGS");
        return ExitCode::FAILURE;
    };
    let mut cases = Cases::default();
    example(&mut cases);
    generated(&mut cases);
    refused_sheets(&mut cases);
    unserved_circuits(&mut cases);
    refused_starts(&mut cases);
    sheet_limit(&mut cases);
    memory_limit(&mut cases);
    transfer_limit(&mut cases);
    cycle_limit(&mut cases);
    cut_inputs(&mut cases);
    no_words(&mut cases);
    let before = cases.list.len();
    long_links(&mut cases);
    let on_long_links = cases.list.len() - before;
    println!("{on_long_links} inputs about long links");

    let mut differences = Vec::new();
    let mut kinds: BTreeMap<String, usize> = BTreeMap::new();
    for case in &cases.list {
        let wanted = listing(checker::verdict, &case.input);
        *kinds.entry(kind_of_output(&wanted)).or_default() += 1;
        differences.extend(difference(case, &wanted, run(&program, &case.input)));
    }
    let enough =
        cases.list.len() >= INPUTS_REQUIRED && on_long_links >= INPUTS_REQUIRED_ON_LONG_LINKS && is_complete(&kinds);
    for difference in differences.iter().take(DIFFERENCES_SHOWN) {
        println!("{difference}");
    }
    let passed = cases.list.len() - differences.len();
    let failed = differences.len() + usize::from(!enough);
    println!("{passed} passed, {failed} failed");
    if failed == 0 {
        ExitCode::SUCCESS
    } else {
        ExitCode::FAILURE
    }
}

/// How the program, the second machine and what is settled differ, if they do.
fn difference(case: &Case, wanted: &String, printed: Result<String, String>) -> Option<String> {
    let as_settled = case.printed.as_ref().is_none_or(|settled| settled == wanted);
    if as_settled && printed.as_ref() == Ok(wanted) {
        return None;
    }
    let start = |text: &str| text.chars().take(200).collect::<String>();
    Some(format!(
        "{} ({} bytes): printed {:?}, second machine {:?}, settled {:?}",
        case.name,
        case.input.len(),
        printed.as_deref().map(start),
        start(wanted),
        case.printed.as_deref().map(start)
    ))
}

/// The only line, or how much of a listing there is.
fn kind_of_output(output: &str) -> String {
    if !output.starts_with(NO_LANDING) {
        output.trim_end().to_string()
    } else if output == NO_LANDING {
        "listing without a landing".to_string()
    } else {
        "listing with landings".to_string()
    }
}

fn is_complete(kinds: &BTreeMap<String, usize>) -> bool {
    for (kind, count) in kinds {
        println!("{count:>6}  {kind}");
    }
    let mut wanted: Vec<String> =
        (1..=11).chain(15..=17).chain([26]).map(|number| format!("refused {number}")).collect();
    wanted.extend(["too large", "input ends", "listing without a landing", "listing with landings"].map(String::from));
    let missing: Vec<String> = wanted.into_iter().filter(|kind| !kinds.contains_key(kind)).collect();
    for kind in &missing {
        println!("never met: {kind}");
    }
    missing.is_empty()
}

/// What the program prints where it ends with status 0, else why not.
fn run(program: &str, input: &[u8]) -> Result<String, String> {
    let mut child = Command::new(program)
        .stdin(Stdio::piped())
        .stdout(Stdio::piped())
        .spawn()
        .map_err(|error| error.to_string())?;
    let mut pipe = child.stdin.take().expect("a pipe");
    // Written beside the reading, so that neither side waits for the other. The program may end
    // before it has read all; a broken pipe is then no fault of it.
    let output = thread::scope(|scope| {
        scope.spawn(move || {
            let _ = pipe.write_all(input);
        });
        child.wait_with_output()
    });
    let output = output.map_err(|error| error.to_string())?;
    if !output.status.success() {
        return Err(format!("{}", output.status));
    }
    String::from_utf8(output.stdout).map_err(|error| error.to_string())
}

fn memory_of_sheet_a() -> Vec<u32> {
    let mut memory = vec![0; 32];
    memory[..3].copy_from_slice(&[11, 22, 33]);
    memory
}

/// Sheet A with its memory, some transfers and cycles.
fn input_a(transfers: &[Transfer], cycles: u32) -> Vec<u32> {
    input_words(&sheet_a().words(), &memory_of_sheet_a(), transfers, cycles)
}

const TRANSFER_A: Transfer = [0, 0, 0, 3, 0];

fn example(cases: &mut Cases) {
    let words = input_a(&[TRANSFER_A], 20);
    cases.settled("sheet A", bytes_of(&words), LISTING_OF_SHEET_A);
    for extra in [vec![0], vec![255; 3], vec![1; 4], vec![7; 5], vec![9; 100_000]] {
        let input = [bytes_of(&words), extra].concat();
        cases.settled("sheet A and bytes behind the cycles", input, LISTING_OF_SHEET_A);
    }
    // A landing is printed once its cycle is carried out.
    for (cycles, lines) in [(0, 1), (1, 1), (7, 1), (8, 2), (9, 3), (16, 3), (17, 4), (20, 4), (65_536, 4)] {
        let printed: String = LISTING_OF_SHEET_A.lines().take(lines).map(|line| format!("{line}\n")).collect();
        cases.settled("sheet A by cycles", bytes_of(&input_a(&[TRANSFER_A], cycles)), &printed);
    }
    cases.settled("sheet A without transfers", bytes_of(&input_a(&[], 20)), NO_LANDING);
    let interrupt = "cycle node address word kind\n7 1 3 22 2\n";
    cases.settled("interrupt", bytes_of(&input_a(&[[0, 1, 3, 1, 2]], 20)), interrupt);
}

/// Sheets of all grids within the program's memory, with transfers on most circuits.
fn generated(cases: &mut Cases) {
    let mut random = Random::new(77);
    for (columns, rows) in GRIDS {
        for turn in 0..12 {
            let most = 4_096 / (columns * rows);
            let memory_words = match turn % 4 {
                0 => most,
                1 => random.between(1, 12),
                _ => random.between(12, most),
            };
            let wish = Wish {
                columns,
                rows,
                long_links: false,
                memory_words,
                circuits: random.choose(&[1, 6, 14, 64]),
                longest_region: memory_words.div_ceil(8),
                schedules: random.between(1, 3),
                period: Some(random.choose(&[9, 12, 20, 40, 100])),
                entries: random.between(4, 60),
                length: random.choose(&[None, None, Some(2), Some(4)]),
            };
            let plan = passing_plan(&mut random, &wish);
            let memory = some_memory(&mut random, &plan);
            let transfers = some_transfers(&mut random, &plan);
            let cycles = random.choose(&[0, 12, 100, 300, 1_000]);
            cases.open("generated", bytes_of(&input_words(&plan.words(), &memory, &transfers, cycles)));
        }
    }
    for plan in [middle_in_small_memory(1), largest_in_small_memory(1)] {
        let memory = some_memory(&mut random, &plan);
        let transfers = all_transfers(&plan);
        cases.open("all circuits send", bytes_of(&input_words(&plan.words(), &memory, &transfers, 5_000)));
    }
}

/// Sheets with long vertical links (L7): sheet A, whose words go east, words that go south and north with the cycles
/// of their landings, heads that are refused, and generated sheets of all grids.
fn long_links(cases: &mut Cases) {
    let mut on_long = input_a(&[TRANSFER_A], 20);
    on_long[2] = 258;
    cases.settled("sheet A on long links", bytes_of(&on_long), LISTING_OF_SHEET_A);
    for rows in [256, 257, 261, 512, 514, (1 << 16) + 258, (1 << 31) + 258] {
        on_long[2] = rows;
        cases.settled("no such rows", bytes_of(&on_long), "refused 2\n");
    }
    on_long[2] = 258;
    on_long[1] = 258;
    cases.settled("columns do not carry 256", bytes_of(&on_long), "refused 2\n");

    vertical_hops(cases);
    let mut random = Random::new(78);
    for (columns, rows) in GRIDS {
        for turn in 0..6 {
            let most = 4_096 / (columns * rows);
            let memory_words = if turn == 0 { most } else { random.between(12, most) };
            let wish = Wish {
                columns,
                rows,
                long_links: true,
                memory_words,
                circuits: random.choose(&[3, 8, 20, 64]),
                longest_region: memory_words.div_ceil(10),
                schedules: random.between(1, 2),
                period: Some(random.choose(&[12, 16, 24, 40])),
                entries: random.between(8, 50),
                length: random.choose(&[None, Some(2), Some(4)]),
            };
            let plan = passing_plan(&mut random, &wish);
            let memory = some_memory(&mut random, &plan);
            let transfers = some_transfers(&mut random, &plan);
            let cycles = random.choose(&[20, 60, 200, 600]);
            let words = input_words(&plan.words(), &memory, &transfers, cycles);
            cases.open("generated on long links", bytes_of(&words));
        }
    }
    let largest = largest_on(4, true).words();
    let words = [&[largest.len() as u32], &largest[..]].concat();
    cases.settled("largest sheet on long links, memory too large", bytes_of(&words), TOO_LARGE);
}

/// One hop south in a grid of 2 by 2, and two hops either way in one of 2 by 4, by the cycles of document 02, L7.
fn vertical_hops(cases: &mut Cases) {
    let plan = |rows: u32, path: &[u32], period: u32, offset: u32, length: u32, long_links: bool| {
        let circuits = vec![Circuit { destination: 2 * path.len() as u32, ..sheet_a().circuits[0] }];
        let entry = Entry { offset, length, circuit: 0, route: route_of(path) };
        Plan { rows, long_links, circuits, schedules: vec![Schedule { period, entries: vec![entry] }], ..sheet_a() }
    };
    let mut add = |plan: Plan, landings: &[&str]| {
        let mut memory = vec![0; (plan.nodes() * plan.memory_words) as usize];
        memory[..3].copy_from_slice(&[11, 22, 33]);
        let words = input_words(&plan.words(), &memory, &[TRANSFER_A], 40);
        let lines: String = landings.iter().map(|line| format!("{line}\n")).collect();
        cases.settled("vertical hops", bytes_of(&words), &lines);
    };
    let head = NO_LANDING.trim_end();
    for side in [NORTH, SOUTH] {
        add(plan(2, &[side], 9, 5, 3, false), &[head, "12 2 0 11 0", "13 2 1 22 0", "21 2 2 33 0"]);
        add(plan(2, &[side], 9, 5, 3, true), &[head, "13 2 0 11 0", "14 2 1 22 0", "22 2 2 33 0"]);
        add(plan(2, &[side], 9, 6, 3, false), &[head, "13 2 0 11 0", "14 2 1 22 0", "22 2 2 33 0"]);
        add(plan(2, &[side], 9, 6, 3, true), &["refused 10"]);
        add(plan(4, &[side; 2], 12, 4, 3, false), &[head, "14 4 0 11 0", "15 4 1 22 0", "26 4 2 33 0"]);
        add(plan(4, &[side; 2], 12, 4, 3, true), &[head, "16 4 0 11 0", "17 4 1 22 0", "28 4 2 33 0"]);
        add(plan(4, &[side; 2], 12, 5, 3, true), &["refused 10"]);
    }
}

/// At most one transfer a circuit, in any order.
fn some_transfers(random: &mut Random, plan: &Plan) -> Vec<Transfer> {
    let mut transfers = all_transfers(plan);
    for position in (1..transfers.len()).rev() {
        transfers.swap(position, random.position(position + 1));
    }
    transfers.truncate(random.position(transfers.len() + 1).max(transfers.len() / 2));
    for transfer in &mut transfers {
        match random.between(0, 3) {
            0 => (transfer[3], transfer[4]) = (1, 2),
            1 => transfer[3] = random.between(1, transfer[3]),
            _ => {}
        }
    }
    transfers
}

/// A sheet is refused as soon as it is read, whatever follows or does not.
fn refused_sheets(cases: &mut Cases) {
    let sheets = all_cases();
    for number in (1..=11).chain([26]) {
        let printed = format!("refused {number}\n");
        let fits = |length: usize| length <= 8_597;
        let of_number: Vec<_> =
            sheets.iter().filter(|case| case.expected == Some(number) && fits(case.words.len())).collect();
        for case in of_number.iter().step_by(of_number.len().div_ceil(6)) {
            let words = [vec![case.words.len() as u32], case.words.clone()].concat();
            cases.settled("refused sheet, nothing behind", bytes_of(&words), &printed);
            let behind = [words.clone(), vec![0; 40]].concat();
            cases.settled("refused sheet, words behind", bytes_of(&behind), &printed);
            let large = [words, vec![u32::MAX; 3]].concat();
            cases.settled("refused sheet, large numbers behind", bytes_of(&large), &printed);
        }
    }
}

/// Number 26 comes where the sheet is checked, so that nothing behind the sheet is read: neither the
/// memory, however large, nor transfers, nor cycles.
fn unserved_circuits(cases: &mut Cases) {
    let mut no_entry = sheet_a();
    no_entry.unserve(0);
    let mut two_schedules = sheet_a();
    two_schedules.circuits.push(Circuit { destination: 3, ..sheet_a().circuits[0] });
    two_schedules.schedules.push(Schedule { period: 12, entries: Vec::new() });
    let mut one_of_64 = sixty_four_circuits(2);
    for circuit in 0..63 {
        one_of_64.add_slot(circuit % 2, circuit);
    }
    for plan in [no_entry, two_schedules, one_of_64] {
        let refused = "refused 26\n";
        let sheet = plan.words();
        let memory = some_memory(&mut Random::new(26), &plan);
        let unserved = plan.unserved()[0];
        let Circuit { read_offset, receive_offset, .. } = plan.circuits[unserved];
        let transfer = [unserved as u32, read_offset, receive_offset, 1, 0];
        for (transfers, cycles) in [(vec![], 0), (vec![transfer], 20), (vec![[u32::MAX; 5]], 20), (vec![], 65_537)] {
            let words = input_words(&sheet, &memory, &transfers, cycles);
            cases.settled("unserved circuit", bytes_of(&words), refused);
        }
        let too_many = input_words(&sheet, &memory, &[transfer; 65], 20);
        cases.settled("unserved circuit, too many transfers", bytes_of(&too_many), refused);
        let alone = bytes_of(&[&[sheet.len() as u32], &sheet[..]].concat());
        cases.settled("unserved circuit, cut behind the sheet", alone.clone(), refused);
        cases.settled("unserved circuit, cut in the memory", [&alone[..], &[1; 7]].concat(), refused);
        for missing in 1..=4 {
            let cut = alone[..alone.len() - missing].to_vec();
            cases.settled("unserved circuit, cut in the sheet", cut, INPUT_ENDS);
        }
        let large = Plan { memory_words: 16_384, ..plan.clone() }.words();
        let words = [&[large.len() as u32], &large[..], &[0; 40]].concat();
        cases.settled("unserved circuit, memory too large", bytes_of(&words), refused);
        cases.settled("unserved circuit, memory too large, none there", bytes_of(&words[..1 + large.len()]), refused);

        // All circuits served by a schedule that is never in force: the sheet passes.
        let mut served = plan.clone();
        served.schedules.push(Schedule { period: 9, entries: Vec::new() });
        for circuit in plan.unserved() {
            served.add_slot(plan.schedules.len(), circuit);
        }
        let words = input_words(&served.words(), &memory, &[transfer], 100);
        cases.settled("circuit served by the last schedule", bytes_of(&words), NO_LANDING);
    }
}

/// The first refused start is the only line; all input has been read by then.
fn refused_starts(cases: &mut Cases) {
    let wrong: [(Transfer, u32); 15] = [
        ([1, 0, 0, 1, 0], 15),
        ([u32::MAX, 0, 0, 1, 0], 15),
        ([0, 8, 0, 1, 0], 15),
        ([0, 0, 8, 1, 0], 15),
        ([0, 0, u32::MAX, 1, 0], 15),
        ([0, 0, 0, 1, 1], 15),
        ([0, 0, 0, 1, 3], 15),
        ([0, 0, 0, 1, 4], 15),
        ([0, 0, 0, 0, 0], 16),
        ([0, 0, 0, 2, 2], 16),
        ([0, 0, 0, 5, 0], 16),
        ([0, 1, 0, 4, 0], 16),
        ([0, 0, 1, 4, 0], 16),
        ([0, 4, 0, 1, 0], 16),
        ([0, 0, 0, u32::MAX, 0], 16),
    ];
    for (transfer, number) in wrong {
        let printed = format!("refused {number}\n");
        cases.settled("refused start", bytes_of(&input_a(&[transfer], 20)), &printed);
        cases.settled("refused start, then a right one", bytes_of(&input_a(&[transfer, TRANSFER_A], 20)), &printed);
        cases.settled("right start, then a refused one", bytes_of(&input_a(&[TRANSFER_A, transfer], 0)), &printed);
        let words = input_a(&[transfer], 65_537);
        cases.settled("refused start, too many cycles", bytes_of(&words), TOO_LARGE);
        cases.settled("refused start, no cycles stated", bytes_of(&words[..words.len() - 1]), INPUT_ENDS);
    }
    cases.settled("busy circuit", bytes_of(&input_a(&[TRANSFER_A, TRANSFER_A], 20)), "refused 17\n");
    cases.settled("busy circuit", bytes_of(&input_a(&[[0, 0, 0, 1, 2], TRANSFER_A], 20)), "refused 17\n");
    let two_numbers = [TRANSFER_A, TRANSFER_A, [0, 0, 0, 0, 0]];
    cases.settled("first refusal", bytes_of(&input_a(&two_numbers, 20)), "refused 17\n");
    // Only transfers that were stated are read.
    let mut words = input_a(&[TRANSFER_A], 0);
    words[50] = 64;
    cases.settled("more transfers stated", bytes_of(&words), INPUT_ENDS);
}

fn sheet_limit(cases: &mut Cases) {
    let plan = largest_in_small_memory(2);
    let sheet = plan.words();
    assert_eq!(sheet.len(), 8_597, "the largest sheet");
    let memory = some_memory(&mut Random::new(5), &plan);
    let words = input_words(&sheet, &memory, &all_transfers(&plan), 40);
    cases.open("longest sheet", bytes_of(&words));
    cases.settled("longest sheet cut", bytes_of(&words[..8_597]), INPUT_ENDS);
    let mut longer = words.clone();
    longer[0] = 8_598;
    cases.settled("a word more stated", bytes_of(&longer), TOO_LARGE);
    for stated in [8_598, 8_599, 1 << 16, 1 << 30, (1 << 30) + 17, 1 << 31, u32::MAX] {
        cases.settled("too many words stated, none there", bytes_of(&[stated]), TOO_LARGE);
        let mut small = input_a(&[TRANSFER_A], 20);
        small[0] = stated;
        cases.settled("too many words stated, sheet A there", bytes_of(&small), TOO_LARGE);
    }
    for stated in [18, 100, 8_597] {
        let mut small = input_a(&[], 20);
        small.truncate(18);
        small[0] = stated;
        cases.settled("more words stated than there are", bytes_of(&small), INPUT_ENDS);
    }
}

/// All memories have at most 4,096 words together; that is tested before one of them is read.
fn memory_limit(cases: &mut Cases) {
    for (columns, rows) in GRIDS {
        let most = 4_096 / (columns * rows);
        for memory_words in [most - 1, most, most + 1, 16_384] {
            let plan = Plan {
                columns,
                rows,
                long_links: false,
                memory_words,
                circuits: Vec::new(),
                schedules: vec![Schedule { period: 9, entries: Vec::new() }],
            };
            let sheet = plan.words();
            let memory = vec![1; (plan.nodes() * memory_words) as usize];
            let words = input_words(&sheet, &memory, &[], 3);
            let sheet_alone = &words[..1 + sheet.len()];
            if memory_words <= most {
                cases.settled("memory within the limit", bytes_of(&words), NO_LANDING);
                cases.settled("memory within the limit, none there", bytes_of(sheet_alone), INPUT_ENDS);
                let last_missing = &words[..words.len() - 3];
                cases.settled("memory within the limit, a word missing", bytes_of(last_missing), INPUT_ENDS);
            } else {
                cases.settled("memory beyond the limit", bytes_of(&words), TOO_LARGE);
                cases.settled("memory beyond the limit, none there", bytes_of(sheet_alone), TOO_LARGE);
            }
        }
    }
}

fn transfer_limit(cases: &mut Cases) {
    let plan = largest_in_small_memory(3);
    let memory = some_memory(&mut Random::new(6), &plan);
    let transfers = all_transfers(&plan);
    assert_eq!(transfers.len(), 64, "a transfer for each circuit");
    cases.open("64 transfers", bytes_of(&input_words(&plan.words(), &memory, &transfers, 200)));
    let more = [transfers, vec![[0, 0, 0, 1, 0]]].concat();
    cases.settled("65 transfers", bytes_of(&input_words(&plan.words(), &memory, &more, 200)), TOO_LARGE);
    let count_at = 1 + 17 + 32;
    for stated in [65, 66, 1 << 16, 858_993_460, 1 << 31, u32::MAX] {
        let mut words = input_a(&[TRANSFER_A], 20);
        words[count_at] = stated;
        cases.settled("too many transfers stated", bytes_of(&words), TOO_LARGE);
        cases.settled("too many transfers stated, none there", bytes_of(&words[..=count_at]), TOO_LARGE);
    }
}

fn cycle_limit(cases: &mut Cases) {
    for cycles in [65_537, 65_538, 1 << 17, 1 << 31, u32::MAX] {
        let words = input_a(&[TRANSFER_A], cycles);
        cases.settled("too many cycles", bytes_of(&words), TOO_LARGE);
        cases.settled("too many cycles, bytes behind", [bytes_of(&words), vec![1; 9]].concat(), TOO_LARGE);
    }
}

/// Inputs whose sheet has no words: it is the idle network, so four memory words follow, and nothing
/// can be started or land.
fn no_words(cases: &mut Cases) {
    let memory = [7, 0, u32::MAX, 65];
    let input = |transfers: &[Transfer], cycles: u32| input_words(&[], &memory, transfers, cycles);
    for cycles in [0, 1, 8, 9, 10, 20, 65_536] {
        cases.settled("no words", bytes_of(&input(&[], cycles)), NO_LANDING);
    }
    for extra in [vec![0], vec![255; 3], vec![1; 4], vec![9; 1_000]] {
        cases.settled("no words and bytes behind the cycles", [bytes_of(&input(&[], 20)), extra].concat(), NO_LANDING);
    }

    let transfers: [Transfer; 7] = [
        [0, 0, 0, 1, 0],
        [0, 0, 0, 1, 2],
        [0, 0, 0, 0, 0],
        [0, 1, 1, 1, 1],
        [1, 0, 0, 1, 0],
        [64, 0, 0, 1, 0],
        [u32::MAX; 5],
    ];
    for transfer in transfers {
        cases.settled("no words, a transfer", bytes_of(&input(&[transfer], 20)), "refused 15\n");
    }
    cases.settled("no words, many transfers", bytes_of(&input(&[transfers[0]; 64], 0)), "refused 15\n");
    cases.settled("no words, too many transfers", bytes_of(&input(&[transfers[0]; 65], 20)), TOO_LARGE);
    for stated in [65, 66, 1 << 16, 858_993_460, 1 << 31, u32::MAX] {
        let mut words = input(&[], 20);
        words[5] = stated;
        cases.settled("no words, too many transfers stated", bytes_of(&words), TOO_LARGE);
        cases.settled("no words, too many transfers stated, none there", bytes_of(&words[..6]), TOO_LARGE);
    }
    for cycles in [65_537, 1 << 31, u32::MAX] {
        cases.settled("no words, too many cycles", bytes_of(&input(&[], cycles)), TOO_LARGE);
        cases.settled("no words, a transfer and too many cycles", bytes_of(&input(&transfers[..1], cycles)), TOO_LARGE);
    }

    // Every cut of an input without a transfer and of one with a transfer.
    for whole in [bytes_of(&input(&[], 20)), bytes_of(&input(&transfers[..1], 20))] {
        for length in 0..whole.len() {
            cases.settled("no words, input cut", whole[..length].to_vec(), INPUT_ENDS);
        }
    }
    // Memory words that are missing are taken from what follows.
    for missing in 1..=4 {
        let words = input_words(&[], &memory[missing..], &[], 3);
        cases.settled("no words, memory words missing", bytes_of(&words), INPUT_ENDS);
    }
}

/// Sheet A's input cut after every byte; no cut input is refused or too large.
fn cut_inputs(cases: &mut Cases) {
    let whole = bytes_of(&input_a(&[TRANSFER_A], 20));
    for length in 0..whole.len() {
        cases.settled("input cut", whole[..length].to_vec(), INPUT_ENDS);
    }
    // A sheet that would be refused, but is not all there.
    let mut words = input_a(&[], 20);
    words[1] = 5;
    let cut = bytes_of(&words)[..4 * 18 - 1].to_vec();
    cases.settled("refused sheet cut", cut, INPUT_ENDS);
    for byte in [1, 255] {
        for length in 1..4 {
            cases.settled("less than a word", vec![byte; length], INPUT_ENDS);
        }
    }
}
