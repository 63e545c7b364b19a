//! Sheets that just fail or just pass, each made from a passing sheet by a small change,
//! for every number of document 01 from 1 to 11 and for 26; sheets with several faults; sheets
//! of random words. Those about long vertical links are in sheets_long.rs.

use std::collections::HashSet;

use super::sheets::{
    all_shortest_paths, examples, idle_network, largest, largest_mixed, last_offset, neighbour,
    opposite, passing_plan, passing_plans, path_of, route_of, sheet_a, shortest_path, shortest_runs,
    sixty_four_circuits, uses, wished_plan, Case, Circuit, Entry, Occupied, Plan, Random, Schedule,
    WireKind, Wish, EAST, NORTH, SOUTH, WEST,
};
use super::sheets_long;

pub const GRIDS: [(u32, u32); 9] =
    [(2, 2), (3, 2), (4, 2), (2, 3), (3, 3), (4, 3), (2, 4), (3, 4), (4, 4)];

const TWO_TO_16: u32 = 1 << 16;
const TWO_TO_30: u32 = 1 << 30;
const TWO_TO_31: u32 = 1 << 31;
const LARGEST_WORD: u32 = u32::MAX;

/// Every sheet of the comparison.
pub fn all_cases() -> Vec<Case> {
    let mut cases = examples();
    for plan in passing_plans() {
        cases.push(plan.case("passing", 0));
    }
    for seed in 1..=3 {
        cases.push(largest(seed).case("largest", 0));
        cases.push(largest_mixed(seed).case("largest, mixed", 0));
    }
    idle_networks(&mut cases);
    number1(&mut cases);
    number2(&mut cases);
    number3(&mut cases);
    number4(&mut cases);
    number5(&mut cases);
    number6(&mut cases);
    number7(&mut cases);
    number8(&mut cases);
    number9(&mut cases);
    number10(&mut cases);
    number11(&mut cases);
    number26(&mut cases);
    several_faults(&mut cases);
    faults_in_largest(&mut cases);
    random_words(&mut cases);
    altered_words(&mut cases);
    cases.extend(sheets_long::cases());
    // Different changes may give the same sheet; it is judged once.
    let mut seen = HashSet::new();
    cases.retain(|case| seen.insert(case.words.clone()));
    cases
}

/// Passing sheets of a middling size and of all grids, to be changed: at least three
/// circuits, two schedules, and three entries in each.
fn subjects(seed: u64, count: usize) -> Vec<Plan> {
    let mut random = Random::new(seed);
    let mut plans = Vec::new();
    while plans.len() < count {
        let memory_words = random.choose(&[12, 40, 200, 16_384]);
        let (columns, rows) = GRIDS[plans.len() % 9];
        let wish = Wish {
            columns,
            rows,
            long_links: false,
            memory_words,
            circuits: random.between(3, 14),
            longest_region: memory_words.div_ceil(12),
            schedules: random.between(2, 3),
            period: None,
            entries: random.between(4, 16),
            length: None,
        };
        let plan = passing_plan(&mut random, &wish);
        if plan.circuits.len() >= 3
            && plan.schedules.iter().all(|schedule| schedule.entries.len() >= 3)
        {
            plans.push(plan);
        }
    }
    plans
}

fn push_words(cases: &mut Vec<Case>, name: &'static str, words: Vec<u32>, expected: u32) {
    cases.push(Case { name, words, expected: Some(expected) });
}

/// A sheet whose number is left to the checkers.
fn push_open(cases: &mut Vec<Case>, name: &'static str, words: Vec<u32>) {
    cases.push(Case { name, words, expected: None });
}

/// The idle network for which no words stand (example (b) has none), and words that are nearly
/// those of it.
fn idle_networks(cases: &mut Vec<Case>) {
    let words = idle_network().words();
    push_words(cases, "idle network", words.clone(), 0);
    push_words(cases, "idle network, words missing", words[..5].to_vec(), 3);
    push_words(cases, "idle network, a word missing", words[..6].to_vec(), 3);
    push_words(cases, "idle network and a word more", [words.clone(), vec![0]].concat(), 3);
    // Each word one less and one more; a circuit, schedule or entry more has no words of its own.
    let numbers = [[2, 0], [2, 0], [2, 0], [2, 3], [2, 3], [7, 0], [3, 3]];
    for (position, [less, more]) in numbers.into_iter().enumerate() {
        let value = words[position];
        for (altered, number) in [(value.wrapping_sub(1), less), (value + 1, more)] {
            let mut changed = words.clone();
            changed[position] = altered;
            push_words(cases, "idle network, a word altered", changed, number);
        }
    }
    for length in 5..=7 {
        push_words(cases, "zeros", vec![0; length], 2);
    }
}

fn number1(cases: &mut Vec<Case>) {
    let mut random = Random::new(101);
    for length in 1..5 {
        let start = idle_network().words()[..length].to_vec();
        push_words(cases, "1: start of the idle network", start, 1);
        for plan in subjects(101, 12) {
            push_words(cases, "1: start of a sheet", plan.words()[..length].to_vec(), 1);
        }
        for value in [0, 1, 2, 4, TWO_TO_30, TWO_TO_31, LARGEST_WORD] {
            push_words(cases, "1: one value", vec![value; length], 1);
        }
        for _ in 0..8 {
            push_words(cases, "1: random", (0..length).map(|_| random.word()).collect(), 1);
        }
    }
}

fn number2(cases: &mut Vec<Case>) {
    for plan in subjects(102, 10) {
        let words = plan.words();
        for (position, &value) in words[..5].iter().enumerate() {
            let mut wrong = match position {
                0 | 1 => vec![0, 1, 5, 6],
                2 => vec![0, 16_385, 16_386, 32_768],
                // The last three, times six, are small in 32 bits.
                3 => vec![65, 66, 128, TWO_TO_31, 715_827_883, 1_431_655_766],
                _ => vec![0, 9, 10, 16],
            };
            wrong.extend([TWO_TO_16 + value, TWO_TO_30, TWO_TO_30 + value, TWO_TO_31 + value]);
            wrong.extend([LARGEST_WORD, LARGEST_WORD - 1]);
            // The rows alone may carry 256.
            match position {
                1 => wrong.extend([256, 257, 261, 512 + value]),
                2 => {}
                _ => wrong.push(256 + value),
            }
            for number in wrong {
                let mut changed = words.clone();
                changed[position] = number;
                push_words(cases, "2: head number", changed.clone(), 2);
                if number % 2 == 1 {
                    changed.truncate(5);
                    push_words(cases, "2: head number, nothing behind the head", changed, 2);
                }
            }
        }
        let mut more_memory = plan.clone();
        more_memory.memory_words = 16_384;
        cases.push(more_memory.case("2: most memory", 0));
    }
    // Head numbers at their bounds, with nothing in the schedules.
    for (columns, rows) in GRIDS {
        for memory_words in [1, 16_384] {
            for schedules in [1, 8] {
                let schedule = Schedule { period: 9, entries: Vec::new() };
                let schedules = vec![schedule; schedules];
                let plan = Plan { columns, rows, memory_words, schedules, circuits: Vec::new(), ..idle_network() };
                cases.push(plan.case("2: bounds", 0));
                push_words(cases, "2: bounds, head alone", plan.words()[..5].to_vec(), 3);
            }
        }
    }
}

fn entry_count_positions(plan: &Plan) -> Vec<usize> {
    let mut positions = Vec::new();
    let mut position = 5 + 6 * plan.circuits.len();
    for schedule in &plan.schedules {
        positions.push(position + 1);
        position += 2 + 4 * schedule.entries.len();
    }
    positions
}

/// One schedule of exactly 256 entries, and room for another entry.
fn plan_of_256_entries(random: &mut Random) -> Plan {
    loop {
        let wish = Wish {
            columns: 4,
            rows: 4,
            long_links: false,
            memory_words: 16_384,
            circuits: 40,
            longest_region: 100,
            schedules: 1,
            period: Some(1_024),
            entries: 256,
            length: Some(3),
        };
        let plan = passing_plan(random, &wish);
        if plan.schedules[0].entries.len() == 256 {
            return plan;
        }
    }
}

fn number3(cases: &mut Vec<Case>) {
    let mut random = Random::new(103);
    for plan in subjects(103, 18) {
        let words = plan.words();
        for missing in [1, 2, 3, 4, 5] {
            push_words(cases, "3: words missing", words[..words.len() - missing].to_vec(), 3);
        }
        for extra in [vec![0], vec![LARGEST_WORD], vec![9, 0], vec![0; 4], vec![9, 1, 0, 2, 0, 13]]
        {
            let mut longer = words.clone();
            longer.extend(extra);
            push_words(cases, "3: words left over", longer, 3);
        }
        for _ in 0..6 {
            let cut = random.between(5, words.len() as u32 - 1) as usize;
            push_words(cases, "3: cut", words[..cut].to_vec(), 3);
        }
        for (schedule, &position) in entry_count_positions(&plan).iter().enumerate() {
            let count = words[position];
            // All but the first three are right again once multiplied by four in 32 bits.
            for stated in [
                257,
                LARGEST_WORD,
                TWO_TO_16 + count,
                TWO_TO_30 + count,
                TWO_TO_31 + count,
                TWO_TO_31 + TWO_TO_30 + count,
            ] {
                let mut changed = words.clone();
                changed[position] = stated;
                push_words(cases, "3: stated entries", changed, 3);
            }
            let last = schedule == plan.schedules.len() - 1;
            for stated in [count - 1, count + 1] {
                let mut changed = words.clone();
                changed[position] = stated;
                if last {
                    push_words(cases, "3: one entry stated wrongly, at the end", changed, 3);
                } else {
                    push_open(cases, "3: one entry stated wrongly", changed);
                }
            }
        }
        let mut more_schedules = words.clone();
        more_schedules[4] += 1;
        push_words(cases, "3: a schedule too many stated", more_schedules, 3);
        let mut fewer_schedules = words.clone();
        fewer_schedules[4] -= 1;
        push_words(cases, "3: a schedule too few stated", fewer_schedules, 3);
        for stated in [words[3] - 1, words[3] + 1, 64] {
            let mut changed = words.clone();
            changed[3] = stated;
            push_open(cases, "3: circuits stated wrongly", changed);
        }
        // A last schedule without entries: 2^30 entries take no words in 32 bits.
        let mut without_entries = plan.clone();
        let last = without_entries.schedules.len() - 1;
        without_entries.schedules[last].entries.clear();
        without_entries.drop_unserved();
        cases.push(without_entries.case("3: no entries", 0));
        for stated in [1, TWO_TO_30, TWO_TO_31, TWO_TO_31 + TWO_TO_30, 257] {
            let mut changed = without_entries.words();
            let position = changed.len() - 1;
            changed[position] = stated;
            push_words(cases, "3: entries stated where none are", changed, 3);
        }
    }

    // All starts of a small sheet.
    let small = sheet_a().words();
    for length in 0..small.len() {
        let expected = if length < 5 { 1 } else { 3 };
        push_words(cases, "3: starts of sheet A", small[..length].to_vec(), expected);
    }

    for _ in 0..4 {
        let plan = plan_of_256_entries(&mut random);
        cases.push(plan.case("3: 256 entries", 0));
        let position = entry_count_positions(&plan)[0];
        let mut longer = plan.clone();
        let spare = longer.schedules[0].entries[255];
        longer.schedules[0].entries.push(spare);
        push_words(cases, "3: 257 entries", longer.words(), 3);
        for stated in [255, 256] {
            let mut changed = longer.words();
            changed[position] = stated;
            push_words(cases, "3: 257 entries, fewer stated", changed, 3);
        }
        for stated in [255, 257, 512] {
            let mut changed = plan.words();
            changed[position] = stated;
            push_words(cases, "3: 256 entries, others stated", changed, 3);
        }
    }
    for (count, expected) in [(256, 7), (257, 3)] {
        let entry = Entry { offset: 0, length: 0, circuit: 0, route: 0 };
        let mut plan = sheet_a();
        plan.schedules[0].entries = vec![entry; count];
        cases.push(plan.case("3: entries of zeros", expected));
        plan.schedules.insert(0, Schedule { period: 9, entries: Vec::new() });
        cases.push(plan.case("3: entries of zeros in the second schedule", expected));
    }
}

fn number4(cases: &mut Vec<Case>) {
    for plan in subjects(104, 9) {
        let nodes = plan.nodes();
        let memory_words = plan.memory_words;
        let last = plan.circuits.len() - 1;
        for position in [0, last / 2, last] {
            let circuit = plan.circuits[position];
            let mut wrong = Vec::new();
            for node in [nodes, nodes + 1, 16, TWO_TO_16, TWO_TO_30, TWO_TO_31, LARGEST_WORD] {
                wrong.push(Circuit { source: node, ..circuit });
                wrong.push(Circuit { destination: node, ..circuit });
            }
            wrong.push(Circuit { source: TWO_TO_31 + circuit.source, ..circuit });
            wrong.push(Circuit { destination: TWO_TO_16 + circuit.destination, ..circuit });
            wrong.push(Circuit { source: circuit.destination, ..circuit });
            wrong.push(Circuit { destination: circuit.source, ..circuit });
            for (offset, length) in
                wrong_regions(memory_words, circuit.read_offset, circuit.read_length)
            {
                wrong.push(Circuit { read_offset: offset, read_length: length, ..circuit });
            }
            for (offset, length) in
                wrong_regions(memory_words, circuit.receive_offset, circuit.receive_length)
            {
                wrong.push(Circuit { receive_offset: offset, receive_length: length, ..circuit });
            }
            for circuit in wrong {
                let mut changed = plan.clone();
                changed.circuits[position] = circuit;
                cases.push(changed.case("4: circuit", 4));
            }
        }
    }
    // Regions that fill memory to its last word, and one word more.
    for memory_words in [1, 2, 4, 5, 16_383, 16_384] {
        let mut plan = sheet_a();
        plan.memory_words = memory_words;
        for (offset, length) in [(0, memory_words), (memory_words - 1, 1)] {
            let right = Circuit {
                read_offset: offset,
                read_length: length,
                receive_offset: offset,
                receive_length: length,
                ..plan.circuits[0]
            };
            plan.circuits[0] = right;
            cases.push(plan.case("4: up to the last word", 0));
            plan.circuits[0] = Circuit { read_length: length + 1, ..right };
            cases.push(plan.case("4: read beyond the last word", 4));
            plan.circuits[0] = Circuit { receive_offset: offset + 1, ..right };
            cases.push(plan.case("4: receive beyond the last word", 4));
        }
    }
}

/// Changes of a region by which it is empty or ends beyond memory.
fn wrong_regions(memory_words: u32, offset: u32, length: u32) -> Vec<(u32, u32)> {
    let mut list = vec![
        (offset, 0),
        (0, 0),
        (offset, memory_words - offset + 1),
        (memory_words - length + 1, length),
        (memory_words, 1),
        (memory_words, 0),
        (TWO_TO_30, length),
        (offset, TWO_TO_30),
        (TWO_TO_31, length),
        (offset, TWO_TO_31),
        (LARGEST_WORD, LARGEST_WORD),
        // In 32 bits these sums are 0 to 2.
        (0_u32.wrapping_sub(length), length),
        (1_u32.wrapping_sub(length), length + 1),
        (LARGEST_WORD, 1),
        (LARGEST_WORD, 2),
        (1, LARGEST_WORD),
        (2, LARGEST_WORD),
        (TWO_TO_31, TWO_TO_31),
        (TWO_TO_31, TWO_TO_31 + 1),
    ];
    // For a region of one word the second of those begins at 0 and may be right.
    list.retain(|&(offset, length)| {
        length == 0 || u64::from(offset) + u64::from(length) > u64::from(memory_words)
    });
    list
}

fn number5(cases: &mut Vec<Case>) {
    for plan in subjects(105, 36) {
        let last = plan.circuits.len() - 1;
        for position in [0, last / 2, last - 1] {
            let mut swapped = plan.clone();
            swapped.circuits.swap(position, position + 1);
            cases.push(swapped.case("5: neighbours swapped", 5));

            let first = plan.circuits[position];
            let second = plan.circuits[position + 1];
            let mut equal = plan.clone();
            equal.circuits[position + 1] = Circuit {
                source: if second.source == first.destination {
                    first.source
                } else {
                    second.source
                },
                destination: first.destination,
                receive_offset: first.receive_offset,
                receive_length: first.receive_length,
                ..second
            };
            cases.push(equal.case("5: equal keys", 5));

            let mut twice = plan.clone();
            twice.circuits.insert(position, first);
            cases.push(twice.case("5: a circuit twice", 5));
        }
        let mut turned = plan.clone();
        turned.circuits.reverse();
        cases.push(turned.case("5: all turned round", 5));
        let mut last_first = plan.clone();
        last_first.circuits.rotate_right(1);
        cases.push(last_first.case("5: last first", 5));
    }

    // Keys that differ by one step only, in a memory of given size.
    let pair = |first: (u32, u32), second: (u32, u32), memory_words: u32| {
        let circuit = |(destination, receive_offset): (u32, u32)| Circuit {
            source: 0,
            destination,
            read_offset: 0,
            read_length: 1,
            receive_offset,
            receive_length: 1,
        };
        Plan {
            columns: 4,
            rows: 2,
            long_links: false,
            memory_words,
            circuits: vec![circuit(first), circuit(second)],
            schedules: vec![Schedule { period: 9, entries: Vec::new() }],
        }
    };
    for memory_words in [2, 10, 16_384] {
        let top = memory_words - 1;
        for destination in [1, 2, 6] {
            let close_pairs = [
                ((destination, 0), (destination, 1)),
                ((destination, top - 1), (destination, top)),
                ((destination, top), (destination + 1, 0)),
                ((destination, top), (destination + 1, top)),
                ((destination, 1), (destination + 1, 0)),
            ];
            for (first, second) in close_pairs {
                let up = pair(first, second, memory_words);
                let down = pair(second, first, memory_words);
                let equal = pair(first, first, memory_words);
                // A slot for each circuit, for the first alone, for none.
                cases.push(with_slots(&up, 2).case("5: up by one", 0));
                for slots in 0..2 {
                    cases.push(with_slots(&up, slots).case("5: up by one, too few slots", 26));
                }
                for slots in 0..3 {
                    cases.push(with_slots(&down, slots).case("5: down by one", 5));
                    cases.push(with_slots(&equal, slots).case("5: equal", 5));
                }
            }
        }
    }
}

/// A slot in the first schedule for each of the first circuits.
fn with_slots(plan: &Plan, circuits: usize) -> Plan {
    let mut plan = plan.clone();
    for circuit in 0..circuits {
        plan.add_slot(0, circuit);
    }
    plan
}

fn number6(cases: &mut Vec<Case>) {
    for plan in subjects(106, 120) {
        for position in 0..plan.circuits.len() {
            let circuit = plan.circuits[position];
            let start = circuit.receive_offset;
            let end = start + circuit.receive_length;

            if let Some(next) = plan.circuits.get(position + 1) {
                if next.destination == circuit.destination && position % 3 == 0 {
                    let mut sharing = plan.clone();
                    sharing.circuits[position].receive_length = next.receive_offset - start + 1;
                    cases.push(sharing.case("6: one word of the next receive region", 6));
                    let mut touching = plan.clone();
                    touching.circuits[position].receive_length = next.receive_offset - start;
                    if !plan.meets_read(circuit.destination, start, next.receive_offset - start) {
                        cases.push(touching.case("6: touches the next receive region", 0));
                    }
                }
            }

            // The first circuit that reads at the node is moved against the region.
            let reader = plan.circuits.iter().position(|other| other.source == circuit.destination);
            let Some(reader) = reader.filter(|_| position % 4 == 1) else {
                continue;
            };
            let length = plan.circuits[reader].read_length;
            let mut moved = vec![
                ("6: reads the last word", end - 1, 1, true),
                ("6: reads the first word", start, 1, true),
                ("6: reads the same region", start, end - start, true),
                ("6: reads all memory", 0, plan.memory_words, true),
                ("6: reads from the last word on", end - 1, plan.memory_words - end + 1, true),
                ("6: reads up to the first word", 0, start + 1, true),
            ];
            if end < plan.memory_words {
                let length = length.min(plan.memory_words - end);
                moved.push(("6: reads from the next word on", end, length, false));
            }
            if start > 0 {
                let length = length.min(start);
                moved.push(("6: reads up to the word before", start - length, length, false));
            }
            for (name, offset, length, shares) in moved {
                let mut changed = plan.clone();
                changed.circuits[reader].read_offset = offset;
                changed.circuits[reader].read_length = length;
                if shares {
                    cases.push(changed.case(name, 6));
                } else if !plan.meets_receive(circuit.destination, offset, length) {
                    cases.push(changed.case(name, 0));
                }
            }
        }
        // Read regions may share words with each other.
        for position in 1..plan.circuits.len() {
            let first = plan.circuits[0];
            if plan.circuits[position].source == first.source {
                let mut changed = plan.clone();
                changed.circuits[position].read_offset = first.read_offset;
                changed.circuits[position].read_length = first.read_length;
                cases.push(changed.case("6: one read region for two circuits", 0));
            }
        }
    }

    // Both circuits have a slot, or none has one: they count all the same.
    let plan_of = |circuits: Vec<Circuit>| Plan {
        columns: 3,
        rows: 2,
        long_links: false,
        memory_words: 20,
        circuits,
        schedules: vec![Schedule { period: 9, entries: Vec::new() }],
    };
    for length in 1..=4 {
        for shift in 0..=8 {
            // A receive region of words 4 to 4 + length − 1 and one from word `shift` on.
            let first = Circuit {
                source: 0,
                destination: 5,
                read_offset: 0,
                read_length: 20,
                receive_offset: 4,
                receive_length: length,
            };
            let shares = shift < 4 + length && 4 < shift + 3;
            let [served, unserved] = if shares { [6, 6] } else { [0, 26] };
            let second = Circuit { source: 1, receive_offset: shift, receive_length: 3, ..first };
            if shift != 4 {
                let mut receives = plan_of(vec![first, second]);
                receives.sort_circuits();
                let name = "6: two receive regions";
                cases.push(with_slots(&receives, 2).case(name, served));
                cases.push(receives.case("6: two receive regions without entries", unserved));
            }
            let elsewhere = plan_of(vec![Circuit { destination: 4, ..second }, first]);
            let name = "6: receive regions at two nodes";
            cases.push(with_slots(&elsewhere, 2).case(name, 0));
            cases.push(elsewhere.case("6: receive regions at two nodes without entries", 26));
            let reader = Circuit {
                source: 5,
                destination: 1,
                read_offset: shift,
                read_length: 3,
                receive_offset: 0,
                receive_length: 20,
            };
            let reads = plan_of(vec![reader, first]);
            cases.push(with_slots(&reads, 2).case("6: a receive and a read region", served));
            let name = "6: a receive and a read region without entries";
            cases.push(reads.case(name, unserved));
        }
    }
}

fn number7(cases: &mut Vec<Case>) {
    let mut random = Random::new(107);
    for plan in subjects(107, 18) {
        let count = plan.circuits.len() as u32;
        for schedule in 0..plan.schedules.len() {
            for period in
                [0, 1, 8, 1_025, 2_048, TWO_TO_16 + 9, TWO_TO_30, TWO_TO_31 + 9, LARGEST_WORD]
            {
                let mut changed = plan.clone();
                changed.schedules[schedule].period = period;
                cases.push(changed.case("7: period", 7));
            }
            // A longer period only gives more room.
            let mut longest = plan.clone();
            longest.schedules[schedule].period = 1_024;
            cases.push(longest.case("7: longest period", 0));

            let position = random.position(plan.schedules[schedule].entries.len());
            let entry = plan.schedules[schedule].entries[position];
            let period = plan.schedules[schedule].period;
            let mut wrong = Vec::new();
            for offset in
                [period, period + 1, TWO_TO_16 + entry.offset, TWO_TO_30, TWO_TO_31, LARGEST_WORD]
            {
                wrong.push(Entry { offset, ..entry });
            }
            for length in [0, 1, 17, 18, 32, 256 + entry.length, TWO_TO_30, TWO_TO_31, LARGEST_WORD]
            {
                wrong.push(Entry { length, ..entry });
            }
            for circuit in
                [count, count + 1, 64, 256 + entry.circuit, TWO_TO_30, TWO_TO_31, LARGEST_WORD]
            {
                wrong.push(Entry { circuit, ..entry });
            }
            for route in [
                TWO_TO_16,
                TWO_TO_16 + entry.route,
                TWO_TO_30 + entry.route,
                TWO_TO_31 + entry.route,
                LARGEST_WORD,
            ] {
                wrong.push(Entry { route, ..entry });
            }
            for entry in wrong {
                let mut changed = plan.clone();
                changed.schedules[schedule].entries[position] = entry;
                cases.push(changed.case("7: entry", 7));
            }
        }
        let mut without_circuits = plan.clone();
        without_circuits.circuits.clear();
        cases.push(without_circuits.case("7: entries but no circuits", 7));
    }

    // A single schedule at both bounds of the period, and every length.
    for period in [9, 10, 1_023, 1_024] {
        let mut plan = sheet_a();
        plan.schedules[0].period = period;
        cases.push(plan.case("7: right period", 0));
    }
    for period in [0, 8, 1_025] {
        let mut plan = sheet_a();
        plan.schedules[0].period = period;
        cases.push(plan.case("7: wrong period", 7));
        plan.schedules[0].entries.clear();
        cases.push(plan.case("7: wrong period without entries", 7));
    }
    for length in 0..=18 {
        let mut plan = sheet_a();
        plan.schedules[0].period = 20;
        plan.schedules[0].entries[0].length = length;
        let expected = if (2..=16).contains(&length) { 0 } else { 7 };
        cases.push(plan.case("7: lengths in turn", expected));
    }
}

fn number8(cases: &mut Vec<Case>) {
    for plan in subjects(108, 36) {
        for schedule in 0..plan.schedules.len() {
            let entries = &plan.schedules[schedule].entries;
            let last = entries.len() - 1;
            for position in [0, last / 2, last - 1] {
                let mut swapped = plan.clone();
                swapped.schedules[schedule].entries.swap(position, position + 1);
                cases.push(swapped.case("8: neighbours swapped", 8));

                let mut twice = plan.clone();
                twice.schedules[schedule].entries.insert(position, entries[position]);
                cases.push(twice.case("8: an entry twice", 8));

                let mut equal = plan.clone();
                let changed = &mut equal.schedules[schedule].entries[position + 1];
                changed.offset = entries[position].offset;
                changed.circuit = entries[position].circuit;
                cases.push(equal.case("8: equal keys", 8));
            }
            let mut last_first = plan.clone();
            last_first.schedules[schedule].entries.rotate_right(1);
            cases.push(last_first.case("8: last first", 8));
        }
    }

    // Two circuits between distinct pairs of nodes, so that no wire is shared.
    let pair = |first: (u32, u32), second: (u32, u32)| {
        let mut plan = sheet_a();
        let circuit = plan.circuits[0];
        plan.circuits = vec![
            Circuit { source: 0, destination: 1, ..circuit },
            Circuit { source: 2, destination: 3, ..circuit },
        ];
        plan.schedules[0].period = 1_024;
        let entry = |(offset, circuit): (u32, u32)| Entry { offset, length: 2, circuit, route: 13 };
        plan.schedules[0].entries = vec![entry(first), entry(second)];
        plan
    };
    for offset in [1, 2, 63, 64, 255, 256, 1_021] {
        let close_pairs = [
            ((offset, 0), (offset, 1)),
            ((offset, 0), (offset + 1, 1)),
            ((offset, 1), (offset + 1, 0)),
        ];
        for (first, second) in close_pairs {
            cases.push(pair(first, second).case("8: up by one", 0));
            cases.push(pair(second, first).case("8: down by one", 8));
            cases.push(pair(first, first).case("8: equal", 8));
        }
        cases.push(pair((offset, 0), (offset + 1, 0)).case("8: up by one on one wire", 11));
    }
}

/// Paths of more hops than the distance that still end at the destination.
fn roundabout_paths(plan: &Plan, circuit: &Circuit, path: &[u32]) -> Vec<Vec<u32>> {
    let mut list = Vec::new();
    let (column_runs, row_runs) = shortest_runs(plan, circuit.source, circuit.destination);
    let run = |(side, steps): (u32, u32)| vec![side; steps as usize];
    let (column_side, column_steps) = column_runs[0];
    let (row_side, row_steps) = row_runs[0];
    // One of the rings the long way round.
    if column_steps > 0 && 2 * column_steps != plan.columns {
        let long = run((opposite(column_side), plan.columns - column_steps));
        list.push([long.clone(), run(row_runs[0])].concat());
        list.push([run(row_runs[0]), long].concat());
    }
    if row_steps > 0 && 2 * row_steps != plan.rows {
        let long = run((opposite(row_side), plan.rows - row_steps));
        list.push([long.clone(), run(column_runs[0])].concat());
        list.push([run(column_runs[0]), long].concat());
    }
    // Once round a ring first.
    let around = if path[0] % 2 == 1 { plan.columns } else { plan.rows };
    list.push([vec![path[0]; around as usize], path.to_vec()].concat());
    // Aside, along the path, and back.
    for side in [NORTH, EAST, SOUTH, WEST] {
        list.push([vec![side], path.to_vec(), vec![opposite(side)]].concat());
    }
    // Turning on the spot is not a hop but the way to memory, and eight codes have room
    // for seven hops.
    list.retain(|path| path.len() <= 7 && path.windows(2).all(|pair| pair[1] != opposite(pair[0])));
    list
}

fn number9(cases: &mut Vec<Case>) {
    let mut random = Random::new(109);
    for plan in subjects(109, 45) {
        let schedule = random.position(plan.schedules.len());
        let position = random.position(plan.schedules[schedule].entries.len());
        let entry = plan.schedules[schedule].entries[position];
        let circuit = plan.circuits[entry.circuit as usize];
        let path = path_of(&plan, &entry);
        let hops = path.len() as u32;
        let mut push = |name: &'static str, route: u32, expected: Option<u32>| {
            let mut changed = plan.clone();
            changed.schedules[schedule].entries[position].route = route;
            cases.push(Case { name, words: changed.words(), expected });
        };

        for bit in 2 * (hops + 1)..16 {
            push("9: a bit above the last code", entry.route | 1 << bit, Some(9));
        }
        let sides_only = entry.route & ((1 << (2 * hops)) - 1);
        for code in 0..4 {
            if code != opposite(path[path.len() - 1]) {
                push("9: past the destination", sides_only | code << (2 * hops), Some(9));
            }
        }
        push("9: north for ever", 0, Some(9));
        push("9: east for ever", 0x5555, Some(9));
        push("9: west for ever", 65_535, Some(9));
        for bit in 0..2 * hops {
            push("9: a bit of a side changed", entry.route ^ 1 << bit, None);
        }
        push("9: first code dropped", entry.route >> 2, None);
        push("9: a code before the first", entry.route << 2 & 65_535, None);

        if path.len() > 1 {
            push("9: out too early", route_of(&path[..path.len() - 1]), Some(9));
        }
        for side in [NORTH, EAST, SOUTH, WEST] {
            if side != opposite(path[path.len() - 1]) {
                push("9: out too late", route_of(&[path.clone(), vec![side]].concat()), Some(9));
            }
        }
        for roundabout in roundabout_paths(&plan, &circuit, &path) {
            push("9: roundabout", route_of(&roundabout), Some(9));
        }
        let other = random.position(plan.circuits.len());
        let Circuit { source, destination, .. } = plan.circuits[other];
        let other_path = shortest_path(&mut random, &plan, source, destination);
        push("9: route of another circuit", route_of(&other_path), None);
        push("9: random route", random.between(0, 65_535), None);
    }

    // Every pair of nodes in every grid: all shortest paths pass, others do not.
    for (columns, rows) in GRIDS {
        let mut plan = sheet_a();
        (plan.columns, plan.rows) = (columns, rows);
        plan.schedules[0].period = 40;
        for source in 0..plan.nodes() {
            for destination in 0..plan.nodes() {
                if source == destination {
                    continue;
                }
                plan.circuits[0].source = source;
                plan.circuits[0].destination = destination;
                for path in all_shortest_paths(&plan, source, destination) {
                    plan.schedules[0].entries[0].route = route_of(&path);
                    cases.push(plan.case("9: shortest path", 0));
                }
                let path = shortest_path(&mut random, &plan, source, destination);
                let roundabout = roundabout_paths(&plan, &plan.circuits[0], &path);
                if !roundabout.is_empty() {
                    let chosen = &roundabout[random.position(roundabout.len())];
                    plan.schedules[0].entries[0].route = route_of(chosen);
                    cases.push(plan.case("9: roundabout in each grid", 9));
                }
                // As many hops as the distance, to any node.
                let mut wandering = vec![random.between(0, 3)];
                while wandering.len() < path.len() {
                    let came_in_by = opposite(wandering[wandering.len() - 1]);
                    wandering.push((came_in_by + random.between(1, 3)) % 4);
                }
                plan.schedules[0].entries[0].route = route_of(&wandering);
                push_open(cases, "9: as many hops", plan.words());
            }
        }
    }
}

fn number10(cases: &mut Vec<Case>) {
    // One circuit of each number of hops, each length, and periods around the bounds.
    for (hops, destination) in [(1, 1), (2, 5), (3, 6), (4, 10)] {
        for length in [2, 3, 9, 15, 16] {
            for period in [9, 10, 11, 12, 13, 26, 27, 100, 1_023, 1_024] {
                let mut plan = sheet_a();
                (plan.columns, plan.rows) = (4, 4);
                plan.circuits[0].destination = destination;
                let path = [EAST, SOUTH, EAST, SOUTH];
                let path = match hops {
                    3 => &[EAST, EAST, SOUTH],
                    _ => &path[..hops as usize],
                };
                let mut schedule = |offset: u32| {
                    plan.schedules[0].period = period;
                    plan.schedules[0].entries =
                        vec![Entry { offset, length, circuit: 0, route: route_of(path) }];
                    plan.clone()
                };
                match last_offset(period, length, 3 * hops) {
                    None => cases.push(schedule(0).case("10: no room at all", 10)),
                    Some(last) => {
                        cases.push(schedule(last).case("10: last offset", 0));
                        cases.push(schedule(last + 1).case("10: one beyond", 10));
                        cases.push(schedule(period - 1).case("10: last cycle", 10));
                        cases.push(schedule(period).case("10: next period", 7));
                    }
                }
            }
        }
    }

    for plan in subjects(110, 40) {
        for schedule in 0..plan.schedules.len() {
            let Schedule { period, entries } = &plan.schedules[schedule];
            let last = entries.len() - 1;
            let entry = entries[last];
            let limit = last_offset(*period, entry.length, plan.delay(&entry)).expect("it passes");
            for offset in [limit + 1, period - 1] {
                let mut later = plan.clone();
                later.schedules[schedule].entries[last].offset = offset;
                cases.push(later.case("10: last entry later", 10));
            }
            for (position, entry) in entries.iter().enumerate() {
                let length = period + 4 - plan.delay(entry) - entry.offset;
                if length <= 16 {
                    let mut longer = plan.clone();
                    longer.schedules[schedule].entries[position].length = length;
                    cases.push(longer.case("10: a longer slot", 10));
                }
            }
            // The shortest period that holds the schedule, and one cycle less.
            let needed = entries.iter().map(|entry| plan.reach(entry)).max().expect("entries") - 2;
            let mut shorter = plan.clone();
            shorter.schedules[schedule].period = needed.max(9);
            cases.push(shorter.case("10: shortest period", 0));
            shorter.schedules[schedule].period = needed.max(9) - 1;
            let expected = if needed <= 9 { 7 } else { 10 };
            cases.push(shorter.case("10: a shorter period", expected));
        }
    }
}

/// What the one clash of a further slot has to be like.
struct WantedClash {
    kind: WireKind,
    /// Place along the path of the further slot; any when nothing is stated.
    place: Option<u32>,
    /// Whether the cycle has to lie behind the period. Only a memory output can be the one
    /// wire there: a side output that late is the last one, and a clash goes on to memory.
    behind_period: bool,
    one_cycle: &'static str,
    back_to_back: &'static str,
}

fn wanted_clashes() -> Vec<WantedClash> {
    let source = WantedClash {
        kind: WireKind::Source,
        place: None,
        behind_period: false,
        one_cycle: "11: one cycle of a source wire",
        back_to_back: "11: back to back on a source wire",
    };
    let memory = WantedClash {
        kind: WireKind::Memory,
        one_cycle: "11: one cycle of a memory output",
        back_to_back: "11: back to back on a memory output",
        ..source
    };
    let late_memory = WantedClash {
        behind_period: true,
        one_cycle: "11: one cycle of a memory output, behind the period",
        ..memory
    };
    let mut list = vec![source, memory, late_memory];
    for place in 1..=4 {
        list.push(WantedClash {
            kind: WireKind::Side,
            place: Some(place),
            behind_period: false,
            one_cycle: "11: one cycle of a side output",
            back_to_back: "11: back to back on a side output",
        });
    }
    list
}

fn number11(cases: &mut Vec<Case>) {
    let mut random = Random::new(111);
    // Four hops are there in the largest grid only, so it has plans of its own besides.
    let mut plans = subjects(111, 90);
    let first_of_largest_grid = plans.len();
    let of_largest_grid = subjects(117, 360).into_iter().filter(|plan| plan.nodes() == 16);
    plans.extend(of_largest_grid);
    let occupied: Vec<Vec<Occupied>> = plans
        .iter()
        .map(|plan| plan.schedules.iter().map(|schedule| Occupied::of(plan, schedule)).collect())
        .collect();
    for wanted in wanted_clashes() {
        let first_plan = if wanted.place == Some(4) { first_of_largest_grid } else { 0 };
        let mut clashing = 0;
        let mut passing = 0;
        let mut attempts = 0;
        while clashing < 60 || passing < 30 {
            attempts += 1;
            assert!(attempts < 2_000_000, "not to be had: {}", wanted.one_cycle);
            let chosen = first_plan + random.position(plans.len() - first_plan);
            let plan = &plans[chosen];
            let schedule = random.position(plan.schedules.len());
            let Schedule { period, entries } = &plan.schedules[schedule];
            let placed = random.choose(entries);

            // A further slot that has such a wire in common with the one placed.
            let circuit = random.position(plan.circuits.len());
            let Circuit { source, destination, .. } = plan.circuits[circuit];
            let path = shortest_path(&mut random, plan, source, destination);
            if wanted.place.is_some_and(|place| path.len() < place as usize) {
                continue;
            }
            let placed_source = plan.circuits[placed.circuit as usize].source;
            let placed_uses = uses(plan, placed_source, &path_of(plan, &placed), placed.offset);
            let length = random.between(2, 16);
            let mut common = Vec::new();
            for first in &placed_uses {
                for second in uses(plan, source, &path, 0) {
                    if first.wire == second.wire && second.kind == wanted.kind {
                        common.push((first.cycle, second.cycle));
                    }
                }
            }
            if common.is_empty() {
                continue;
            }
            let (cycle, delay) = random.choose(&common);
            let Some(last) = last_offset(*period, length, plan.delay_of(&path)) else {
                continue;
            };
            let before = i64::from(cycle) - i64::from(delay) - i64::from(length);
            let behind = i64::from(cycle) - i64::from(delay) + i64::from(placed.length);
            for (offset, clashes_once) in
                [(before, false), (before + 1, true), (behind - 1, true), (behind, false)]
            {
                if offset < 0 || offset > i64::from(last) {
                    continue;
                }
                let offset = offset as u32;
                let list = uses(plan, source, &path, offset);
                let clashes = occupied[chosen][schedule].clashes(&list, length);
                let (as_wanted, count, most, name) = if clashes_once {
                    let as_wanted = clashes.len() == 1
                        && clashes[0].0.kind == wanted.kind
                        && wanted.place.is_none_or(|place| clashes[0].0.place == place)
                        && (!wanted.behind_period || clashes[0].1 >= *period);
                    (as_wanted, &mut clashing, 60, wanted.one_cycle)
                } else {
                    (clashes.is_empty(), &mut passing, 30, wanted.back_to_back)
                };
                if as_wanted && *count < most {
                    *count += 1;
                    let route = route_of(&path);
                    let mut changed = plan.clone();
                    let further = Entry { offset, length, circuit: circuit as u32, route };
                    changed.schedules[schedule].entries.push(further);
                    changed.schedules[schedule].sort_entries();
                    cases.push(changed.case(name, if clashes_once { 11 } else { 0 }));
                }
            }
        }
    }

    // In a ring of two, both ways to the neighbour are wires of their own. The first slot
    // crosses the second one's source as that one leaves, and both go on to one node.
    for (columns, rows, across, both_ways) in
        [(2, 3, SOUTH, [EAST, WEST]), (3, 2, EAST, [SOUTH, NORTH])]
    {
        for first_way in both_ways {
            for second_way in both_ways {
                let mut plan = sheet_a();
                (plan.columns, plan.rows) = (columns, rows);
                let crossed = neighbour(&plan, 0, across);
                let beyond = neighbour(&plan, crossed, first_way);
                let circuit = plan.circuits[0];
                plan.circuits = vec![
                    Circuit { source: 0, destination: beyond, ..circuit },
                    Circuit {
                        source: crossed,
                        destination: neighbour(&plan, beyond, across),
                        ..circuit
                    },
                ];
                plan.schedules[0].period = 30;
                let first_route = route_of(&[across, first_way]);
                let second_route = route_of(&[second_way, across]);
                plan.schedules[0].entries = vec![
                    Entry { offset: 0, length: 3, circuit: 0, route: first_route },
                    Entry { offset: 3, length: 3, circuit: 1, route: second_route },
                ];
                let expected = if first_way == second_way { 11 } else { 0 };
                cases.push(plan.case("11: both ways round a ring of two", expected));
            }
        }
    }

    // All wires of a slot in common, but for one cycle.
    for plan in subjects(112, 40) {
        for schedule in 0..plan.schedules.len() {
            let mut changed = plan.clone();
            if add_clash(&mut changed, schedule) {
                cases.push(changed.case("11: one cycle later", 11));
            }
        }
    }
}

fn number26(cases: &mut Vec<Case>) {
    without_entries(cases);
    served_once(cases);
    served_by_one_entry(cases);
    unserved_among_64(cases);
    left_unserved(cases);
    earlier_number_and_unserved(cases);
}

/// Schedules without entries: they pass where there are no circuits.
fn without_entries(cases: &mut Vec<Case>) {
    for (columns, rows) in GRIDS {
        for schedules in 1..=8 {
            let name = match schedules {
                1 => "26: one schedule without entries and one circuit",
                8 => "26: eight schedules without entries and one circuit",
                _ => "26: schedules without entries and one circuit",
            };
            let schedules = vec![Schedule { period: 9, entries: Vec::new() }; schedules];
            let mut plan = Plan { columns, rows, schedules, ..sheet_a() };
            cases.push(plan.case(name, 26));
            plan.circuits.clear();
            cases.push(plan.case("26: schedules without entries and no circuit", 0));
        }
    }
    for circuits in [2, 8, 9, 31, 32, 33, 63, 64] {
        for schedules in [1, 8] {
            let mut plan = sixty_four_circuits(schedules);
            plan.circuits.truncate(circuits);
            cases.push(plan.case("26: schedules without entries and several circuits", 26));
        }
    }
}

/// Each circuit has one slot, in the schedule that is stated for it.
fn plan_served_once(circuits: usize, schedules: usize, of: impl Fn(usize) -> usize) -> Plan {
    let mut plan = sixty_four_circuits(schedules);
    plan.circuits.truncate(circuits);
    for circuit in 0..circuits {
        plan.add_slot(of(circuit), circuit);
    }
    plan
}

/// One slot a circuit, then one circuit without its slot. The numbers of circuits and of
/// schedules differ in both ways, for whoever takes the one for the other.
fn served_once(cases: &mut Vec<Case>) {
    for schedules in 1..=8 {
        let last = schedules - 1;
        for (circuits, name) in [
            (last, "26: fewer circuits than schedules"),
            (schedules, "26: as many circuits as schedules"),
            (schedules + 1, "26: more circuits than schedules"),
            (3 * schedules, "26: more circuits than schedules"),
            (40, "26: more circuits than schedules"),
        ] {
            let served_in = |of: &dyn Fn(usize) -> usize| plan_served_once(circuits, schedules, of);
            let plans = [
                ("26: served only in the first schedule", served_in(&|_| 0)),
                ("26: served only in the last schedule", served_in(&|_| last)),
                ("26: served in turn", served_in(&|circuit| circuit % schedules)),
                ("26: served in turn", served_in(&|circuit| last - circuit % schedules)),
            ];
            for (served, plan) in plans.iter().filter(|_| circuits > 0) {
                cases.push(plan.case(served, 0));
                for circuit in [0, circuits / 2, circuits - 1] {
                    let mut changed = plan.clone();
                    changed.unserve(circuit);
                    cases.push(changed.case(name, 26));
                }
            }
        }
        // In every schedule but the one that a load puts in force.
        let mut plan = plan_served_once(if last == 0 { 0 } else { 10 }, schedules, |_| last);
        for schedule in 1..last {
            (0..10).for_each(|circuit| plan.add_slot(schedule, circuit));
        }
        cases.push(plan.case("26: served in every schedule but the first", 0));
    }
}

/// In crowded schedules every entry of a circuit is dropped, and then every one but one.
fn served_by_one_entry(cases: &mut Vec<Case>) {
    for plan in subjects(126, 36) {
        let last = plan.schedules.len() - 1;
        let middle = plan.schedules.len() / 2;
        let last_entry = plan.schedules[last].entries.len() - 1;
        let places = [
            (0, 0, ["26: first entry of all dropped", "26: first entry of all kept"]),
            (middle, 1, ["26: entry in the middle dropped", "26: entry in the middle kept"]),
            (last, last_entry, ["26: last entry of all dropped", "26: last entry of all kept"]),
        ];
        for (schedule, position, [dropped, kept]) in places {
            let entry = plan.schedules[schedule].entries[position];
            let mut changed = plan.clone();
            changed.unserve(entry.circuit as usize);
            cases.push(changed.case(dropped, 26));
            changed.schedules[schedule].entries.push(entry);
            changed.schedules[schedule].sort_entries();
            cases.push(changed.case(kept, 0));
        }

        let circuits = plan.circuits.len();
        for (circuit, name) in [
            (0, "26: the first circuit alone"),
            (circuits / 2, "26: a middle circuit alone"),
            (circuits - 1, "26: the last circuit alone"),
        ] {
            let mut changed = plan.clone();
            changed.unserve(circuit);
            cases.push(changed.case(name, 26));
        }
        for several in [0..2, circuits - 2..circuits, 1..circuits, 0..circuits - 1, 0..circuits] {
            let mut changed = plan.clone();
            several.for_each(|circuit| changed.unserve(circuit));
            cases.push(changed.case("26: several circuits at once", 26));
        }
        let mut changed = plan.clone();
        changed.schedules[0].entries.clear();
        changed.drop_unserved();
        cases.push(changed.case("26: first schedule without entries", 0));
    }
}

fn unserved_among_64(cases: &mut Vec<Case>) {
    for schedules in [2, 3, 4, 8] {
        let plan = plan_served_once(64, schedules, |circuit| circuit % schedules);
        cases.push(plan.case("26: 64 circuits served once", 0));
        for circuit in [0, 1, 7, 8, 31, 32, 33, 62, 63] {
            let name = match circuit {
                63 => "26: circuit 63 alone of 64",
                _ => "26: one circuit alone of 64",
            };
            let mut changed = plan.clone();
            changed.unserve(circuit);
            cases.push(changed.case(name, 26));
            changed.unserve((circuit + 32) % 64);
            cases.push(changed.case("26: two circuits of 64", 26));
            let mut changed = sixty_four_circuits(schedules);
            changed.add_slot(circuit % schedules, circuit);
            cases.push(changed.case("26: all but one circuit of 64", 26));
        }
    }
    // As many words as before: another circuit of the same two nodes has the slots.
    let whole = largest(1);
    let full = Plan { schedules: whole.schedules[..1].to_vec(), ..whole.clone() };
    for (plan, circuit, other) in
        [(&whole, 63, 62), (&full, 63, 62), (&full, 32, 33), (&full, 0, 1)]
    {
        let mut changed = plan.clone();
        for entry in changed.schedules.iter_mut().flat_map(|schedule| &mut schedule.entries) {
            if entry.circuit == circuit {
                entry.circuit = other;
            }
        }
        cases.push(changed.case("26: full schedules, slots of one circuit are another's", 26));
        if changed.schedules.len() < 8 {
            changed.schedules.push(full.schedules[0].clone());
            cases.push(changed.case("26: full schedules, one circuit served in the last", 0));
        }
    }
}

/// Sheets of any shape whose circuits are not dropped where no entry is theirs.
fn left_unserved(cases: &mut Vec<Case>) {
    let mut random = Random::new(127);
    let mut left = 0;
    while left < 108 {
        let (columns, rows) = GRIDS[left % 9];
        let memory_words = random.choose(&[3, 12, 40, 200, 16_384]);
        let wish = Wish {
            columns,
            rows,
            long_links: false,
            memory_words,
            circuits: random.choose(&[1, 2, 8, 20, 64]),
            longest_region: memory_words.div_ceil(12),
            schedules: random.between(1, 8),
            period: None,
            entries: random.choose(&[0, 1, 3, 8, 20]),
            length: random.choose(&[None, Some(2), Some(16)]),
        };
        let plan = wished_plan(&mut random, &wish);
        if !plan.unserved().is_empty() {
            left += 1;
            cases.push(plan.case("26: circuits left without an entry", 26));
        }
    }
}

/// A circuit without an entry, and a fault of an earlier number, which is the answer.
fn earlier_number_and_unserved(cases: &mut Vec<Case>) {
    let mut random = Random::new(128);
    for plan in subjects(128, 27) {
        let last = plan.circuits.len() - 1;
        for circuit in [0, last / 2, last] {
            let mut unserved = plan.clone();
            unserved.unserve(circuit);
            for schedule in 0..unserved.schedules.len() {
                if unserved.schedules[schedule].entries.len() < 2 {
                    continue;
                }
                // A clash in every schedule, the other numbers in turn.
                for number in [11, random.between(2, 10), random.between(4, 10)] {
                    let mut changed = unserved.clone();
                    if add_fault(&mut random, &mut changed, number, schedule) {
                        cases.push(changed.case("26: an earlier number too", number));
                    }
                }
            }
        }
    }
}

/// Adds an entry like one that is there, a cycle later or earlier.
fn add_clash(plan: &mut Plan, schedule: usize) -> bool {
    let period = plan.schedules[schedule].period;
    for entry in plan.schedules[schedule].entries.clone() {
        let last = last_offset(period, entry.length, plan.delay(&entry)).expect("it passes");
        let offset = if entry.offset < last {
            entry.offset + 1
        } else if entry.offset > 0 {
            entry.offset - 1
        } else {
            continue;
        };
        plan.schedules[schedule].entries.push(Entry { offset, ..entry });
        plan.schedules[schedule].sort_entries();
        return true;
    }
    false
}

/// Puts a fault of the given number (2 to 11) into a sheet, at the stated schedule where
/// it is one of a schedule.
pub fn add_fault(random: &mut Random, plan: &mut Plan, number: u32, schedule: usize) -> bool {
    let last_circuit = plan.circuits.len() - 1;
    let entries = plan.schedules[schedule].entries.len();
    match number {
        2 => plan.rows = random.choose(&[0, 1, 5, 512 + plan.rows, LARGEST_WORD]),
        3 => {
            let spare = plan.schedules[schedule].entries[0];
            plan.schedules[schedule].entries.resize(257, spare);
        }
        4 => {
            let circuit = &mut plan.circuits[random.position(last_circuit + 1)];
            match random.between(0, 3) {
                0 => circuit.source = LARGEST_WORD,
                1 => circuit.destination = 16,
                2 => circuit.read_length = 0,
                _ => circuit.receive_offset = LARGEST_WORD,
            }
        }
        5 => {
            let position = random.position(last_circuit);
            plan.circuits.swap(position, position + 1);
        }
        6 => {
            let circuit = plan.circuits[random.position(last_circuit + 1)];
            let Some(reader) =
                plan.circuits.iter().position(|other| other.source == circuit.destination)
            else {
                return false;
            };
            plan.circuits[reader].read_offset = circuit.receive_offset;
            plan.circuits[reader].read_length = 1;
        }
        7 => {
            let entry = &mut plan.schedules[schedule].entries[random.position(entries)];
            match random.between(0, 4) {
                0 => entry.offset = LARGEST_WORD,
                1 => entry.length = 17,
                2 => entry.circuit = 64,
                3 => entry.route += TWO_TO_16,
                _ => plan.schedules[schedule].period = 1_025,
            }
        }
        8 => {
            let position = random.position(entries - 1);
            plan.schedules[schedule].entries.swap(position, position + 1);
        }
        9 => {
            let entry = &mut plan.schedules[schedule].entries[random.position(entries)];
            entry.route = random.choose(&[0, 65_535, entry.route | 1 << 15]);
        }
        10 => {
            let period = plan.schedules[schedule].period;
            plan.schedules[schedule].entries[entries - 1].offset = period - 1;
        }
        _ => return add_clash(plan, schedule),
    }
    true
}

/// Two faults, or a fault of every number from one on: the lowest number is the answer,
/// wherever in the sheet it lies.
fn several_faults(cases: &mut Vec<Case>) {
    let mut random = Random::new(113);
    for plan in subjects(113, 9) {
        let last = plan.schedules.len() - 1;
        for low in 2..=10 {
            for high in low + 1..=11 {
                // The higher number lies in front, where a hasty checker meets it first.
                let mut changed = plan.clone();
                if add_fault(&mut random, &mut changed, high, 0)
                    && add_fault(&mut random, &mut changed, low, last)
                {
                    cases.push(changed.case("two faults", low));
                }
            }
        }
        for low in 2..=10 {
            let mut changed = plan.clone();
            for number in (low..=11).rev() {
                let schedule = random.position(last + 1);
                add_fault(&mut random, &mut changed, number, schedule);
            }
            // A fault of number 6 is not always to be had.
            let expected = if low == 6 { None } else { Some(low) };
            cases.push(Case {
                name: "a fault of every later number",
                words: changed.words(),
                expected,
            });
        }
        // Too short, and out of range besides.
        let mut words = plan.words();
        words[0] = 0;
        words.truncate(4);
        push_words(cases, "two faults, 1 and 2", words, 1);
    }
}

/// The largest sheets, and a full schedule alone, with one fault in the first or the last
/// schedule.
fn faults_in_largest(cases: &mut Vec<Case>) {
    let mut random = Random::new(116);
    let mut plans = vec![largest(1), largest(2)];
    for _ in 0..6 {
        plans.push(plan_of_256_entries(&mut random));
    }
    for plan in plans {
        for schedule in [0, plan.schedules.len() - 1] {
            for number in 2..=10 {
                let mut changed = plan.clone();
                if add_fault(&mut random, &mut changed, number, schedule) {
                    cases.push(changed.case("full schedule, one fault", number));
                }
            }
            // The last but one entry becomes the last one, moved by a cycle.
            let mut changed = plan.clone();
            let entries = &mut changed.schedules[schedule].entries;
            let last = entries[255];
            entries[254] = Entry { offset: last.offset - 1, ..last };
            changed.schedules[schedule].sort_entries();
            cases.push(changed.case("full schedule, one clash", 11));
        }
    }
}

/// Random words; then sheets of the right shape with ever more of their numbers in range.
fn random_words(cases: &mut Vec<Case>) {
    let mut random = Random::new(114);
    for _ in 0..150 {
        let length = random.between(0, 40);
        push_open(cases, "random words", (0..length).map(|_| random.word()).collect());
        let length = random.between(5, 60);
        push_open(cases, "random small words", (0..length).map(|_| random.between(0, 5)).collect());
        let mut words =
            vec![random.between(2, 4), random.between(2, 4), 9, random.between(0, 3), 1];
        words.extend((0..random.between(0, 40)).map(|_| random.between(0, 12)));
        push_open(cases, "random words behind a right head", words);
    }
    for turn in 0..600 {
        let level = turn % 3;
        let (columns, rows) = (random.between(2, 4), random.between(2, 4));
        let memory_words = random.between(1, 30);
        let nodes = columns * rows;
        let mut plan =
            Plan { columns, rows, memory_words, schedules: Vec::new(), ..idle_network() };
        for _ in 0..random.between(0, 4) {
            let source = random.between(0, nodes - u32::from(level > 0));
            let read_offset = random.between(0, memory_words - 1);
            let receive_offset = random.between(0, memory_words - 1);
            plan.circuits.push(Circuit {
                source,
                destination: (source + random.between(u32::from(level > 0), nodes - 1)) % nodes,
                read_offset,
                read_length: random.between(1, if level > 0 { 1 } else { memory_words }),
                receive_offset,
                receive_length: random.between(1, (memory_words - receive_offset).min(2)),
            });
        }
        if level > 0 {
            plan.sort_circuits();
        }
        let circuits = plan.circuits.len() as u32;
        for _ in 0..random.between(1, 2) {
            let period = random.between(8 + u32::from(level > 0), 40);
            let mut schedule = Schedule { period, entries: Vec::new() };
            for _ in 0..if circuits == 0 { 0 } else { random.between(0, 6) } {
                let circuit = random.between(0, circuits - u32::from(level > 0));
                // Mostly right routes, so that the later numbers come into play.
                let route =
                    match plan.circuits.get(circuit as usize) {
                        Some(found) if level > 1 && found.source < nodes => route_of(
                            &shortest_path(&mut random, &plan, found.source, found.destination),
                        ),
                        _ => random.between(0, 255),
                    };
                let offset = random.between(0, period - 1);
                let length = random.between(2, 16 + u32::from(level == 0));
                schedule.entries.push(Entry { offset, length, circuit, route });
            }
            if level > 0 {
                schedule.sort_entries();
            }
            plan.schedules.push(schedule);
        }
        push_open(cases, "random sheet", plan.words());
    }
}

/// Passing sheets with one or two words altered.
fn altered_words(cases: &mut Vec<Case>) {
    let mut random = Random::new(115);
    let mut plans = subjects(115, 60);
    plans.push(sheet_a());
    for turn in 0..2_400 {
        let plan = &plans[turn % plans.len()];
        let mut words = plan.words();
        for _ in 0..if turn % 4 == 3 { 2 } else { 1 } {
            let position = random.position(words.len());
            let value = words[position];
            let other = random.choose(&words);
            words[position] = match random.between(0, 9) {
                0 => 0,
                1 => value.wrapping_add(1),
                2 => value.wrapping_sub(1),
                3 => value ^ 1 << random.between(0, 31),
                4 => value ^ 1 << random.between(0, 4),
                5 => random.choose(&[TWO_TO_16, TWO_TO_30, TWO_TO_31]).wrapping_add(value),
                6 => LARGEST_WORD,
                7 => random.word(),
                8 => other,
                _ => random.between(0, 17),
            };
        }
        push_open(cases, "altered words", words);
    }
}
