//! Sheets about long vertical links (document 02, L7). Nearly all come in pairs, the same entries on short links and
//! on long ones, so that a checker that mixes the two up shows it; what each is made for is worked out here from the
//! plan, by no checker.

use super::near_misses::{add_fault, GRIDS};
use super::sheets::{
    all_shortest_paths, is_vertical, largest_on, last_offset, passing_plan, path_of, route_of, sheet_a, shortest_path,
    uses, Case, Circuit, Entry, Occupied, Plan, Random, Schedule, WireKind, Wish, EAST, SOUTH,
};

/// What the names of these sheets begin with.
pub const ABOUT_LONG_LINKS: &str = "long links: ";
/// How many there have to be, and how many of them on long links.
pub const REQUIRED: usize = 3_000;
pub const REQUIRED_ON_LONG_LINKS: usize = 1_500;

/// Every sheet of this file.
pub fn cases() -> Vec<Case> {
    let mut cases = Vec::new();
    head_words(&mut cases);
    last_offsets_of_one_slot(&mut cases);
    sheet_a_on_long_links(&mut cases);
    slots_that_meet(&mut cases);
    passing_on_either(&mut cases);
    last_offsets_of_every_path(&mut cases);
    near_clashes(&mut cases);
    other_numbers(&mut cases);
    cases
}

/// Whether the head says that vertical links are long.
pub fn is_on_long_links(words: &[u32]) -> bool {
    words.get(1).is_some_and(|&rows| (258..=260).contains(&rows))
}

fn with_links(plan: &Plan, long_links: bool) -> Plan {
    Plan { long_links, ..plan.clone() }
}

/// 10, 11 or 0, of a plan that has no other fault.
fn number_of_slots(plan: &Plan) -> u32 {
    let is_late = |schedule: &Schedule| schedule.entries.iter().any(|entry| plan.reach(entry) > schedule.period + 2);
    if plan.schedules.iter().any(is_late) {
        10
    } else if plan.schedules.iter().any(|schedule| clashes(plan, schedule)) {
        11
    } else {
        0
    }
}

fn clashes(plan: &Plan, schedule: &Schedule) -> bool {
    let mut occupied = Occupied::new(plan);
    !schedule.entries.iter().all(|entry| occupied.take_entry(plan, entry))
}

/// The plan on both kinds of links, with the numbers that its slots then have.
fn push_pair(cases: &mut Vec<Case>, name: &'static str, plan: &Plan) {
    for long_links in [false, true] {
        let plan = with_links(plan, long_links);
        cases.push(plan.case(name, number_of_slots(&plan)));
    }
}

/// The second head word at and about its bounds, and the 256 in the first.
fn head_words(cases: &mut Vec<Case>) {
    let mut random = Random::new(201);
    for turn in 0..12 {
        let plan = some_plan(&mut random, GRIDS[turn % GRIDS.len()], true);
        let words = plan.words();
        let with = |position: usize, value: u32| {
            let mut changed = words.clone();
            changed[position] = value;
            changed
        };
        let rows = plan.rows;
        let wrong_rows = [
            0,
            1,
            5,
            6,
            255,
            256,
            257,
            261,
            262,
            511,
            512,
            513,
            512 + rows,
            514,
            768 + rows,
            1_024 + rows,
            (1 << 16) + rows,
            (1 << 16) + 256 + rows,
            (1 << 31) + 256 + rows,
            u32::MAX,
        ];
        for value in wrong_rows {
            push(cases, "long links: no such rows", with(1, value), 2);
        }
        for value in [256, 256 + plan.columns, 258, 260, 512 + plan.columns] {
            push(cases, "long links: columns do not carry 256", with(0, value), 2);
        }
        let mut both = with(0, 256 + plan.columns);
        push(cases, "long links: columns do not carry 256", both.clone(), 2);
        both[1] = rows;
        push(cases, "long links: columns alone carry 256", both, 2);
    }
    // Nothing in the schedules: the head alone decides.
    for columns in 0..=6 {
        for rows in (0..=6).chain(254..=262).chain(510..=518) {
            let is_right = (2..=4).contains(&columns) && ((2..=4).contains(&rows) || (258..=260).contains(&rows));
            let words = vec![columns, rows, 1, 0, 1, 9, 0];
            push(cases, "long links: a head without circuits", words, if is_right { 0 } else { 2 });
        }
    }
}

fn push(cases: &mut Vec<Case>, name: &'static str, words: Vec<u32>, expected: u32) {
    cases.push(Case { name, words, expected: Some(expected) });
}

/// A slot of three words from node 0 south to node 2, in a period of nine cycles: the last offset is 6, and 5 on long
/// links.
fn last_offsets_of_one_slot(cases: &mut Vec<Case>) {
    let mut plan = sheet_a();
    plan.circuits[0].destination = 2;
    plan.schedules[0].entries[0].route = route_of(&[SOUTH]);
    for (offset, short, long) in [(4, 0, 0), (5, 0, 0), (6, 0, 10), (7, 10, 10), (8, 10, 10)] {
        plan.schedules[0].entries[0].offset = offset;
        for (long_links, expected) in [(false, short), (true, long)] {
            cases.push(with_links(&plan, long_links).case("long links: three words south", expected));
        }
    }
}

/// Sheet A goes east, so that nothing of it is later.
fn sheet_a_on_long_links(cases: &mut Vec<Case>) {
    for (offset, expected) in [(0, 0), (5, 0), (6, 0), (7, 10)] {
        let mut plan = with_links(&sheet_a(), true);
        plan.schedules[0].entries[0].offset = offset;
        cases.push(plan.case("long links: sheet A", expected));
    }
}

/// From node 0 south and east to node 3, and from node 2 east to node 3: both leave node 2 by east, the first three
/// cycles behind its own first side output, and one more on long links.
fn slots_that_meet(cases: &mut Vec<Case>) {
    let first = sheet_a().circuits[0];
    let mut plan = Plan {
        circuits: vec![
            Circuit { source: 0, destination: 3, receive_offset: 0, ..first },
            Circuit { source: 2, destination: 3, receive_offset: 4, ..first },
        ],
        ..sheet_a()
    };
    for offset in 0..=8 {
        let entry = |offset, circuit, route| Entry { offset, length: 2, circuit, route };
        let mut schedule =
            Schedule { period: 20, entries: vec![entry(0, 0, route_of(&[SOUTH, EAST])), entry(offset, 1, 13)] };
        schedule.sort_entries();
        plan.schedules = vec![schedule];
        for (long_links, clashing) in [(false, 2..=4), (true, 3..=5)] {
            let expected = if clashing.contains(&offset) { 11 } else { 0 };
            cases.push(with_links(&plan, long_links).case("long links: south and east meets east", expected));
        }
    }
}

/// A sheet of a middling size that passes on the links it is made for.
fn some_plan(random: &mut Random, (columns, rows): (u32, u32), long_links: bool) -> Plan {
    loop {
        let memory_words = random.choose(&[12, 40, 200, 16_384]);
        let wish = Wish {
            columns,
            rows,
            long_links,
            memory_words,
            circuits: random.between(3, 14),
            longest_region: memory_words.div_ceil(12),
            schedules: random.between(1, 3),
            period: Some(random.choose(&[9, 12, 16, 24, 40, 100])),
            entries: random.between(3, 16),
            length: random.choose(&[None, Some(2), Some(3)]),
        };
        let plan = passing_plan(random, &wish);
        let is_rich = |schedule: &Schedule| schedule.entries.len() >= 3;
        if plan.circuits.len() >= 3 && plan.schedules.iter().all(is_rich) {
            return plan;
        }
    }
}

/// Made to pass on links of one kind, at the limits of it; on the other kind as their slots then lie.
fn passing_on_either(cases: &mut Vec<Case>) {
    let mut random = Random::new(202);
    for turn in 0..480 {
        let (grid, long_links) = (GRIDS[turn % GRIDS.len()], turn % 2 == 0);
        let plan = some_plan(&mut random, grid, long_links);
        let name = if long_links { "long links: made for long ones" } else { "long links: made for short ones" };
        assert_eq!(number_of_slots(&plan), 0, "it passes by the way it is built");
        push_pair(cases, name, &plan);
    }
    for long_links in [false, true] {
        push_pair(cases, "long links: largest", &largest_on(7, long_links));
    }
}

/// Every shortest path of the largest grid, at and about the last offset on links of either kind.
fn last_offsets_of_every_path(cases: &mut Vec<Case>) {
    let mut random = Random::new(203);
    let mut plan = sheet_a();
    (plan.columns, plan.rows) = (4, 4);
    for destination in 1..16 {
        plan.circuits[0].destination = destination;
        for path in all_shortest_paths(&plan, 0, destination) {
            let length = random.choose(&[2, 3, 9, 16]);
            let short = with_links(&plan, false).delay_of(&path);
            let long = with_links(&plan, true).delay_of(&path);
            let period = (long + length + random.choose(&[0, 1, 20])).max(9);
            let last_on_long = last_offset(period, length, long).expect("the period is long enough");
            let last_on_short = last_offset(period, length, short).expect("the period is long enough");
            plan.schedules[0].period = period;
            for (name, offset) in [
                ("long links: last offset on long ones", last_on_long),
                ("long links: one beyond on long ones", last_on_long + 1),
                ("long links: last offset on short ones", last_on_short),
                ("long links: one beyond on short ones", last_on_short + 1),
            ] {
                plan.schedules[0].entries = vec![Entry { offset, length, circuit: 0, route: route_of(&path) }];
                push_pair(cases, name, &plan);
            }
        }
    }
}

/// What two slots that share a wire do on links of either kind.
#[derive(Clone, Copy, PartialEq, Eq)]
enum Meeting {
    OnShortAlone,
    OnLongAlone,
    OnBoth,
    OnNeither,
}

/// Two slots with a wire in common that is not equally late on links of the two kinds: back to back there, or with
/// one cycle in common.
fn near_clashes(cases: &mut Vec<Case>) {
    let wanted = [
        (Meeting::OnLongAlone, WireKind::Side, 120, "long links: 11 on long ones alone, side output"),
        (Meeting::OnLongAlone, WireKind::Memory, 60, "long links: 11 on long ones alone, memory output"),
        (Meeting::OnShortAlone, WireKind::Side, 120, "long links: 11 on short ones alone, side output"),
        (Meeting::OnShortAlone, WireKind::Memory, 60, "long links: 11 on short ones alone, memory output"),
        (Meeting::OnBoth, WireKind::Side, 40, "long links: 11 on both, side output"),
        (Meeting::OnBoth, WireKind::Memory, 40, "long links: 11 on both, memory output"),
        (Meeting::OnNeither, WireKind::Side, 40, "long links: back to back, side output"),
        (Meeting::OnNeither, WireKind::Memory, 40, "long links: back to back, memory output"),
    ];
    let mut found = [0; 8];
    let mut random = Random::new(204);
    while wanted.iter().zip(found).any(|(&(_, _, count, _), found)| found < count) {
        let Some((plan, kind)) = two_slots(&mut random) else { continue };
        let numbers = [false, true].map(|long_links| number_of_slots(&with_links(&plan, long_links)));
        let meeting = match numbers {
            [11, 0] => Meeting::OnShortAlone,
            [0, 11] => Meeting::OnLongAlone,
            [11, 11] => Meeting::OnBoth,
            [0, 0] => Meeting::OnNeither,
            _ => continue,
        };
        let place = wanted.iter().position(|&(wanted, wire, ..)| wanted == meeting && wire == kind);
        let place = place.expect("every meeting on both kinds of wires is wanted");
        if found[place] < wanted[place].2 {
            found[place] += 1;
            push_pair(cases, wanted[place].3, &plan);
        }
    }
}

/// Two circuits of a random grid with a slot each, moved together on a wire that both use; nothing where they use
/// none that links of the two kinds put at another distance in time.
fn two_slots(random: &mut Random) -> Option<(Plan, WireKind)> {
    let (columns, rows) = random.choose(&GRIDS);
    let mut plan = Plan { columns, rows, ..sheet_a() };
    let nodes = plan.nodes();
    let ends = [0; 2].map(|_| {
        let source = random.between(0, nodes - 1);
        (source, (source + random.between(1, nodes - 1)) % nodes)
    });
    let read = sheet_a().circuits[0];
    plan.circuits = (0..2)
        .map(|turn| {
            let (source, destination) = ends[turn];
            Circuit { source, destination, receive_offset: 4 + 2 * turn as u32, receive_length: 2, ..read }
        })
        .collect();
    plan.sort_circuits();
    let paths = [0, 1].map(|circuit: usize| {
        let Circuit { source, destination, .. } = plan.circuits[circuit];
        shortest_path(random, &plan, source, destination)
    });
    let lengths = [0; 2].map(|_| random.between(2, 6));
    // By wire, how much later the second slot has it than the first, on short links and on long ones.
    let [on_short, on_long] = [false, true].map(|long_links| {
        let plan = with_links(&plan, long_links);
        [0, 1].map(|circuit| uses(&plan, plan.circuits[circuit].source, &paths[circuit], 0))
    });
    let mut common = Vec::new();
    for (place, first) in on_short[0].iter().enumerate() {
        for (other_place, second) in on_short[1].iter().enumerate() {
            let short = second.cycle as i64 - first.cycle as i64;
            let long = on_long[1][other_place].cycle as i64 - on_long[0][place].cycle as i64;
            if first.wire == second.wire && short != long {
                common.push((first.kind, random.choose(&[short, long])));
            }
        }
    }
    if common.is_empty() {
        return None;
    }
    let (kind, later) = random.choose(&common);
    let [first, second] = lengths.map(i64::from);
    // Behind the first slot or before it on that wire, or a cycle into it.
    let moved = random.choose(&[first, first - 1, -second, 1 - second]) - later;
    let offset = random.between(20, 30);
    let offsets = [offset, (i64::from(offset) + moved) as u32];
    let entry = |circuit: usize| Entry {
        offset: offsets[circuit],
        length: lengths[circuit],
        circuit: circuit as u32,
        route: route_of(&paths[circuit]),
    };
    plan.schedules[0] = Schedule { period: 100, entries: vec![entry(0), entry(1)] };
    plan.schedules[0].sort_entries();
    Some((plan, kind))
}

/// A fault of every number on long links, and the same sheet on short ones where its number is sure.
fn other_numbers(cases: &mut Vec<Case>) {
    let mut random = Random::new(205);
    for turn in 0..36 {
        let plan = some_plan(&mut random, GRIDS[turn % GRIDS.len()], true);
        for number in 2..=11 {
            let schedule = random.position(plan.schedules.len());
            let mut changed = plan.clone();
            if !add_fault(&mut random, &mut changed, number, schedule) {
                continue;
            }
            cases.push(changed.case("long links: a fault", number));
            if (2..=9).contains(&number) {
                cases.push(with_links(&changed, false).case("long links: the same fault on short ones", number));
            }
        }
        let mut unserved = plan.clone();
        let circuit = random.position(plan.circuits.len());
        unserved.unserve(circuit);
        cases.push(unserved.case("long links: unserved circuit", 26));
        // A slot that a period holds but for the cycles of its vertical hops.
        let goes_vertically = |entry: &&Entry| path_of(&plan, entry).into_iter().any(is_vertical);
        if let Some(entry) = plan.schedules[0].entries.iter().find(goes_vertically) {
            let period = plan.reach(entry) - 3;
            if period >= 9.max(entry.offset + 1) {
                let schedules = vec![Schedule { period, entries: vec![*entry] }];
                let mut shorter = Plan { schedules, ..plan.clone() };
                shorter.drop_unserved();
                push_pair(cases, "long links: a cycle too short for long ones", &shorter);
            }
        }
    }
}
