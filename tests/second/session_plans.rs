//! The sheets of the sessions, by style.

use super::sheets::{all_shortest_paths, serve_unserved, some_schedule, wished_plan, Grid, Plan, Random, Wish};

/// What the usual sheets are like: crowded.
fn usual_wish(random: &mut Random, grid: Grid) -> Wish {
    Wish {
        columns: grid.columns,
        rows: grid.rows,
        long_links: grid.long_links,
        memory_words: random.between(12, 64),
        circuits: random.between(3, 18),
        longest_region: random.between(2, 12),
        schedules: 0,
        period: None,
        entries: random.between(8, 60),
        length: random.choose(&[None, None, Some(2), Some(3), Some(5)]),
    }
}

/// Sheets by style; more than half are usual ones of short periods.
pub fn plan_of_style(random: &mut Random, grid: Grid, style: u64) -> Plan {
    let usual = usual_wish(random, grid);
    let some = random.between(1, 4);
    let (wish, schedules, shortest, longest) = match style {
        14 | 15 => {
            let crowded = Wish { memory_words: 128, circuits: 64, longest_region: 4, entries: 180, ..usual };
            (crowded, some, 24, 48)
        }
        16 => (Wish { memory_words: random.between(1, 3), longest_region: 2, ..usual }, some, 9, 32),
        17 => (Wish { memory_words: 16_384, longest_region: 64, circuits: 24, ..usual }, some, 9, 32),
        18 => (usual, 2, 49, 300),
        19 => (Wish { entries: 100, ..usual }, random.choose(&[1, 8]), 1_000, 1_024),
        20 => (Wish { circuits: 0, entries: 0, ..usual }, some, 9, 32),
        21 => (usual, some, 9, 9),
        _ => (usual, some, 9, 32),
    };
    let mut plan = wished_plan(random, &wish);
    for _ in 0..schedules {
        let period = random.between(shortest, longest);
        // Now and then a schedule in which nothing is sent.
        let entries = if random.once_in(10) { 0 } else { wish.entries };
        let schedule = some_schedule(random, &plan, period, entries, wish.length);
        plan.schedules.push(schedule);
    }
    serve_unserved(random, &mut plan);
    plan.drop_unserved();
    plan
}

/// Sheets for the sessions behind `TRAVELLING_FROM`: short slots in periods so short that words of three hops and more
/// land after the period's end.
pub fn plan_of_short_periods(random: &mut Random, grid: Grid) -> Plan {
    let circuits = random.between(6, 20);
    let plan = plan_of_circuits(random, grid, circuits);
    with_short_periods(random, plan)
}

/// One of these in which most circuits go four hops.
pub fn plan_of_four_hops(random: &mut Random) -> Plan {
    let mut plan = plan_of_circuits(random, Grid { columns: 4, rows: 4, long_links: false }, 64);
    let all = plan.clone();
    let mut others = 0;
    plan.circuits.retain(|circuit| {
        let far = all_shortest_paths(&all, circuit.source, circuit.destination)[0].len() == 4;
        others += u32::from(!far);
        far || others <= 3
    });
    with_short_periods(random, plan)
}

pub fn plan_of_circuits(random: &mut Random, grid: Grid, circuits: u32) -> Plan {
    let wish = Wish {
        columns: grid.columns,
        rows: grid.rows,
        long_links: grid.long_links,
        memory_words: random.between(16, 40),
        circuits,
        longest_region: random.between(2, 5),
        schedules: 0,
        period: None,
        entries: 0,
        length: None,
    };
    wished_plan(random, &wish)
}

fn with_short_periods(random: &mut Random, plan: Plan) -> Plan {
    with_periods(random, plan, 11, 14)
}

/// The plan with crowded schedules of such periods.
pub fn with_periods(random: &mut Random, mut plan: Plan, shortest: u32, longest: u32) -> Plan {
    for _ in 0..random.between(2, 4) {
        let (period, entries) = (random.between(shortest, longest), random.between(10, 30));
        let length = random.between(2, 3);
        let schedule = some_schedule(random, &plan, period, entries, Some(length));
        plan.schedules.push(schedule);
    }
    serve_unserved(random, &mut plan);
    plan.drop_unserved();
    plan
}
