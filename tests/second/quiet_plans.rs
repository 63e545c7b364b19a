//! The sheets of the sessions with long quiet stretches: few slots in long periods, several schedules of different
//! periods, slots at the very ends of a period, many slots of which few are ever used, and networks without circuits.
//! Half of them are on long vertical links.

use super::near_misses::GRIDS;
use super::sheets::{
    idle_network, largest_on, last_offset, route_of, shortest_path, wished_plan, Circuit, Entry, Occupied, Plan,
    Random, Schedule, Wish,
};

/// All sessions with quiet stretches.
pub const SESSIONS: u64 = 620;
/// From here on sessions have the largest sheet.
pub const LARGEST_FROM: u64 = SESSIONS - 4;

#[derive(Clone, Copy, Debug, PartialEq, Eq)]
pub enum Style {
    /// One schedule with some slots near each other, and a long empty part.
    Sparse,
    /// Schedules of different periods, some without slots; a circuit may be served by one of them alone.
    Several,
    /// Slots in the first cycles of a period and in the last that are allowed.
    Ends,
    /// Many slots, of which few are used.
    Crowded,
    /// Periods of about a thousand cycles.
    Longest,
    /// No circuit, or the idle network.
    Idle,
    Largest,
}

const STYLES: [Style; 11] = [
    Style::Sparse,
    Style::Several,
    Style::Ends,
    Style::Crowded,
    Style::Several,
    Style::Ends,
    Style::Sparse,
    Style::Longest,
    Style::Several,
    Style::Crowded,
    Style::Idle,
];

impl Style {
    pub fn of(session: u64) -> Style {
        if session >= LARGEST_FROM {
            return Style::Largest;
        }
        STYLES[session as usize % STYLES.len()]
    }
}

/// Always the same plan for a session.
pub fn plan_of(session: u64) -> Plan {
    let mut random = Random::new(0x0A1E_7000 + session);
    let long_links = session % 2 == 1;
    let (columns, rows) = GRIDS[(session / 2) as usize % GRIDS.len()];
    let style = Style::of(session);
    if style == Style::Largest {
        return largest_on(session, long_links);
    }
    if style == Style::Idle && random.once_in(3) {
        return idle_network();
    }
    let wish = Wish {
        columns,
        rows,
        long_links,
        memory_words: random.between(8, 40),
        circuits: match style {
            Style::Idle => 0,
            Style::Crowded => random.choose(&[8, 16, 64]),
            _ => random.between(1, 6),
        },
        longest_region: random.between(2, 9),
        schedules: 0,
        period: None,
        entries: 0,
        length: None,
    };
    let mut plan = wished_plan(&mut random, &wish);
    for number in 0..schedules_of(&mut random, style) {
        let schedule = some_schedule(&mut random, &plan, style, number);
        plan.schedules.push(schedule);
    }
    serve_all(&mut plan);
    plan
}

fn schedules_of(random: &mut Random, style: Style) -> u32 {
    match style {
        Style::Several | Style::Idle => random.between(2, 5),
        _ => random.between(1, 3),
    }
}

fn some_schedule(random: &mut Random, plan: &Plan, style: Style, number: u32) -> Schedule {
    let period = match style {
        Style::Sparse => random.between(30, 120),
        Style::Several => random.choose(&[9, 10, 14, 20, 33, 48, 64, 90]) + number,
        Style::Ends => random.between(15, 40),
        Style::Crowded => random.between(24, 60),
        _ if random.once_in(2) => random.between(1_000, 1_024),
        Style::Idle => random.between(9, 40),
        _ => random.between(200, 500),
    };
    let aim = match style {
        Style::Several if number > 0 && random.once_in(4) => 0,
        Style::Idle => 0,
        Style::Crowded => random.between(20, 40),
        _ => random.between(1, 6),
    };
    // The window in which slots begin.
    let first = random.between(0, period / 2);
    let last = random.between(first, (first + period / 3).min(period - 1));
    let mut schedule = Schedule { period, entries: Vec::new() };
    let mut occupied = Occupied::new(plan);
    for _ in 0..6 * aim {
        if schedule.entries.len() as u32 == aim || plan.circuits.is_empty() {
            break;
        }
        let circuit = random.position(plan.circuits.len());
        let Circuit { source, destination, .. } = plan.circuits[circuit];
        let path = shortest_path(random, plan, source, destination);
        let length = random.choose(&[2, 2, 3, 4, 9]);
        let Some(latest) = last_offset(period, length, plan.delay_of(&path)) else { continue };
        let offset = match style {
            Style::Ends => random.choose(&[0, 0, 1, latest, latest, latest.saturating_sub(1)]),
            Style::Crowded => random.between(0, latest),
            _ if random.once_in(12) => random.choose(&[0, latest]),
            _ => random.between(first, last).min(latest),
        };
        let entry = Entry { offset, length, circuit: circuit as u32, route: route_of(&path) };
        if occupied.take_entry(plan, &entry) {
            schedule.entries.push(entry);
        }
    }
    schedule.sort_entries();
    schedule
}

/// Drops the circuits that no schedule serves; at least one is then served.
fn serve_all(plan: &mut Plan) {
    if plan.circuits.len() == plan.unserved().len() && !plan.circuits.is_empty() {
        plan.add_slot(0, 0);
    }
    plan.drop_unserved();
}
