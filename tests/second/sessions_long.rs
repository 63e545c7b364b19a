//! The sheets of the sessions behind `LONG_LINKS_FROM`, whose vertical links are long (L7); the sheet that is loaded
//! in the midst of such a session has links of either kind.
//!
//! Covered: all nine grids, usual sheets of every style but the longest, periods so short that words travel over
//! their ends and over switches, circuits to two rows away by either way round, and slots that begin in the first
//! cycle or as late as number 10 allows, so that the last words of a schedule land where the next one's begin to.

use super::session_plans::{plan_of_circuits, plan_of_style, with_periods};
use super::sheets::{
    last_offset, route_of, serve_unserved, shortest_path, shortest_runs, Circuit, Entry, Grid, Occupied, Plan, Random,
    Schedule,
};

/// What the sheet of a session is like.
#[derive(Clone, Copy, Debug, PartialEq, Eq)]
pub enum Style {
    Usual,
    ShortPeriods,
    TwoRowsAway,
    LateSlots,
}

impl Style {
    /// Of each session in turn.
    pub fn of(turn: u64) -> Style {
        [Style::Usual, Style::ShortPeriods, Style::TwoRowsAway, Style::LateSlots][turn as usize % 4]
    }

    /// Whether schedules are to be switched as soon as can be.
    pub fn switches_soon(self) -> bool {
        matches!(self, Style::TwoRowsAway | Style::LateSlots)
    }

    pub fn plan(self, random: &mut Random, columns: u32, rows: u32) -> Plan {
        let grid = Grid { columns, rows, long_links: true };
        match self {
            Style::Usual => {
                // All but those of 1,000 cycles.
                let style = random.choose(&[0, 1, 2, 14, 16, 17, 18, 21]);
                plan_of_style(random, grid, style)
            }
            Style::ShortPeriods => {
                let circuits = random.between(6, 20);
                let plan = plan_of_circuits(random, grid, circuits);
                with_periods(random, plan, 11, 16)
            }
            Style::TwoRowsAway => plan_of_two_rows(random, Grid { rows: 4, ..grid }),
            Style::LateSlots => plan_of_late_slots(random, grid),
        }
    }
}

/// Most circuits go to a node two rows away, which is as far by north as by south.
fn plan_of_two_rows(random: &mut Random, grid: Grid) -> Plan {
    let mut plan = plan_of_circuits(random, grid, 30);
    let all = plan.clone();
    let mut others = 0;
    plan.circuits.retain(|circuit| {
        let (_, rows) = shortest_runs(&all, circuit.source, circuit.destination);
        let far = rows[0].1 == 2;
        others += u32::from(!far);
        far || others <= 3
    });
    with_periods(random, plan, 13, 17)
}

/// Schedules whose slots begin at their first cycle or at the last that is allowed; most circuits come to one node.
fn plan_of_late_slots(random: &mut Random, grid: Grid) -> Plan {
    let mut plan = plan_of_circuits(random, grid, 40);
    let common = random.between(0, plan.nodes() - 1);
    let mut others = 0;
    plan.circuits.retain(|circuit| {
        let elsewhere = circuit.destination != common;
        others += u32::from(elsewhere);
        !elsewhere || others <= 4
    });
    for _ in 0..random.between(2, 3) {
        let period = random.between(12, 17);
        let schedule = schedule_of_late_slots(random, &plan, period);
        plan.schedules.push(schedule);
    }
    serve_unserved(random, &mut plan);
    plan.drop_unserved();
    plan
}

fn schedule_of_late_slots(random: &mut Random, plan: &Plan, period: u32) -> Schedule {
    let mut schedule = Schedule { period, entries: Vec::new() };
    let mut occupied = Occupied::new(plan);
    for _ in 0..40 {
        let circuit = random.position(plan.circuits.len());
        let Circuit { source, destination, .. } = plan.circuits[circuit];
        let path = shortest_path(random, plan, source, destination);
        let length = random.between(2, 3);
        let Some(last) = last_offset(period, length, plan.delay_of(&path)) else { continue };
        let offset = random.choose(&[0, last, last]);
        let entry = Entry { offset, length, circuit: circuit as u32, route: route_of(&path) };
        if occupied.take_entry(plan, &entry) {
            schedule.entries.push(entry);
        }
    }
    schedule.sort_entries();
    schedule
}
