//! What the player looks at on grids with long vertical links (L7): the moments that matter are met by name.

use super::calls::Call;
use super::machine::{Cell, Machine, HEADER, LAST, MEMORY, VERTICAL_SIDES};
use super::reckoning::Reckoning;
use super::sessions::Made;

const ON_LONG_LINKS: &str = "situation: long links, ";

/// What should be met often, and how often.
const SITUATIONS: [(u64, &str); 19] = [
    (2_000, "landing after 0 vertical hops"),
    (2_000, "landing after 1 vertical hops"),
    (2_000, "landing after 2 vertical hops"),
    (200, "landing after 1 hops, 0 of them vertical"),
    (200, "landing after 1 hops, 1 of them vertical"),
    (200, "landing after 2 hops, 0 of them vertical"),
    (200, "landing after 2 hops, 1 of them vertical"),
    (200, "landing after 2 hops, 2 of them vertical"),
    (200, "landing after 3 hops, 1 of them vertical"),
    (200, "landing after 3 hops, 2 of them vertical"),
    (100, "landing after 4 hops, 2 of them vertical"),
    (200, "header goes on north from an extra register"),
    (200, "header goes on south from an extra register"),
    (1_000, "payload behind its header in an extra register"),
    (1_000, "last word in an extra register"),
    (200, "switch to another schedule"),
    (100, "switch while a word is in an extra register"),
    (20, "load of a grid without long links"),
    (20, "load of a grid with long links behind one without"),
];

/// The end of a schedule, whose last word may land five cycles behind its period.
const LATE_LANDINGS: [(u64, &str); 3] = [
    (200, "last word lands in cycle P + 5 of its period"),
    (50, "last word lands in cycle P + 5 of its period, behind a switch"),
    (10, "last word lands in cycle P + 5 of its period, behind a switch, a header directly behind it"),
];

const STARTS_REQUIRED: u64 = 200;
const REFUSED_BY_EXTRA: &str = "start refused by a header in an extra register alone";
const LANDINGS_OF_GRID_REQUIRED: u64 = 100;

pub fn wanted_often() -> Vec<(u64, String)> {
    let situations = SITUATIONS.into_iter().chain(LATE_LANDINGS);
    let mut names: Vec<(u64, String)> =
        situations.map(|(count, name)| (count, format!("{ON_LONG_LINKS}{name}"))).collect();
    for columns in 2..=4 {
        names.extend(
            (2..=4).map(|rows| (LANDINGS_OF_GRID_REQUIRED, format!("{ON_LONG_LINKS}{}", grid_name(columns, rows)))),
        );
    }
    names.push((STARTS_REQUIRED, format!("situation: {REFUSED_BY_EXTRA}")));
    names.push((STARTS_REQUIRED / 10, format!("situation: by a list, {REFUSED_BY_EXTRA}")));
    names
}

fn grid_name(columns: u64, rows: u64) -> String {
    format!("landing in a grid of {columns} by {rows}")
}

/// Names what a call that was carried out meets; the reckonings are those before it.
pub fn names(before: &Machine, after: &Machine, reckonings: &[Reckoning], made: &Made) -> Vec<String> {
    let mut names = Vec::new();
    let (was_long, is_long) = (before.sheet.has_long_links(), after.sheet.has_long_links());
    match made.call {
        Call::Load { .. } if was_long && !is_long => names.push("load of a grid without long links".to_string()),
        Call::Load { .. } if !was_long && is_long => {
            names.push("load of a grid with long links behind one without".to_string())
        }
        Call::Cycle if is_long => {
            add_landings(after, reckonings, &mut names);
            add_extra_registers(before, after, &mut names);
            add_late_landings(before, after, reckonings, &mut names);
            add_switch(before, after, &mut names);
        }
        _ => {}
    }
    names.into_iter().map(|name| format!("long links, {name}")).collect()
}

fn add_landings(after: &Machine, reckonings: &[Reckoning], names: &mut Vec<String>) {
    for (number, node) in after.nodes.iter().enumerate().filter(|(_, node)| node.landing.mark == 1) {
        let mut all = reckonings.iter();
        let Some(own) = all.find(|reckoning| reckoning.receives_at(number as u32, node.landing.address)) else {
            continue;
        };
        names.push(format!("landing after {} vertical hops", own.vertical_hops));
        names.push(format!("landing after {} hops, {} of them vertical", own.hops, own.vertical_hops));
        names.push(grid_name(after.sheet.sheet.columns, after.sheet.sheet.rows));
    }
}

fn add_extra_registers(before: &Machine, after: &Machine, names: &mut Vec<String>) {
    for (node, earlier) in after.nodes.iter().zip(&before.nodes) {
        for (place, side) in VERTICAL_SIDES.into_iter().enumerate() {
            let (now, was): (Cell, Cell) = (node.extras[place], earlier.extras[place]);
            // The code of the side that it comes in by would lead to the memory.
            if now.mark == HEADER && now.word & 3 == side as u32 {
                let towards = if side == 0 { "north" } else { "south" };
                names.push(format!("header goes on {towards} from an extra register"));
            }
            if was.mark == HEADER && now.is_payload() {
                names.push("payload behind its header in an extra register".to_string());
            }
            if now.mark == LAST {
                names.push("last word in an extra register".to_string());
            }
        }
    }
}

/// The cycle that was carried out is the sixth of its period.
fn add_late_landings(before: &Machine, after: &Machine, reckonings: &[Reckoning], names: &mut Vec<String>) {
    if before.clock.cycle != 5 {
        return;
    }
    for reckoning in reckonings {
        if reckoning.lands_last_next() && reckoning.left_in_earlier_period() {
            let mut name = "last word lands in cycle P + 5 of its period".to_string();
            names.push(name.clone());
            if reckoning.left_under_other_schedule() {
                name += ", behind a switch";
                names.push(name.clone());
                if after.nodes[reckoning.destination() as usize].outputs[MEMORY].mark == HEADER {
                    names.push(name + ", a header directly behind it");
                }
            }
        }
    }
}

fn add_switch(before: &Machine, after: &Machine, names: &mut Vec<String>) {
    if after.clock.cycle == 0 && before.clock.schedule != after.clock.schedule {
        names.push("switch to another schedule".to_string());
        if after.nodes.iter().any(|node| node.extras.iter().any(|extra| !extra.is_empty())) {
            names.push("switch while a word is in an extra register".to_string());
        }
    }
}
