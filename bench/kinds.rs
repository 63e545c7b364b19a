//! A sheet on grids of both kinds, with and without long vertical links, so that the two can be timed on the same circuits and entries.

use second::sheets::{Occupied, Plan};

/// How many times as long a grid with long vertical links may take as one without.
pub const MOST_LONG_RATIO: f64 = 1.15;

/// The plan without and with long links, with those of its entries that pass on either kind.
pub fn on_both_kinds(plan: &Plan) -> [Plan; 2] {
    let [mut short, mut long] = [plan.clone(), plan.clone()];
    short.long_links = false;
    long.long_links = true;
    for schedule in 0..plan.schedules.len() {
        let mut taken = [Occupied::new(&short), Occupied::new(&long)];
        let period = plan.schedules[schedule].period;
        let mut kept = plan.schedules[schedule].entries.clone();
        kept.retain(|entry| {
            let in_time = long.reach(entry) <= period + 2;
            let [on_short, on_long] = &mut taken;
            // What is free on the one kind and not on the other stays taken there: a wire lost, and no clash.
            in_time && on_short.take_entry(&short, entry) && on_long.take_entry(&long, entry)
        });
        short.schedules[schedule].entries = kept.clone();
        long.schedules[schedule].entries = kept;
    }
    short.drop_unserved();
    long.drop_unserved();
    [short, long]
}
