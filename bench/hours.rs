//! Times our hours of a minute against the same walk from edge to edge in Rust, and against a search in Rust that looks through the
//! windows at each minute. There are 64 windows, and the change lies behind them all; where they have gaps, at the last one's start.

mod bars;
mod timing;

use bars::{Bars, JUDGED};
use std::process::ExitCode;
use timing::times;

extern "C" {
    fn argo_hours(list: *const u32, length: usize, minute: u32, field: u32) -> u64;
}

const WEEK: u32 = 10_080;
const MOST_OF_THE_WALK: f64 = 2.0;
const MOST_OF_THE_SEARCH: f64 = 0.05;
const MOST_WINDOWS: usize = 64;

/// The next minute at which the schedule of minute 0 differs.
fn ours(list: &[u32]) -> u32 {
    // The pointer and the length are those of a live slice.
    unsafe { argo_hours(list.as_ptr(), list.len(), 0, 2) as u32 }
}

#[derive(Clone, Copy)]
struct Window {
    start: u32,
    end: u64,
    schedule: u32,
}

fn windows(list: &[u32]) -> impl Iterator<Item = Window> + '_ {
    list.chunks_exact(3).map(|words| Window {
        start: words[0],
        end: u64::from(words[0]) + u64::from(words[1]),
        schedule: words[2],
    })
}

fn fits(list: &[u32]) -> bool {
    if list.len() % 3 != 0 || list.len() / 3 > MOST_WINDOWS {
        return false;
    }
    let mut before = 0;
    for window in windows(list) {
        let is_inside = u64::from(window.start) < window.end && window.end <= u64::from(WEEK) && window.schedule <= 7;
        if !is_inside || u64::from(window.start) < before {
            return false;
        }
        before = window.end;
    }
    true
}

/// The first minute from one on, before another, whose schedule is not the one given, edge by edge.
fn first_change(list: &[u32], from: u32, to: u32, schedule: u32) -> Option<u32> {
    let mut left = windows(list).peekable();
    let mut at = from;
    while at < to {
        while left.next_if(|window| window.end <= u64::from(at)).is_some() {}
        let (here, edge) = match left.peek() {
            Some(window) if window.start <= at => (window.schedule, window.end as u32),
            Some(window) => (0, window.start),
            None => (0, WEEK),
        };
        if here != schedule {
            return Some(at);
        }
        at = edge;
    }
    None
}

fn schedule_in(list: &[u32], minute: u32) -> u32 {
    windows(list).find(|window| window.start <= minute && u64::from(minute) < window.end).map_or(0, |window| window.schedule)
}

fn walk(list: &[u32]) -> u32 {
    let minute = 0;
    if !fits(list) {
        return u32::MAX;
    }
    let schedule = schedule_in(list, minute);
    first_change(list, minute, WEEK, schedule).or_else(|| first_change(list, 0, minute, schedule)).unwrap_or(0)
}

fn search(list: &[u32]) -> u32 {
    let minute = 0;
    if !fits(list) {
        return u32::MAX;
    }
    let schedule = schedule_in(list, minute);
    (1..WEEK).map(|ahead| (minute + ahead) % WEEK).find(|&later| schedule_in(list, later) != schedule).unwrap_or(0)
}

/// Windows of 157 minutes, one directly behind another, all of schedule 1.
fn adjoining() -> Vec<u32> {
    (0..64).flat_map(|k| [157 * k, 157, 1]).collect()
}

/// Windows of 156 minutes and gaps of one, all but the last of schedule 0, as the gaps are.
fn with_gaps() -> Vec<u32> {
    (0..64).flat_map(|k| [157 * k + 1, 156, u32::from(k == 63)]).collect()
}

fn main() -> ExitCode {
    let mut bars = Bars::default();
    println!("the hours of a minute, medians of many rounds in turn");
    println!("{:<18} {:>10} {:>10} {JUDGED} {:>10} {JUDGED}", "64 windows", "ours, ns", "walk, ns", "search, ns");
    for (name, list, expected) in [("one behind another", adjoining(), 10_048), ("with gaps", with_gaps(), 9_892)] {
        assert_eq!([ours(&list), walk(&list), search(&list)], [expected; 3], "{name}");
        let (ours_time, walk_time, walk_ratio) = times(&list, ours, walk);
        let (_, search_time, search_ratio) = times(&list, ours, search);
        let of_walk = bars.at_most(walk_ratio, MOST_OF_THE_WALK);
        let of_search = bars.at_most(search_ratio, MOST_OF_THE_SEARCH);
        println!("{name:<18} {ours_time:>10.1} {walk_time:>10.1} {of_walk} {search_time:>10.1} {of_search}");
    }
    bars.exit()
}
