//! The cases for the weekly timetable, always the same ones: timetables that keep the rule by the way they are
//! laid out, lists that break one clause each, very long lists, and lists drawn without a plan.

use super::sheets::Random;
use super::timetable::Hours;
use super::timetable_breaks::{very_long_lists, Place, LIST_BREAKS, WINDOW_BREAKS};
use super::timetable_layouts::{random_layout, Layout, LAST, WEEK};
use super::timetable_shapes::{Shape, SHAPES};

const SEED: u64 = 0x7469_6D65_7461_626C;
const ROUNDS: u32 = 66;
const TURNS_OF_COUNTS: u32 = 24;
const UNPLANNED_LISTS: u32 = 1_000;
const LEAST_MINUTES: usize = 20;
const SAMPLED_EDGES: usize = 5;
const BEYOND: [u32; 3] = [WEEK, 1 << 31, u32::MAX];

pub const RANDOM_LAYOUT: &str = "kept: laid out at random";
pub const VERY_LONG: &str = "31: a very long list";
pub const UNPLANNED: &str = "drawn without a plan";
pub const PLACES: [&str; 3] = ["broken at the first", "broken in the middle", "broken at the last"];

/// A minute to ask for, with what the case was made for where its building tells.
#[derive(Clone, Copy, PartialEq, Eq, Debug)]
pub struct Ask {
    pub minute: u32,
    pub expected: Option<Hours>,
}

/// A list of words and the minutes it is asked for.
#[derive(Clone, PartialEq, Eq, Debug)]
pub struct Case {
    pub name: &'static str,
    /// Where a list breaks, for those that break at one window or at one pair of windows.
    pub place: Option<&'static str>,
    pub list: Vec<u32>,
    pub asks: Vec<Ask>,
}

/// All cases; each round begins with the small shaped ones, so that most faults are met early.
pub fn all() -> Vec<Case> {
    let mut random = Random::new(SEED);
    let mut cases = Vec::new();
    for _ in 0..ROUNDS {
        for (name, make) in SHAPES {
            let shape = make(&mut random);
            cases.push(kept(name, &shape, &mut random));
        }
        for (name, make) in LIST_BREAKS {
            for _ in PLACES {
                let list = make(&mut random);
                cases.push(refused(name, None, list, &mut random));
            }
        }
        for (name, make) in WINDOW_BREAKS {
            for (index, place) in [Place::First, Place::Middle, Place::Last].into_iter().enumerate() {
                let list = make(&mut random, place);
                cases.push(refused(name, Some(PLACES[index]), list, &mut random));
            }
        }
    }
    cases.extend((0..UNPLANNED_LISTS).map(|_| unplanned(&mut random)));
    for _ in 0..TURNS_OF_COUNTS {
        for count in 0..=64 {
            let layout = random_layout(&mut random, count, 1);
            cases.push(kept(RANDOM_LAYOUT, &Shape { layout, by_hand: Vec::new() }, &mut random));
        }
    }
    let long_lists = very_long_lists(&mut random);
    cases.extend(long_lists.into_iter().map(|list| refused(VERY_LONG, None, list, &mut random)));
    cases
}

/// The names of the shapes that keep the rule and have answers written by hand.
pub fn shape_names() -> Vec<&'static str> {
    SHAPES.iter().map(|shape| shape.0).collect()
}

/// The names of the breaks of one clause each.
pub fn break_names() -> Vec<&'static str> {
    let of_lists = LIST_BREAKS.iter().map(|list_break| list_break.0);
    of_lists.chain(WINDOW_BREAKS.iter().map(|window_break| window_break.0)).collect()
}

fn kept(name: &'static str, shape: &Shape, random: &mut Random) -> Case {
    let by_hand = shape.by_hand.iter().map(|&(minute, hours)| Ask { minute, expected: Some(hours) });
    let mut asks: Vec<Ask> = by_hand.collect();
    let minutes = minutes_of(&shape.layout, random);
    asks.extend(minutes.iter().map(|&minute| Ask { minute, expected: Some(shape.layout.expected(minute)) }));
    // Besides the round numbers one that a narrower or a signed number would take for a minute of the week.
    let tempting = random.choose(&[WEEK, 2 * WEEK, 65_536, 1 << 31]) + random.between(0, LAST);
    for minute in BEYOND.into_iter().chain([tempting]) {
        asks.push(Ask { minute, expected: Some(Hours::Refused(32)) });
    }
    Case { name, place: None, list: shape.layout.list(), asks }
}

/// Edges and their neighbours, the week's first and last minute, and random ones, each once.
fn minutes_of(layout: &Layout, random: &mut Random) -> Vec<u32> {
    let all_edges = layout.edges();
    let edges: Vec<u32> = if all_edges.len() <= SAMPLED_EDGES {
        all_edges
    } else {
        (0..SAMPLED_EDGES).map(|_| random.choose(&all_edges)).collect()
    };
    let mut minutes = vec![0, LAST];
    for edge in edges {
        for minute in [(edge + LAST) % WEEK, edge, (edge + 1) % WEEK] {
            if !minutes.contains(&minute) {
                minutes.push(minute);
            }
        }
    }
    let wanted = LEAST_MINUTES.max(minutes.len() + 3);
    while minutes.len() < wanted {
        let minute = random.between(0, LAST);
        if !minutes.contains(&minute) {
            minutes.push(minute);
        }
    }
    minutes
}

/// A list that is turned away is so at each minute, also where the minute would be turned away with 32.
fn refused(name: &'static str, place: Option<&'static str>, list: Vec<u32>, random: &mut Random) -> Case {
    let mut minutes = vec![0, LAST, random.between(0, LAST)];
    // Minutes at windows before and behind the break, for those who look only at the windows they need.
    for index in [0, random.position(list.len() / 3 + 1), (list.len() / 3).saturating_sub(1)] {
        if let Some(&start) = list.get(3 * index) {
            minutes.push(start % WEEK);
        }
    }
    minutes.extend(BEYOND);
    let asks = minutes.iter().map(|&minute| Ask { minute, expected: Some(Hours::Refused(31)) }).collect();
    Case { name, place, list, asks }
}

/// A few short windows that almost adjoin, now and then with a fault; here the model alone is the judge.
fn unplanned(random: &mut Random) -> Case {
    let mut list = Vec::new();
    let mut next = random.choose(&[0, 0, 1, 5_000, WEEK - 9, WEEK - 5, WEEK - 2]);
    for _ in 0..random.between(1, 4) {
        let start = (next + random.choose(&[0, 0, 0, 1, 2])).saturating_sub(u32::from(random.once_in(12)));
        let length = if random.once_in(20) { 0 } else { random.between(1, 3) };
        let schedule = if random.once_in(20) { 8 } else { random.choose(&[0, 0, 1, 1, 2, 7]) };
        list.extend([start, length, schedule]);
        next = start + length;
    }
    let mut minutes = vec![0, 1, LAST, random.between(0, LAST), WEEK];
    for window in list.chunks_exact(3) {
        let end = window[0] + window[1];
        minutes.extend([window[0], window[0] + 1, end + WEEK - 1, end].map(|minute: u32| minute % WEEK));
    }
    let asks = minutes.iter().map(|&minute| Ask { minute, expected: None }).collect();
    Case { name: UNPLANNED, place: None, list, asks }
}
