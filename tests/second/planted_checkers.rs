//! Checkers that are wrong about long vertical links (document 02, L7), planted for the self test of the sheets. They
//! are right about the numbers up to 9; when slots are over and where they meet they work out by themselves.

use super::checker::{self, Entry, Sheet};
use super::sheets::{Case, NORTH, SOUTH};
use super::sheets_long::ABOUT_LONG_LINKS;
use std::collections::HashSet;

/// The cycles that a hop by a side takes.
type HopCycles = fn(long_links: bool, side: u32) -> u64;

#[derive(Clone, Copy)]
struct Timing {
    /// The cycles of a hop for number 10, and for number 11.
    to_the_end: HopCycles,
    between_wires: HopCycles,
    /// For number 11, what a path's wires are late besides.
    correction: fn(Place) -> i64,
}

/// A wire of a path: how many hops over long links come before it, and how many of them the path has.
#[derive(Clone, Copy)]
struct Place {
    is_memory: bool,
    vertical_before: i64,
    vertical: i64,
}

fn right_hop(long_links: bool, side: u32) -> u64 {
    if long_links && is_vertical(side) {
        4
    } else {
        3
    }
}

fn is_vertical(side: u32) -> bool {
    side == NORTH || side == SOUTH
}

const RIGHT: Timing = Timing { to_the_end: right_hop, between_wires: right_hop, correction: |_| 0 };

/// Both numbers by the same cycles of a hop.
const fn by_hops(cycles: HopCycles) -> Timing {
    Timing { to_the_end: cycles, between_wires: cycles, correction: |_| 0 }
}

/// How a wrong checker judges a sheet.
enum Wrong {
    Timing(Timing),
    /// It takes other words for the sheet's.
    Head(fn(&mut [u32])),
    /// It has a number of its own for some heads.
    Refusal(fn(&[u32]) -> Option<u32>),
}

// To put a hop's own side output a cycle later changes nothing: whoever uses that output hops by it.
const WRONG_CHECKERS: [(&str, Wrong); 20] = [
    ("adds nothing in number 10", Wrong::Timing(Timing { to_the_end: |_, _| 3, ..RIGHT })),
    ("adds nothing in number 11", Wrong::Timing(Timing { between_wires: |_, _| 3, ..RIGHT })),
    ("adds nothing at all", Wrong::Timing(by_hops(|_, _| 3))),
    (
        "adds in number 10 on short links too",
        Wrong::Timing(Timing { to_the_end: |_, side| right_hop(true, side), ..RIGHT }),
    ),
    (
        "adds in number 11 on short links too",
        Wrong::Timing(Timing { between_wires: |_, side| right_hop(true, side), ..RIGHT }),
    ),
    ("adds for horizontal hops instead", Wrong::Timing(by_hops(|long, side| right_hop(long, side + 1)))),
    ("adds for every hop", Wrong::Timing(by_hops(|long, _| right_hop(long, NORTH)))),
    (
        "adds for hops north alone",
        Wrong::Timing(by_hops(|long, side| if side == NORTH { right_hop(long, side) } else { 3 })),
    ),
    (
        "adds for hops south alone",
        Wrong::Timing(by_hops(|long, side| if side == SOUTH { right_hop(long, side) } else { 3 })),
    ),
    ("adds two cycles a hop", Wrong::Timing(by_hops(|long, side| 2 * right_hop(long, side) - 3))),
    (
        "delays all side outputs alike",
        Wrong::Timing(Timing {
            correction: |place| if place.is_memory { 0 } else { place.vertical - place.vertical_before },
            ..RIGHT
        }),
    ),
    (
        "delays the memory output alone",
        Wrong::Timing(Timing { correction: |place| if place.is_memory { 0 } else { -place.vertical_before }, ..RIGHT }),
    ),
    (
        "delays side outputs alone",
        Wrong::Timing(Timing { correction: |place| if place.is_memory { -place.vertical } else { 0 }, ..RIGHT }),
    ),
    (
        "delays once however many hops are vertical",
        Wrong::Timing(Timing { correction: |place| place.vertical_before.min(1) - place.vertical_before, ..RIGHT }),
    ),
    ("takes rows modulo 256", Wrong::Head(|words| words[1] = words[1] % 256 + 256 * u32::from(words[1] > 255))),
    ("takes the bit of 256 alone", Wrong::Head(|words| words[1] = words[1] % 512)),
    ("takes columns modulo 256", Wrong::Head(|words| words[0] %= 256)),
    (
        "takes the 256 for nothing",
        Wrong::Head(|words| {
            if (258..=260).contains(&words[1]) {
                words[1] -= 256
            }
        }),
    ),
    ("knows no long links", Wrong::Refusal(|words| (words[1] > 4).then_some(2))),
    ("leaves rows of four without long links", Wrong::Refusal(|words| (words[1] == 260).then_some(2))),
];

impl Wrong {
    fn verdict(&self, words: &[u32]) -> u32 {
        if words.len() < 5 {
            return checker::verdict(words);
        }
        match self {
            Wrong::Head(change) => {
                let mut changed = words.to_vec();
                change(&mut changed);
                checker::verdict(&changed)
            }
            Wrong::Refusal(number) => number(words).unwrap_or_else(|| checker::verdict(words)),
            Wrong::Timing(timing) => timing.verdict(words),
        }
    }
}

impl Timing {
    fn verdict(&self, words: &[u32]) -> u32 {
        let right = checker::verdict(words);
        if !matches!(right, 0 | 10 | 11 | 26) {
            return right;
        }
        let sheet = checker::read(words).expect("number 3 does not apply");
        if sheet
            .schedules
            .iter()
            .any(|schedule| schedule.entries.iter().any(|entry| self.is_late(&sheet, entry, schedule.period)))
        {
            10
        } else if sheet.schedules.iter().any(|schedule| self.clashes(&sheet, &schedule.entries)) {
            11
        } else if checker::rule26(&sheet) {
            26
        } else {
            0
        }
    }

    fn is_late(&self, sheet: &Sheet, entry: &Entry, period: u64) -> bool {
        let cycles: u64 = sides(sheet, entry).iter().map(|&side| (self.to_the_end)(sheet.long_links, side)).sum();
        entry.offset + entry.length - 1 + cycles > period + 2
    }

    fn clashes(&self, sheet: &Sheet, entries: &[Entry]) -> bool {
        let mut used = HashSet::new();
        entries.iter().any(|entry| {
            let mut uses = self.wires(sheet, entry).into_iter();
            uses.any(|(wire, cycle)| (0..entry.length as i64).any(|word| !used.insert((wire, cycle + word))))
        })
    }

    /// Six wires a node, with the cycles in which the header is there.
    fn wires(&self, sheet: &Sheet, entry: &Entry) -> Vec<(u64, i64)> {
        let sides = sides(sheet, entry);
        let counts = |side: u32| sheet.long_links && is_vertical(side);
        let vertical = sides.iter().filter(|&&side| counts(side)).count() as i64;
        let mut node = sheet.circuits[entry.circuit as usize].source;
        let mut cycle = entry.offset as i64;
        let mut vertical_before = 0;
        let mut list = vec![(6 * node + 4, cycle)];
        cycle += 3;
        for side in sides {
            let place = Place { is_memory: false, vertical_before, vertical };
            list.push((6 * node + u64::from(side), cycle + (self.correction)(place)));
            node = checker::neighbour(sheet, node, checker::side_of_code(side.into()));
            cycle += (self.between_wires)(sheet.long_links, side) as i64;
            vertical_before += i64::from(counts(side));
        }
        let place = Place { is_memory: true, vertical_before, vertical };
        list.push((6 * node + 5, cycle + (self.correction)(place)));
        list
    }
}

/// The sides of a right route.
fn sides(sheet: &Sheet, entry: &Entry) -> Vec<u32> {
    let circuit = &sheet.circuits[entry.circuit as usize];
    let hops = checker::distance(sheet, circuit.source, circuit.destination);
    (0..hops).map(|hop| (entry.route >> (2 * hop) & 3) as u32).collect()
}

/// How many there are, and the names of those that judge every sheet about long links as it was made for.
pub fn unnoticed_checkers(cases: &[Case]) -> (usize, Vec<&'static str>) {
    let about = |case: &&Case| case.name.starts_with(ABOUT_LONG_LINKS);
    // A right one of the same shape goes unnoticed.
    let is_noticed = |wrong: &Wrong| {
        let mut cases = cases.iter().filter(about);
        cases.any(|case| case.expected.is_some_and(|expected| wrong.verdict(&case.words) != expected))
    };
    let mut unnoticed: Vec<&str> =
        WRONG_CHECKERS.iter().filter(|(_, wrong)| !is_noticed(wrong)).map(|&(name, _)| name).collect();
    if is_noticed(&Wrong::Timing(RIGHT)) {
        unnoticed.push("is right, and was noticed");
    }
    (WRONG_CHECKERS.len(), unnoticed)
}
