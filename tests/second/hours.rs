//! Holds a call that answers for weekly timetables against the second model and against what each case was made for.

use super::coverage::Coverage;
use super::timetable::{answer_of, Hours, Week};
use super::timetables::{self, Case};
use std::hint::black_box;
use std::process::ExitCode;
use std::sync::OnceLock;

const WEEK: u32 = 10_080;
const MOST_WINDOWS: usize = 64;
const MOST_SHOWN: usize = 10;
const MOST_WORDS_SHOWN: usize = 210;
const FIELDS: [u32; 3] = [0, 1, 2];
/// Fields that answer 0, some of which fewer bits would take for one of the three.
const OTHER_FIELDS: [u32; 8] = [3, 4, u32::MAX, 3, 256, 258, 65_537, (1 << 31) + 2];
/// Words around a lent list, so that a window read past its end shows in the answer.
const WORDS_BEFORE: [u32; 3] = [0, 1, 6];
const WORDS_BEHIND: [u32; 3] = [10_079, 1, 5];

/// Runs all cases, prints what was met and what differs, and fails where anything does.
pub fn run_all(ask: &mut dyn FnMut(&[u32], u32, u32) -> u64) -> ExitCode {
    let mut tally = Tally::default();
    let mut met = Met::new();
    for case in cases() {
        let week = Week::of(&case.list);
        compare(case, &week, ask, &mut tally);
        met.note(case, &week);
    }
    met.coverage.print();
    met.hold(&mut tally);
    for difference in &tally.shown {
        println!("{difference}");
    }
    println!("{} passed, {} failed", tally.passed, tally.failed);
    if tally.failed == 0 {
        ExitCode::SUCCESS
    } else {
        ExitCode::FAILURE
    }
}

/// Whether a run finds a difference; for models with a planted fault.
pub fn is_noticed(ask: &mut dyn FnMut(&[u32], u32, u32) -> u64) -> bool {
    let mut tally = Tally::default();
    cases().iter().any(|case| {
        compare(case, &Week::of(&case.list), ask, &mut tally);
        tally.failed > 0
    })
}

/// The cases, built once however often a run is made.
pub fn cases() -> &'static [Case] {
    static CASES: OnceLock<Vec<Case>> = OnceLock::new();
    CASES.get_or_init(timetables::all)
}

#[derive(Default)]
struct Tally {
    passed: u64,
    failed: u64,
    minutes: usize,
    shown: Vec<String>,
}

impl Tally {
    fn count(&mut self, right: bool) {
        if right {
            self.passed += 1;
        } else {
            self.failed += 1;
        }
    }

    fn hold(&mut self, right: bool, describe: impl FnOnce() -> String) {
        self.count(right);
        if !right && self.shown.len() < MOST_SHOWN {
            self.shown.push(describe());
        }
    }

    /// The fields to ask next; now and then one that has no meaning is among them.
    fn next_fields(&mut self) -> Vec<u32> {
        self.minutes += 1;
        let mut fields = FIELDS.to_vec();
        if self.minutes % 4 == 0 {
            fields.push(OTHER_FIELDS[self.minutes / 4 % OTHER_FIELDS.len()]);
        }
        fields
    }
}

/// A list as it is lent to the call, with words around it, and a copy to find changes by.
struct Lent {
    words: Vec<u32>,
    copy: Vec<u32>,
}

impl Lent {
    fn of(list: &[u32]) -> Lent {
        let words = [&WORDS_BEFORE, list, &WORDS_BEHIND].concat();
        Lent { copy: words.clone(), words }
    }

    fn list(&self) -> &[u32] {
        &self.words[WORDS_BEFORE.len()..self.words.len() - WORDS_BEHIND.len()]
    }

    fn is_as_before(&self) -> bool {
        // The words are read anew, because a call from elsewhere could have written them.
        *black_box(&self.words) == self.copy
    }
}

fn model_of(week: &Option<Week>, minute: u32) -> Hours {
    week.as_ref().map_or(Hours::Refused(31), |week| week.hours(minute))
}

fn compare(
    case: &Case,
    week: &Option<Week>,
    ask: &mut dyn FnMut(&[u32], u32, u32) -> u64,
    tally: &mut Tally,
) {
    let lent = Lent::of(&case.list);
    for asked in &case.asks {
        let minute = asked.minute;
        let model = model_of(week, minute);
        let expected = asked.expected.unwrap_or(model);
        tally.hold(model == expected, || {
            format!("model {model:?}, made for {expected:?}: {}", described(case, minute))
        });
        for field in tally.next_fields() {
            let got = ask(lent.list(), minute, field);
            let (right, made_for) = (answer_of(model, field), answer_of(expected, field));
            tally.hold(got == right && got == made_for, || {
                let (got, right, made_for) = (parts_of(got), parts_of(right), parts_of(made_for));
                let place = described(case, minute);
                format!("field {field}: answered {got}, the model {right}, made for {made_for}: {place}")
            });
        }
        tally.hold(lent.is_as_before(), || format!("the list was changed: {}", described(case, minute)));
    }
}

fn parts_of(answer: u64) -> String {
    format!("{}:{}", answer >> 32, answer & 0xFFFF_FFFF)
}

fn described(case: &Case, minute: u32) -> String {
    let shown = &case.list[..case.list.len().min(MOST_WORDS_SHOWN)];
    let place = case.place.unwrap_or("");
    format!("minute {minute}, {} words {shown:?} ({} {place})", case.list.len(), case.name)
}

/// What the cases have met, as the model sees them.
struct Met {
    coverage: Coverage,
    counts: [u64; MOST_WINDOWS + 1],
}

impl Met {
    fn new() -> Met {
        Met { coverage: Coverage::default(), counts: [0; MOST_WINDOWS + 1] }
    }

    fn note(&mut self, case: &Case, week: &Option<Week>) {
        self.coverage.met(case.name);
        if let Some(place) = case.place {
            self.coverage.met(place);
        }
        self.coverage.met(if week.is_some() { "timetables kept" } else { "lists refused" });
        if case.name == timetables::UNPLANNED {
            self.coverage.met(if week.is_some() { "unplanned: kept" } else { "unplanned: refused" });
        }
        let edges = if week.is_some() { edges_of(&case.list) } else { Vec::new() };
        if week.is_some() {
            self.note_windows(&case.list);
        }
        for asked in &case.asks {
            self.note_minute(asked.minute, model_of(week, asked.minute), &edges);
        }
    }

    fn note_windows(&mut self, list: &[u32]) {
        let count = list.len() / 3;
        self.counts[count] += 1;
        self.coverage.met(group_of(count));
        let windows: Vec<&[u32]> = list.chunks_exact(3).collect();
        let mut note = |found: bool, name: &str| {
            if found {
                self.coverage.met(name);
            }
        };
        note(windows.iter().any(|window| window[1] == 1), "has: a window of one minute");
        note(windows.iter().any(|window| window[1] >= 1_000), "has: a window of 1,000 minutes or more");
        note(windows.iter().any(|window| window[2] == 0), "has: a window of schedule 0");
        note(windows.iter().any(|window| window[2] == 7), "has: a window of schedule 7");
        note(windows.iter().any(|window| window[0] == 0), "has: a window that starts at 0");
        note(windows.iter().any(|window| window[0] == WEEK - 1), "has: a window that starts at 10,079");
        note(windows.iter().any(|window| window[0] + window[1] == WEEK), "has: a window that ends at 10,080");
        note(windows.iter().any(|window| window[0] + window[1] == WEEK - 1), "has: a window that ends at 10,079");
        let pairs: Vec<(u32, bool)> = windows
            .windows(2)
            .map(|pair| (pair[1][0] - pair[0][0] - pair[0][1], pair[0][2] == pair[1][2]))
            .collect();
        note(pairs.contains(&(0, true)), "has: adjoining windows of one schedule");
        note(pairs.contains(&(0, false)), "has: adjoining windows of two schedules");
        note(pairs.iter().any(|pair| pair.0 == 1), "has: a gap of one minute");
        note(pairs.iter().any(|pair| pair.0 >= 1_000), "has: a gap of 1,000 minutes or more");
    }

    fn note_minute(&mut self, minute: u32, hours: Hours, edges: &[Edge]) {
        self.coverage.met(match hours {
            Hours::Refused(31) if minute >= WEEK => "answer: 31 before 32",
            Hours::Refused(31) => "answer: 31",
            Hours::Refused(_) => "answer: 32",
            Hours::Always(_) => "answer: always",
            Hours::Until { .. } => "answer: until",
        });
        match hours {
            Hours::Refused(_) => {}
            // A schedule that never changes has all edges of the week on its way.
            Hours::Always(_) => self.note_edges(minute, WEEK, edges),
            Hours::Until { minute: next, .. } => {
                self.note_next(minute, next);
                self.note_edges(minute, (next + WEEK - minute) % WEEK, edges);
            }
        }
    }

    /// Notes the edges on the way from the minute to the change, which are themselves no change.
    fn note_edges(&mut self, minute: u32, ahead: u32, edges: &[Edge]) {
        let distance = |edge: &Edge| (edge.minute + WEEK - minute) % WEEK;
        let passed: Vec<&Edge> = edges.iter().filter(|edge| (1..ahead).contains(&distance(edge))).collect();
        let mut note = |found: bool, name: &str| {
            if found {
                self.coverage.met(name);
            }
        };
        note(edges.iter().any(|edge| edge.minute == minute && edge.is_start), "asked: at a start");
        note(edges.iter().any(|edge| edge.minute == minute && edge.is_end), "asked: at an end");
        note(!passed.is_empty(), "no change: an edge on the way");
        let meets = |edge: &&Edge| edge.is_start && edge.is_end;
        note(passed.iter().any(meets), "no change: where two windows meet");
        note(passed.iter().any(|edge| !meets(edge)), "no change: where schedule 0 meets no window");
        // Each minute is an edge at most once, so the first one found is the only one.
        let meets_at_zero = passed.iter().find(|edge| edge.minute == 0).map(meets);
        note(meets_at_zero == Some(true), "no change: where two windows meet at minute 0");
        note(meets_at_zero == Some(false), "no change: where schedule 0 meets no window at minute 0");
    }

    fn note_next(&mut self, minute: u32, next: u32) {
        if next < minute {
            self.coverage.met("next: in the next week");
        }
        if next == 0 {
            self.coverage.met("next: at minute 0");
        }
        if next == WEEK - 1 {
            self.coverage.met("next: at minute 10,079");
        }
        match (next + WEEK - minute) % WEEK {
            1 => self.coverage.met("next: 1 minute ahead"),
            10_078 => self.coverage.met("next: 10,078 minutes ahead"),
            10_079 => self.coverage.met("next: 10,079 minutes ahead"),
            _ => {}
        }
    }

    /// Fails for each name that was met too rarely.
    fn hold(&self, tally: &mut Tally) {
        let fewest = self.counts.iter().min().copied().unwrap_or(0);
        println!("each number of windows from 0 to 64 was met at least {fewest} times; 20 are wanted");
        tally.count(fewest >= 20);
        let names = timetables::shape_names().into_iter().chain(timetables::break_names());
        let of_each_round = names.chain(timetables::PLACES).map(|name| (60, name));
        for (count, name) in of_each_round.chain(WANTED) {
            tally.count(self.coverage.has_at_least(count, name));
        }
    }
}

const WANTED: [(u64, &str); 46] = [
    (3_000, "timetables kept"),
    (1_000, "lists refused"),
    (1_500, timetables::RANDOM_LAYOUT),
    (20, timetables::VERY_LONG),
    (1_000, timetables::UNPLANNED),
    (300, "unplanned: kept"),
    (300, "unplanned: refused"),
    (60, "windows: 0"),
    (60, "windows: 1"),
    (60, "windows: 2"),
    (60, "windows: 3 to 8"),
    (60, "windows: 9 to 16"),
    (60, "windows: 17 to 32"),
    (60, "windows: 33 to 48"),
    (60, "windows: 49 to 63"),
    (60, "windows: 64"),
    (300, "has: a window of one minute"),
    (300, "has: a window of 1,000 minutes or more"),
    (300, "has: a window of schedule 0"),
    (300, "has: a window of schedule 7"),
    (300, "has: a window that starts at 0"),
    (60, "has: a window that starts at 10,079"),
    (300, "has: a window that ends at 10,080"),
    (100, "has: a window that ends at 10,079"),
    (300, "has: adjoining windows of one schedule"),
    (300, "has: adjoining windows of two schedules"),
    (300, "has: a gap of one minute"),
    (60, "has: a gap of 1,000 minutes or more"),
    (3_000, "asked: at a start"),
    (3_000, "asked: at an end"),
    (3_000, "answer: 31"),
    (3_000, "answer: 31 before 32"),
    (9_000, "answer: 32"),
    (3_000, "answer: always"),
    (30_000, "answer: until"),
    (3_000, "next: in the next week"),
    (1_000, "next: at minute 0"),
    (300, "next: at minute 10,079"),
    (1_000, "next: 1 minute ahead"),
    (60, "next: 10,078 minutes ahead"),
    (60, "next: 10,079 minutes ahead"),
    (3_000, "no change: an edge on the way"),
    (3_000, "no change: where two windows meet"),
    (1_000, "no change: where two windows meet at minute 0"),
    (1_000, "no change: where schedule 0 meets no window"),
    (300, "no change: where schedule 0 meets no window at minute 0"),
];

fn group_of(count: usize) -> &'static str {
    match count {
        0 => "windows: 0",
        1 => "windows: 1",
        2 => "windows: 2",
        3..=8 => "windows: 3 to 8",
        9..=16 => "windows: 9 to 16",
        17..=32 => "windows: 17 to 32",
        33..=48 => "windows: 33 to 48",
        49..=63 => "windows: 49 to 63",
        _ => "windows: 64",
    }
}

/// A minute of the week at which a window starts, ends, or one ends and the next starts.
struct Edge {
    minute: u32,
    is_start: bool,
    is_end: bool,
}

fn edges_of(list: &[u32]) -> Vec<Edge> {
    let starts: Vec<u32> = list.chunks_exact(3).map(|window| window[0]).collect();
    let ends: Vec<u32> = list.chunks_exact(3).map(|window| (window[0] + window[1]) % WEEK).collect();
    let mut minutes = [starts.clone(), ends.clone()].concat();
    minutes.sort_unstable();
    minutes.dedup();
    let edge = |minute: u32| Edge { minute, is_start: starts.contains(&minute), is_end: ends.contains(&minute) };
    minutes.into_iter().map(edge).collect()
}
