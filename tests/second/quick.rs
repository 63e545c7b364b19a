//! Holds a quick pass, which only accepts or does not, to the second checker: it has to accept a sheet exactly where the
//! numbers 1 to 11 are kept. No words are not accepted, and 26 is not its matter. The sheets are those of the comparison
//! of verdicts: passing ones and near misses, all routes between two nodes on links of either kind; then sheets of which
//! each word in turn is written over, those of poked states, and those of sessions.

use super::checker;
use super::lent::{MOST_SHEET_WORDS, SHEET, SHEET_LENGTH};
use super::near_misses::{self, GRIDS};
use super::pokes::{snapshot, some_pokes, written_over};
use super::quiet_plans;
use super::sessions::{Generator, LONG_LINKS_FROM};
use super::sheets::{
    all_shortest_paths, largest_on, last_offset, middle, passing_plans, route_of, sheet_a, Circuit, Entry, Plan,
    Random, Schedule,
};
use super::sheets_long::{is_on_long_links, ABOUT_LONG_LINKS};
use std::collections::{BTreeMap, BTreeSet};
use std::process::ExitCode;

/// Whether a sheet is accepted; nothing where the answer is neither yes nor no.
pub type Accepts = fn(&[u32]) -> Option<bool>;

const SHEETS_REQUIRED_OF_EACH_NUMBER: u64 = 100;
const PASSING_REQUIRED: u64 = 10_000;
/// A sheet of so many words is a long one; below the other number it is a short one.
const LONG: usize = 4_000;
const SHORT: usize = 40;
/// Routes of up to five codes: four hops, the most that a distance asks for, and the way out.
const ROUTE_BITS: u32 = 10;

struct Held {
    accepts: Accepts,
    passed: u64,
    passing: u64,
    /// What was met: whether it was accepted, and a name.
    counts: BTreeMap<(bool, &'static str), u64>,
    of_number: [u64; 12],
}

impl Held {
    fn new(accepts: Accepts) -> Held {
        Held { accepts, passed: 0, passing: 0, counts: BTreeMap::new(), of_number: [0; 12] }
    }

    /// One sheet; an error where the quick pass answers otherwise than the checker.
    fn judge(&mut self, name: &'static str, words: &[u32]) -> Result<(), String> {
        let number = checker::verdict_to_11(words);
        let kept = number == 0 && !words.is_empty();
        let answer = (self.accepts)(words);
        if answer != Some(kept) {
            let start = &words[..words.len().min(400)];
            return Err(format!(
                "sheet ({name}, {} words): accepted {answer:?}, second checker {number}\n  words {start:?}",
                words.len()
            ));
        }
        self.passed += 1;
        self.passing += u64::from(kept);
        self.of_number[number as usize] += 1;
        let size = match words.len() {
            0 => "no words",
            LONG.. => "a long one",
            1..SHORT => "a short one",
            _ => "one of middling length",
        };
        let links = if is_on_long_links(words) { "on long links" } else { "on short links" };
        for met in [name, size, links] {
            *self.counts.entry((kept, met)).or_default() += 1;
        }
        if kept && checker::verdict(words) == 26 {
            *self.counts.entry((true, "a sheet of 26")).or_default() += 1;
        }
        Ok(())
    }

    fn judge_all(&mut self) -> Result<(), String> {
        for case in near_misses::all_cases() {
            let about_long_links = case.name.starts_with(ABOUT_LONG_LINKS);
            self.judge(if about_long_links { "about long links" } else { "near misses" }, &case.words)?;
        }
        for (columns, rows) in GRIDS {
            for source in 0..columns * rows {
                for destination in (0..columns * rows).filter(|&node| node != source) {
                    self.judge_routes(columns, rows, source, destination)?;
                }
            }
        }
        self.judge_written_over()?;
        self.judge_poked()?;
        self.judge_sessions()
    }

    /// Every route of five codes in the last offset that the distance allows, on short links; then, on links of either
    /// kind, every right route and each that differs from one in a bit, in the last offset of the right one and a cycle
    /// later.
    fn judge_routes(&mut self, columns: u32, rows: u32, source: u32, destination: u32) -> Result<(), String> {
        let (period, length) = (16, 2);
        let mut plan = plan_of_one_entry(columns, rows, source, destination, period);
        for long_links in [false, true] {
            plan.long_links = long_links;
            for path in all_shortest_paths(&plan, source, destination) {
                let right = route_of(&path);
                let last = last_offset(period, length, plan.delay_of(&path)).expect("a long period");
                for route in (0..16).map(|bit| right ^ 1 << bit).chain([right]) {
                    for offset in [last, last + 1] {
                        plan.schedules[0].entries[0] = Entry { offset, length, circuit: 0, route };
                        self.judge("routes nearby", &plan.words())?;
                    }
                }
            }
        }
        plan.long_links = false;
        let delay = plan.delay_of(&all_shortest_paths(&plan, source, destination)[0]);
        let offset = last_offset(period, length, delay).expect("a long period");
        plan.schedules[0].entries[0] = Entry { offset, length, circuit: 0, route: 0 };
        let mut words = plan.words();
        for route in 0..1 << ROUTE_BITS {
            *words.last_mut().expect("an entry") = route;
            self.judge("all routes", &words)?;
        }
        Ok(())
    }

    /// Each word in turn: one more, one less, none, and large ones; and each prefix of the sheet.
    fn judge_written_over(&mut self) -> Result<(), String> {
        let mut plans: Vec<Plan> =
            passing_plans().into_iter().step_by(45).filter(|plan| is_small(plan, 260)).collect();
        plans.push(sheet_a());
        let on_long_links: Vec<Plan> = plans.iter().map(|plan| Plan { long_links: true, ..plan.clone() }).collect();
        plans.extend(on_long_links);
        plans.extend([middle(1), middle(2)]);
        for plan in &plans {
            let words = plan.words();
            for length in 0..=words.len() {
                self.judge("prefixes", &words[..length])?;
            }
            for place in 0..words.len() {
                let word = words[place];
                for value in [word.wrapping_add(1), word.wrapping_sub(1), 0, word ^ 1 << 16, u32::MAX] {
                    let mut changed = words.clone();
                    changed[place] = value;
                    self.judge("written over", &changed)?;
                }
            }
        }
        // The largest sheets: some words of each part, the last ones among them.
        for (seed, long_links) in [(1, false), (2, true)] {
            let mut random = Random::new(0x1A26_0000 + seed);
            let words = largest_on(seed, long_links).words();
            self.judge("largest", &words)?;
            let places = (0..40).map(|_| random.position(words.len())).chain(words.len() - 4..words.len());
            for place in places.collect::<Vec<_>>() {
                for value in [words[place].wrapping_add(1), words[place].wrapping_sub(1)] {
                    let mut changed = words.clone();
                    changed[place] = value;
                    self.judge("largest, written over", &changed)?;
                }
            }
            self.judge("largest, a word less", &words[..words.len() - 1])?;
            self.judge("largest, a word more", &[&words[..], &[0]].concat())?;
        }
        Ok(())
    }

    /// The sheets of states that the tests of states poke, as far as their length leaves one.
    fn judge_poked(&mut self) -> Result<(), String> {
        for session in (0..360).step_by(6).chain(LONG_LINKS_FROM..LONG_LINKS_FROM + 40) {
            let (words, machine, _) = snapshot(session);
            let mut random = Random::new(0x0909_0000 + session);
            for _ in 0..120 {
                let pokes = some_pokes(&mut random, &machine);
                if pokes.iter().all(|&(place, _)| place < SHEET_LENGTH) {
                    continue;
                }
                let poked = written_over(&words, &pokes);
                let length = poked.state[SHEET_LENGTH] as usize;
                if length <= MOST_SHEET_WORDS {
                    self.judge("poked", &poked.state[SHEET..SHEET + length])?;
                }
            }
        }
        Ok(())
    }

    fn judge_sessions(&mut self) -> Result<(), String> {
        for session in (0..LONG_LINKS_FROM).step_by(5).chain((LONG_LINKS_FROM..LONG_LINKS_FROM + 1_000).step_by(3)) {
            let plan = Generator::new(session).plan().clone();
            self.judge("sessions", &plan.words())?;
            if !plan.circuits.is_empty() {
                let mut unserved = plan;
                unserved.unserve(session as usize % unserved.circuits.len());
                self.judge("sessions, unserved", &unserved.words())?;
            }
        }
        for session in 0..quiet_plans::SESSIONS {
            self.judge("quiet sessions", &quiet_plans::plan_of(session).words())?;
        }
        Ok(())
    }
}

fn is_small(plan: &Plan, most_words: usize) -> bool {
    plan.words().len() <= most_words
}

fn plan_of_one_entry(columns: u32, rows: u32, source: u32, destination: u32, period: u32) -> Plan {
    let circuit =
        Circuit { source, destination, read_offset: 0, read_length: 1, receive_offset: 0, receive_length: 1 };
    let entry = Entry { offset: 0, length: 2, circuit: 0, route: 0 };
    let schedules = vec![Schedule { period, entries: vec![entry] }];
    Plan { columns, rows, long_links: false, memory_words: 1, circuits: vec![circuit], schedules }
}

/// Judges every sheet up to the first that differs, and prints what was met. Each sheet is one pass.
pub fn run_all(accepts: Accepts) -> ExitCode {
    let mut held = Held::new(accepts);
    let result = held.judge_all();
    println!("accepted  not accepted");
    let names: BTreeSet<&str> = held.counts.keys().map(|&(_, name)| name).collect();
    for name in names {
        let [accepted, others] = [true, false].map(|kept| held.counts.get(&(kept, name)).unwrap_or(&0));
        println!("{accepted:>8}  {others:>12}  {name}");
    }
    for (number, count) in held.of_number.iter().enumerate() {
        println!("{count:>8}  number {number}");
    }
    let mut failed = 0;
    match result {
        Ok(()) => {
            println!(
                "{} of {} sheets keep 1 to 11; all of them took the quick way, and no other",
                held.passing, held.passed
            );
            failed += usize::from(!held.is_complete());
        }
        Err(difference) => {
            println!("{difference}");
            failed += 1;
        }
    }
    println!("{} passed, {failed} failed", held.passed);
    if failed == 0 {
        ExitCode::SUCCESS
    } else {
        ExitCode::FAILURE
    }
}

impl Held {
    /// Says what was met too rarely; true where nothing was.
    fn is_complete(&self) -> bool {
        let mut complete = true;
        let mut require = |met: u64, count: u64, name: &str| {
            if met < count {
                println!("met {met} times, not {count}: {name}");
                complete = false;
            }
        };
        require(self.passing, PASSING_REQUIRED, "accepted");
        for number in 1..=11 {
            require(self.of_number[number], SHEETS_REQUIRED_OF_EACH_NUMBER, &format!("number {number}"));
        }
        for kept in [true, false] {
            for name in ["a long one", "a short one", "one of middling length", "on long links", "on short links"] {
                let met = self.counts.get(&(kept, name)).copied().unwrap_or(0);
                require(met, SHEETS_REQUIRED_OF_EACH_NUMBER / 2, name);
            }
        }
        for sort in [(true, "a sheet of 26"), (false, "no words")] {
            require(self.counts.get(&sort).copied().unwrap_or(0), SHEETS_REQUIRED_OF_EACH_NUMBER, sort.1);
        }
        complete
    }
}

/// Whether some sheet tells a quick pass from the second checker.
pub fn is_noticed(accepts: Accepts) -> bool {
    Held::new(accepts).judge_all().is_err()
}
