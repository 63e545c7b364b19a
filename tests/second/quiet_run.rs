//! Runs every session with quiet stretches and every state made by hand for them, and prints what was met.

use super::calls::Calls;
use super::coverage::Coverage;
use super::quiet::{Declined, Prober, Probes};
use super::quiet_names::{REQUIRED_OF_EACH, WANTED, WANTED_IN_SESSIONS};
use super::quiet_plans::SESSIONS;
use super::quiet_sessions::play;
use super::quiet_states::{Group, GROUPS};
use std::collections::BTreeMap;
use std::process::ExitCode;

const DIFFERENCES_SHOWN: usize = 5;

/// Sessions that come before the states.
const FIRST_SESSIONS: u64 = 8;

#[derive(Clone, Copy, Debug)]
enum Part {
    Session(u64),
    States(Group),
}

/// How far a run goes.
#[derive(Clone, Copy, PartialEq, Eq)]
enum UpTo {
    TheEnd,
    FirstDifference,
    /// To decline a quiet stretch is a difference too.
    FirstDeclined,
}

/// What a run found.
#[derive(Default)]
struct Found {
    passed: usize,
    answers: u64,
    differences: Vec<String>,
    declined: BTreeMap<Declined, (u64, String)>,
}

/// Each session and each state is one pass. A sort of quiet states that is declined is one failure, unless the argument
/// says that they may be.
pub fn run_all<C: Calls, P: Probes>(tested: &mut C, probes: &mut P, may_decline: bool) -> ExitCode {
    let mut coverage = Coverage::default();
    let found = run(tested, probes, &mut coverage, UpTo::TheEnd);
    coverage.print();
    for difference in found.differences.iter().take(DIFFERENCES_SHOWN) {
        println!("{difference}");
    }
    println!("{SESSIONS} sessions, {} answers of rest and cycles compared", found.answers);
    for (sort, (count, first)) in &found.declined {
        let said = if may_decline { "as may be" } else { "a difference" };
        println!("declined {count} times, {said}: {sort:?}\n  {first}");
    }
    let mut complete = true;
    for name in WANTED.iter().chain(&WANTED_IN_SESSIONS) {
        complete &= coverage.has_at_least(REQUIRED_OF_EACH, name);
    }
    let declined = if may_decline { 0 } else { found.declined.len() };
    let failed = found.differences.len() + declined + usize::from(!complete);
    println!("{} passed, {failed} failed", found.passed);
    if failed == 0 {
        ExitCode::SUCCESS
    } else {
        ExitCode::FAILURE
    }
}

/// What tells someone from the second machine first, if anything does. What is declined counts unless it may be.
pub fn first_difference<C: Calls, P: Probes>(tested: &mut C, probes: &mut P, may_decline: bool) -> Option<String> {
    let up_to = if may_decline { UpTo::FirstDifference } else { UpTo::FirstDeclined };
    let found = run(tested, probes, &mut Coverage::default(), up_to);
    let declined = found.declined.into_iter().map(|(sort, (_, first))| format!("declined, {sort:?}: {first}")).next();
    found.differences.into_iter().next().or(if may_decline { None } else { declined })
}

/// Everything, or only up to the first difference: some sessions, the states, and then all other sessions, so that whoever
/// is wrong is soon noticed.
fn run<C: Calls, P: Probes>(tested: &mut C, probes: &mut P, coverage: &mut Coverage, up_to: UpTo) -> Found {
    let mut prober = Prober::new(probes, coverage);
    let mut found = Found::default();
    let first = (0..FIRST_SESSIONS).map(Part::Session);
    let others = (FIRST_SESSIONS..SESSIONS).map(Part::Session);
    for part in first.chain(GROUPS.map(Part::States)).chain(others) {
        let result = match part {
            Part::Session(session) => play(tested, &mut prober, session).map(|()| 1),
            Part::States(group) => group.run(&mut prober),
        };
        match result {
            Ok(passed) => found.passed += passed,
            Err(difference) => found.differences.push(format!("{part:?}: {difference}")),
        }
        let declined = up_to == UpTo::FirstDeclined && !prober.declined.is_empty();
        if declined || up_to != UpTo::TheEnd && !found.differences.is_empty() {
            break;
        }
    }
    found.answers = prober.answers;
    found.declined = prober.declined;
    found
}
