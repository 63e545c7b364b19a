//! Rests of our own with one thing wrong have to be noticed by the sessions with quiet stretches and the states made by
//! hand for them; a right one of the same shape has not. It needs no library of ours.

use second::calls::Second;
use second::planted_quiet::{PlantedRest, WrongRest, DECLINING_RESTS, WRONG_RESTS};
use second::quiet_run::first_difference;
use std::process::ExitCode;

fn main() -> ExitCode {
    let mut passed = 0;
    let mut failed = 0;
    // Of those that are wrong otherwise it does not count as noticed that they decline to cross something.
    let crossing = WRONG_RESTS.into_iter().map(|wrong| (wrong, true));
    for (wrong, may_decline) in crossing.chain(DECLINING_RESTS.map(|wrong| (wrong, false))) {
        match first_difference(&mut Second::reading(), &mut PlantedRest::new(wrong), may_decline) {
            Some(difference) => {
                passed += 1;
                let start: String = difference.chars().take(150).collect();
                println!("{wrong:?}: {start}");
            }
            None => {
                failed += 1;
                println!("not noticed: {wrong:?}");
            }
        }
    }
    match first_difference(&mut Second::reading(), &mut PlantedRest::new(WrongRest::Nothing), false) {
        None => passed += 1,
        Some(difference) => {
            failed += 1;
            println!("a right rest is not taken: {difference}");
        }
    }
    println!("{passed} passed, {failed} failed");
    if failed == 0 {
        ExitCode::SUCCESS
    } else {
        ExitCode::FAILURE
    }
}
