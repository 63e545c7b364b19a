//! Plays the same sessions through the second machine itself, read from the lent words anew
//! for each call: against the machine that lives on, and against the reckoning of every
//! circuit. Then machines that are wrong about sheets of no words, about unserved circuits, about
//! lists of transfers, about words that travel or about long links have to be noticed. It needs no library of ours.

use second::planted::{are_noticed, goes_unnoticed, Wrong, WRONG_LOADS};
use second::planted_lists::WRONG_LISTS;
use second::planted_long::{WrongLinks, WRONG_LINKS, WRONG_LINKS_IN_SESSIONS};
use second::planted_travelling::{WrongTravelling, WRONG_TRAVELLING, WRONG_TRAVELLING_IN_SESSIONS};
use second::play::{is_noticed, is_noticed_by_lists, is_noticed_by_starts, is_noticed_on_long_links};
use std::process::ExitCode;

fn main() -> ExitCode {
    let wrong_travelling = [&WRONG_TRAVELLING[..], &WRONG_TRAVELLING_IN_SESSIONS].concat();
    let wrong_travelling: Vec<Wrong> = wrong_travelling.into_iter().map(Wrong::Travelling).collect();
    let wrong_links = [&WRONG_LINKS[..], &WRONG_LINKS_IN_SESSIONS].concat();
    let wrong_links: Vec<Wrong> = wrong_links.into_iter().map(Wrong::Links).collect();
    let all_noticed = are_noticed(&WRONG_LOADS, is_noticed)
        & are_noticed(&WRONG_LISTS.map(Wrong::List), is_noticed_by_lists)
        & are_noticed(&wrong_travelling, is_noticed_by_starts)
        & goes_unnoticed(Wrong::Travelling(WrongTravelling::Nothing), is_noticed_by_starts)
        & are_noticed(&wrong_links, is_noticed_on_long_links)
        & goes_unnoticed(Wrong::Links(WrongLinks::Nothing), is_noticed_on_long_links);
    if !all_noticed {
        return ExitCode::FAILURE;
    }
    second::play::play_all(&mut second::calls::Second::reading())
}
