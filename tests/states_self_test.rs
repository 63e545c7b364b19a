//! Holds the second machine against what each hand-made state was made for; machines that are
//! wrong about sheets of no words, about unserved circuits, about lists of transfers, about words
//! that travel or about long links have to be noticed. It needs no library of ours.

use second::planted::{are_noticed, goes_unnoticed, Wrong, WRONG_LOADS, WRONG_ON_STATES};
use second::planted_lists::{WrongList, WRONG_LISTS, WRONG_LISTS_ON_STATES};
use second::planted_long::{WrongLinks, WRONG_LINKS, WRONG_LINKS_ON_STATES};
use second::planted_travelling::{WrongTravelling, WRONG_TRAVELLING, WRONG_TRAVELLING_ON_STATES};
use second::pokes::{is_noticed, is_noticed_by_lists};
use second::pokes_long::is_noticed_by_links;
use second::pokes_travelling::is_noticed_by_starts;
use std::process::ExitCode;

fn main() -> ExitCode {
    let wrongs = [&WRONG_LOADS[..], &WRONG_ON_STATES].concat();
    let wrong_lists = [&WRONG_LISTS[..], &WRONG_LISTS_ON_STATES].concat();
    let wrong_lists: Vec<Wrong> = wrong_lists.into_iter().map(Wrong::List).collect();
    let wrong_travelling = [&WRONG_TRAVELLING[..], &WRONG_TRAVELLING_ON_STATES].concat();
    let wrong_travelling: Vec<Wrong> = wrong_travelling.into_iter().map(Wrong::Travelling).collect();
    let wrong_links = [&WRONG_LINKS[..], &WRONG_LINKS_ON_STATES].concat();
    let wrong_links: Vec<Wrong> = wrong_links.into_iter().map(Wrong::Links).collect();
    let all_noticed = are_noticed(&wrongs, is_noticed)
        & are_noticed(&wrong_lists, is_noticed_by_lists)
        & goes_unnoticed(Wrong::List(WrongList::Nothing), is_noticed_by_lists)
        & are_noticed(&wrong_travelling, is_noticed_by_starts)
        & goes_unnoticed(Wrong::Travelling(WrongTravelling::Nothing), is_noticed_by_starts)
        & are_noticed(&wrong_links, is_noticed_by_links)
        & goes_unnoticed(Wrong::Links(WrongLinks::Nothing), is_noticed_by_links);
    if !all_noticed {
        return ExitCode::FAILURE;
    }
    second::pokes::run_all(&mut second::calls::Second::reading())
}
