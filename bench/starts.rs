//! Times a list of 64 transfers on the largest sheet, lent as records and as five lists of words, against 64 single starts: a list tests
//! the state once. Then a single start against words left, which tests the state and reads one word, with wires of several kinds: a start
//! looks at every wire for words of its circuit. Where a header in every register has to be followed, what that adds is held besides to the
//! frozen tuned checker in Rust, which no gain of ours moves. Exits 1 where a bar is missed.

mod bars;
#[path = "../tests/exports.rs"]
mod exports;
#[allow(dead_code)]
mod linear;
mod timing;

use bars::{Bars, JUDGED};
use exports::Exports;
use second::calls::Calls;
use second::inputs::all_transfers;
use second::lent::Row;
use second::machine::Transfer;
use second::sheets::largest;
use std::cell::RefCell;
use std::process::ExitCode;
use timing::times;

const MOST_OF_THE_SINGLES: f64 = 0.05;
const MOST_OF_WORDS_LEFT: f64 = 1.05;
/// Where a header in every register has to be followed; beside a test of the state that takes a fifth of what it took.
const MOST_WITH_HEADERS: f64 = 1.25;
/// What following a header in every register adds, of the time of the tuned Rust checker's verdict upon the sheet.
const MOST_OF_TUNED_VERDICT: f64 = 0.2;
const CIRCUITS: usize = 64;
/// The circuit that is started while the others send.
const RESTING: usize = 5;
const CYCLES_OF_TRAFFIC: usize = 700;
const NORTH: usize = 0;
const EAST: usize = 1;
/// Seven codes of the side east.
const ALL_EAST: u32 = 0b01_01_01_01_01_01_01;

/// What the timed functions are lent; their argument is not used.
#[derive(Default)]
struct Lent {
    state: Vec<u32>,
    transfers: Vec<Transfer>,
    lists: [Vec<u32>; 5],
    answers: Vec<u32>,
}

thread_local! {
    static LENT: RefCell<Lent> = RefCell::default();
}

/// Starts on circuits that are all idle; 0 where every start is carried out.
fn on_idle(start: impl FnOnce(&mut Lent) -> u32) -> u32 {
    LENT.with_borrow_mut(|lent| {
        lent.state[Row::Left.at(0)..Row::Left.at(CIRCUITS)].fill(0);
        start(lent)
    })
}

fn singles(_: &[u32]) -> u32 {
    on_idle(|Lent { state, transfers, .. }| {
        transfers.iter().fold(0, |all, t| all | Exports.start(state, t.circuit, t.read, t.write, t.count, t.kind))
    })
}

fn records(_: &[u32]) -> u32 {
    on_idle(|Lent { state, transfers, answers, .. }| {
        let number = Exports.start_all(state, transfers, answers);
        answers.iter().fold(number, |all, answer| all | answer)
    })
}

fn lists(_: &[u32]) -> u32 {
    on_idle(|Lent { state, lists, answers, .. }| {
        let number = Exports.start_lists(state, lists.each_ref().map(Vec::as_slice), answers);
        answers.iter().fold(number, |all, answer| all | answer)
    })
}

/// Loads the largest sheet and lends a transfer of each of its circuits.
fn prepare() {
    let plan = largest(1);
    let mut state = vec![0; Exports.state_words() as usize];
    let memory = vec![0; plan.nodes() as usize * plan.memory_words as usize];
    assert_eq!(Exports.load(&plan.words(), &mut state, &memory), 0, "the largest sheet is loaded");
    let words = all_transfers(&plan);
    let transfers = words.iter().map(|&[circuit, read, write, count, kind]| Transfer { circuit, read, write, count, kind }).collect();
    let lists = [0, 1, 2, 3, 4].map(|field| words.iter().map(|transfer| transfer[field]).collect());
    let answers = vec![u32::MAX; words.len()];
    assert_eq!(words.len(), CIRCUITS);
    LENT.set(Lent { state, transfers, lists, answers });
}

/// The state after one way of starting.
fn state_after(start: timing::Asked) -> Vec<u32> {
    assert_eq!(start(&[]), 0, "every transfer is started");
    LENT.with_borrow(|lent| lent.state.clone())
}

/// A start of one word on the resting circuit, whose words left are taken back each time.
fn one_start(_: &[u32]) -> u32 {
    LENT.with_borrow_mut(|Lent { state, transfers, .. }| {
        state[Row::Left.at(RESTING)] = 0;
        let Transfer { circuit, read, write, kind, .. } = transfers[RESTING];
        Exports.start(state, circuit, read, write, 1, kind)
    })
}

fn words_left(_: &[u32]) -> u32 {
    LENT.with_borrow_mut(|Lent { state, .. }| {
        state[Row::Left.at(RESTING)] = 0;
        Exports.words_left(state, RESTING as u32) as u32
    })
}

/// The state in which all circuits but one have sent for a while.
fn with_traffic() {
    LENT.with_borrow_mut(|Lent { state, transfers, .. }| {
        state[..Row::Left.at(0)].fill(0);
        let plan = largest(1);
        let mut memory = vec![0; plan.nodes() as usize * plan.memory_words as usize];
        assert_eq!(Exports.load(&plan.words(), state, &memory), 0, "the largest sheet is loaded");
        for t in transfers.iter().filter(|t| t.circuit as usize != RESTING) {
            assert_eq!(Exports.start(state, t.circuit, t.read, t.write, t.count, t.kind), 0, "a circuit is started");
        }
        for _ in 0..CYCLES_OF_TRAFFIC {
            assert_eq!(Exports.cycle(state, &mut memory), 0, "a cycle is carried out");
        }
    });
}

/// A header in every link and head register and on every side's output, each with an address of the resting circuit's region and none of
/// them for its node: each is followed as far as its codes and the zeros behind them lead.
fn with_headers() {
    LENT.with_borrow_mut(|Lent { state, transfers, .. }| {
        let address = transfers[RESTING].write << 16;
        for place in 0..80 {
            let port = place % 5;
            // What came in by the side east would go to the memory by the code of that side.
            let first_code = if port == EAST { NORTH } else { EAST };
            let mut put = |mark: Row, word: Row, header: u32| {
                state[mark.at(place)] = 1;
                state[word.at(place)] = header;
            };
            put(Row::LinkMark, Row::LinkWord, address | ALL_EAST << 2 | first_code as u32);
            put(Row::HeadMark, Row::HeadWord, address | ALL_EAST);
            if port < 4 {
                put(Row::OutMark, Row::OutWord, address | if port == 3 { ALL_EAST << 2 | NORTH as u32 } else { ALL_EAST });
            }
            state[Row::Choice.at(place)] = EAST as u32 + 1;
        }
    });
}

/// Times a start beside words left with the wires as they are.
fn start_beside_words_left(bars: &mut Bars, name: &str, most: f64) {
    assert_eq!(one_start(&[]), 0, "the start is carried out: {name}");
    let (start_time, left_time, ratio) = times(&[], one_start, words_left);
    let judged = bars.at_most(ratio, most);
    println!("{name:<18} {start_time:>10.1} {left_time:>12.1} {judged}");
}

/// Times what a start takes longer than words left, beside a verdict of the tuned Rust checker.
fn search_beside_tuned_verdict(bars: &mut Bars, name: &str) {
    assert_eq!(one_start(&[]), 0, "the start is carried out: {name}");
    let (start_time, left_time, _) = times(&[], one_start, words_left);
    let (tuned_time, ..) = times(&largest(1).words(), linear::tuned_verdict, linear::tuned_verdict);
    let search_time = start_time - left_time;
    let judged = bars.at_most(search_time / tuned_time, MOST_OF_TUNED_VERDICT);
    println!("{:<18} {:>10} {:>12} {JUDGED}", "wires", "search, ns", "tuned, ns");
    println!("{name:<18} {search_time:>10.1} {tuned_time:>12.1} {judged}");
}

fn main() -> ExitCode {
    let mut bars = Bars::default();
    prepare();
    let wanted = state_after(singles);
    println!("starts on the largest sheet, medians of many rounds in turn");
    println!("{:<18} {:>10} {:>12} {JUDGED}", "64 transfers", "list, ns", "singles, ns");
    for (name, list) in [("as records", records as timing::Asked), ("as five lists", lists)] {
        assert!(state_after(list) == wanted, "{name}: another state than by single starts");
        let (list_time, singles_time, ratio) = times(&[], list, singles);
        let judged = bars.at_most(ratio, MOST_OF_THE_SINGLES);
        println!("{name:<18} {list_time:>10.1} {singles_time:>12.1} {judged}");
    }
    println!("{:<18} {:>10} {:>12} {JUDGED}", "wires", "start, ns", "left, ns");
    start_beside_words_left(&mut bars, "empty", MOST_OF_WORDS_LEFT);
    with_traffic();
    start_beside_words_left(&mut bars, "all but one send", MOST_OF_WORDS_LEFT);
    with_headers();
    start_beside_words_left(&mut bars, "headers everywhere", MOST_WITH_HEADERS);
    search_beside_tuned_verdict(&mut bars, "headers everywhere");
    bars.exit()
}
