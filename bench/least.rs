//! Calls timed against each other: of each the least of nine rounds, in turn.

use std::hint::black_box;
use std::mem::MaybeUninit;
use std::time::Instant;

pub const ROUNDS: usize = 9;
/// A round takes the calls in turn so often, in short bursts, of which the quickest counts: what else the machine does meets some of
/// them, and a quiet moment serves all calls alike.
pub const TURNS: usize = 15;
const BURSTS: usize = 4;
const NANOSECONDS_PER_BURST: f64 = 100_000.0;

/// Nanoseconds a call.
pub fn least<const CALLS: usize>(mut calls: [&mut dyn FnMut() -> u64; CALLS]) -> [f64; CALLS] {
    let repetitions = calls.each_mut().map(|call| {
        let single = (0..5).map(|_| burst(*call, 5)).fold(f64::INFINITY, f64::min);
        ((NANOSECONDS_PER_BURST / single) as u32).max(1)
    });
    let mut least = [f64::INFINITY; CALLS];
    for _ in 0..ROUNDS * TURNS {
        for place in 0..CALLS {
            for depth in 0..BURSTS {
                least[place] = least[place].min(deeper(depth, &mut || burst(calls[place], repetitions[place])));
            }
        }
    }
    least
}

/// Calls from so many kilobytes further down the stack. A load whose address ends as that of a store shortly before waits for it, and
/// whether a call's own tables and what it is lent lie so is settled by chance when a process begins: each burst of a turn lies otherwise.
#[inline(never)]
fn deeper(kilobytes: usize, call: &mut dyn FnMut() -> f64) -> f64 {
    let room = [MaybeUninit::<u8>::uninit(); 1_024];
    black_box(&room);
    let time = if kilobytes == 0 { call() } else { deeper(kilobytes - 1, call) };
    black_box(&room);
    time
}

/// Nanoseconds a call, over some calls.
fn burst(call: &mut dyn FnMut() -> u64, repetitions: u32) -> f64 {
    let start = Instant::now();
    for _ in 0..repetitions {
        black_box(call());
    }
    start.elapsed().as_nanos() as f64 / f64::from(repetitions)
}
