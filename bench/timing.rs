//! Two functions of words timed against each other: medians of many short rounds.

use std::hint::black_box;
use std::time::Instant;

pub type Asked = fn(&[u32]) -> u32;

const ROUNDS: usize = 201;
/// Of each function in each round.
const NANOSECONDS_PER_ROUND: f64 = 1_000_000.0;

/// Nanoseconds a call, ours and Rust's, and their ratio. A round times both directly one after the other, so that a change of the
/// machine's speed meets both alike.
pub fn times(words: &[u32], our_call: Asked, rust_call: Asked) -> (f64, f64, f64) {
    let repetitions = |call: Asked| {
        let single = (0..5).map(|_| round(call, words, 20)).fold(f64::INFINITY, f64::min);
        ((NANOSECONDS_PER_ROUND / single) as u32).max(10)
    };
    let our_count = repetitions(our_call);
    let rust_count = repetitions(rust_call);
    let mut our_times = Vec::new();
    let mut rust_times = Vec::new();
    for turn in 0..ROUNDS {
        if turn % 2 == 0 {
            our_times.push(round(our_call, words, our_count));
            rust_times.push(round(rust_call, words, rust_count));
        } else {
            rust_times.push(round(rust_call, words, rust_count));
            our_times.push(round(our_call, words, our_count));
        }
    }
    let ratios = our_times.iter().zip(&rust_times).map(|(ours, rust)| ours / rust).collect();
    (median(our_times), median(rust_times), median(ratios))
}

fn round(call: Asked, words: &[u32], repetitions: u32) -> f64 {
    let start = Instant::now();
    for _ in 0..repetitions {
        black_box(black_box(call)(black_box(words)));
    }
    start.elapsed().as_nanos() as f64 / f64::from(repetitions)
}

fn median(mut values: Vec<f64>) -> f64 {
    values.sort_by(f64::total_cmp);
    values[values.len() / 2]
}
