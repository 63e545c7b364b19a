//! Plays generated sessions through the exported calls, against the second machine and the
//! reckoning of every circuit.

mod exports;

use std::process::ExitCode;

fn main() -> ExitCode {
    second::play::play_all(&mut exports::Exports)
}
