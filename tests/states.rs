//! Runs hand-made states and states with words written over through the exported calls,
//! against the second machine.

mod exports;

use std::process::ExitCode;

fn main() -> ExitCode {
    second::pokes::run_all(&mut exports::Exports)
}
