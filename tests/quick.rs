//! Holds the checker's quick pass to the second checker: every sheet that keeps 1 to 11 has to be accepted, and no other.

mod probes;

use std::process::ExitCode;

fn main() -> ExitCode {
    second::quick::run_all(probes::accepts)
}
