//! Plays sessions with long quiet stretches and probes states made by hand for them, against the second machine: single
//! exported cycles, stretches crossed at once, and runs of cycles. With the argument `may-decline` it is no failure that
//! nothing is crossed in states made by hand with words beside empty marks or in extra registers that the sheet lacks.

mod exports;
mod probes;

use std::process::ExitCode;

fn main() -> ExitCode {
    let may_decline = std::env::args().nth(1).as_deref() == Some("may-decline");
    second::quiet_run::run_all(&mut exports::Exports, &mut probes::Library, may_decline)
}
