//! Frozen, so that the proved program is timed against the same code for ever: the program `landings` in plain Rust, on the
//! second machine of the tests: the same input and the same output. Sheets are judged by the linear checker.

#[allow(dead_code)]
mod linear;
#[allow(dead_code)]
#[path = "../tests/second"]
mod second {
    pub mod checker;
    pub mod listing;
    pub mod machine;
    pub mod travelling;
}

use std::io::{Read, Write};
use std::process::ExitCode;

fn main() -> ExitCode {
    let mut input = Vec::new();
    if std::io::stdin().read_to_end(&mut input).is_err() {
        return ExitCode::FAILURE;
    }
    match std::io::stdout().write_all(second::listing::listing(linear::verdict, &input).as_bytes()) {
        Ok(()) => ExitCode::SUCCESS,
        Err(_) => ExitCode::FAILURE,
    }
}
