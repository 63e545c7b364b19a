//! Asks the exported call for the hours of weekly timetables, against the second timetable and what each list was made for.

mod exports;

use std::process::ExitCode;

fn main() -> ExitCode {
    second::hours::run_all(&mut exports::hours)
}
