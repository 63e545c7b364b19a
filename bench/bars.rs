//! Which bars are kept.

use std::process::ExitCode;

#[derive(Default)]
pub struct Bars {
    is_missed: bool,
}

impl Bars {
    /// A ratio as it is printed: its bar, and whether it is kept.
    pub fn at_most(&mut self, ratio: f64, bar: f64) -> String {
        let is_kept = ratio <= bar;
        self.is_missed |= !is_kept;
        let verdict = if is_kept { "kept" } else { "MISSED" };
        format!("{ratio:>8.4} {bar:>5.2} {verdict:<6}")
    }

    pub fn exit(self) -> ExitCode {
        if self.is_missed { ExitCode::FAILURE } else { ExitCode::SUCCESS }
    }
}

/// The heads of a judged ratio.
pub const JUDGED: &str = "   ratio   bar       ";
