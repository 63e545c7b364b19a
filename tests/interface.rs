//! Holds the sources to docs/INTERFACE.md: the rules of its head are in contracts/rules.rs. Run from the repository's root.

mod contracts {
    pub mod functions;
    pub mod rules;
    pub mod text;
}

use contracts::rules::{judge, File};
use std::fs;
use std::path::{Path, PathBuf};
use std::process::ExitCode;

/// The crates that are open to callers.
const OPEN_CRATES: [&str; 8] =
    ["batch", "checker", "exports", "packet", "refusal", "session", "soundness", "timetable"];

/// All that lies in a folder, in the order of names.
fn inside(folder: &Path) -> Vec<PathBuf> {
    let mut paths: Vec<PathBuf> = fs::read_dir(folder).into_iter().flatten().flatten().map(|entry| entry.path()).collect();
    paths.sort();
    paths
}

/// The source files of a crate, those in folders of src too.
fn read_sources(crate_name: &str, src: &Path, folder: &Path, files: &mut Vec<File>) {
    for path in inside(folder) {
        if path.is_dir() {
            read_sources(crate_name, src, &path, files);
        } else if path.extension().is_some_and(|ending| ending == "rt") {
            let text = fs::read_to_string(&path).expect("a source file can be read");
            let path = path.strip_prefix(src).expect("the file lies in src").to_string_lossy().to_string();
            files.push(File { crate_name: crate_name.to_string(), path, text });
        }
    }
}

fn main() -> ExitCode {
    let mut files = Vec::new();
    for folder in inside(Path::new("crates")) {
        let name = folder.file_name().unwrap_or_default().to_string_lossy().to_string();
        let src = folder.join("src");
        read_sources(&name, &src, &src, &mut files);
    }
    let document = fs::read_to_string("docs/INTERFACE.md").expect("docs/INTERFACE.md can be read");
    let report = judge(&files, &document, &OPEN_CRATES);
    for complaint in &report.complaints {
        println!("{complaint}");
    }
    println!("{} passed, {} failed", report.passed, report.complaints.len());
    if report.complaints.is_empty() { ExitCode::SUCCESS } else { ExitCode::FAILURE }
}
