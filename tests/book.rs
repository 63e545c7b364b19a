//! Reads the book, the definitions that have to be believed (every `specs/` except `specs/Inner/`), as a lecturer would: each number of a
//! refusal is found by one grep, each definition is used by another one or by a contract or is a statement that a law fills, and what
//! stands in `Inner/` is named in few places. Prints how long the book is. Run from the repository's root.

use std::collections::BTreeSet;
use std::fs;
use std::path::{Path, PathBuf};
use std::process::ExitCode;

/// Statements that stand for themselves: proofs fill them.
const STATEMENTS: [&str; 11] = [
    "Demand3",
    "OneMachine",
    "TableHolds",
    "FourKinds",
    "DistanceFormula",
    "OneCovers",
    "ChangeRight",
    "NeverChanges",
    "AsSingles",
    "TellsSingles",
    "BoundSettled",
];

/// What the book may name of the inner definitions: the cycle in words, of which OneMachine says that it is the article's; and a node of
/// a grid, of which DistanceFormula speaks.
const INNER_NAMES: [&str; 5] = ["faulty_in", "next_state", "next_memory", "cycle_fault", "InGrid"];

struct File {
    path: String,
    text: String,
}

/// All files with an ending below a folder, in the order of names.
fn read(folder: &Path, ending: &str, files: &mut Vec<File>) {
    let mut paths: Vec<PathBuf> = fs::read_dir(folder).into_iter().flatten().flatten().map(|entry| entry.path()).collect();
    paths.sort();
    for path in paths {
        if path.is_dir() {
            read(&path, ending, files);
        } else if path.extension().is_some_and(|found| found == ending) {
            let text = fs::read_to_string(&path).expect("a file of crates/ can be read");
            files.push(File { path: path.to_string_lossy().to_string(), text });
        }
    }
}

fn is_comment(line: &str) -> bool {
    line.trim_start().starts_with("--") || line.trim_start().starts_with("//")
}

/// How tightly an operator binds is no use of it.
fn is_fixity(line: &str) -> bool {
    ["infix ", "infixl ", "infixr "].iter().any(|word| line.starts_with(word))
}

/// The lines of a source's clauses: from a line that begins with `requires` or `ensures`, or with the ghost item of a type or an `impl`, to the
/// one where its braces are closed again.
fn clauses(text: &str) -> impl Iterator<Item = &str> {
    let mut open = 0;
    text.lines().filter(move |line| {
        let begins = ["requires", "ensures", "ghost ", "pub ghost "].iter().any(|word| line.trim_start().starts_with(word));
        if is_comment(line) || is_use(line) || open == 0 && !begins {
            return false;
        }
        open += line.matches('{').count() as i32 - line.matches('}').count() as i32;
        true
    })
}

fn is_use(line: &str) -> bool {
    ["use ", "pub use ", "ghost use "].iter().any(|word| line.trim_start().starts_with(word))
}

/// The names in a text: whatever stands between blanks and brackets.
fn names(text: &str) -> impl Iterator<Item = &str> {
    text.split(|c: char| c.is_whitespace() || "(){};,.".contains(c)).filter(|name| !name.is_empty())
}

/// The name that a line declares at the margin, by its signature.
fn declared(line: &str) -> Option<&str> {
    if line.starts_with(' ') || is_comment(line) || is_use(line) {
        return None;
    }
    let (left, _) = line.split_once(" : ")?;
    if left.contains('=') {
        return None;
    }
    left.split_whitespace().find(|word| !["unfoldable", "abbrev", "pub", "data", "record"].contains(word))
}

/// An operator's name without its places, as it stands in a text.
fn bare(name: &str) -> &str {
    name.trim_matches('◌')
}

/// Lines of a file that count: neither blank nor a comment nor an import.
fn counted(file: &File) -> usize {
    file.text.lines().filter(|line| !line.trim().is_empty() && !is_comment(line) && !is_use(line)).count()
}

/// Lines of the book that give a number: as a rule's number, or unless a test holds.
fn gives(book: &[File], number: u32) -> usize {
    let wanted = [format!("number = {number};"), format!("unless {number} ")];
    book.iter().flat_map(|file| file.text.lines()).filter(|line| !is_comment(line) && wanted.iter().any(|text| line.contains(text))).count()
}

fn main() -> ExitCode {
    let mut definitions = Vec::new();
    let mut sources = Vec::new();
    let mut proofs = Vec::new();
    let mut crates: Vec<PathBuf> = fs::read_dir("crates").into_iter().flatten().flatten().map(|entry| entry.path()).collect();
    crates.sort();
    for folder in crates {
        read(&folder.join("specs"), "antt", &mut definitions);
        read(&folder.join("src"), "rt", &mut sources);
        read(&folder.join("proofs"), "antt", &mut proofs);
    }
    let (inner, book): (Vec<File>, Vec<File>) =
        definitions.into_iter().partition(|file| file.path.contains("/specs/Inner"));
    let mut passed = 0;
    let mut complaints = Vec::new();
    let mut judge = |holds: bool, complaint: String| if holds { passed += 1 } else { complaints.push(complaint) };

    for number in (1..=21).chain([26, 31, 32]) {
        let found = gives(&book, number);
        let is_rule = number <= 11 || number == 26;
        judge(if is_rule { found == 1 } else { found >= 1 }, format!("number {number} is given by {found} lines of the book"));
    }
    for statement in STATEMENTS {
        let law = format!(": {statement}");
        let is_law = |line: &str| line.starts_with("pub ") && line.ends_with(&law);
        let found = proofs.iter().flat_map(|file| file.text.lines()).filter(|line| is_law(line)).count();
        judge(found == 1, format!("{statement} is filled by {found} laws"));
    }
    // where a name stands: in the book, and in the contracts of the sources; functions of the sources may have the names of definitions
    let in_book = book.iter().flat_map(|file| file.text.lines().filter(|line| !is_comment(line) && !is_use(line) && !is_fixity(line)));
    let uses: Vec<BTreeSet<&str>> = in_book.chain(sources.iter().flat_map(|file| clauses(&file.text))).map(|line| names(line).collect()).collect();
    for file in &book {
        for name in file.text.lines().filter_map(declared) {
            let found: usize = uses.iter().filter(|line| line.contains(bare(name)) || line.contains(name)).count();
            // its signature and the lines at the margin that begin with it are its own definition
            let own = file
                .text
                .lines()
                .filter(|line| !is_comment(line) && !is_use(line))
                .filter(|line| declared(line) == Some(name) || names(line).next() == Some(name) && !line.starts_with(' '))
                .count();
            let stands = STATEMENTS.contains(&name);
            judge(stands || found > own, format!("{}: {name} is used by no definition and no contract", file.path));
        }
        for line in file.text.lines().filter(|line| is_use(line) && line.contains(".Inner.")) {
            let named = line.split_once('{').map_or("", |(_, rest)| rest);
            let foreign: Vec<&str> = names(named).filter(|name| !INNER_NAMES.contains(name)).collect();
            judge(foreign.is_empty(), format!("{}: names {foreign:?} of the inner definitions", file.path));
        }
    }
    let lines = |files: &[File]| files.iter().map(counted).sum::<usize>();
    println!("the book has {} lines in {} files; {} more are inner", lines(&book), book.len(), lines(&inner));
    for complaint in &complaints {
        println!("{complaint}");
    }
    println!("{passed} passed, {} failed", complaints.len());
    if complaints.is_empty() { ExitCode::SUCCESS } else { ExitCode::FAILURE }
}
