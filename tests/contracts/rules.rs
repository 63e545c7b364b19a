//! The rules of docs/INTERFACE.md's head, for sources and the document as texts.

use super::functions::{read, Function, HandedOn, Reach};
use super::text::squeezed;

pub struct File {
    pub crate_name: String,
    /// The file below the crate's src, as `lib.rt` or `x/y.rt`.
    pub path: String,
    pub text: String,
}

#[derive(Default)]
pub struct Report {
    pub passed: usize,
    pub complaints: Vec<String>,
}

impl Report {
    fn hold(&mut self, holds: bool, complaint: String) {
        if holds {
            self.passed += 1;
        } else {
            self.complaints.push(complaint);
        }
    }
}

/// A function of a crate, with the paths by which other crates reach it.
struct Found {
    crate_name: String,
    place: String,
    paths: Vec<String>,
    function: Function,
}

/// A function that the document names: its path and its parameters and answer, squeezed.
struct Listed {
    path: String,
    signature: String,
    is_open: bool,
}

pub fn judge(files: &[File], document: &str, open_crates: &[&str]) -> Report {
    let mut report = Report::default();
    let found = functions_of(files, open_crates, &mut report);
    let listed = listed_in(document);
    report.hold(listed.iter().any(|row| row.is_open), "the document lists no function".to_string());
    for crate_name in open_crates {
        let some = found.iter().any(|function| function.crate_name == *crate_name);
        report.hold(some, format!("the crate {crate_name} has no function"));
    }
    for function in &found {
        judge_function(function, &listed, open_crates, &mut report);
    }
    for row in &listed {
        judge_row(row, &listed, &found, &mut report);
    }
    report
}

/// Public functions have an `ensures`; those that callers reach, and exported ones, are listed.
fn judge_function(found: &Found, listed: &[Listed], open_crates: &[&str], report: &mut Report) {
    let Found { place, function, .. } = found;
    let name = function.path.join("::");
    if function.reach != Reach::File || function.exported {
        report.hold(!function.ensures.is_empty(), format!("{place}: {name} has no ensures"));
    }
    if open_crates.contains(&found.crate_name.as_str()) && !found.paths.is_empty() {
        let is_listed = found.paths.iter().all(|path| listed.iter().any(|row| row.path == *path));
        report.hold(is_listed, format!("{place}: {name} can be reached by callers and is not listed"));
    }
    if function.exported {
        let is_open = found.paths.iter().any(|path| listed.iter().any(|row| row.is_open && row.path == *path));
        report.hold(is_open, format!("{place}: {name} is exported and no table lists it"));
    }
}

/// A row names one function, once, with its signature; one that is open has no `requires` and promises all that it hands back.
fn judge_row(row: &Listed, listed: &[Listed], found: &[Found], report: &mut Report) {
    let path = &row.path;
    report.hold(listed.iter().filter(|other| other.path == *path).count() == 1, format!("{path} is listed twice"));
    let named: Vec<&Found> = found.iter().filter(|function| function.paths.contains(path)).collect();
    report.hold(named.len() == 1, format!("{path} is listed and names {} functions that callers reach", named.len()));
    for Found { place, function, .. } in named {
        let types: Vec<&str> = function.parameters.iter().map(|(_, kind)| kind.as_str()).collect();
        let signature = format!("({}){}", types.join(","), function.answer);
        report.hold(signature == row.signature, format!("{place}: {path} is {signature}, and listed as {}", row.signature));
        if !row.is_open {
            continue;
        }
        report.hold(!function.requires, format!("{place}: {path} is open to callers and has a requires"));
        let names_answer = function.ensures.iter().any(|promise| promise.names_answer());
        report.hold(function.answer.is_empty() || names_answer, format!("{place}: no ensures of {path} names its answer"));
        for (name, _) in function.parameters.iter().filter(|(_, kind)| kind.starts_with("&mut")) {
            let stated = function.ensures.iter().any(|promise| promise.names_new(name));
            report.hold(stated, format!("{place}: no ensures of {path} says what {name} holds afterwards"));
        }
    }
}

fn functions_of(files: &[File], open_crates: &[&str], report: &mut Report) -> Vec<Found> {
    let mut found = Vec::new();
    let mut handed_on: Vec<(String, HandedOn)> = Vec::new();
    for file in files {
        let place = format!("crates/{}/src/{}", file.crate_name, file.path);
        let source = read(&modules_of(&file.path), &file.text);
        for name in source.handed_on {
            let is_plain = name.modules.is_empty() || !open_crates.contains(&file.crate_name.as_str());
            report.hold(is_plain, format!("{place}: {} is handed on outside the crate's root", name.name));
            handed_on.push((file.crate_name.clone(), name));
        }
        for function in source.functions {
            let place = format!("{place}:{}", function.line);
            found.push(Found { crate_name: file.crate_name.clone(), place, paths: Vec::new(), function });
        }
    }
    for one in &mut found {
        let names = handed_on.iter().filter(|(crate_name, _)| *crate_name == one.crate_name).map(|(_, name)| name);
        one.paths = paths_of(&one.crate_name, &one.function, names);
    }
    found
}

/// The paths by which other crates reach a function. A method counts as reached wherever its type stands.
fn paths_of<'a>(crate_name: &str, function: &Function, names: impl Iterator<Item = &'a HandedOn>) -> Vec<String> {
    let path = &function.path;
    if function.reach != Reach::Callers {
        return Vec::new();
    }
    if function.is_method {
        return vec![format!("{crate_name}::{}", path[path.len() - 2..].join("::"))];
    }
    let at_root = (path.len() == 1).then(|| format!("{crate_name}::{}", path[0]));
    let by_name = names.filter(|name| path.starts_with(&name.target)).map(|name| {
        let rest: Vec<String> = path[name.target.len()..].to_vec();
        [vec![crate_name.to_string(), name.name.clone()], rest].concat().join("::")
    });
    at_root.into_iter().chain(by_name).collect()
}

/// `lib.rt` and `main.rt` are a crate's root, `x/mod.rt` is the module x, and `x/y.rt` is y in x.
fn modules_of(path: &str) -> Vec<String> {
    let mut modules: Vec<String> = path.trim_end_matches(".rt").split('/').map(str::to_string).collect();
    let last = modules.last().map_or("", String::as_str);
    if last == "mod" || modules.len() == 1 && (last == "lib" || last == "main") {
        modules.pop();
    }
    modules
}

fn without_comments(document: &str) -> String {
    let mut parts = document.split("<!--");
    let first = parts.next().unwrap_or("");
    let others = parts.filter_map(|part| part.split_once("-->")).map(|(_, rest)| rest);
    std::iter::once(first).chain(others).collect()
}

/// The functions that the document names: in the first cell of a table's row those open to callers, at the head of a list's
/// item those of our own crates. Comments and fenced blocks do not count.
fn listed_in(document: &str) -> Vec<Listed> {
    let shown = without_comments(document);
    let mut fenced = false;
    let mut listed = Vec::new();
    for line in shown.lines().map(str::trim_start) {
        fenced ^= line.starts_with("```");
        let is_open = line.starts_with('|');
        let cell = if is_open { line.split('|').nth(1) } else { line.strip_prefix("- ") };
        let span = cell.and_then(|cell| cell.trim_start().strip_prefix('`')).and_then(|span| span.split('`').next());
        let Some((path, rest)) = span.and_then(|span| span.split_once('(')) else { continue };
        if !fenced && path.contains("::") {
            listed.push(Listed { path: path.to_string(), signature: squeezed(&format!("({rest}")), is_open });
        }
    }
    listed
}
