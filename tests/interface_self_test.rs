//! Holds the reader of contracts to planted texts: each slip must be reported, and the right texts beside them must not.

mod contracts {
    pub mod functions;
    pub mod rules;
    pub mod text;
}

use contracts::rules::{judge, File};
use std::process::ExitCode;

const SAYS: &str = "ensures { result ≡ f x }";
const ROW: &str = "| `a::f(u32) -> u32` | twice the word | `f` |\n";

/// What the report has to contain; nothing where the text is right.
struct Case {
    name: &'static str,
    files: Vec<(&'static str, String)>,
    document: String,
    wanted: Option<&'static str>,
}

/// A crate of one file, beside a document with the row of `a::f`.
fn one(name: &'static str, text: String, wanted: Option<&'static str>) -> Case {
    Case { name, files: vec![("lib.rt", text)], document: ROW.to_string(), wanted }
}

fn of_files(name: &'static str, files: &[(&'static str, &str)], document: &str, wanted: Option<&'static str>) -> Case {
    let files = files.iter().map(|(path, text)| (*path, text.to_string())).collect();
    Case { name, files, document: document.to_string(), wanted }
}

/// Signatures, clauses and what may stand between them.
fn contract_cases() -> Vec<Case> {
    let no_ensures = Some("has no ensures");
    let has_requires = Some("has a requires");
    let no_answer = Some("names its answer");
    let head = "pub fn f(x: u32) -> u32";
    let bare = format!("{head} {{ x }}\n");
    let f = format!("{head}\n    {SAYS}\n{{\n    x\n}}\n");
    let lines = "pub\nfn f(\n    x: u32,\n)\n-> u32\n";
    let named = "ghost { ℕ } ensures answer { result ≡ x }";
    let strings = |text: &str| format!("const S: &[u8] = br\"\\\"; {text} const T: &[u8] = b\"\\\"\";");
    vec![
        one("as formatted", f.clone(), None),
        one("on one line", format!("{head} {SAYS} {{ x }}"), None),
        one("on one line, without", bare.clone(), no_ensures),
        one("CRLF", f.replace('\n', "\r\n"), None),
        one("CRLF, without", format!("{head}\r\n{{\r\n    x\r\n}}\r\n"), no_ensures),
        one("tabs", format!("pub\tfn\tf(x:\tu32)\t->\tu32\n\t{SAYS}\n{{\n\tx\n}}"), None),
        one("tabs, without", "pub\tfn\tf(x: u32) -> u32\n{\n\tx\n}".to_string(), no_ensures),
        one("over lines", format!("{lines}    {SAYS}\n{{ x }}"), None),
        one("over lines, without", format!("{lines}{{ x }}"), no_ensures),
        one("clause in a comment", format!("{head}\n    // {SAYS}\n{{ x }}"), no_ensures),
        one("clause in a block comment", format!("{head} /* /* */ {SAYS} */ {{ x }}"), no_ensures),
        one("clause in the body", format!("{head} {{\n    {SAYS}\n    x\n}}"), no_ensures),
        one("clause of the next function", format!("{bare}fn g(x: u32) -> u32 {SAYS} {{ x }}"), no_ensures),
        one("comment behind the clause", format!("{head} {SAYS} // {{\n{{ x }}"), None),
        one("braces in the clause", format!("{head} ensures {{ result ≡ g {{A = ℕ}} (codes \"}}\") x }} {{ x }}"), None),
        one("named clauses", format!("{head} {named} {{ x }}"), None),
        one("ghost alone", format!("{head} ghost {{ ℕ }} {{ x }}"), no_ensures),
        one("function in a comment", format!("// pub fn h() {{}}\n/* pub fn i() {{}} */\n{f}/// pub fn j() {{}}"), None),
        one("function in a string", format!("const S: &[u8] = b\"pub fn h() {{}}\";\n{f}"), None),
        one("strings with backslashes", strings(&f), None),
        one("strings with backslashes, without", strings(&bare), no_ensures),
        one("raw string, without", strings(&bare).replace("br\"", "r\""), no_ensures),
        one("brace in quotes", format!("fn g() -> u8 {{ b'{{' }}\n{f}"), None),
        one("quotes in quotes", format!("fn g() -> u8 {{ b'\"' }} {f} fn h() -> u8 {{ b'\\'' }}"), None),
        one("quotes in quotes, without", format!("fn g() -> u8 {{ b'\"' }} {bare} fn h() -> u8 {{ b'\\'' }}"), no_ensures),
        one("within the crate", format!("{f}pub(crate) fn g(x: u32) -> u32 {SAYS} {{ x }}"), None),
        one("within the crate, without", format!("{f}pub(crate) fn g(x: u32) -> u32 {{ x }}"), no_ensures),
        one("constant, without", format!("{f}pub const fn g(x: u32) -> u32 {{ x }}"), no_ensures),
        one("array as answer", format!("{f}pub(crate) fn g(x: u32) -> [u32; 4] {SAYS} {{ [x; 4] }}"), None),
        one("array as answer, without", format!("{f}pub(crate) fn g(x: u32) -> [u32; 4] {{ [x; 4] }}"), no_ensures),
        one("private, without", format!("{f}fn g(x: u32) -> u32 {{ x }}"), None),
        one("method, without", format!("{f}impl T {{ pub(crate) fn g(self) -> u32 {{ 1 }} }}"), no_ensures),
        one("in a module of the file", format!("{f}mod m {{ pub fn g(x: u32) -> u32 {{ x }} }}"), no_ensures),
        of_files("in a folder", &[("lib.rt", &f), ("x/y.rt", "pub fn g() {}")], ROW, no_ensures),
        one("requires", format!("{head} requires {{ x < 4 }} {SAYS} {{ x }}"), has_requires),
        one("requires last", format!("{head} {SAYS}\n    requires few {{ x < 4 }}\n{{ x }}"), has_requires),
        one("requires in a comment", format!("{head} // requires {{ }}\n{SAYS} {{ x }}"), None),
        one("answer not named", format!("{head} ensures {{ x ≡ x }} {{ x }}"), no_answer),
        one("answer passed over", format!("{head} ensures {{ (λ result. x) x ≡ x }} {{ x }}"), no_answer),
        one("answer named anew", format!("{head} ensures {{ (λ y result. result) x x ≡ x }} {{ x }}"), no_answer),
        one("answer as a variable", format!("{head} ensures {{ (result : ℕ) → result ≡ result }} {{ x }}"), no_answer),
        one("answer as another's field", format!("{head} ensures {{ (g x).result ≡ x }} {{ x }}"), no_answer),
        one("answer as a longer name", format!("{head} ensures {{ result_of x ≡ x }} {{ x }}"), no_answer),
        one("answer behind a λ", format!("{head} ensures {{ all (λ k. k) result }} {{ x }}"), None),
        one("starred clause", format!("{head} ensures* kept {{ sem x }} {SAYS} {{ x }}"), None),
        one("starred clause alone", format!("{head} ensures* {{ sem x }} {{ x }}"), no_answer),
        one("starred requires", format!("{head} requires* {{ sem x }} {SAYS} {{ x }}"), has_requires),
    ]
}

/// What the document lists of a crate of one file.
fn listing_cases() -> Vec<Case> {
    let f = format!("pub fn f(x: u32) -> u32 {SAYS} {{ x }}\n");
    let fg = format!("{f}{}", f.replace("fn f", "fn g"));
    let g_row = ROW.replace("::f", "::g");
    let own = format!("{ROW}- `a::g(u32) -> u32` for our own crates.\n");
    let method = |more: &str| format!("impl T {{ pub fn f(self, x: u32) -> u32 {more} {SAYS} {{ x }} }}");
    let method_row = "| `a::T::f(self, u32) -> u32` | it | `f` |\n";
    let exported = f.replace("pub fn f", "#[unsafe(no_mangle)] // for C\npub extern \"C\" fn g");
    let f_exported = format!("{f}{exported}");
    let writes = |says: &str| format!("pub fn w(s: &mut [u32], x: u32) ensures {{ {says} }} {{}}\n");
    let writes_row = "| `a::w(&mut [u32], u32)` | writes | `w` |\n";
    let case = |name, text: &str, document: &str, wanted| of_files(name, &[("lib.rt", text)], document, wanted);
    vec![
        case("row deleted", &fg, ROW, Some("is not listed")),
        case("row in a comment", &fg, &format!("{g_row}<!--\n{ROW}-->"), Some("is not listed")),
        case("row in a fence", &fg, &format!("{g_row}```\n{ROW}```\n"), Some("is not listed")),
        case("no row left", &f, "", Some("lists no function")),
        case("for our own crates", &fg, &own, None),
        case("in both lists", &fg, &format!("{own}{g_row}"), Some("a::g is listed twice")),
        case("row twice", &f, &ROW.repeat(2), Some("a::f is listed twice")),
        case("row of no function", &f, &own, Some("names 0 functions")),
        case("row of a private function", &f.replace("pub ", ""), ROW, Some("names 0 functions")),
        case("another type", &f.replace("x: u32", "x: u64"), ROW, Some("is (u64)->u32, and listed as (u32)->u32")),
        case("another answer", &f.replace("-> u32", "-> &[u32]"), ROW, Some("is (u32)->&[u32]")),
        case("method", &method(""), method_row, None),
        case("method, row deleted", &format!("{f}{}", method("")), ROW, Some("T::f can be reached")),
        case("method with requires", &method("requires { x < 4 }"), method_row, Some("has a requires")),
        case("exported", &exported, &g_row, None),
        case("exported, not listed", &f_exported, ROW, Some("no table lists it")),
        case("exported, for our own crates", &f_exported, &own, Some("no table lists it")),
        case("slice written", &writes("s.new ≡ w x"), writes_row, None),
        case("slice not stated", &writes("s.old ≡ w x"), writes_row, Some("what s holds afterwards")),
        case("slice of another value", &writes("x.s.new ≡ w x"), writes_row, Some("what s holds afterwards")),
        case("slice of a longer name", &writes("ss.new ≡ w x"), writes_row, Some("what s holds afterwards")),
        case("field of a longer name", &writes("s.newer ≡ w x"), writes_row, Some("what s holds afterwards")),
    ]
}

/// What callers reach of a crate of several files.
fn module_cases() -> Vec<Case> {
    let not_listed = Some("is not listed");
    let f = format!("pub fn f(x: u32) -> u32 {SAYS} {{ x }}\n");
    let g = f.replace("fn f", "fn g");
    let bare = "pub fn f(x: u32) -> u32 { x }";
    let needy = f.replace("ensures", "requires { x < 4 } ensures");
    let own = format!("{ROW}- `a::g(u32) -> u32` for our own crates.\n");
    let with = |head: &str| format!("{head}\n{f}");
    let handed = with("mod x;\npub use x::g;");
    let deep = with("mod x;\npub use x::{y::{g}};");
    let renamed = with("mod x;\npub use x::g as h;");
    let hidden = with("mod x;");
    let opened = with("pub mod x;");
    let below = "mod y;\npub use y::g;";
    let outside = Some("outside the crate's root");
    vec![
        of_files("handed on", &[("lib.rt", &handed), ("x.rt", &g)], &own, None),
        of_files("handed on, row deleted", &[("lib.rt", &handed), ("x.rt", &g)], ROW, not_listed),
        of_files("a folder's own file", &[("lib.rt", &handed), ("x/mod.rt", &g)], ROW, not_listed),
        of_files("not handed on", &[("lib.rt", &hidden), ("x.rt", &g)], ROW, None),
        of_files("from a folder", &[("lib.rt", &deep), ("x/mod.rt", "pub mod y;"), ("x/y.rt", &g)], ROW, not_listed),
        of_files("by another name", &[("lib.rt", &renamed), ("x.rt", &g)], &own, not_listed),
        of_files("in an open module", &[("lib.rt", &opened), ("x.rt", &g)], ROW, not_listed),
        of_files("below the root", &[("lib.rt", &opened), ("x.rt", below), ("x/y.rt", &g)], ROW, outside),
        of_files("equal names", &[("lib.rt", &f), ("x.rt", bare)], ROW, Some("x.rt:1: x::f has no ensures")),
        of_files("equal names, the root's", &[("lib.rt", bare), ("x.rt", &f)], ROW, Some("lib.rt:1: f has no ensures")),
        of_files("equal names, one requires", &[("lib.rt", &needy), ("x.rt", &f)], ROW, Some("has a requires")),
        of_files("equal names, the other requires", &[("lib.rt", &f), ("x.rt", &needy)], ROW, None),
        of_files("two of one path", &[("lib.rt", &f), ("main.rt", &f)], ROW, Some("names 2 functions")),
    ]
}

fn main() -> ExitCode {
    let mut passed = 0;
    let mut failed = 0;
    for case in [contract_cases(), listing_cases(), module_cases()].into_iter().flatten() {
        let files: Vec<File> = case
            .files
            .into_iter()
            .map(|(path, text)| File { crate_name: "a".to_string(), path: path.to_string(), text })
            .collect();
        let complaints = judge(&files, &case.document, &["a"]).complaints;
        let right = match case.wanted {
            Some(wanted) => complaints.iter().any(|complaint| complaint.contains(wanted)),
            None => complaints.is_empty(),
        };
        if right {
            passed += 1;
        } else {
            failed += 1;
            println!("{}: wanted {:?}, reported {complaints:?}", case.name, case.wanted);
        }
    }
    println!("{passed} passed, {failed} failed");
    if failed == 0 { ExitCode::SUCCESS } else { ExitCode::FAILURE }
}
