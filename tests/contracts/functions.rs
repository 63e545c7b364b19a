//! The functions of a source file with their contracts, and the names that the file hands on by `pub use` and `pub mod`.

use super::text::{tokens, Token};

#[derive(Clone, Copy, PartialEq)]
pub enum Reach {
    File,
    Crate,
    Callers,
}

/// A clause `ensures`: the tokens between its braces.
pub struct Promise {
    pub tokens: Vec<String>,
}

impl Promise {
    /// It speaks of what the function hands back, by the word `result`. A field of another value may have that name too; where the clause
    /// binds the word anew, nothing is known.
    pub fn names_answer(&self) -> bool {
        let before = |at: usize| at.checked_sub(1).map_or("", |at| self.tokens[at].as_str());
        let places: Vec<usize> = (0..self.tokens.len()).filter(|at| self.tokens[*at] == "result" && before(*at) != ".").collect();
        !places.is_empty() && !places.iter().any(|at| self.binds(*at))
    }

    /// The name at this place is bound there: behind `let`, before a colon, or between a λ and its dot.
    fn binds(&self, at: usize) -> bool {
        let head = self.tokens[..at].iter().rev().find(|token| matches!(token.as_str(), "λ" | "." | "(" | ")"));
        let follows = |word: &str| at > 0 && self.tokens[at - 1] == word;
        follows("let") || head.is_some_and(|head| head == "λ") || self.tokens.get(at + 1).is_some_and(|next| next == ":")
    }

    /// It speaks of what a `&mut` parameter points to when the function returns, by `name.new`.
    pub fn names_new(&self, name: &str) -> bool {
        let is_field = |at: usize| at > 0 && self.tokens[at - 1] == ".";
        self.tokens.windows(3).enumerate().any(|(at, three)| three == [name, ".", "new"] && !is_field(at))
    }
}

pub struct Function {
    /// Modules, then the type of a method, then the name.
    pub path: Vec<String>,
    pub is_method: bool,
    pub line: usize,
    pub reach: Reach,
    /// It bears `#[unsafe(no_mangle)]`.
    pub exported: bool,
    /// Names and types; `self` has the type `self`.
    pub parameters: Vec<(String, String)>,
    pub answer: String,
    pub ensures: Vec<Promise>,
    pub requires: bool,
}

/// A name that a file hands on, and the path within the crate that it stands for.
pub struct HandedOn {
    pub name: String,
    pub target: Vec<String>,
    pub modules: Vec<String>,
}

#[derive(Default)]
pub struct Source {
    pub functions: Vec<Function>,
    pub handed_on: Vec<HandedOn>,
}

/// What an open brace belongs to.
#[derive(PartialEq)]
enum Block {
    Module(String),
    Type(String),
    Other,
}

struct Walk {
    tokens: Vec<Token>,
    at: usize,
    file_modules: Vec<String>,
    blocks: Vec<Block>,
    source: Source,
}

/// The functions of one file, which is a module of its crate (none: the root).
pub fn read(file_modules: &[String], text: &str) -> Source {
    let source = Source::default();
    let mut walk = Walk { tokens: tokens(text), at: 0, file_modules: file_modules.to_vec(), blocks: Vec::new(), source };
    let mut reach = Reach::File;
    let mut exported = false;
    while walk.at < walk.tokens.len() {
        let word = walk.next();
        match word.as_str() {
            "#" => exported |= walk.bracketed("[", "]").contains("no_mangle"),
            "pub" => {
                reach = if walk.peek() == "(" { Reach::Crate } else { Reach::Callers };
                walk.bracketed("(", ")");
            }
            "extern" | "const" | "unsafe" | "\"\"" => {}
            "fn" => {
                walk.function(reach, exported);
                (reach, exported) = (Reach::File, false);
            }
            "use" | "mod" => {
                walk.name_or_module(&word, reach);
                (reach, exported) = (Reach::File, false);
            }
            "impl" => walk.implementation(),
            "{" => walk.blocks.push(Block::Other),
            "}" => {
                walk.blocks.pop();
            }
            _ => (reach, exported) = (Reach::File, false),
        }
    }
    walk.source
}

impl Walk {
    fn peek(&self) -> &str {
        self.tokens.get(self.at).map_or("", |token| &token.text)
    }

    fn next(&mut self) -> String {
        let text = self.peek().to_string();
        self.at += 1;
        text
    }

    /// What stands between a bracket and its other half, if the bracket comes next.
    fn bracketed(&mut self, open: &str, close: &str) -> String {
        let mut inside = String::new();
        let mut depth = 0;
        while self.at < self.tokens.len() {
            if depth == 0 && self.peek() != open {
                break;
            }
            let text = self.next();
            depth += (text == open) as i32 - (text == close) as i32;
            if depth == 0 {
                break;
            }
            inside += &text;
            inside += " ";
        }
        inside.trim_start_matches([open.chars().next().unwrap(), ' ']).trim_end().to_string()
    }

    fn modules(&self) -> Vec<String> {
        let inner = self.blocks.iter().filter_map(|block| match block {
            Block::Module(name) => Some(name.clone()),
            _ => None,
        });
        self.file_modules.iter().cloned().chain(inner).collect()
    }

    /// `impl Type {`: the type is the last word before the brace, lifetimes aside.
    fn implementation(&mut self) {
        let mut name = String::new();
        self.bracketed("<", ">");
        while self.at < self.tokens.len() && self.peek() != "{" {
            if self.peek() == "<" {
                self.bracketed("<", ">");
            } else {
                name = self.next();
            }
        }
        self.at += 1;
        self.blocks.push(Block::Type(name));
    }

    /// `mod a;`, `mod a {` or `use a::{b, c as d};`
    fn name_or_module(&mut self, word: &str, reach: Reach) {
        let from = self.at;
        let end = if word == "mod" { "{;" } else { ";" };
        while self.at < self.tokens.len() && !end.contains(self.peek()) {
            self.at += 1;
        }
        let words: Vec<String> = self.tokens[from..self.at].iter().map(|token| token.text.clone()).collect();
        let modules = self.modules();
        let opened = self.next() == "{";
        if reach == Reach::Callers {
            for (target, name) in names_of(&modules, &words) {
                self.source.handed_on.push(HandedOn { name, target, modules: modules.clone() });
            }
        }
        if opened {
            self.blocks.push(Block::Module(words[0].clone()));
        }
    }

    fn function(&mut self, reach: Reach, exported: bool) {
        let line = self.tokens[self.at - 1].line;
        let mut path = self.modules();
        let type_name = match self.blocks.last() {
            Some(Block::Type(name)) => Some(name.clone()),
            _ => None,
        };
        let is_method = type_name.is_some();
        path.extend(type_name);
        path.push(self.next());
        self.bracketed("<", ">");
        let parameters = parameters_of(&self.bracketed("(", ")"));
        let (answer, ensures, requires) = (String::new(), Vec::new(), false);
        let mut function = Function { path, is_method, line, reach, exported, parameters, answer, ensures, requires };
        while self.at < self.tokens.len() && self.peek() != "{" && self.peek() != ";" {
            // An array's type has a semicolon of its own.
            if self.peek() == "[" {
                let inside = self.bracketed("[", "]").replace(' ', "");
                function.answer += &format!("[{inside}]");
                continue;
            }
            match self.next().as_str() {
                "requires" => {
                    function.requires = true;
                    self.clause();
                }
                "ensures" => {
                    let promise = self.clause();
                    function.ensures.push(promise);
                }
                "ghost" => {
                    self.clause();
                }
                other => function.answer += other,
            }
        }
        self.source.functions.push(function);
    }

    /// The braces of a clause, behind a star and its name if it has them.
    fn clause(&mut self) -> Promise {
        while self.at < self.tokens.len() && self.peek() != "{" {
            self.at += 1;
        }
        let tokens = self.bracketed("{", "}").split(' ').map(str::to_string).collect();
        Promise { tokens }
    }
}

/// The parameters in the text between a function's parentheses.
fn parameters_of(text: &str) -> Vec<(String, String)> {
    let mut depth = 0;
    let mut parts = vec![Vec::new()];
    for word in text.split_whitespace() {
        depth += "([<".contains(word) as i32 - ")]>".contains(word) as i32;
        if word == "," && depth == 0 {
            parts.push(Vec::new());
        } else {
            parts.last_mut().unwrap().push(word);
        }
    }
    parts.retain(|part| !part.is_empty());
    parts
        .iter()
        .map(|part| match part.iter().position(|word| *word == ":") {
            Some(colon) => (part[..colon].last().unwrap_or(&"").to_string(), part[colon + 1..].concat()),
            None => ("self".to_string(), part.concat()),
        })
        .collect()
}

/// The paths that a `use` names, each with the name that it gets.
fn names_of(prefix: &[String], words: &[String]) -> Vec<(Vec<String>, String)> {
    let Some(open) = words.iter().position(|word| word == "{") else {
        return vec![named(prefix, words)];
    };
    let prefix = [prefix, &steps_of(&words[..open])].concat();
    let mut depth = 0;
    let parts = words[open + 1..words.len() - 1].split(|word| {
        depth += (word == "{") as i32 - (word == "}") as i32;
        word == "," && depth == 0
    });
    parts.filter(|part| !part.is_empty()).flat_map(|part| names_of(&prefix, part)).collect()
}

/// `a::b` is named `b`, and `a::b as c` is named `c`.
fn named(prefix: &[String], words: &[String]) -> (Vec<String>, String) {
    let end = words.iter().position(|word| word == "as").unwrap_or(words.len());
    let target = [prefix, &steps_of(&words[..end])].concat();
    let name = if end < words.len() { words.last() } else { target.last() };
    let name = name.cloned().unwrap_or_default();
    (target, name)
}

fn steps_of(words: &[String]) -> Vec<String> {
    words.iter().filter(|word| !matches!(word.as_str(), ":" | "self" | "crate")).cloned().collect()
}
