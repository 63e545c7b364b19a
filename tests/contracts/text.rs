//! A source text as tokens. Comments are left out, and a string is the token `""`.

pub struct Token {
    pub text: String,
    pub line: usize,
}

struct Reader {
    chars: Vec<char>,
    at: usize,
}

impl Reader {
    fn sees(&self, text: &str) -> bool {
        text.chars().enumerate().all(|(ahead, wanted)| self.chars.get(self.at + ahead) == Some(&wanted))
    }

    fn skip_while(&mut self, holds: impl Fn(&Reader) -> bool) {
        while self.at < self.chars.len() && holds(self) {
            self.at += 1;
        }
    }

    /// Block comments nest, as in Rust.
    fn skip_block_comment(&mut self) {
        let mut depth = 0;
        while self.at < self.chars.len() {
            if self.sees("/*") {
                depth += 1;
                self.at += 2;
            } else if self.sees("*/") {
                depth -= 1;
                self.at += 2;
                if depth == 0 {
                    return;
                }
            } else {
                self.at += 1;
            }
        }
    }

    fn skip_string(&mut self) {
        self.at += 1;
        while self.at < self.chars.len() && !self.sees("\"") {
            self.at += if self.sees("\\") { 2 } else { 1 };
        }
        self.at += 1;
    }

    /// A raw string has no escapes.
    fn raw_string(&mut self, opening: usize) -> Option<String> {
        self.at += opening;
        self.skip_while(|reader| !reader.sees("\""));
        self.at += 1;
        Some("\"\"".to_string())
    }

    /// A character in quotes; a quote that opens none is a lifetime's.
    fn skip_quote(&mut self) {
        if self.chars.get(self.at + 1) == Some(&'\\') {
            self.at += 3;
            self.skip_while(|reader| !reader.sees("'"));
            self.at += 1;
        } else if self.chars.get(self.at + 2) == Some(&'\'') {
            self.at += 3;
        } else {
            self.at += 1;
        }
    }

    /// Reads one token, or nothing where a comment, a space or a quote stands.
    fn token(&mut self) -> Option<String> {
        let from = self.at;
        let first = self.chars[from];
        if self.sees("//") {
            self.skip_while(|reader| !reader.sees("\n"));
            return None;
        }
        if self.sees("/*") {
            self.skip_block_comment();
            return None;
        }
        match first {
            '"' => {
                self.skip_string();
                return Some("\"\"".to_string());
            }
            '\'' => {
                self.skip_quote();
                return None;
            }
            'r' if self.sees("r\"") => return self.raw_string(2),
            'b' if self.sees("br\"") => return self.raw_string(3),
            _ if is_word(first) => self.skip_while(|reader| is_word(reader.chars[reader.at])),
            _ => self.at += 1,
        }
        let to = self.at.min(self.chars.len());
        (!first.is_whitespace()).then(|| self.chars[from..to].iter().collect())
    }
}

fn is_word(c: char) -> bool {
    c.is_alphanumeric() && c != 'λ' || c == '_'
}

pub fn tokens(text: &str) -> Vec<Token> {
    let mut reader = Reader { chars: text.chars().collect(), at: 0 };
    let mut found = Vec::new();
    let mut line = 1;
    while reader.at < reader.chars.len() {
        let from = reader.at;
        if let Some(text) = reader.token() {
            found.push(Token { text, line });
        }
        let to = reader.at.min(reader.chars.len());
        line += reader.chars[from..to].iter().filter(|c| **c == '\n').count();
    }
    found
}

/// The tokens of a text, without the spaces between them.
pub fn squeezed(text: &str) -> String {
    tokens(text).into_iter().map(|token| token.text).collect()
}
