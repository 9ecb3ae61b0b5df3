//! Source files of Rattle, Rust and C as tokens, and a reader over them for the tests that hold sources to something: it tells the place of
//! whatever it is not told to expect.
#![allow(dead_code)]

use std::path::{Path, PathBuf};

/// The folder of the repository.
pub fn root() -> PathBuf {
    Path::new(env!("CARGO_MANIFEST_DIR")).join("../..")
}

/// A file of the repository, by its path from there.
pub fn file(path: &str) -> String {
    std::fs::read_to_string(root().join(path)).unwrap_or_else(|e| panic!("{path}: {e}"))
}

#[derive(Clone, Copy)]
struct Token<'a> {
    text: &'a str,
    line: usize,
}

fn is_word(c: char) -> bool {
    c.is_alphanumeric() || c == '_'
}

/// Where the text in quotes at the front ends.
fn quoted(text: &str) -> usize {
    let mut escaped = false;
    for (i, c) in text.char_indices().skip(1) {
        if !escaped && c == '"' {
            return i + 1;
        }
        escaped = !escaped && c == '\\';
    }
    text.len()
}

/// A character such as `'('` or `'\n'`; the sign alone where it begins a lifetime.
fn character(text: &str) -> usize {
    let mut signs = text.char_indices().skip(if text.starts_with("'\\") { 3 } else { 2 });
    signs.next().filter(|&(_, c)| c == '\'').map_or(1, |(i, _)| i + 1)
}

/// How far the token, the blank or the comment at the front of a text goes.
fn front(text: &str) -> usize {
    let first = text.chars().next().unwrap();
    match first {
        _ if is_word(first) => text.find(|c| !is_word(c)).unwrap_or(text.len()),
        _ if text.starts_with("//") => text.find('\n').unwrap_or(text.len()),
        _ if text.starts_with("/*") => text[2..].find("*/").map_or(text.len(), |i| i + 4),
        _ if text.starts_with("->") => 2,
        '"' => quoted(text),
        '\'' => character(text),
        _ => first.len_utf8(),
    }
}

/// Words, `->`, what stands in quotes, and every other sign by itself; no comments.
fn tokens(mut text: &str) -> Vec<Token<'_>> {
    let (mut tokens, mut line) = (vec![], 1);
    while !text.is_empty() {
        let (token, rest) = text.split_at(front(text));
        if !token.starts_with(char::is_whitespace) && !token.starts_with("//") && !token.starts_with("/*") {
            tokens.push(Token { text: token, line });
        }
        line += token.matches('\n').count();
        text = rest;
    }
    tokens
}

/// What is read, or why not.
pub type Read<T> = Result<T, String>;

pub struct Reader<'a> {
    path: &'a str,
    tokens: Vec<Token<'a>>,
    at: usize,
}

impl<'a> Reader<'a> {
    pub fn new(path: &'a str, source: &'a str) -> Reader<'a> {
        Reader { path, tokens: tokens(source), at: 0 }
    }

    pub fn is_done(&self) -> bool {
        self.at == self.tokens.len()
    }

    /// The next token's text, nothing at the end.
    pub fn peek(&self) -> &'a str {
        self.tokens.get(self.at).map_or("", |token| token.text)
    }

    /// The next token's line, at the end the last one's.
    pub fn line(&self) -> usize {
        self.tokens.get(self.at).or(self.tokens.last()).map_or(1, |token| token.line)
    }

    pub fn fail<T>(&self, expected: &str) -> Read<T> {
        Err(format!("{}:{}: `{}` where {expected} is expected", self.path, self.line(), self.peek()))
    }

    pub fn next(&mut self) -> Read<&'a str> {
        let token = self.peek();
        if token.is_empty() {
            return self.fail("more");
        }
        self.at += 1;
        Ok(token)
    }

    /// Goes past these tokens if they are next.
    pub fn take(&mut self, expected: &str) -> bool {
        let expected = tokens(expected);
        let found = self.tokens[self.at..].iter().zip(&expected).filter(|(a, b)| a.text == b.text).count() == expected.len();
        self.at += if found { expected.len() } else { 0 };
        found
    }

    pub fn expect(&mut self, expected: &str) -> Read<()> {
        if self.take(expected) {
            return Ok(());
        }
        self.fail(&format!("`{expected}`"))
    }

    pub fn word(&mut self) -> Read<&'a str> {
        if !self.peek().starts_with(is_word) {
            return self.fail("a word");
        }
        self.next()
    }

    /// What stands up to a closing sign, with commas between: so long as the closing sign is not next, another one.
    pub fn list<T>(&mut self, close: &str, item: impl Fn(&mut Self) -> Read<T>) -> Read<Vec<T>> {
        let mut items = vec![];
        while !self.take(close) {
            items.push(item(self)?);
            if !self.take(",") {
                self.expect(close)?;
                break;
            }
        }
        Ok(items)
    }

    pub fn skip_past(&mut self, end: &str) -> Read<()> {
        while self.next()? != end {}
        Ok(())
    }

    /// Goes past a block in braces; how many lines it has, that of the `{` and that of its `}` counted.
    pub fn block(&mut self) -> Read<usize> {
        let first = self.line();
        self.expect("{")?;
        while self.peek() != "}" {
            if self.peek() == "{" {
                self.block()?;
            } else {
                self.next()?;
            }
        }
        let last = self.line();
        self.expect("}")?;
        Ok(last - first + 1)
    }

    /// Goes past the clauses of a contract in Rattle.
    pub fn contract(&mut self) -> Read<()> {
        while self.take("requires") || self.take("ensures") {
            if self.peek() != "{" {
                self.word()?;
            }
            self.block()?;
        }
        Ok(())
    }

    /// Goes past what stands between two signs, which may stand in it in pairs; how many parts commas make of it.
    fn parts(&mut self, open: &str, close: &str) -> Read<usize> {
        self.expect(open)?;
        let (mut depth, mut parts, mut is_open) = (0, 0, false);
        while depth > 0 || self.peek() != close {
            let token = self.next()?;
            depth += ["(", "[", "<"].contains(&token) as usize;
            depth -= [")", "]", ">"].contains(&token) as usize;
            let comma = token == "," && depth == 0;
            parts += (!comma && !is_open) as usize;
            is_open = !comma;
        }
        self.expect(close)?;
        Ok(parts)
    }

    /// A function in Rattle, of which `fn` has been read; nothing for one that a trait asks for, which has no body.
    fn function(&mut self) -> Read<Option<Function<'a>>> {
        let (line, name) = (self.line(), self.word()?);
        if self.peek() == "<" {
            self.parts("<", ">")?;
        }
        let parameters = self.parts("(", ")")?;
        while !["requires", "ensures", "{", ";"].contains(&self.peek()) {
            if self.peek() == "[" {
                self.parts("[", "]")?;
            } else {
                self.next()?;
            }
        }
        self.contract()?;
        if self.take(";") {
            return Ok(None);
        }
        let start = self.at;
        let lines = self.block()?;
        let body = self.tokens[start..self.at].iter().map(|token| token.text).collect();
        Ok(Some(Function { line, name, parameters, lines, body }))
    }
}

/// A function in Rattle: its body as tokens, its braces among them, and on how many lines.
pub struct Function<'a> {
    pub line: usize,
    pub name: &'a str,
    pub parameters: usize,
    pub lines: usize,
    pub body: Vec<&'a str>,
}

/// The functions of a file in Rattle.
pub fn functions<'a>(path: &'a str, source: &'a str) -> Read<Vec<Function<'a>>> {
    let (mut reader, mut functions) = (Reader::new(path, source), vec![]);
    while !reader.is_done() {
        if reader.next()? == "fn" {
            functions.extend(reader.function()?);
        }
    }
    Ok(functions)
}
