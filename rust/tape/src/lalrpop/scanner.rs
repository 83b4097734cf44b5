//! LALRPOP's tokens.
use super::unreadable::{Fault, Read};

/// What a token is.
#[derive(Clone, Debug, PartialEq, Eq)]
pub enum Lexeme<'a> {
    /// A name or a keyword.
    Word(&'a str),
    Mark(&'a str),
    /// Between quotes, escapes as they are written.
    Text(&'a str),
    /// A name between backticks.
    Escape(&'a str),
    Regex(&'a str),
    /// `=>` or `=>?`, and the Rust code behind it.
    Code(&'a str, &'a str),
    /// `use`, and what follows up to its semicolon.
    Use,
    /// `#![..]`
    Module,
    End,
    /// No token from here on.
    Fault(Fault),
}

#[derive(Clone, Debug)]
pub struct Token<'a> {
    pub lexeme: Lexeme<'a>,
    pub from: usize,
    pub to: usize,
}

/// Marks of more than one character.
const LONG: [&str; 10] = ["=>@L", "=>@R", "==", "!=", "!~", "~~", "::", "->", "@L", "@R"];

pub struct Scanner<'a> {
    pub text: &'a str,
    pub at: usize,
}

/// The tokens of a text from an offset on. The last is its end or a fault.
pub fn tokens(text: &str, at: usize) -> Vec<Token<'_>> {
    let (mut scanner, mut found) = (Scanner { text, at }, vec![]);
    loop {
        let token = scanner.next().unwrap_or_else(|fault| Token { from: fault.at, to: fault.at, lexeme: Lexeme::Fault(fault) });
        let last = matches!(token.lexeme, Lexeme::End | Lexeme::Fault(_));
        found.push(token);
        if last {
            return found;
        }
    }
}

impl<'a> Scanner<'a> {
    pub fn rest(&self) -> &'a str {
        &self.text[self.at..]
    }

    pub fn peek(&self) -> Option<char> {
        self.rest().chars().next()
    }

    /// Over one character.
    pub fn step(&mut self) {
        self.at += self.peek().map_or(0, char::len_utf8);
    }

    fn next(&mut self) -> Read<Token<'a>> {
        self.blanks()?;
        let from = self.at;
        Ok(Token { lexeme: self.lexeme()?, from, to: self.at })
    }

    fn lexeme(&mut self) -> Read<Lexeme<'a>> {
        if let Some(inside) = self.raw()? {
            return Ok(Lexeme::Regex(inside));
        }
        let from = self.at;
        match self.peek() {
            None => Ok(Lexeme::End),
            Some('"') => Ok(Lexeme::Text(self.quoted()?)),
            Some('`') => self.escape(),
            Some('\'') => {
                self.tick();
                Ok(Lexeme::Mark(&self.text[from..self.at]))
            }
            Some(letter) if letter.is_alphabetic() || letter == '_' => self.word(),
            Some('#') if self.rest().starts_with("#![") => self.module(),
            Some(_) => self.mark(),
        }
    }

    fn word(&mut self) -> Read<Lexeme<'a>> {
        let rest = self.rest();
        let word = &rest[..rest.find(|c: char| !c.is_alphanumeric() && c != '_').unwrap_or(rest.len())];
        self.at += word.len();
        if word == "use" {
            self.code()?;
            return Ok(Lexeme::Use);
        }
        Ok(Lexeme::Word(word))
    }

    fn escape(&mut self) -> Read<Lexeme<'a>> {
        let inside = &self.rest()[1..];
        let length = inside.find('`').ok_or_else(|| Fault::new(self.at, "a name in backticks is not closed"))?;
        self.at += length + 2;
        Ok(Lexeme::Escape(&inside[..length]))
    }

    fn module(&mut self) -> Read<Lexeme<'a>> {
        self.at += "#![".len();
        let inside = self.at;
        self.code()?;
        if self.peek() != Some(']') {
            return Err(Fault::new(inside - 1, "a bracket of an attribute is not closed"));
        }
        self.step();
        Ok(Lexeme::Module)
    }

    fn mark(&mut self) -> Read<Lexeme<'a>> {
        let from = self.at;
        if let Some(long) = LONG.into_iter().find(|long| self.rest().starts_with(long)) {
            self.at += long.len();
            return Ok(Lexeme::Mark(long));
        }
        if self.rest().starts_with("=>@") {
            return Err(Fault::new(from, "`=>@` stands without `L` or `R`"));
        }
        if let Some(arrow) = ["=>?", "=>"].into_iter().find(|arrow| self.rest().starts_with(arrow)) {
            self.at += arrow.len();
            return Ok(Lexeme::Code(arrow, self.code()?));
        }
        self.step();
        Ok(Lexeme::Mark(&self.text[from..self.at]))
    }
}

/// The text that escapes stand for; it is written at this offset.
pub fn unescaped(written: &str, at: usize) -> Read<String> {
    let (mut text, mut rest) = (String::new(), written.char_indices());
    while let Some((_, next)) = rest.next() {
        let escape = if next == '\\' { rest.next() } else { None };
        text.push(match escape {
            None => next,
            Some((_, same @ ('\\' | '"'))) => same,
            Some((_, 'n')) => '\n',
            Some((_, 'r')) => '\r',
            Some((_, 't')) => '\t',
            Some((offset, other)) => return Err(Fault::new(at + offset - 1, format!("there is no escape `\\{other}`"))),
        });
    }
    Ok(text)
}
