//! Steps over tokens, and what is asked of every text: whether a tape can carry it.
use super::scanner::{tokens, unescaped, Lexeme, Token};
use super::unreadable::{Fault, Read};
use crate::sizes::{HALF, MOST_TEXTS};
use crate::texts::{is_literal, is_name};
use crate::tree::Span;
use std::collections::HashSet;

/// Words that are no names; `_` is a mark of LALRPOP's.
const KEYWORDS: [&str; 14] = ["_", "dyn", "else", "enum", "extern", "for", "grammar", "if", "in", "match", "mut", "pub", "type", "where"];

pub struct Parser<'a> {
    pub text: &'a str,
    tokens: Vec<Token<'a>>,
    at: usize,
    /// Those that will be atoms.
    texts: HashSet<String>,
}

impl<'a> Parser<'a> {
    pub fn new(text: &'a str) -> Read<Parser<'a>> {
        if u32::try_from(text.len()).is_err() {
            return Err(Fault::new(0, "a grammar of more than 4,294,967,295 bytes can't be carried"));
        }
        Ok(Parser { text, tokens: tokens(text, 0), at: 0, texts: HashSet::new() })
    }

    pub fn token(&self) -> &Token<'a> {
        self.ahead(0)
    }

    /// So many tokens further; the last one, if there are fewer.
    pub fn ahead(&self, count: usize) -> &Token<'a> {
        &self.tokens[(self.at + count).min(self.tokens.len() - 1)]
    }

    pub fn step(&mut self) {
        self.at += 1;
    }

    /// Where the next token begins.
    pub fn from(&self) -> usize {
        self.token().from
    }

    /// From there to the end of the last token that was read.
    pub fn span(&self, from: usize) -> Span {
        Span(from as u32, self.tokens[self.at - 1].to as u32)
    }

    /// There is no blank between the last token that was read and the next.
    pub fn touches(&self) -> bool {
        self.tokens[self.at - 1].to == self.from()
    }

    /// A mark or keyword is next.
    pub fn is(&self, mark: &str) -> bool {
        is_mark(self.token(), mark)
    }

    /// Steps over a mark or keyword, if it is next.
    pub fn take(&mut self, mark: &str) -> bool {
        let found = self.is(mark);
        self.at += usize::from(found);
        found
    }

    pub fn need(&mut self, mark: &str, place: &str) -> Read<()> {
        if self.take(mark) {
            return Ok(());
        }
        Err(self.expected(place, &format!("`{mark}`")))
    }

    /// The next token is none that is wanted here.
    pub fn expected(&self, place: &str, wanted: &str) -> Fault {
        let token = self.token();
        let found = match &token.lexeme {
            Lexeme::Fault(fault) => return fault.clone(),
            Lexeme::End => "the end".to_string(),
            Lexeme::Text(_) => "a quoted text".to_string(),
            Lexeme::Escape(name) => format!("`{name}` in backticks"),
            Lexeme::Regex(_) => "a regex".to_string(),
            Lexeme::Word(text) | Lexeme::Mark(text) | Lexeme::Code(text, _) => format!("`{text}`"),
            Lexeme::Use => "`use`".to_string(),
            Lexeme::Module => "`#![..]`".to_string(),
        };
        Fault::new(token.from, format!("{place}: expected {wanted}, found {found}"))
    }

    /// Parts between commas, and the mark that closes them. A comma may stand behind the last part.
    pub fn list<T>(&mut self, close: &str, place: &str, mut part: impl FnMut(&mut Self) -> Read<T>) -> Read<Vec<T>> {
        let mut parts = vec![];
        while !self.is(close) {
            parts.push(part(self)?);
            if !self.take(",") {
                break;
            }
        }
        if !self.take(close) {
            return Err(self.expected(place, &format!("`,` or `{close}`")));
        }
        Ok(parts)
    }

    /// Steps over what isn't carried, up to a mark outside of brackets.
    pub fn skip_to(&mut self, mark: &'a str, place: &str) -> Read<()> {
        let mut open = vec![mark];
        while !(open.len() == 1 && self.is(mark)) {
            let close = open[open.len() - 1];
            match self.token().lexeme {
                Lexeme::Mark("(") => open.push(")"),
                Lexeme::Mark("[") => open.push("]"),
                Lexeme::Mark("{") => open.push("}"),
                Lexeme::Mark("<") => open.push(">"),
                Lexeme::Mark(next) if next == close => drop(open.pop()),
                Lexeme::Mark(next) if ![")", "]", "}", ">", ";"].contains(&next) => {}
                Lexeme::Word(_) | Lexeme::Text(_) | Lexeme::Regex(_) => {}
                _ => return Err(self.expected(place, &format!("`{close}`"))),
            }
            self.step();
        }
        Ok(())
    }

    /// The next token, where it is a word that may be a name.
    pub fn word(&self) -> Option<&'a str> {
        match self.token().lexeme {
            Lexeme::Word(word) if !is_keyword(word) => Some(word),
            _ => None,
        }
    }

    pub fn is_literal(&self) -> bool {
        matches!(self.token().lexeme, Lexeme::Text(_) | Lexeme::Regex(_))
    }

    /// The next token, where it is a text in quotes: what its escapes stand for.
    pub fn quoted(&self) -> Read<Option<String>> {
        match self.token().lexeme {
            Lexeme::Text(text) => Ok(Some(unescaped(text, self.from() + 1)?)),
            _ => Ok(None),
        }
    }

    pub fn name(&mut self, place: &str) -> Read<String> {
        let (at, word) = (self.from(), self.word().ok_or_else(|| self.expected(place, "a name"))?);
        self.step();
        self.carried_name(word, at)
    }

    /// A name that stands there.
    pub fn carried_name(&mut self, word: &str, at: usize) -> Read<String> {
        if word == "error" {
            return Err(Fault::new(at, "the name `error` can't be carried: `!` is printed so"));
        }
        self.plain(word, at, &format!("the name `{word}`"))
    }

    /// A name that stands there in backticks: LALRPOP lets it be any text.
    pub fn escaped_name(&mut self, name: &str) -> Read<String> {
        let at = self.from();
        if !is_name(name.as_bytes()) {
            return Err(Fault::new(
                at,
                format!("the name `{name}` in backticks can't be carried: names are letters, digits and `_`, not `mut` or `error`"),
            ));
        }
        self.step();
        self.carried(name, at)
    }

    /// A text of ASCII.
    pub fn plain(&mut self, text: &str, at: usize, what: &str) -> Read<String> {
        if !text.is_ascii() {
            return Err(Fault::new(at, format!("{what} can't be carried: it is not ASCII")));
        }
        self.carried(text, at)
    }

    /// The text of a terminal, or one that is compared with it.
    pub fn literal(&mut self, text: &str, at: usize, what: &str) -> Read<String> {
        if !is_literal(text.as_bytes()) {
            return Err(Fault::new(at, format!("{what} can't be carried: it is not printable ASCII")));
        }
        self.carried(text, at)
    }

    fn carried(&mut self, text: &str, at: usize) -> Read<String> {
        if text.len() > HALF {
            return Err(Fault::new(at, "a text of more than 65,535 bytes can't be carried"));
        }
        self.texts.insert(text.to_string());
        if self.texts.len() > MOST_TEXTS {
            return Err(Fault::new(at, "more than 65,536 different texts can't be carried"));
        }
        Ok(text.to_string())
    }
}

/// Whether a word is no name.
pub fn is_keyword(word: &str) -> bool {
    KEYWORDS.contains(&word)
}

pub fn is_mark(token: &Token, mark: &str) -> bool {
    matches!(token.lexeme, Lexeme::Word(next) | Lexeme::Mark(next) if next == mark)
}

/// Whether a tape's operand can count the parts.
pub fn counted<T>(parts: Vec<T>, most: usize, at: usize, what: &str) -> Read<Vec<T>> {
    if parts.len() > most {
        return Err(Fault::new(at, format!("{what} can't be carried")));
    }
    Ok(parts)
}
