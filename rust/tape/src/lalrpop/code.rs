//! Steps over Rust code and comments without reading them, as LALRPOP's tokenizer does.
use super::scanner::Scanner;
use super::unreadable::{Fault, Read};

impl<'a> Scanner<'a> {
    /// Blanks and comments.
    pub fn blanks(&mut self) -> Read<()> {
        loop {
            self.at = self.text.len() - self.rest().trim_start().len();
            if !self.comment()? {
                return Ok(());
            }
        }
    }

    /// Steps over a comment, if one is next. Block comments nest, as in Rust.
    fn comment(&mut self) -> Read<bool> {
        let from = self.at;
        if self.rest().starts_with("//") {
            self.at += self.rest().find('\n').unwrap_or(self.rest().len());
        } else if self.rest().starts_with("/*") {
            let mut open = 0;
            while open > 0 || self.at == from {
                let rest = self.rest();
                if rest.is_empty() {
                    return Err(Fault::new(from, "a comment is not closed"));
                }
                match &rest.as_bytes()[..rest.len().min(2)] {
                    b"/*" => (self.at, open) = (self.at + 2, open + 1),
                    b"*/" => (self.at, open) = (self.at + 2, open - 1),
                    _ => self.step(),
                }
            }
        }
        Ok(self.at > from)
    }

    /// What is between two quotes, escapes as they are written.
    pub fn quoted(&mut self) -> Read<&'a str> {
        let from = self.at;
        self.step();
        while let Some(next) = self.peek() {
            if next == '"' {
                self.step();
                return Ok(&self.text[from + 1..self.at - 1]);
            }
            self.step();
            if next == '\\' {
                self.step();
            }
        }
        Err(Fault::new(from, "a text in quotes is not closed"))
    }

    /// What is inside `r".."`, `r#".."#` and so on, if one is next.
    pub fn raw(&mut self) -> Read<Option<&'a str>> {
        let Some(behind) = self.rest().strip_prefix('r') else { return Ok(None) };
        let hashes = behind.len() - behind.trim_start_matches('#').len();
        let Some(inside) = behind[hashes..].strip_prefix('"') else { return Ok(None) };
        let close = format!("\"{}", &behind[..hashes]);
        let length = inside.find(&close).ok_or_else(|| Fault::new(self.at, "a text in quotes is not closed"))?;
        self.at = self.text.len() - inside.len() + length + close.len();
        Ok(Some(&inside[..length]))
    }

    /// A character in single quotes, or else the tick of a lifetime.
    pub fn tick(&mut self) {
        let inside = &self.rest()[1..];
        let mut after = inside.char_indices().skip(1);
        let escaped = inside.starts_with('\\');
        let close = if escaped { after.skip(1).find(|(_, next)| *next == '\'') } else { after.next().filter(|(_, next)| *next == '\'') };
        self.at += 1 + close.map_or(0, |(at, _)| at + 1);
    }

    /// Rust code, up to a comma, semicolon or closing bracket outside of its own brackets, or the text's end.
    pub fn code(&mut self) -> Read<&'a str> {
        let (from, mut open) = (self.at, vec![]);
        while let Some(next) = self.peek() {
            match next {
                ',' | ';' | ')' | ']' | '}' if open.is_empty() => break,
                '(' | '[' | '{' => open.push(self.at),
                ')' | ']' | '}' => drop(open.pop()),
                _ => {}
            }
            self.piece(next)?;
        }
        match open.last() {
            Some(&at) => Err(Fault::new(at, "a bracket in Rust code is not closed")),
            None => Ok(&self.text[from..self.at]),
        }
    }

    /// What may hold brackets that don't count, or one character.
    fn piece(&mut self, next: char) -> Read<()> {
        match next {
            '"' => drop(self.quoted()?),
            '\'' => self.tick(),
            _ if self.comment()? || self.raw()?.is_some() => {}
            _ => self.step(),
        }
        Ok(())
    }
}
