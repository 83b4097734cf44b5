//! The blocks that declare terminals.
use super::parser::{is_keyword, Parser};
use super::scanner::{tokens, unescaped, Lexeme};
use super::unreadable::{Fault, Read};
use crate::tree::Item;

const EXTERN: &str = "`extern` block";
const MATCH: &str = "`match` block";

impl Parser<'_> {
    /// A name that a token is declared by is carried, its pattern isn't.
    pub fn extern_block(&mut self, items: &mut Vec<Item>) -> Read<()> {
        self.need("{", EXTERN)?;
        self.associated_types()?;
        if self.take("enum") {
            self.skip_to("{", EXTERN)?;
            self.step();
            items.extend(self.list("}", EXTERN, Self::conversion)?.into_iter().flatten());
            self.associated_types()?;
        }
        self.need("}", EXTERN)
    }

    fn associated_types(&mut self) -> Read<()> {
        while self.take("type") {
            self.skip_to(";", EXTERN)?;
            self.step();
        }
        Ok(())
    }

    /// `"x" => pattern` or `name => pattern`
    fn conversion(&mut self) -> Read<Option<Item>> {
        let (from, word) = (self.from(), self.word());
        if self.is("#") {
            return Err(Fault::new(from, "an attribute of a token can't be carried"));
        }
        if word.is_none() && !self.is_literal() {
            return Err(self.expected(EXTERN, "a terminal"));
        }
        self.quoted()?;
        self.step();
        let Lexeme::Code("=>", pattern) = self.token().lexeme else {
            return Err(self.expected(EXTERN, "`=>`"));
        };
        if pattern.trim().is_empty() {
            return Err(Fault::new(self.from(), format!("{EXTERN}: expected a pattern behind `=>`")));
        }
        self.step();
        let span = self.span(from);
        word.map(|word| Ok(Item::Extern(span, self.carried_name(word, from)?))).transpose()
    }

    /// A name that a literal is mapped to is carried, the literal isn't.
    pub fn match_block(&mut self, items: &mut Vec<Item>) -> Read<()> {
        loop {
            self.need("{", MATCH)?;
            items.extend(self.list("}", MATCH, Self::match_item)?.into_iter().flatten());
            if !self.take("else") {
                return Ok(());
            }
        }
    }

    /// `_`, `literal` or `literal => terminal`
    fn match_item(&mut self) -> Read<Option<Item>> {
        let from = self.from();
        if self.take("_") {
            return Ok(None);
        }
        if !self.is_literal() {
            return Err(self.expected(MATCH, "a literal or `_`"));
        }
        self.quoted()?;
        self.step();
        let Lexeme::Code("=>", code) = self.token().lexeme else { return Ok(None) };
        let end = self.token().to;
        self.step();
        let Some((word, at)) = self.mapped(end - code.len(), end)? else { return Ok(None) };
        let name = self.carried_name(word, at)?;
        Ok(Some(Item::Match(self.span(from), name)))
    }
}

impl<'a> Parser<'a> {
    /// The name between these offsets, if what stands there is one; a literal and `{}` are none.
    fn mapped(&self, from: usize, to: usize) -> Read<Option<(&'a str, usize)>> {
        let found = tokens(&self.text[..to], from);
        let lexemes: Vec<&Lexeme> = found.iter().map(|token| &token.lexeme).collect();
        match lexemes[..] {
            [.., Lexeme::Fault(fault)] => Err(fault.clone()),
            [Lexeme::Word(word), Lexeme::End] if !is_keyword(word) => Ok(Some((word, found[0].from))),
            [Lexeme::Text(text), Lexeme::End] => unescaped(text, found[0].from + 1).map(|_| None),
            [Lexeme::Regex(_), Lexeme::End] | [Lexeme::Mark("{"), Lexeme::Mark("}"), Lexeme::End] => Ok(None),
            _ => Err(Fault::new(found[0].from, format!("{MATCH}: expected a terminal or `{{}}` behind `=>`"))),
        }
    }
}
