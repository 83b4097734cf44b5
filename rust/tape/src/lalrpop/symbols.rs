//! Symbols.
use super::parser::{counted, is_mark, Parser};
use super::scanner::{unescaped, Lexeme};
use super::unreadable::{Fault, Read};
use crate::sizes::{BYTE, DEEPEST, HALF};
use crate::tree::{Kind, Repeat, Symbol};

const CALL: &str = "a macro call";
const CHOICE: &str = "a choice";

impl Parser<'_> {
    /// As many as there are, so deep.
    pub fn symbols(&mut self, depth: usize) -> Read<Vec<Symbol>> {
        let mut symbols = vec![];
        while self.begins() {
            symbols.push(self.symbol(depth)?);
        }
        Ok(symbols)
    }

    fn begins(&self) -> bool {
        let is_escape = matches!(self.token().lexeme, Lexeme::Escape(_));
        self.is_literal() || is_escape || self.word().is_some() || ["(", "<", "@L", "@R", "!"].iter().any(|mark| self.is(mark))
    }

    fn symbol(&mut self, depth: usize) -> Read<Symbol> {
        let from = self.from();
        within(depth, from)?;
        let kind = self.kind(depth)?;
        let mut symbol = Symbol { span: self.span(from), kind };
        while let Some(op) = self.repeat() {
            symbol = Symbol { span: self.span(from), kind: Kind::Repeat(op, Box::new(symbol)) };
            within(depth + height(&symbol), from)?;
        }
        Ok(symbol)
    }

    fn repeat(&mut self) -> Option<Repeat> {
        let ops = [("*", Repeat::Star), ("+", Repeat::Plus), ("?", Repeat::Question)];
        ops.into_iter().find(|(mark, _)| self.take(mark)).map(|(_, op)| op)
    }

    /// A symbol without what repeats it.
    fn kind(&mut self, depth: usize) -> Read<Kind> {
        match self.token().lexeme.clone() {
            Lexeme::Text(text) => Ok(Kind::Quoted(self.terminal(&unescaped(text, self.from() + 1)?, "a quoted terminal")?)),
            // no other name stands for a nonterminal alone
            Lexeme::Escape(name) => Ok(Kind::Nonterminal(self.escaped_name(name)?)),
            Lexeme::Regex(text) => Ok(Kind::Regex(self.terminal(text, "a regex")?)),
            Lexeme::Word(_) => self.named(depth),
            Lexeme::Mark("(") => self.group(depth),
            Lexeme::Mark("<") => self.chosen(depth),
            Lexeme::Mark("@L") => Ok(self.only(Kind::Lookahead)),
            Lexeme::Mark("@R") => Ok(self.only(Kind::Lookbehind)),
            Lexeme::Mark("!") => Ok(self.only(Kind::Error)),
            _ => Err(self.expected("an alternative", "a symbol")),
        }
    }

    fn terminal(&mut self, text: &str, what: &str) -> Read<String> {
        let text = self.literal(text, self.from(), what)?;
        self.step();
        Ok(text)
    }

    /// Of one mark.
    fn only(&mut self, kind: Kind) -> Kind {
        self.step();
        kind
    }

    /// `<` is next, with no blank before it: `M<A>` is a call, `M <A>` is a name and a choice.
    pub fn calls(&self) -> bool {
        self.is("<") && self.touches()
    }

    fn named(&mut self, depth: usize) -> Read<Kind> {
        let at = self.from();
        let name = self.name("an alternative")?;
        if !self.calls() {
            return Ok(Kind::Ambiguous(name));
        }
        self.step();
        let arguments = self.list(">", CALL, |parser| parser.symbol(depth + 1))?;
        if arguments.is_empty() {
            return Err(Fault::new(at, "a macro call without arguments can't be carried"));
        }
        Ok(Kind::Macro(name, counted(arguments, BYTE, at, "a macro call with more than 255 arguments")?))
    }

    fn group(&mut self, depth: usize) -> Read<Kind> {
        let at = self.from();
        self.step();
        let symbols = self.symbols(depth + 1)?;
        self.need(")", "a group")?;
        Ok(Kind::Group(counted(symbols, HALF, at, "a group with more than 65,535 symbols")?))
    }

    /// `<A>`, or `<name:A>`, which is no choice.
    fn chosen(&mut self, depth: usize) -> Read<Kind> {
        let at = self.from();
        self.step();
        if self.is_tuple() {
            return Err(Fault::new(at, "a tuple pattern can't be carried"));
        }
        let mutable = self.take("mut");
        let name = if mutable || (self.word().is_some() && is_mark(self.ahead(1), ":")) {
            let name = self.name(CHOICE)?;
            self.need(":", CHOICE)?;
            Some(name)
        } else {
            None
        };
        let inner = Box::new(self.symbol(depth + 1)?);
        self.need(">", CHOICE)?;
        Ok(match name {
            Some(name) => Kind::Name { mutable, name, inner },
            None => Kind::Choose(inner),
        })
    }

    /// `(a, b):` is next.
    fn is_tuple(&self) -> bool {
        let (mut count, mut open) = (0, 0);
        loop {
            let token = self.ahead(count);
            match token.lexeme {
                Lexeme::Mark("(") => open += 1,
                Lexeme::Mark(")") => open -= 1,
                Lexeme::Mark(",") | Lexeme::Word(_) => {}
                _ => return false,
            }
            count += 1;
            if open == 0 {
                return count > 1 && is_mark(self.ahead(count), ":");
            }
        }
    }
}

/// How many symbols are inside of each other below this one.
fn height(symbol: &Symbol) -> usize {
    symbol.kind.inner().iter().map(|inner| 1 + height(inner)).max().unwrap_or(0)
}

fn within(depth: usize, at: usize) -> Read<()> {
    if depth > DEEPEST {
        return Err(Fault::new(at, "a symbol more than 64 deep can't be carried"));
    }
    Ok(())
}
