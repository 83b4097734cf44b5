//! The symbols of a random tree.
use super::{Grower, LITERALS};
use reading::tree::*;

const MOST_DEEP: usize = 5;

impl Grower<'_> {
    pub fn symbol(&mut self, depth: usize) -> Symbol {
        if depth == 1 && self.chance.under(400) == 0 {
            return self.tower();
        }
        let span = self.span();
        let kind = if depth < MOST_DEEP && self.chance.percent(40) { self.outer(depth) } else { self.leaf() };
        Symbol { span, kind }
    }

    /// About as deep as is allowed; one deeper where it goes wild.
    fn tower(&mut self) -> Symbol {
        let layers = if self.goes_wild(20) { 64 } else { 60 + self.chance.under(4) };
        let mut symbol = Symbol { span: self.span(), kind: self.leaf() };
        for _ in 0..layers {
            let kind = self.layer(symbol);
            symbol = Symbol { span: self.span(), kind };
        }
        symbol
    }

    /// A symbol around one other.
    fn layer(&mut self, symbol: Symbol) -> Kind {
        match self.chance.under(5) {
            0 => Kind::Repeat(self.chance.one_of(&[Repeat::Star, Repeat::Plus, Repeat::Question]), Box::new(symbol)),
            1 => Kind::Choose(Box::new(symbol)),
            2 => Kind::Group(vec![symbol]),
            3 => self.macro_of(1).map_or(Kind::Choose(Box::new(symbol.clone())), |name| Kind::Macro(name, vec![symbol])),
            _ => {
                let (mutable, name) = (self.chance.percent(30), self.any_name());
                Kind::Name { mutable, name, inner: Box::new(symbol) }
            }
        }
    }

    fn outer(&mut self, depth: usize) -> Kind {
        match self.chance.under(10) {
            0..=4 => {
                let inner = self.symbol(depth + 1);
                self.layer(inner)
            }
            5 | 6 => Kind::Group((0..self.count(3)).map(|_| self.symbol(depth + 1)).collect()),
            _ => self.call(depth),
        }
    }

    fn call(&mut self, depth: usize) -> Kind {
        let count = 1 + self.chance.under(3);
        let name = if self.goes_wild(3) { Some(self.declared_or_any()) } else { self.macro_of(count) };
        let Some(name) = name else { return self.leaf() };
        let count = if self.goes_wild(3) { 1 + self.chance.under(4) } else { count };
        Kind::Macro(name, (0..count).map(|_| self.symbol(depth + 1)).collect())
    }

    fn leaf(&mut self) -> Kind {
        let literal = self.chance.one_of(&LITERALS).to_string();
        let found = match self.chance.under(20) {
            0..=8 => self.defined(true).map(Kind::Ambiguous),
            9..=12 => self.defined(false).map(Kind::Nonterminal),
            13 => Some(Kind::Bare(self.any_name())),
            14 => Some(Kind::Regex(literal.clone())),
            15 => Some(Kind::Lookahead),
            16 => Some(Kind::Lookbehind),
            17 => Some(Kind::Error),
            _ => None,
        };
        found.unwrap_or(Kind::Quoted(literal))
    }
}
