//! Symbols of the random trees.
use super::{Grower, Head, ANY_NAME};
use oracle::convert::nonterminal_string;
use oracle::grammar::parse_tree::*;
use oracle::DefaultAtom as Atom;

/// Names of `n:A`.
const VALUE_NAMES: [&str; 5] = ["v", "e", "left", "_0", "P"];

fn repeated(op: RepeatOp, symbol: Symbol) -> SymbolKind {
    SymbolKind::Repeat(Box::new(RepeatSymbol { op, symbol }))
}

fn other_than(place: usize, names: &[&'static str]) -> Vec<&'static str> {
    names.iter().enumerate().filter(|&(index, _)| index != place).map(|(_, name)| *name).collect()
}

impl Grower<'_> {
    /// A symbol so deep; it is a name so many times in a hundred.
    pub fn symbol(&mut self, depth: usize, names: usize) -> Symbol {
        if std::mem::take(&mut self.tower) {
            return self.deep();
        }
        let span = self.span();
        let kind = if depth < self.most_deep && self.chance.percent(names) {
            let name = Name::new(self.chance.percent(30), Atom::from(self.chance.one_of(&VALUE_NAMES)));
            SymbolKind::Name(name, Box::new(self.symbol(depth + 1, 2)))
        } else if depth < self.most_deep && self.chance.percent(45) {
            self.outer(depth)
        } else {
            self.leaf()
        };
        Symbol { span, kind }
    }

    /// A symbol behind 60 to 62 choices, and mostly repeated.
    fn deep(&mut self) -> Symbol {
        let mut symbol = Symbol { span: self.span(), kind: self.leaf() };
        for _ in 0..self.chance.one_of(&[60, 61, 62, 62, 62]) {
            symbol = Symbol { span: self.span(), kind: SymbolKind::Choose(Box::new(symbol)) };
        }
        let op = self.chance.one_of(&[RepeatOp::Star, RepeatOp::Star, RepeatOp::Plus, RepeatOp::Question]);
        let kind = if self.chance.percent(80) { repeated(op, symbol) } else { SymbolKind::Choose(Box::new(symbol)) };
        Symbol { span: self.span(), kind }
    }

    fn outer(&mut self, depth: usize) -> SymbolKind {
        match self.chance.under(10) {
            0..=2 => {
                let op = self.chance.one_of(&[RepeatOp::Star, RepeatOp::Plus, RepeatOp::Question]);
                repeated(op, self.symbol(depth + 1, 2))
            }
            3 | 4 => SymbolKind::Choose(Box::new(self.symbol(depth + 1, 3))),
            5 | 6 => {
                let count = self.chance.under(4);
                SymbolKind::Expr(ExprSymbol { symbols: (0..count).map(|_| self.symbol(depth + 1, self.named)).collect() })
            }
            _ => self.call(depth),
        }
    }

    /// Mostly of a macro that is there, with its count of arguments.
    fn call(&mut self, depth: usize) -> SymbolKind {
        let macros: Vec<Head> = self.heads.iter().filter(|head| !head.args.is_empty()).cloned().collect();
        let wild = self.goes_wild();
        if macros.is_empty() && !wild {
            return self.leaf();
        }
        let head = if wild || macros.is_empty() {
            Head { name: self.chance.one_of(&ANY_NAME), args: vec!["P"] }
        } else {
            self.chance.one_of(&macros)
        };
        let count = if self.chance.percent(2 * self.wild) { 1 + self.chance.under(3) } else { head.args.len() };
        let args = (0..count).map(|place| self.argument(depth, &other_than(place, &head.args))).collect();
        SymbolKind::Macro(MacroSymbol { name: nonterminal_string(head.name), args })
    }

    /// Often a quoted literal, since conditions ask for one; often a nonterminal that bears another parameter's name, which putting
    /// that one in must not catch.
    fn argument(&mut self, depth: usize, others: &[&'static str]) -> Symbol {
        let plain = |name: &&&str| self.heads.iter().any(|head| head.args.is_empty() && head.name == **name);
        let namesakes: Vec<&str> = others.iter().filter(plain).copied().collect();
        if !namesakes.is_empty() && self.chance.percent(80) {
            let kind = SymbolKind::AmbiguousId(Atom::from(self.chance.one_of(&namesakes)));
            return Symbol { span: self.span(), kind };
        }
        if self.chance.percent(55) {
            let kind = SymbolKind::Terminal(TerminalString::quoted(self.literal()));
            return Symbol { span: self.span(), kind };
        }
        self.symbol(depth + 1, 3)
    }

    fn leaf(&mut self) -> SymbolKind {
        let literal = self.literal();
        match self.chance.under(20) {
            0..=8 => SymbolKind::AmbiguousId(self.defined_name(true)),
            9..=11 => SymbolKind::Nonterminal(NonterminalString(self.defined_name(false))),
            12..=14 => SymbolKind::Terminal(TerminalString::quoted(literal)),
            15 => SymbolKind::Terminal(TerminalString::regex(literal)),
            16 => SymbolKind::Terminal(TerminalString::Bare(self.any_name())),
            17 => SymbolKind::Lookahead,
            18 => SymbolKind::Lookbehind,
            _ => SymbolKind::Error,
        }
    }

    /// Half of the time the name of some item, macros too.
    fn any_name(&mut self) -> Atom {
        let mut names: Vec<&str> = self.heads.iter().map(|head| head.name).chain(self.terminals.iter().copied()).collect();
        names.push("nowhere");
        Atom::from(if self.chance.percent(50) { self.chance.one_of(&ANY_NAME) } else { self.chance.one_of(&names) })
    }

    /// An argument, a plain nonterminal or, where one may stand, a terminal; often the nonterminal itself. Any name if it goes wild.
    fn defined_name(&mut self, terminal: bool) -> Atom {
        let plain = self.heads.iter().filter(|head| head.args.is_empty()).map(|head| head.name);
        let mut names: Vec<&str> = plain.chain(self.at.args.iter().copied()).chain(self.at.args.iter().copied()).collect();
        if self.annotated {
            names.extend([self.at.name; 6]);
        }
        if terminal {
            names.extend(&self.terminals);
        }
        if names.is_empty() || self.goes_wild() {
            return self.any_name();
        }
        Atom::from(self.chance.one_of(&names))
    }
}
