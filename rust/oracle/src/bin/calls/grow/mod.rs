//! Random small trees, in the part of LALRPOP's parse tree that document 01's tape carries.
mod attributes;
mod symbols;

use attributes::LADDERS;
use oracle::chance::Chance;
use oracle::convert::{attribute, extern_token, grammar, match_token, nonterminal_string};
use oracle::grammar::parse_tree::*;
use oracle::DefaultAtom as Atom;

const NAMES: [&str; 10] = ["S", "A", "B", "E", "M", "K", "E1", "M1", "E2", "_x"];
const ARGUMENTS: [&str; 8] = ["P", "Q", "P", "Q", "A", "M", "M1", "E1"];
const TERMINALS: [&str; 7] = ["n", "x", "T", "v", "P", "E1", "E2"];
const ANY_NAME: [&str; 9] = ["S", "A", "E", "M", "P", "Q", "n", "x", "nowhere"];
const LITERALS: [&str; 10] = ["n", "+", "a\"b", "\\", "'", "", " ", "x", "A", "(A)"];
const CODES: [&str; 6] = ["v", "(<>)", "", "f(\u{0}\t\u{7f})", "Some(<>)", "{ let x = \"\\\"; }"];

#[derive(Clone)]
struct Head {
    name: &'static str,
    args: Vec<&'static str>,
}

/// Grows one tree: the heads of its nonterminals and its terminals first, so that most names can be defined ones.
pub struct Grower<'a> {
    chance: &'a mut Chance,
    heads: Vec<Head>,
    terminals: Vec<&'static str>,
    /// The nonterminal that is growing, and whether it is annotated.
    at: Head,
    annotated: bool,
    ladder: [&'static str; 4],
    /// How often, in a hundred, a choice is made without regard to what is defined.
    wild: usize,
    /// How often a level or a side can't be read, or has no value.
    bad: usize,
    /// How often a symbol of a group has a name.
    named: usize,
    /// Whether a symbol is about as deep as is allowed; only one is.
    tower: bool,
    most_deep: usize,
}

pub fn tree(chance: &mut Chance) -> Grammar {
    let wild = if chance.percent(70) { 0 } else { 6 };
    let bad = if chance.percent(85) { 1 } else { 20 };
    let named = if chance.percent(85) { 2 } else { 40 };
    let tower = chance.percent(10);
    let most_deep = if chance.percent(80) { 3 } else { 6 };
    let at = Head { name: "S", args: vec![] };
    let mut grower =
        Grower { chance, heads: vec![], terminals: vec![], at, annotated: false, ladder: LADDERS[0], wild, bad, named, tower, most_deep };
    grower.grow_heads();
    let mut items: Vec<GrammarItem> = grower.heads.clone().into_iter().map(|head| grower.nonterminal(head)).collect();
    for name in grower.terminals.clone() {
        let place = grower.chance.under(items.len() + 1);
        let item = grower.terminal(name);
        items.insert(place, item);
    }
    grammar(items)
}

impl Grower<'_> {
    fn goes_wild(&mut self) -> bool {
        self.chance.percent(self.wild)
    }

    fn span(&mut self) -> Span {
        let mut place = || if self.chance.under(200) == 0 { u32::MAX as usize } else { self.chance.under(100) };
        Span(place(), place())
    }

    /// A text of the tape: mostly one of these, else up to six bytes from the first to the last.
    fn text(&mut self, texts: &[&str], first: u8, last: u8) -> String {
        if self.chance.percent(90) {
            return self.chance.one_of(texts).to_string();
        }
        let width = (last - first) as usize + 1;
        (0..self.chance.under(7)).map(|_| (first + self.chance.under(width) as u8) as char).collect()
    }

    /// For quoted and regex texts and the right side of a condition.
    fn literal(&mut self) -> Atom {
        Atom::from(self.text(&LITERALS, 0x20, 0x7e))
    }

    // ---- heads and terminals

    fn grow_heads(&mut self) {
        let most = if self.chance.percent(1) { 0 } else { 1 + self.chance.under(if self.tower { 1 } else { 4 }) };
        for _ in 0..most {
            let taken: Vec<_> = self.heads.iter().map(|head| head.name).collect();
            let name = self.new_name(&NAMES, &taken);
            let count = if self.chance.percent(40) { 1 + self.chance.under(2) } else { 0 };
            // arguments named like nonterminals, so that one put in can be taken for the next
            let like_others = taken.len() > 1 && self.chance.percent(75);
            let pool = if like_others { &taken[..] } else { &ARGUMENTS };
            let mut args = vec![];
            for _ in 0..count {
                args.push(self.new_name(pool, &args));
            }
            if count > 0 && self.goes_wild() {
                args.push(args[0]);
            }
            self.heads.push(Head { name, args });
        }
        for _ in 0..self.chance.under(4) {
            let taken: Vec<_> = self.heads.iter().map(|head| head.name).chain(self.terminals.iter().copied()).collect();
            let name = self.new_name(&TERMINALS, &taken);
            self.terminals.push(name);
        }
    }

    /// One that isn't taken, unless it goes wild.
    fn new_name(&mut self, names: &[&'static str], taken: &[&str]) -> &'static str {
        loop {
            let name = self.chance.one_of(names);
            if !taken.contains(&name) || self.goes_wild() {
                return name;
            }
        }
    }

    fn terminal(&mut self, name: &str) -> GrammarItem {
        let span = self.span();
        if self.chance.percent(50) {
            return GrammarItem::MatchToken(match_token(span, name));
        }
        GrammarItem::ExternToken(extern_token(span, name))
    }

    // ---- nonterminals and alternatives

    fn nonterminal(&mut self, head: Head) -> GrammarItem {
        self.at = head.clone();
        self.annotated = self.chance.percent(if head.args.is_empty() { 40 } else { 8 });
        self.ladder = self.chance.one_of(&LADDERS);
        let count = self.chance.under(4) + self.annotated as usize;
        let alternatives = (0..count).map(|index| self.alternative(index)).collect();
        let inline = self.chance.percent(20);
        GrammarItem::Nonterminal(NonterminalData {
            visibility: if self.chance.percent(30) { Visibility::Pub(None) } else { Visibility::Priv },
            name: nonterminal_string(head.name),
            attributes: if inline { vec![attribute("inline", AttributeArg::Empty)] } else { vec![] },
            span: self.span(),
            args: head.args.iter().map(|name| nonterminal_string(name)).collect(),
            type_decl: None,
            alternatives,
        })
    }

    fn alternative(&mut self, index: usize) -> Alternative {
        let count = self.chance.under(4) + self.annotated as usize;
        Alternative {
            span: self.span(),
            expr: ExprSymbol { symbols: (0..count).map(|_| self.symbol(1, 12)).collect() },
            condition: self.condition(),
            action: self.action(),
            attributes: self.attributes(index),
        }
    }

    fn action(&mut self) -> Option<ActionKind> {
        let code = self.text(&CODES, 0x00, 0x7f);
        match self.chance.under(8) {
            0..=2 => Some(ActionKind::User(code)),
            3 => Some(ActionKind::Fallible(code)),
            4 if self.chance.percent(30) => Some(ActionKind::Lookahead),
            5 if self.chance.percent(30) => Some(ActionKind::Lookbehind),
            _ => None,
        }
    }

    fn condition(&mut self) -> Option<Condition> {
        let of_argument = !self.at.args.is_empty() && self.chance.percent(30);
        let wild = self.chance.percent(self.wild);
        if !of_argument && !wild {
            return None;
        }
        let lhs = if wild { self.chance.one_of(&ANY_NAME) } else { self.chance.one_of(&self.at.args.clone()) };
        Some(Condition {
            span: self.span(),
            lhs: nonterminal_string(lhs),
            rhs: self.literal(),
            op: self.chance.one_of(&[ConditionOp::Equals, ConditionOp::NotEquals]),
        })
    }
}
