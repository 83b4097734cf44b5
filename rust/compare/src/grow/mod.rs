//! Random trees of several sizes over a small pool of names, so that every answer from 5 to 13 and a yes are frequent.
mod names;
mod symbols;

use oracle::chance::Chance;
use reading::tree::*;
use reading::write_over;

const LITERALS: [&str; 9] = ["n", "+", "a\"b", "\\", "", " ~", "x", "A", "mut"];
const CODES: [&str; 6] = ["v", "(<>)", "", "f(\0\t\x7f)", "A", "{ x }"];
const IDS: [&str; 5] = ["precedence", "assoc", "cfg", "inline", "A"];

#[derive(Clone, Copy, Debug, PartialEq, Eq)]
pub enum Size {
    Few,
    Some,
    Many,
}

#[derive(Clone)]
struct Head {
    name: String,
    args: Vec<String>,
}

struct Grower<'a> {
    chance: &'a mut Chance,
    size: Size,
    heads: Vec<Head>,
    terminals: Vec<String>,
    /// The arguments of the nonterminal that grows.
    args: Vec<String>,
    /// Names are words of the letters a and b: many of one length, many with one beginning.
    words: bool,
    /// How often, in ten thousand, a choice is made without regard to what is defined.
    wild: usize,
}

pub fn tree(chance: &mut Chance, size: Size) -> Stage {
    let wild = match size {
        _ if chance.percent(35) => 0,
        Size::Few => 500,
        Size::Some => 60,
        Size::Many => 4,
    };
    tree_so_wild(chance, size, wild)
}

/// The same, so many choices in ten thousand being made without regard to what is defined.
pub fn tree_so_wild(chance: &mut Chance, size: Size, wild: usize) -> Stage {
    let words = chance.percent(25);
    let mut grower = Grower { chance, size, heads: vec![], terminals: vec![], args: vec![], words, wild };
    grower.grow_heads();
    let mut items: Vec<Item> = grower.heads.clone().into_iter().map(|head| grower.nonterminal(head)).collect();
    for name in grower.terminals.clone() {
        let (place, span) = (grower.chance.under(items.len() + 1), grower.span());
        let item = if grower.chance.percent(50) { Item::Extern(span, name) } else { Item::Match(span, name) };
        items.insert(place, item);
    }
    let atoms = grower.atoms(&items);
    Stage { atoms, items }
}

/// The texts of the items, by first use.
pub fn texts(items: &[Item]) -> Vec<Vec<u8>> {
    write_over(&Stage::new(items.to_vec())).0
}

impl Grower<'_> {
    /// `times` makes up for choices that are seldom made.
    fn goes_wild(&mut self, times: usize) -> bool {
        self.chance.under(10_000) < self.wild * times
    }

    fn span(&mut self) -> Span {
        let wide = self.chance.percent(5);
        let mut place = || if wide { self.chance.word() as u32 } else { self.chance.under(200) as u32 };
        Span(place(), place())
    }

    // ---- heads and terminals

    fn grow_heads(&mut self) {
        let (least, more) = match self.size {
            Size::Few => (0, 5),
            Size::Some => (4, 30),
            Size::Many => (100, 300),
        };
        for _ in 0..least + self.chance.under(more) {
            let taken: Vec<String> = self.heads.iter().map(|head| head.name.clone()).collect();
            let name = self.new_name(&taken, 1);
            let count = if self.chance.percent(40) { 1 + self.chance.under(3) } else { 0 };
            let mut args = vec![];
            for _ in 0..count {
                args.push(self.new_name(&args, 3));
            }
            self.heads.push(Head { name, args });
        }
        for _ in 0..self.chance.under(4) {
            let taken: Vec<String> = self.heads.iter().map(|head| &head.name).chain(&self.terminals).cloned().collect();
            let name = self.new_name(&taken, 2);
            self.terminals.push(name);
        }
    }

    // ---- nonterminals and alternatives

    fn count(&mut self, most: usize) -> usize {
        if self.chance.percent(1) {
            return self.chance.under(30);
        }
        self.chance.under(most + 1)
    }

    fn nonterminal(&mut self, head: Head) -> Item {
        self.args = head.args.clone();
        let count = self.count(3);
        Item::Nonterminal(Nonterminal {
            span: self.span(),
            name: head.name,
            inline: self.chance.percent(30),
            public: self.chance.percent(30),
            args: head.args,
            alternatives: (0..count).map(|_| self.alternative()).collect(),
        })
    }

    fn alternative(&mut self) -> Alternative {
        let (attributes, symbols) = (self.chance.under(8).saturating_sub(5), self.count(4));
        Alternative {
            span: self.span(),
            attributes: (0..attributes).map(|_| self.attribute()).collect(),
            condition: self.condition(),
            action: self.action(),
            symbols: (0..symbols).map(|_| self.symbol(1)).collect(),
        }
    }

    fn attribute(&mut self) -> Attribute {
        let id = self.chance.one_of(&IDS).to_string();
        let mut text = || self.chance.one_of(&CODES).to_string();
        let equal = (text(), text());
        Attribute { id, equal: self.chance.percent(70).then_some(equal) }
    }

    fn action(&mut self) -> Action {
        let code = self.chance.one_of(&CODES).to_string();
        match self.chance.under(8) {
            0 | 1 => Action::User(code),
            2 => Action::Fallible(code),
            3 => Action::Lookahead,
            4 => Action::Lookbehind,
            _ => Action::None,
        }
    }

    /// On an argument, or, where it goes wild, on any name.
    fn condition(&mut self) -> Option<Condition> {
        let wild = self.goes_wild(2);
        if !wild && (self.args.is_empty() || self.chance.percent(60)) {
            return None;
        }
        let lhs = if wild { self.declared_or_any() } else { self.chance.one_of(&self.args.clone()) };
        let rhs = self.chance.one_of(&LITERALS).to_string();
        Some(Condition { span: self.span(), lhs, equals: self.chance.percent(50), rhs })
    }

    // ---- atoms

    /// The texts of the items in any order, with some that nothing uses, or none at all (then by first use).
    fn atoms(&mut self, items: &[Item]) -> Vec<Vec<u8>> {
        if self.chance.percent(40) {
            return vec![];
        }
        let mut atoms = texts(items);
        for _ in 0..self.chance.under(4) {
            let length = self.chance.under(9);
            atoms.push(self.chance.bytes(length));
        }
        self.chance.shuffle(&mut atoms);
        atoms
    }
}
