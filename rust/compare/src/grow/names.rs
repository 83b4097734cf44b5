//! The names of a random tree: new ones, those that fit where they stand, and any where it goes wild.
use super::{Grower, Head, Size};

/// Names of everything: nonterminals, arguments, terminals, so that they meet.
const NAMES: [&str; 12] = ["A", "B", "C", "M", "K", "P", "Q", "n", "x", "_", "E1", "T"];
/// Not names; the first two look like names.
const NO_NAMES: [&str; 6] = ["mut", "error", "", "1a", "a-b", "a b"];

impl Grower<'_> {
    /// One that isn't taken, unless it goes wild: then often one that is.
    pub fn new_name(&mut self, taken: &[String], times: usize) -> String {
        if !taken.is_empty() && self.goes_wild(times) {
            return self.chance.one_of(taken);
        }
        loop {
            let name = self.any_name();
            if !taken.contains(&name) {
                return name;
            }
        }
    }

    /// A name out of the pool; among many items, numbered. Seldom no name at all.
    pub fn any_name(&mut self) -> String {
        if self.goes_wild(1) && self.chance.percent(5) {
            return self.chance.one_of(&NO_NAMES).to_string();
        }
        if self.words {
            return self.word();
        }
        let name = self.chance.one_of(&NAMES);
        if self.size == Size::Few || self.chance.percent(10) {
            return name.to_string();
        }
        format!("{name}{}", self.chance.under(if self.size == Size::Some { 10 } else { 100 }))
    }

    fn word(&mut self) -> String {
        let longest = match self.size {
            Size::Few => 3,
            Size::Some => 6,
            Size::Many => 10,
        };
        (0..1 + self.chance.under(longest)).map(|_| self.chance.one_of(&['a', 'b'])).collect()
    }

    /// Mostly one that is declared somewhere.
    pub fn declared_or_any(&mut self) -> String {
        let declared: Vec<String> = self.heads.iter().map(|head| &head.name).chain(&self.terminals).cloned().collect();
        if declared.is_empty() || self.chance.percent(30) {
            return self.any_name();
        }
        self.chance.one_of(&declared)
    }

    /// A macro that takes so many arguments and that no argument hides.
    pub fn macro_of(&mut self, count: usize) -> Option<String> {
        let fits = |head: &&Head| head.args.len() == count && !self.args.contains(&head.name);
        let names: Vec<String> = self.heads.iter().filter(fits).map(|head| head.name.clone()).collect();
        (!names.is_empty()).then(|| self.chance.one_of(&names))
    }

    /// An argument, a plain nonterminal or, where one may stand, a terminal. Any name where it goes wild.
    pub fn defined(&mut self, terminal: bool) -> Option<String> {
        if self.goes_wild(2) {
            return Some(self.declared_or_any());
        }
        let plain = self.heads.iter().filter(|head| head.args.is_empty()).map(|head| &head.name);
        let mut names: Vec<&String> = plain.chain(&self.args).chain(&self.args).collect();
        if terminal {
            names.extend(&self.terminals);
        }
        (!names.is_empty()).then(|| self.chance.one_of(&names).clone())
    }
}
