//! LALRPOP's name resolution, levels and macros over a parse tree that is there already, for measuring them.
#[cfg(lalrpop)]
use crate::{
    convert::to_grammar,
    grammar::parse_tree::Grammar,
    normalize::{macro_expand::expand_macros, precedence::expand_precedence, resolve::resolve},
};
use reading::tree::Stage;

/// Within so many rounds macros are expanded: more than any tape that is measured takes.
pub const ROUNDS: u16 = 20_000;

/// A tree in LALRPOP's own types.
#[derive(Clone)]
pub struct Ready(#[cfg(lalrpop)] Grammar);

#[cfg(lalrpop)]
impl Ready {
    /// Nothing where the Rust isn't there.
    pub fn of(stage: &Stage) -> Option<Ready> {
        Some(Ready(to_grammar(stage)))
    }

    /// The resolved tree, or nothing where it is refused.
    pub fn resolved(self) -> Option<Ready> {
        resolve(self.0).ok().map(Ready)
    }

    /// The levelled tree, or nothing where it is refused. `expand_precedence` resolves it first, be it resolved already.
    pub fn levelled(self) -> Option<Ready> {
        expand_precedence(self.0).ok().map(Ready)
    }

    /// The tree with its macros expanded, or nothing where it is refused. `expand_macros` resolves it first.
    pub fn expanded(self) -> Option<Ready> {
        expand_macros(self.0, ROUNDS).ok().map(Ready)
    }

    /// The tree behind both passes, or nothing where it is refused. Each resolves it first.
    pub fn passed(self) -> Option<Ready> {
        expand_macros(expand_precedence(self.0).ok()?, ROUNDS).ok().map(Ready)
    }
}

#[cfg(not(lalrpop))]
impl Ready {
    pub fn of(_: &Stage) -> Option<Ready> {
        None
    }

    pub fn resolved(self) -> Option<Ready> {
        None
    }

    pub fn levelled(self) -> Option<Ready> {
        None
    }

    pub fn expanded(self) -> Option<Ready> {
        None
    }

    pub fn passed(self) -> Option<Ready> {
        None
    }
}
