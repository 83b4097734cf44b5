//! Terminals, repeats and actions of LALRPOP's tree as a tape has them. The crate parser compiles this file too, over the types of LALRPOP 0.19.8.
use crate::grammar::parse_tree::{ActionKind, RepeatOp, TerminalLiteral, TerminalString};
use tape::tree::{Action, Kind, Repeat};

pub fn terminal(terminal: &TerminalString) -> Kind {
    match terminal {
        TerminalString::Bare(name) => Kind::Bare(name.to_string()),
        TerminalString::Literal(TerminalLiteral::Quoted(text)) => Kind::Quoted(text.to_string()),
        TerminalString::Literal(TerminalLiteral::Regex(text)) => Kind::Regex(text.to_string()),
        TerminalString::Error => Kind::Error,
    }
}

pub fn repeat(op: &RepeatOp) -> Repeat {
    match op {
        RepeatOp::Star => Repeat::Star,
        RepeatOp::Plus => Repeat::Plus,
        RepeatOp::Question => Repeat::Question,
    }
}

pub fn action(kind: &Option<ActionKind>) -> Action {
    match kind {
        None => Action::None,
        Some(ActionKind::User(text)) => Action::User(text.clone()),
        Some(ActionKind::Fallible(text)) => Action::Fallible(text.clone()),
        Some(ActionKind::Lookahead) => Action::Lookahead,
        Some(ActionKind::Lookbehind) => Action::Lookbehind,
    }
}
