//! Grammars in LALRPOP's notation, as far as a tape carries them.
//!
//! Read and left out, since no tape carries them: `use`, the `grammar` line, types, patterns of tokens, and attributes of the whole grammar.
//! What would change the grammar if it were left out is an error: see [`Unreadable`]. Whether names are declared, once and as what they are
//! used as, is not asked here: name resolution does that.
mod alternatives;
mod code;
mod items;
mod parser;
mod scanner;
mod symbols;
mod terminals;
mod unreadable;

pub use unreadable::Unreadable;

use crate::tree::{Item, Stage};
use parser::Parser;
use unreadable::Read;

/// The tree of a grammar. Spans are bytes of the text, names are not yet resolved, and there are no atoms: [`write`](crate::write()) makes them.
///
/// ```
/// use tape::lalrpop::parse;
/// use tape::tree::{Action, Item, Kind};
///
/// let stage = parse("grammar; pub Sum: i32 = <l:Sum> \"+\" <r:num> => l + r;").unwrap();
/// let [Item::Nonterminal(sum)] = &stage.items[..] else { panic!() };
/// assert!(sum.public && sum.name == "Sum");
/// let [only] = &sum.alternatives[..] else { panic!() };
/// assert_eq!(only.action, Action::User("l + r".into()));
/// assert_eq!(only.symbols[1].kind, Kind::Quoted("+".into()));
/// ```
///
/// What is no grammar, or can't be carried, is said with its place:
///
/// ```
/// let no = tape::lalrpop::parse("grammar;\nA = B<>;").unwrap_err();
/// assert_eq!(no.to_string(), "2:5: a macro call without arguments can't be carried");
/// ```
pub fn parse(text: &str) -> Result<Stage, Unreadable> {
    stage(text, Parser::new(text).and_then(|mut parser| parser.grammar()))
}

/// The tree of a grammar's items alone: what stands behind the `grammar` line.
///
/// ```
/// use tape::lalrpop::parse_items;
/// use tape::tree::{Item, Span};
///
/// let stage = parse_items("extern { enum Token { n => N } }").unwrap();
/// assert_eq!(stage.items, [Item::external("n").at(Span(22, 29))]);
/// assert!(parse_items("grammar; A = B;").is_err());
/// ```
pub fn parse_items(text: &str) -> Result<Stage, Unreadable> {
    stage(text, Parser::new(text).and_then(|mut parser| parser.items()))
}

fn stage(text: &str, items: Read<Vec<Item>>) -> Result<Stage, Unreadable> {
    Ok(Stage::new(items.map_err(|fault| fault.located(text))?))
}
