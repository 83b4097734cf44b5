//! The tapes in docs/examples.
use std::path::{Path, PathBuf};
use tape::tree::{Alternative, Item, Nonterminal, Repeat, Span, Stage, Symbol};

/// docs/examples
pub fn folder() -> PathBuf {
    Path::new(env!("CARGO_MANIFEST_DIR")).join("../../docs/examples")
}

/// Each tape by its file's name.
pub fn all() -> [(&'static str, Vec<u8>); 2] {
    let query = std::fs::read_to_string(folder().join("query.lalrpop")).expect("a grammar");
    let query = tape::lalrpop::parse(&query).expect("a grammar that a tape carries");
    [("listing.tape", tape::write(&listing())), ("query.tape", tape::write(&query))]
}

/// Document 01's `pub L = n*;` with an extern terminal that stands nowhere; the program list of crates is run on it too.
fn listing() -> Stage {
    let place = Span(4, 6);
    let star = Symbol::name("n").at(Span(4, 5)).repeated(Repeat::Star).at(place);
    let item = Nonterminal::new("L").public().alternative(Alternative::new([star]).at(place)).at(Span(0, 9));
    Stage::new([item.into(), Item::external("n")])
}
