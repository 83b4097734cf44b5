//! What the tests of the reader share.
use tape::tree::Stage;

/// The tree of a grammar, whose tape is read back as the same tree.
pub fn carried(grammar: &str) -> Stage {
    let stage = tape::lalrpop::parse(grammar).unwrap_or_else(|no| panic!("{no}\n{grammar}"));
    let back = reading::read(&tape::write(&stage)).expect("a tape");
    assert_eq!(back.items, stage.items);
    stage
}
