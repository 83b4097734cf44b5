//! What the Rust answers to a tree, in document 01's numbers.
#[cfg(lalrpop)]
use crate::normalize::NormError;
use reading::tree::Stage;
use reading::Refusal;

/// Why something is skipped where they weren't.
pub const NOT_THERE: &str = "LALRPOP's files are not there; LALRPOP_SRC names their folder";

/// Whether LALRPOP's files were there to be compiled.
pub fn is_there() -> bool {
    cfg!(lalrpop)
}

/// Its name resolution: the resolved tree, over the same atoms, or the refusal with the Rust's span.
#[cfg(lalrpop)]
pub fn resolve(stage: &Stage) -> Option<Result<Stage, Refusal>> {
    use crate::convert::{from_grammar, to_grammar};
    let resolved = crate::normalize::resolve::resolve(to_grammar(stage));
    Some(resolved.map(|grammar| from_grammar(&grammar, stage.atoms.clone())).map_err(refusal))
}

#[cfg(not(lalrpop))]
pub fn resolve(_: &Stage) -> Option<Result<Stage, Refusal>> {
    None
}

/// The tree in LALRPOP's types and back: the same tree, if nothing is lost.
#[cfg(lalrpop)]
pub fn there_and_back(stage: &Stage) -> Option<Stage> {
    Some(crate::convert::from_grammar(&crate::convert::to_grammar(stage), stage.atoms.clone()))
}

#[cfg(not(lalrpop))]
pub fn there_and_back(_: &Stage) -> Option<Stage> {
    None
}

/// The Rust's refusal, with its span.
#[cfg(lalrpop)]
pub fn refusal(error: NormError) -> Refusal {
    let number = number_of(&error.message).unwrap_or_else(|| panic!("a message without a number: {}", error.message));
    Refusal { number, place: (error.span.0 as u64, error.span.1 as u64) }
}

/// The number in document 01 of a refusal, by the Rust's message.
#[cfg(lalrpop)]
fn number_of(message: &str) -> Option<u8> {
    let starts = [
        ("two ", 5),
        ("multiple macro arguments", 7),
        ("no definition found", 8),
        ("only macro arguments", 9),
        ("wrong number of arguments", 12),
        ("invalid condition LHS", 17),
        ("Exceeded recursion cap", 18),
        ("named symbols like", 19),
    ];
    let ends = [(", not a nonterminal", 10), (", not a macro", 11), ("` is a macro", 13)];
    let start = starts.iter().find(|(text, _)| message.starts_with(text));
    let end = ends.iter().find(|(text, _)| message.ends_with(text));
    let both = message.contains(" both declared with the name ").then_some(6);
    start.or(end).map(|found| found.1).or(both)
}
