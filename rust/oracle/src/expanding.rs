//! LALRPOP's levels and macros, one behind the other: a tree, a refusal, or the message of a panic.
#[cfg(lalrpop)]
use crate::{
    answers::refusal,
    convert::{from_grammar, to_grammar},
    grammar::parse_tree::Grammar,
    normalize::{macro_expand::expand_macros, precedence::expand_precedence, NormResult},
};
use reading::tree::Stage;
use reading::Refusal;

/// What the Rust does with a tree.
#[derive(Clone, Debug, PartialEq, Eq)]
pub enum Expanded {
    Tree(Stage),
    Refused(Refusal),
    Panicked(String),
}

/// `expand_macros` over `expand_precedence`, or nothing where the Rust isn't there.
#[cfg(lalrpop)]
pub fn expand(stage: &Stage, limit: u16) -> Option<Expanded> {
    Some(match passes(to_grammar(stage), limit) {
        Ok(Ok(grammar)) => Expanded::Tree(from_grammar(&grammar, stage.atoms.clone())),
        Ok(Err(error)) => Expanded::Refused(refusal(error)),
        Err(message) => Expanded::Panicked(message),
    })
}

#[cfg(not(lalrpop))]
pub fn expand(_: &Stage, _: u16) -> Option<Expanded> {
    None
}

/// The passes' own answer, or a panic's message.
#[cfg(lalrpop)]
fn passes(input: Grammar, limit: u16) -> Result<NormResult<Grammar>, String> {
    caught(move || expand_macros(expand_precedence(input)?, limit))
}

/// From now on the panics of LALRPOP's levels, which are answers here, print nothing; all others print as before.
pub fn panics_are_answers() {
    static ONCE: std::sync::Once = std::sync::Once::new();
    ONCE.call_once(|| {
        let before = std::panic::take_hook();
        std::panic::set_hook(Box::new(move |panic| {
            if !panic.location().is_some_and(|place| place.file().contains("/normalize/precedence/")) {
                before(panic);
            }
        }));
    });
}

/// What is answered, or the message of a panic.
pub fn caught<T>(ask: impl FnOnce() -> T + std::panic::UnwindSafe) -> Result<T, String> {
    std::panic::catch_unwind(ask).map_err(|panic| {
        let text = panic.downcast_ref::<String>().cloned();
        text.or(panic.downcast_ref::<&str>().map(|text| text.to_string())).unwrap_or_default()
    })
}
