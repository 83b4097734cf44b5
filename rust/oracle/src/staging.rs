//! Each stage that document 01 names, as LALRPOP's own code makes it.
#[cfg(lalrpop)]
use crate::{
    answers::refusal,
    convert::{from_grammar, to_grammar},
    expanding::caught,
    grammar::parse_tree::{Grammar, GrammarItem},
    normalize::{
        macro_expand::{expand_macros, left_by_the_rust, step_by_step, Ended},
        precedence::expand_precedence,
        resolve,
    },
};
use reading::tree::{Item, Stage};
use reading::{level_refusal, Refusal, Step};

/// The calls of document 01 that have stages.
#[derive(Clone, Copy, Debug, PartialEq, Eq)]
pub enum Call {
    Resolve,
    Levels,
    Macros,
    Whole,
}

pub const CALLS: [Call; 4] = [Call::Resolve, Call::Levels, Call::Macros, Call::Whole];

/// The stages of a call in time order, the last a refusal where there is one; nothing where the Rust isn't there.
#[cfg(lalrpop)]
pub fn staged(stage: &Stage, call: Call, limit: u16) -> Option<Vec<Step>> {
    let mut stages = vec![];
    let refusal = run(to_grammar(stage), call, limit, &mut |items| stages.push(Step::Finished(items_back(items)))).err();
    stages.extend(refusal.map(Step::Refused));
    Some(stages)
}

#[cfg(not(lalrpop))]
pub fn staged(_: &Stage, _: Call, _: u16) -> Option<Vec<Step>> {
    None
}

#[cfg(lalrpop)]
fn run(input: Grammar, call: Call, limit: u16, show: &mut dyn FnMut(&[GrammarItem])) -> Result<(), Refusal> {
    let resolved = resolve::resolve(input.clone()).map_err(refusal)?;
    show(&resolved.items);
    let levelled = match call {
        Call::Levels | Call::Whole => levels(input, &resolved)?,
        Call::Resolve | Call::Macros => input,
    };
    if matches!(call, Call::Levels | Call::Whole) {
        show(&levelled.items);
    }
    match call {
        Call::Macros | Call::Whole => macros(levelled, limit, show),
        Call::Resolve | Call::Levels => Ok(()),
    }
}

#[cfg(lalrpop)]
fn items_back(items: &[GrammarItem]) -> Vec<Item> {
    from_grammar(&crate::convert::grammar(items.to_vec()), vec![]).items
}

/// 14, 15 and 16 are panics in the Rust: whether there is one and its message are the Rust's, the place is the second reading's.
#[cfg(lalrpop)]
fn levels(input: Grammar, resolved: &Grammar) -> Result<Grammar, Refusal> {
    let read = level_refusal(&items_back(&resolved.items));
    match caught(move || expand_precedence(input)) {
        Ok(answer) => {
            assert_eq!(read, None, "the Rust makes levels of it");
            answer.map_err(refusal)
        }
        Err(message) => {
            let read = read.unwrap_or_else(|| panic!("the Rust refuses: {message}"));
            assert!(panic_numbers(&message).contains(&read.number), "{} and {message}", read.number);
            Err(read)
        }
    }
}

/// A missing value is 14 or 15.
#[cfg(lalrpop)]
fn panic_numbers(message: &str) -> &'static [u8] {
    let known: [(&str, &[u8]); 4] =
        [("ParseIntError", &[14]), ("ParseAssocError", &[15]), ("`None` value", &[14, 15]), ("unexpected associativity", &[16])];
    known.iter().find(|(text, _)| message.contains(text)).map_or(&[], |&(_, numbers)| numbers)
}

/// The rounds step by step; how they end is held against `expand_macros`'s own end, and what each round replaced against what the Rust's own
/// rounds leave.
#[cfg(lalrpop)]
fn macros(input: Grammar, limit: u16, show: &mut dyn FnMut(&[GrammarItem])) -> Result<(), Refusal> {
    let mut seen: Vec<Vec<GrammarItem>> = vec![];
    let ended = step_by_step(input.clone(), limit, &mut |items| {
        seen.push(items.to_vec());
        show(items);
    });
    let end = match ended {
        Ended::Done => Ok(seen.last().unwrap().clone()),
        Ended::NoRoundLeft(span) => Err(Refusal { number: 18, place: (span.0 as u64, span.1 as u64) }),
        Ended::Refused(error) => Err(refusal(error)),
    };
    assert_eq!(end, expand_macros(input.clone(), limit).map(|grammar| grammar.items).map_err(refusal), "our steps end as the Rust");
    for (round, items) in seen.iter().step_by(2).enumerate().take(limit.into()) {
        let (left, _) = left_by_the_rust(input.clone(), round as u16).expect("resolved above");
        assert_eq!(&left, items, "our round {round} replaces as the Rust's");
    }
    end.map(drop)
}
