//! Questions 14, 15 and 16 of a resolved tree, which are panics in the Rust.
use crate::tree::{Alternative, Item, Nonterminal};
use crate::Refusal;

/// Nonterminals in order; of each its alternatives in order, then its lowest level.
pub fn level_refusal(items: &[Item]) -> Option<Refusal> {
    items.iter().find_map(|item| match item {
        Item::Nonterminal(nonterminal) if annotated(nonterminal) => refusal_of(nonterminal).err(),
        _ => None,
    })
}

fn annotated(nonterminal: &Nonterminal) -> bool {
    let has = |first: &Alternative| first.attributes.iter().any(|attribute| attribute.id == "precedence" || attribute.id == "assoc");
    nonterminal.alternatives.first().is_some_and(has)
}

fn refusal_of(nonterminal: &Nonterminal) -> Result<(), Refusal> {
    let (mut level, mut side) = (0, "all");
    let mut graded: Vec<(u32, &str, &Alternative)> = vec![];
    for alternative in &nonterminal.alternatives {
        if let Some(value) = first_value(alternative, "precedence") {
            level = value.and_then(|text| text.parse().ok()).ok_or(at(14, alternative))?;
            side = "all";
        }
        if let Some(value) = first_value(alternative, "assoc") {
            side = value.filter(|text| ["left", "right", "none", "all"].contains(text)).ok_or(at(15, alternative))?;
        }
        graded.push((level, side, alternative));
    }
    let lowest = graded.iter().map(|(level, ..)| *level).min();
    let wrong = graded.iter().find(|(level, side, _)| Some(*level) == lowest && *side != "all");
    wrong.map_or(Ok(()), |(.., alternative)| Err(at(16, alternative)))
}

/// The value of the first attribute of an id, if it has one.
fn first_value<'a>(alternative: &'a Alternative, id: &str) -> Option<Option<&'a str>> {
    let found = alternative.attributes.iter().find(|attribute| attribute.id == id)?;
    Some(found.equal.as_ref().map(|(_, value)| value.as_str()))
}

fn at(number: u8, alternative: &Alternative) -> Refusal {
    Refusal { number, place: (alternative.span.0.into(), alternative.span.1.into()) }
}
