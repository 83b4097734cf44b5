//! What the random trees for levels reach, counted in those that are resolved.
use crate::{finished, steps, Seen};
use compare::grow::Size;
use compare::ladders::{graded, BAD_LEVELS, LEVEL, SIDE, SIDES};
use compare::the_rust_is_there;
use oracle::chance::Chance;
use oracle::Call;
use reading::tree::*;
use reading::{read, write};
use std::collections::HashSet;

const TREES: usize = 6_000;

fn first<'a>(alternative: &'a Alternative, id: &str) -> Option<&'a Attribute> {
    alternative.attributes.iter().find(|attribute| attribute.id == id)
}

fn value(attribute: Option<&Attribute>) -> Option<&str> {
    attribute?.equal.as_ref().map(|(_, value)| value.as_str())
}

/// Of an annotated nonterminal: its levels and sides.
fn ladder(seen: &mut Seen, data: &Nonterminal) {
    let alternatives = &data.alternatives;
    let has = |alternative: &Alternative, id| first(alternative, id).is_some();
    let levels: Vec<u32> = alternatives.iter().filter_map(|alternative| value(first(alternative, LEVEL))?.parse().ok()).collect();
    let distinct: HashSet<&u32> = levels.iter().collect();
    seen.see("levels out of order", levels.windows(2).any(|pair| pair[0] > pair[1]));
    seen.see("equal levels", distinct.len() < levels.len());
    seen.see("five levels", distinct.len() == 5);
    seen.see("an inherited level", alternatives.iter().skip(1).any(|alternative| !has(alternative, LEVEL)));
    let inherits = |pair: &[Alternative]| {
        value(first(&pair[0], SIDE)).is_some_and(|side| side != "all") && !has(&pair[1], SIDE) && !has(&pair[1], LEVEL)
    };
    seen.see("an inherited side", alternatives.windows(2).any(inherits));
    seen.see("a side first, without a level", !has(&alternatives[0], LEVEL));
    seen.see("an annotated macro", !data.args.is_empty());
    seen.see("an argument of the macro's name", data.args.contains(&data.name));
    for alternative in alternatives {
        let count = |id: &str| alternative.attributes.iter().filter(|attribute| attribute.id == id).count();
        seen.see("a second level", count(LEVEL) > 1);
        seen.see("a second side", count(SIDE) > 1);
        seen.see("a level without a value", first(alternative, LEVEL).is_some_and(|attribute| attribute.equal.is_none()));
        seen.see("a side without a value", first(alternative, SIDE).is_some_and(|attribute| attribute.equal.is_none()));
        for text in ["1", "+1", "001", "0", "4294967295", "00000000004294967295"].iter().chain(&BAD_LEVELS) {
            seen.see(format!("level {text:?}"), value(first(alternative, LEVEL)) == Some(text));
        }
        for text in SIDES {
            seen.see(format!("side {text}"), value(first(alternative, SIDE)) == Some(text));
        }
        occurrences(seen, &alternative.symbols, &data.name, "straight");
    }
}

/// Where a nonterminal occurs in its own alternatives.
fn occurrences(seen: &mut Seen, symbols: &[Symbol], name: &str, place: &str) {
    for symbol in symbols {
        let inside = match &symbol.kind {
            Kind::Ambiguous(other) | Kind::Nonterminal(other) => {
                seen.see(format!("an occurrence {place}"), other == name);
                continue;
            }
            Kind::Macro(..) => "in a macro argument",
            Kind::Repeat(..) => "in a repeat",
            Kind::Choose(_) => "in a choice",
            Kind::Name { .. } => "under a name",
            Kind::Group(_) => "in a group",
            _ => continue,
        };
        occurrences(seen, symbol.kind.inner(), name, inside);
    }
}

fn names(items: &[Item]) -> Vec<String> {
    let name = |item: &Item| match item {
        Item::Nonterminal(data) => data.name.clone(),
        Item::Extern(_, name) | Item::Match(_, name) => name.clone(),
    };
    items.iter().map(name).collect()
}

/// Of a levelled tree: the names that were made.
fn made(seen: &mut Seen, tape: &[u8], resolved: &[Item], levelled: &[Item]) {
    let (old, new) = (names(resolved), names(levelled));
    let atoms = read(tape).expect("a tape that is read").atoms;
    let mut made = new.clone();
    for name in &old {
        made.remove(made.iter().position(|other| other == name).expect("the highest level keeps the name"));
    }
    let distinct: HashSet<&String> = made.iter().collect();
    seen.see("a tree with levels", !made.is_empty());
    seen.see("a made name that is an atom", made.iter().any(|name| atoms.contains(&name.clone().into_bytes())));
    seen.see("a made name that is declared", made.iter().any(|name| old.contains(name)));
    seen.see("a name made twice", distinct.len() < made.len());
}

#[test]
fn the_random_trees_reach_everything() {
    if !the_rust_is_there(TREES) {
        return;
    }
    oracle::panics_are_answers();
    let (mut chance, mut seen) = (Chance(17), Seen::default());
    for index in 0..TREES {
        let stage = graded(&mut chance, if index % 4 == 0 { Size::Some } else { Size::Few });
        let tape = write(&stage);
        let steps = steps(&tape, &stage, Call::Levels, 0);
        let Some(resolved) = finished(steps.first()) else { continue };
        let nonterminals = stage.items.iter().filter_map(|item| if let Item::Nonterminal(data) = item { Some(data) } else { None });
        let is_annotated = |data: &&Nonterminal| data.alternatives.first().is_some_and(|it| first(it, LEVEL).or(first(it, SIDE)).is_some());
        nonterminals.filter(is_annotated).for_each(|data| ladder(&mut seen, data));
        if let Some(levelled) = finished(steps.get(1)) {
            made(&mut seen, &tape, resolved, levelled);
        }
    }
    seen.all(40);
}
