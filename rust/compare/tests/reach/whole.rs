//! What the random trees for the whole call reach.
use crate::{finished, steps, Seen};
use compare::grow::Size;
use compare::the_rust_is_there;
use compare::whole::random;
use oracle::chance::Chance;
use oracle::Call;
use reading::tree::*;
use reading::{read, write, Step};

const TREES: usize = 4_000;
const ROUNDS: u16 = 4;

fn names(items: &[Item]) -> Vec<&String> {
    items.iter().filter_map(|item| if let Item::Nonterminal(data) = item { Some(&data.name) } else { None }).collect()
}

/// Names that levels made.
fn made<'a>(resolved: &[Item], levelled: &'a [Item]) -> Vec<&'a String> {
    let old = names(resolved);
    names(levelled).into_iter().filter(|name| !old.contains(name)).collect()
}

/// A name as a word of its own in a printed form.
fn stands_in(name: &str, form: &str) -> bool {
    form.split(|c: char| !c.is_ascii_alphanumeric() && c != '_').any(|word| word == name)
}

/// How the steps behind levels end.
fn end(seen: &mut Seen, steps: &[Step], has_levels: bool) {
    let number = if let Some(Step::Refused(refusal)) = steps.last() { refusal.number } else { 0 };
    let (again, rounds) = (steps.len() == 3, steps.len().saturating_sub(3) / 2);
    for refused in [5, 6, 10] {
        seen.see(format!("{refused} when it is resolved again"), again && number == refused);
    }
    for answer in [0, 17, 18, 19] {
        seen.see(format!("{answer} behind levels"), has_levels && number == answer);
    }
    for least in 1..=4 {
        seen.see(format!("{least} rounds and levels"), has_levels && number == 0 && rounds >= least);
    }
}

/// What the last stage has of the levels' names, and what the tape had of its texts.
fn texts(seen: &mut Seen, tape: &[u8], made: &[&String], last: &[Item]) {
    let atoms = read(tape).expect("a tape that is read").atoms;
    let is_atom = |text: &String| atoms.contains(&text.clone().into_bytes());
    let forms: Vec<&String> = names(last).into_iter().filter(|name| !made.contains(name)).collect();
    let over_a_level = |part: fn(&str) -> bool| forms.iter().any(|form| part(form) && made.iter().any(|name| stands_in(name, form)));
    seen.see("a repeat over a level", over_a_level(|form| form.ends_with(['*', '+', '?']) && !form.contains(['(', '<'])));
    seen.see("a group over a level", over_a_level(|form| form.starts_with('(') && form.ends_with(')')));
    seen.see("a level in a macro's argument", over_a_level(|form| form.contains('<') && form.ends_with('>')));
    seen.see("a level's name that is an atom", made.iter().any(|name| is_atom(name)));
    seen.see("a printed form that is an atom", forms.iter().any(|form| is_atom(form) && form.contains(['*', '(', '<'])));
    seen.see("a form of more than 300 bytes", forms.iter().any(|form| form.len() > 300));
}

#[test]
fn the_random_trees_reach_everything() {
    if !the_rust_is_there(TREES) {
        return;
    }
    oracle::panics_are_answers();
    let (mut chance, mut seen) = (Chance(23), Seen::default());
    for index in 0..TREES {
        let stage = random(&mut chance, if index % 8 == 0 { Size::Some } else { Size::Few });
        let tape = write(&stage);
        let steps = steps(&tape, &stage, Call::Whole, ROUNDS);
        let (Some(resolved), Some(levelled)) = (finished(steps.first()), finished(steps.get(1))) else { continue };
        let made = made(resolved, levelled);
        let annotated = |item: &Item| matches!(item, Item::Nonterminal(data) if !data.args.is_empty() && made.contains(&&data.name));
        let has_macro = levelled.iter().any(annotated);
        end(&mut seen, &steps, !made.is_empty());
        seen.see("a macro with levels that passes", has_macro && steps.len() > 3);
        if let Some(last) = finished(steps.last()) {
            texts(&mut seen, &tape, &made, last);
        }
    }
    seen.all(15);
}
