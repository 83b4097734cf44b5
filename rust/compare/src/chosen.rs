//! The stored lists: short cases of a call, answered by the second reading and the Rust. Of resolving and of levels as many of each answer; 20 is not
//! among them: it takes more than 65,536 atoms, or a name of 65,535 bytes. Those of macros and of the whole are in `chosen_rounds`.
use crate::case::{at_level_lengths, Case, Room};
use crate::grammars::{MACRO_EXPAND, PRECEDENCE, RESOLVE};
use crate::grow::Size;
use crate::judge::expected;
use crate::ladders::graded;
use crate::levels::{CASES, OTHERS, REFUSED};
use crate::{chosen_rounds, mix, short};
use oracle::chance::Chance;
use oracle::Call;
use reading::commands::hex;
use reading::Outcome;
use std::collections::BTreeMap;

pub const OF_EACH: usize = 20;
const MOST_UNCHANGED: usize = 6;
pub const LONGEST: usize = 399;
/// Of levels: the file is to stay short.
const LONGEST_OF_LEVELS: usize = 250;
const MOST_OUTPUT: usize = 512;
const MOST_WORK: usize = 8_192;

/// The answers of a call that are stored, 0 being a yes. Of levels only its own: 1 to 13 are resolving's, which the same code answers.
pub fn numbers(call: Call) -> Vec<u8> {
    match call {
        Call::Resolve => (0..=13).chain([21]).collect(),
        Call::Levels => vec![0, 14, 15, 16, 21],
        Call::Macros => [0, 1].into_iter().chain(5..=13).chain(17..=21).collect(),
        Call::Whole => [0, 1, 5, 6, 7, 8, 10].into_iter().chain(14..=21).collect(),
    }
}

/// The cases of a call, or nothing where the Rust isn't there.
pub fn stored(call: Call) -> Option<Vec<(Case, Outcome)>> {
    oracle::panics_are_answers();
    match call {
        Call::Resolve => by_answer(call, candidates()),
        Call::Levels => by_answer(call, level_candidates()),
        Call::Macros | Call::Whole => chosen_rounds::stored(call),
    }
}

/// As many cases of each answer.
fn by_answer(call: Call, candidates: impl Iterator<Item = Case>) -> Option<Vec<(Case, Outcome)>> {
    let mut found: BTreeMap<u8, Vec<(Case, Outcome)>> = BTreeMap::new();
    for case in candidates.filter(|case| is_small(case, call)).take_while(|_| oracle::is_there()) {
        let outcome = expected(&case, call)?;
        let number = outcome.as_ref().err().map_or(0, |refusal| refusal.number);
        if !numbers(call).contains(&number) {
            continue;
        }
        let same = found.entry(number).or_default();
        if same.len() < OF_EACH && adds(same, &case, &outcome) {
            same.push((case, outcome));
        }
        if numbers(call).iter().all(|number| found.get(number).is_some_and(|same| same.len() == OF_EACH)) {
            return Some(found.into_values().flatten().collect());
        }
    }
    None
}

fn is_small(case: &Case, call: Call) -> bool {
    let longest = if call == Call::Levels { LONGEST_OF_LEVELS } else { LONGEST };
    case.tape.len() <= longest && case.output_len() <= MOST_OUTPUT && case.work_len() <= MOST_WORK
}

/// No case twice, and few trees that the call leaves as they were.
fn adds(same: &[(Case, Outcome)], case: &Case, outcome: &Outcome) -> bool {
    let unchanged = |case: &Case, outcome: &Outcome| outcome.as_ref().is_ok_and(|tree| *tree == case.tape);
    let many = same.iter().filter(|(old, outcome)| unchanged(old, outcome)).count() >= MOST_UNCHANGED;
    same.iter().all(|(old, _)| old != case) && !(many && unchanged(case, outcome))
}

/// The grammars of the unit tests, some of the shortest tapes, then random ones without end.
fn candidates() -> impl Iterator<Item = Case> {
    let known = RESOLVE.iter().chain(&MACRO_EXPAND).map(|known| Case::fitting(known.tape()));
    let cramped = [Room { output: 0, work: -1 }, Room { output: -1, work: 0 }, Room { output: 5, work: 3 }];
    let room = cramped.into_iter().map(|room| Case { tape: vec![1, 1, 0, b'A'], limit: 0, room });
    let short = short::of_bytes(1).into_iter().take(4).chain(short::of_commands(1).into_iter().step_by(4)).map(Case::fitting);
    let mut chance = Chance(1);
    let random = std::iter::repeat_with(move || mix::case(&mut chance, Size::Few, 30));
    known.chain(room).chain(short).chain(random)
}

/// The chosen grammars and those of the unit tests of precedence, all at one length before all at the next; then random ones without end, with levels
/// and as for resolving.
fn level_candidates() -> impl Iterator<Item = Case> {
    let chosen = CASES.iter().chain(&OTHERS).map(|case| case.stage()).chain(REFUSED.iter().map(|case| case.stage()));
    let tapes = chosen.chain(PRECEDENCE.iter().map(|known| known.stage())).map(|stage| reading::write(&stage));
    let mut chance = Chance(1);
    // the longest output first: a yes, or the refusal of levels
    let known: Vec<Vec<Case>> = tapes.map(|tape| at_level_lengths(&mut chance, &tape).into_iter().rev().collect()).collect();
    let most = known.iter().map(Vec::len).max().unwrap_or(0);
    let in_turn = (0..most).flat_map(move |k| known.clone().into_iter().filter_map(move |cases| cases.get(k).cloned()));
    let random = std::iter::repeat_with(move || {
        let tape = reading::write(&graded(&mut chance, Size::Few));
        let mut cases = at_level_lengths(&mut chance, &tape);
        cases.push(mix::case(&mut chance, Size::Few, 30));
        cases
    });
    in_turn.chain(random.flatten())
}

/// What crates/cases calls it.
pub fn word(call: Call) -> &'static str {
    match call {
        Call::Resolve => "resolve",
        Call::Levels => "levels",
        Call::Macros => "macros",
        Call::Whole => "whole",
    }
}

/// Whether the call takes a limit.
pub fn has_rounds(call: Call) -> bool {
    matches!(call, Call::Macros | Call::Whole)
}

/// The lines of crates/cases for the list of a call, each with its answer.
pub fn lines(call: Call, list: &[(Case, Outcome)]) -> Vec<(String, String)> {
    let line = |(index, (case, outcome)): (usize, &(Case, Outcome))| line(call, &format!("stored-{index}"), case, outcome);
    list.iter().enumerate().map(line).collect()
}

/// The line of one case, and that of its answer.
pub fn line(call: Call, name: &str, case: &Case, outcome: &Outcome) -> (String, String) {
    let name = format!("{} {name}", word(call));
    (case_line(&name, call, case), answer_line(&name, outcome))
}

/// The limit where a line doesn't say it.
pub const USUAL_LIMIT: u16 = 64;

/// The call and the name, the tape in hex if it has a byte, the limit of a call that takes one if it isn't the usual one, the output's length, work's
/// length.
fn case_line(name: &str, call: Call, case: &Case) -> String {
    let tape = if case.tape.is_empty() { String::new() } else { format!(" {}", hex(&case.tape)) };
    let limit = if has_rounds(call) && case.limit != USUAL_LIMIT { format!(" l{}", case.limit) } else { String::new() };
    format!("{name}{tape}{limit} o{} w{}", case.output_len(), case.work_len())
}

/// `yes LENGTH TREE` or `refused NUMBER PLACE PLACE`, behind the call and the name.
fn answer_line(name: &str, outcome: &Outcome) -> String {
    let answer = match outcome {
        Ok(tree) => format!("yes {} {}", tree.len(), hex(tree)),
        Err(refusal) => format!("refused {} {} {}", refusal.number, refusal.place.0, refusal.place.1),
    };
    format!("{name} {answer}")
}
