//! The stored lists of macros and of the whole: chosen grammars, most once with an output as long as the longest stage, some within every limit,
//! some at every stage's length and one byte less.
use crate::case::{at_every_length, round_lengths, Case, Room, Rounds};
use crate::chosen::{LONGEST, USUAL_LIMIT};
use crate::grammars::{MACRO_EXPAND, PRECEDENCE, RESOLVE};
use crate::grow::Size;
use crate::judge::expected;
use crate::levels::{tape, CASES, REFUSED};
use crate::rounds::{alike, calling, chain, counting};
use crate::whole::LIMITS;
use crate::{macros, whole};
use oracle::chance::Chance;
use oracle::Call;
use reading::tree::Stage;
use reading::{write, Outcome};

/// How much longer than the tape an output may be: some of the macros go on for ever.
const MORE: usize = 1_000;

/// The cases of a call with rounds, none twice, or nothing where the Rust isn't there.
pub fn stored(call: Call) -> Option<Vec<(Case, Outcome)>> {
    let mut list: Vec<(Case, Outcome)> = vec![];
    for case in candidates(call).into_iter().take_while(|_| oracle::is_there()) {
        if list.iter().all(|(old, _)| *old != case) {
            let outcome = expected(&case, call)?;
            list.push((case, outcome));
        }
    }
    oracle::is_there().then_some(list)
}

fn candidates(call: Call) -> Vec<Case> {
    let (tapes, thorough) = if call == Call::Whole { (whole_tapes(), WHOLE) } else { (macro_tapes(), MACROS) };
    // every fourth without a limit to speak of
    let limits = [USUAL_LIMIT, USUAL_LIMIT, USUAL_LIMIT, 65_535].into_iter().cycle();
    let once = tapes.into_iter().zip(limits).map(|(tape, limit)| at_the_longest(call, tape, limit));
    let in_each_room = thorough.iter().flat_map(|(limit, grammar)| in_each_room(call, *limit, tape(grammar)));
    let within_each = thorough.iter().flat_map(|(_, grammar)| LIMITS.map(|limit| Case::expanding(tape(grammar), limit)));
    let deep = DEEP.iter().map(|(outside, inside, op)| Case::expanding(around(*outside, *inside, op), 3));
    let counted = [USUAL_LIMIT, USUAL_LIMIT + 1].map(|limit| Case::expanding(handed_on(USUAL_LIMIT), limit));
    let cramped = [-1, 1].map(|work| Case { tape: tape(thorough[0].1), limit: 2, room: Room { output: 400, work } });
    once.chain(in_each_room).chain(within_each).chain(deep).chain(counted).chain(cramped).collect()
}

/// Document 01's star, and what takes more rounds, each with the limit that it needs.
const MACROS: [(u16, &str); 2] =
    [(2, "L = n*; extern { enum T { n => N } }"), (3, r#"S = M<n>; M<P> = K<(P "x")>; K<Q> = <Q>? @L; extern { enum T { n => N } }"#)];
const WHOLE: [(u16, &str); 2] =
    [(2, "L = n*; extern { enum T { n => N } }"), (2, r#"E = { #"1" "n", #"2" #left M<E> E }; M<P> = P "m" P?;"#)];

/// The grammars of LALRPOP's unit tests of resolving and of macro expansion, the chosen ones, and a few random ones.
fn macro_tapes() -> Vec<Vec<u8>> {
    let known = RESOLVE.iter().chain(&MACRO_EXPAND).map(|known| known.tape());
    let makers = [chain, counting, alike, |chance: &mut Chance| calling(chance, Size::Few)];
    known.chain(macros::chosen()).chain(makers.into_iter().flat_map(|make| short(make, 6))).collect()
}

/// Document 01's cases, the grammars of LALRPOP's unit tests of all three passes, the chosen ones, and a few random ones.
fn whole_tapes() -> Vec<Vec<u8>> {
    let refused = REFUSED.iter().filter(|case| ["left on the lowest level", "`-1`", "one more than a `u32`"].contains(&case.about));
    let cases = CASES.iter().map(|case| case.stage()).chain(refused.map(|case| case.stage())).map(|stage| write(&stage));
    let with_levels = PRECEDENCE.iter().filter(|known| !known.about.ends_with(": behind"));
    let known = RESOLVE.iter().chain(with_levels).chain(&MACRO_EXPAND).map(|known| known.tape());
    cases.chain(known).chain(whole::chosen()).chain(short(|chance| whole::random(chance, Size::Few), 8)).collect()
}

/// The first so many that aren't long.
fn short(make: fn(&mut Chance) -> Stage, count: usize) -> Vec<Vec<u8>> {
    let mut chance = Chance(1);
    std::iter::repeat_with(|| write(&make(&mut chance))).filter(|tape| tape.len() <= LONGEST).take(count).collect()
}

/// A yes where there is one: no stage is longer than the output, but for macros that go on for ever.
fn at_the_longest(call: Call, tape: Vec<u8>, limit: u16) -> Case {
    let lengths = round_lengths(&tape, Rounds { call, limit, longest: tape.len() + MORE });
    let beyond = lengths.into_iter().max().unwrap_or(0).saturating_sub(tape.len());
    Case { room: Room { output: beyond as isize, work: 0 }, limit, tape }
}

fn in_each_room(call: Call, limit: u16, tape: Vec<u8>) -> Vec<Case> {
    at_every_length(&mut Chance(1), &tape, Rounds { call, limit, longest: usize::MAX })
}

/// Choices around a macro's argument and around its parameter, and a repeat: 64 deep, or one deeper, which is 20.
const DEEP: [(usize, usize, &str); 4] = [(31, 32, ""), (31, 33, ""), (30, 32, "+"), (30, 32, "*")];

fn around(outside: usize, inside: usize, op: &str) -> Vec<u8> {
    let chosen = |count: usize, text: &str| format!("{}{text}{}", "<".repeat(count), ">".repeat(count));
    tape(&format!("S = M<{}>; M<P> = {}{op}; extern {{ enum T {{ n => N }} }}", chosen(outside, "n"), chosen(inside, "P")))
}

/// An argument that is handed on so many times, which takes one round more.
fn handed_on(times: u16) -> Vec<u8> {
    let links: String = (0..times).map(|link| format!("M{link}<P> = M{}<P>; ", link + 1)).collect();
    tape(&format!("S = M0<\"x\">; {links}M{times}<P> = P;"))
}
