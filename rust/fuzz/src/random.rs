//! The own generator: the random tapes of the crate compare, each at the lengths of its stages, and damaged copies of them put to any call.
use crate::calls::{Exported, ALL};
use crate::session::Session;
use compare::case::{room, Case, Room};
use compare::macros::LIMITS;
use compare::mix;
use oracle::chance::Chance;
use oracle::damage::damaged;
use std::collections::HashSet;
use std::hash::{DefaultHasher, Hash, Hasher};
use std::time::Duration;

/// Of each tape that isn't longer than this.
const COPIES: usize = 24;
const LONGEST: usize = 1_200;
/// How much longer than the tape an output is where it isn't at a boundary: macros may go on for ever.
const MORE: usize = 2_000;

/// Tapes for so long; how many of them are different.
pub fn run(session: &mut Session, seed: u64, time: Duration) -> usize {
    let (mut chance, mut met) = (Chance(seed), HashSet::new());
    while session.lasted() < time {
        let (call, cases) = grown(&mut chance);
        let Some(tape) = cases.first().map(|case| case.tape.clone()) else { continue };
        met.insert(hash(&tape));
        session.put(cases.into_iter().map(|case| (call, case)));
        let copies = if tape.len() <= LONGEST { COPIES } else { 0 };
        for _ in 0..copies {
            let copy = damaged(&mut chance, &tape);
            met.insert(hash(&copy));
            session.put([any_call(&mut chance, copy)]);
        }
    }
    met.len()
}

/// Of 64 bits: among some million tapes two of one hash are hardly met.
fn hash(tape: &[u8]) -> u64 {
    let mut hasher = DefaultHasher::new();
    tape.hash(&mut hasher);
    hasher.finish()
}

/// A random tape for one of the calls for passes.
fn grown(chance: &mut Chance) -> (Exported, Vec<Case>) {
    let own = Chance(chance.word());
    match chance.under(8) {
        0 => (Exported::Resolve, mix::cases(own).take(1).collect()),
        1 | 2 => (Exported::Levels, mix::level_cases(own, 1).collect()),
        3 | 4 => (Exported::Macros, mix::macro_cases(own, 1).collect()),
        _ => (Exported::Whole, mix::whole_cases(own, 1).collect()),
    }
}

/// A tape for any call, with any room.
fn any_call(chance: &mut Chance, tape: Vec<u8>) -> (Exported, Case) {
    let (call, limit) = (chance.one_of(&[ALL[0], ALL[1], ALL[2], ALL[3], ALL[4], Exported::Whole]), chance.one_of(&LIMITS));
    let any = room(chance, tape.len());
    let room = if chance.percent(60) { Room { output: chance.under(MORE) as isize, work: 0 } } else { any };
    (call, call.case(tape, limit, room))
}
