//! The random cases: trees of all sizes, good and damaged, with any room.
use crate::case::{at_level_lengths, at_round_lengths, room, Case, Rounds};
use crate::grow::{tree, Size};
use crate::ladders::graded;
use crate::macros::LIMITS;
use crate::rounds::{alike, calling, chain, counting};
use crate::whole;
use oracle::chance::Chance;
use oracle::damage::damaged;
use oracle::Call;
use reading::tree::Stage;

/// Cases without end, fixed by the chance's seed.
pub fn cases(mut chance: Chance) -> impl Iterator<Item = Case> {
    std::iter::repeat_with(move || {
        let size = size(&mut chance);
        case(&mut chance, size, 40)
    })
}

fn size(chance: &mut Chance) -> Size {
    match chance.under(100) {
        0..=71 => Size::Few,
        72..=97 => Size::Some,
        _ => Size::Many,
    }
}

/// The same for levels, as many tapes, each at several lengths of output; few are damaged.
pub fn level_cases(mut chance: Chance, tapes: usize) -> impl Iterator<Item = Case> {
    let at_lengths = move |_| {
        let size = size(&mut chance);
        let mut tape = reading::write(&graded(&mut chance, size));
        if chance.percent(15) {
            tape = damaged(&mut chance, &tape);
        }
        at_level_lengths(&mut chance, &tape)
    };
    (0..tapes).flat_map(at_lengths)
}

/// The same for macros, each tape within one limit.
pub fn macro_cases(mut chance: Chance, tapes: usize) -> impl Iterator<Item = Case> {
    let at_lengths = move |_| {
        let stage = expanding(&mut chance);
        in_rounds(&mut chance, Call::Macros, &stage)
    };
    (0..tapes).flat_map(at_lengths)
}

fn expanding(chance: &mut Chance) -> Stage {
    let size = if chance.percent(80) { Size::Few } else { size(chance) };
    match chance.under(10) {
        0..=5 => calling(chance, size),
        6 | 7 => chain(chance),
        8 => counting(chance),
        _ => alike(chance),
    }
}

/// The same for the whole call.
pub fn whole_cases(mut chance: Chance, tapes: usize) -> impl Iterator<Item = Case> {
    let at_lengths = move |_| {
        let size = if chance.percent(90) { Size::Few } else { Size::Some };
        let stage = whole::random(&mut chance, size);
        in_rounds(&mut chance, Call::Whole, &stage)
    };
    (0..tapes).flat_map(at_lengths)
}

/// The tree's tape, now and then damaged, within some limit. Outputs are short: macros may go on for ever.
fn in_rounds(chance: &mut Chance, call: Call, stage: &Stage) -> Vec<Case> {
    let mut tape = reading::write(stage);
    if chance.percent(10) {
        tape = damaged(chance, &tape);
    }
    let (limit, more) = (chance.one_of(&LIMITS), chance.one_of(&[500, 3_000, 3_000, 3_000, 3_000, 3_000, 3_000, 30_000]));
    let longest = 2 * tape.len() + more;
    at_round_lengths(chance, &tape, Rounds { call, limit, longest })
}

/// A tree's tape, damaged so many times in a hundred.
pub fn case(chance: &mut Chance, size: Size, damage: usize) -> Case {
    let mut tape = reading::write(&tree(chance, size));
    if chance.percent(damage) {
        tape = damaged(chance, &tape);
    }
    let room = room(chance, tape.len());
    Case { tape, limit: 0, room }
}
