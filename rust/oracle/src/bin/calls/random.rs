//! Random calls: which are made of which random tapes.
use crate::case::{lengths, Case};
use crate::grow;
use oracle::chance::Chance;
use oracle::convert::from_grammar;
use oracle::damage::damaged;
use oracle::Call;
use reading::commands::split;
use reading::tree::Stage;
use reading::{work_needed, write, write_over};

/// antt computes each case.
const LONGEST_TAPE: usize = 900;
const LONGEST_STAGE: usize = 2_500;
/// Cases of one tape; of a damaged one.
const OF_ONE: usize = 5;
const OF_DAMAGED: usize = 2;
/// Texts that suit few uses.
const UNSUITED: [&[u8]; 8] = [b"mut", b"error", b"", b"1a", b"a b", b"a-", b"a\x1f", b"a\x80"];
/// Texts that nothing uses; some of them are made later.
const UNUSED: [&[u8]; 8] = [b"n*", b"n+", b"v", b"None", b"(<>)", b"E1", b"\xff\x00", b"unused"];

pub fn cases(seed: u64, count: usize) -> Vec<Case> {
    let mut chance = Chance(seed);
    let mut found = vec![];
    while found.len() < count {
        let tape = grown(&mut chance);
        let is_damaged = chance.percent(16);
        let tape = if is_damaged { damaged_somehow(&mut chance, &tape) } else { tape };
        if tape.len() <= LONGEST_TAPE {
            let wanted = if is_damaged { OF_DAMAGED } else { OF_ONE }.min(count - found.len());
            found.extend((0..wanted).filter_map(|_| case(&mut chance, &tape)));
        }
    }
    found
}

/// Any damage, or a text that doesn't suit its use.
fn damaged_somehow(chance: &mut Chance, tape: &[u8]) -> Vec<u8> {
    let atoms: Vec<_> = split(tape).into_iter().filter(|range| tape[range.start] == 0x01).collect();
    if atoms.is_empty() || chance.percent(65) {
        return damaged(chance, tape);
    }
    let (atom, text) = (chance.one_of(&atoms), chance.one_of(&UNSUITED));
    [&tape[..atom.start], &[0x01, text.len() as u8, 0], text, &tape[atom.end..]].concat()
}

/// The tape of a random tree, its atoms by first use or in any order.
fn grown(chance: &mut Chance) -> Vec<u8> {
    let items = from_grammar(&grow::tree(chance), vec![]).items;
    let (mut atoms, tape) = write_over(&Stage::new(items.clone()));
    if chance.percent(40) {
        return tape;
    }
    let unused = (0..chance.under(4)).map(|_| chance.one_of(&UNUSED).to_vec());
    atoms.extend(unused);
    chance.shuffle(&mut atoms);
    write(&Stage { atoms, items })
}

/// A call of the tape, or nothing where a stage is too long to compute.
fn case(chance: &mut Chance, tape: &[u8]) -> Option<Case> {
    let call = [Call::Whole, Call::Macros, Call::Levels, Call::Resolve][[0, 0, 0, 0, 1, 1, 1, 2, 2, 3][chance.under(10)]];
    // a macro that calls itself twice doubles in each round
    let limit = chance.one_of(&[0, 1, 2, 3, 3, 4, 6]);
    let lengths = lengths(tape, call, limit);
    let longest = lengths.iter().copied().max().unwrap_or(tape.len());
    if longest > LONGEST_STAGE {
        return None;
    }
    let any = if lengths.is_empty() { tape.len() } else { chance.one_of(&lengths) };
    let output = match chance.under(20) {
        0..=10 => longest,
        11..=13 => any,
        14..=17 => any.saturating_sub(1),
        18 => longest + chance.under(99),
        _ => chance.under(longest + 1),
    };
    let need = work_needed(tape.len(), output);
    let work = match chance.under(40) {
        0 => need.saturating_sub(1),
        1 => chance.under(need + 1),
        2 => need + chance.under(99),
        _ => need,
    };
    Some(Case::new(tape, call, limit, output, work))
}
