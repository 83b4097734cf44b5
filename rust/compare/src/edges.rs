//! Tapes at the limits: as many atoms, arguments, alternatives, symbols as an operand counts, and one more; the deepest nesting.
use crate::case::{at_level_lengths, Case, Room};
use oracle::chance::Chance;
use reading::commands::split;

fn atom(text: &[u8]) -> Vec<u8> {
    [&[0x01][..], &(text.len() as u16).to_le_bytes(), text].concat()
}

/// So many atoms of different texts; number 0 is a name.
fn atoms(count: usize) -> Vec<u8> {
    (0..count).flat_map(|index| atom(format!("a{index:x}").as_bytes())).collect()
}

fn spanned(code: u8, operands: &[u8]) -> Vec<u8> {
    [&[code, 0, 0, 0, 0, 0, 0, 0, 0][..], operands].concat()
}

/// The spans set to their commands' own places, so that no two are equal.
fn told_apart(mut tape: Vec<u8>) -> Vec<u8> {
    for range in split(&tape) {
        if matches!(tape[range.start], 0x10 | 0x12 | 0x20..=0x31) && range.len() > 8 {
            tape[range.start + 1..range.start + 5].copy_from_slice(&(range.start as u32).to_le_bytes());
            tape[range.start + 5..range.start + 9].copy_from_slice(&(range.end as u32).to_le_bytes());
        }
    }
    tape
}

fn nonterminal(name: u16, args: u8, alternatives: u16) -> Vec<u8> {
    spanned(0x10, &[&name.to_le_bytes()[..], &[0, args], &alternatives.to_le_bytes()].concat())
}

fn alternative(symbols: u16) -> Vec<u8> {
    spanned(0x12, &[&[0; 5][..], &symbols.to_le_bytes()].concat())
}

fn named(code: u8, name: u16) -> Vec<u8> {
    spanned(code, &name.to_le_bytes())
}

/// Item 0, with one alternative of these symbols.
fn item(symbols: &[Vec<u8>]) -> Vec<u8> {
    [nonterminal(0, 0, 1), alternative(symbols.len() as u16), symbols.concat()].concat()
}

/// 65,536 atoms are accepted; one more is 20, after 3 to 13 and before 21.
fn many_atoms() -> Vec<Vec<u8>> {
    let (most, over) = (atoms(65_536), atoms(65_537));
    let last = [item(&[named(0x20, 65_535)]), named(0x30, 65_535)].concat();
    let twice = [&over[..], &atom(b"a0")].concat();
    vec![
        [&most[..], &last].concat(),
        [&over[..], &last].concat(),
        [&over[..], &item(&[named(0x20, 9)])].concat(),
        [&over[..], &named(0x31, 0), &named(0x31, 0)].concat(),
        twice,
        over,
    ]
}

fn full_operands() -> Vec<Vec<u8>> {
    let front = atoms(300);
    let arguments = |count: u8| (0..count).flat_map(|index| [&[0x11][..], &u16::from(index).to_le_bytes()].concat()).collect::<Vec<u8>>();
    let call = |count: u8| [&spanned(0x25, &[0, 0, count])[..], &named(0x22, 0).repeat(count.into())].concat();
    let calling = |count| [nonterminal(299, 0, 1), alternative(1), call(count)].concat();
    let macro_item = [nonterminal(0, 255, 0), arguments(255)].concat();
    let long_text = |length| [atom(&vec![b'x'; length]), item(&[named(0x20, 0)])].concat();
    let group = [spanned(0x29, &[0xff, 0xff]), named(0x24, 0).repeat(65_535)].concat();
    vec![
        [&front[..], &macro_item, &calling(255)].concat(),
        [&front[..], &macro_item, &calling(254)].concat(),
        [&front[..], &item(&vec![named(0x20, 0); 65_535])].concat(),
        [&front[..], &item(&[group])].concat(),
        [&front[..], &nonterminal(0, 0, 65_535), &alternative(0).repeat(65_535)].concat(),
        [&front[..], &nonterminal(0, 0, 65_535), &alternative(0).repeat(65_534)].concat(),
        long_text(65_535),
        atom(&[0; 65_535])[..65_537].to_vec(),
    ]
}

/// A chain of nonterminals, each naming the next; the same with a name met again, as either kind, and with one that nothing defines.
fn many_items() -> Vec<Vec<u8>> {
    let count = 8_000;
    let link = |name, next| [nonterminal(name, 0, 1), alternative(1), named(0x20, next)].concat();
    let chain: Vec<u8> = (0..count).flat_map(|index| link(index, (index + 1) % count)).collect();
    let front = atoms(usize::from(count) + 2);
    let with = |more: &[u8]| [&front[..], &chain, more].concat();
    vec![with(&[]), with(&link(count / 2, 0)), with(&named(0x31, count - 1)), with(&link(count, count + 1))]
}

/// Each kind of layer around one symbol; the macro has this name.
fn layers(macro_name: u8) -> [Vec<u8>; 5] {
    let call = spanned(0x25, &[macro_name, 0, 1]);
    [spanned(0x26, &[0]), spanned(0x27, &[]), spanned(0x28, &[0, 0, 0]), spanned(0x29, &[1, 0]), call]
}

/// Each kind of layer, 63 and 64 times around a name.
fn towers() -> Vec<Vec<u8>> {
    let macro_item = [nonterminal(1, 1, 0), vec![0x11, 0, 0]].concat();
    let around = |layer: &Vec<u8>, count| [layer.repeat(count), named(0x20, 0)].concat();
    let tower = |layer, count| [atoms(2), item(&[around(layer, count)]), macro_item.clone()].concat();
    layers(1).iter().flat_map(|layer| [tower(layer, 63), tower(layer, 64)]).collect()
}

/// An attribute `precedence` by the atoms 1 (it), 2 (any key) and a level's.
fn precedence(level: u16) -> Vec<u8> {
    [&[0x13, 1, 0, 1, 2, 0][..], &level.to_le_bytes()].concat()
}

/// Item 0 at so many levels, given by their atoms; each alternative names it.
fn levels(all: &[u16]) -> Vec<u8> {
    let of_level = |level: &u16| [&spanned(0x12, &[1, 0, 0, 0, 0, 1, 0])[..], &precedence(*level), &named(0x20, 0)].concat();
    [nonterminal(0, 0, all.len() as u16), all.iter().flat_map(of_level).collect()].concat()
}

/// The atoms of a name, `precedence`, a key and the levels 1, 22, 333 (numbers 3 to 5), then so many others; in the end some more.
fn level_atoms(name: &[u8], others: usize, more: &[&[u8]]) -> Vec<u8> {
    let first = [name, b"precedence", b"level", b"1", b"22", b"333"].into_iter().flat_map(atom);
    first.chain(atoms(others)).chain(more.iter().flat_map(|text| atom(text))).collect()
}

/// Levels make new atoms up to the 65,536th and one more; one that is there already; 20 before 21, and after 14 to 16.
fn many_level_atoms() -> Vec<Vec<u8>> {
    let with = |others: usize, more: &[&[u8]], all: &[u16]| [level_atoms(b"E", others, more), levels(all)].concat();
    let (most, side) = (65_530, [&spanned(0x12, &[1, 0, 0, 0, 0, 0, 0])[..], &[0x13, 6, 0, 1, 2, 0, 6, 0]].concat());
    let refused = [nonterminal(7, 0, 1), side].concat();
    vec![
        with(most, &[], &[3]),
        with(most - 1, &[], &[3, 4]),
        with(most, &[], &[3, 4]),
        with(most - 2, &[], &[5, 4, 3]),
        with(most - 1, &[], &[5, 4, 3]),
        with(most - 1, &[b"E1"], &[3, 4]),
        with(most - 1, &[b"E1"], &[3, 4, 5]),
        with(most - 2, &[b"E1", b"E22"], &[3, 4, 5]),
        [level_atoms(b"E", 0, &[b"assoc"]), atoms(most - 1), levels(&[3, 4, 5]), refused].concat(),
        with(most + 1, &[], &[1]),
    ]
}

/// A level's name of 65,535 bytes, and of one more; the highest level's stays as it is.
fn long_level_names() -> Vec<Vec<u8>> {
    let with = |length: usize, all: &[u16]| [level_atoms(&vec![b'E'; length], 0, &[]), levels(all)].concat();
    vec![
        with(65_534, &[3, 4]),
        with(65_535, &[3, 4]),
        with(65_535, &[4]),
        with(65_533, &[3, 4, 5]),
        with(65_534, &[3, 4, 5]),
        with(65_534, &[5, 3, 4]),
    ]
}

/// As many alternatives as there can be, at one level and at two, all but one at the higher; many at three; 700 levels, ascending and descending.
fn many_levels() -> Vec<Vec<u8>> {
    let front = level_atoms(b"E", 0, &[]);
    let with = |all: Vec<u16>| [&front[..], &levels(&all)].concat();
    let all = usize::from(u16::MAX);
    let numbers: Vec<u8> = (0..700).flat_map(|level| atom(format!("{level:04}").as_bytes())).collect();
    let ladder = |levels_of: Vec<u16>| [&front[..], &numbers, &levels(&levels_of)].concat();
    vec![
        with(vec![3; all]),
        with([vec![4; all - 1], vec![3]].concat()),
        with((0..9_000).map(|index| 3 + index % 3).collect()),
        ladder((6..706).collect()),
        ladder((6..706).rev().collect()),
    ]
}

/// Each kind of layer, 63 times around an occurrence.
fn level_towers() -> Vec<Vec<u8>> {
    let front = [level_atoms(b"E", 1, &[]), nonterminal(6, 1, 0), vec![0x11, 0, 0]].concat();
    let high = |layer: &Vec<u8>| [spanned(0x12, &[1, 0, 0, 0, 0, 1, 0]), precedence(4), layer.repeat(63), named(0x24, 0)].concat();
    let low = [spanned(0x12, &[1, 0, 0, 0, 0, 0, 0]), precedence(3)].concat();
    layers(6).iter().map(|layer| [&front[..], &nonterminal(0, 0, 2), &low, &high(layer)].concat()).collect()
}

/// Tapes at the limits for levels, each with outputs as long as its stages, one byte less, and longer, and work just long enough.
pub fn level_cases() -> Vec<Case> {
    let tapes = [many_level_atoms(), long_level_names(), many_levels(), level_towers()].concat();
    let mut chance = Chance(20);
    let cases = tapes.into_iter().map(told_apart).flat_map(|tape| at_level_lengths(&mut chance, &tape));
    cases.map(|case| Case { room: Room { work: 0, ..case.room }, ..case }).collect()
}

/// Each tape with just enough room, and with an output one byte too short.
pub fn cases() -> Vec<Case> {
    let tapes = [many_atoms(), full_operands(), many_items(), towers()].concat();
    let short = Room { output: -1, work: 0 };
    tapes.into_iter().map(told_apart).flat_map(|tape| [Case::fitting(tape.clone()), Case { tape, limit: 0, room: short }]).collect()
}
