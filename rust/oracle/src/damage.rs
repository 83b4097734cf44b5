//! Damaged copies of a tape: bytes changed, put in, left out; commands moved; operands changed.
use crate::chance::Chance;
use reading::commands::split;
use std::ops::Range;

pub fn damaged(chance: &mut Chance, tape: &[u8]) -> Vec<u8> {
    let mut tape = tape.to_vec();
    loop {
        tape = once(chance, &tape);
        if chance.percent(75) {
            return tape;
        }
    }
}

fn once(chance: &mut Chance, tape: &[u8]) -> Vec<u8> {
    if tape.is_empty() {
        return vec![chance.word() as u8];
    }
    match chance.under(12) {
        0 => byte(chance, tape),
        1 => put_in(chance, tape),
        2 => left_out(chance, tape),
        3 => tape[..chance.under(tape.len())].to_vec(),
        4 => cut_at_a_command(chance, tape),
        5..=8 => operand(chance, tape),
        _ => commands(chance, tape),
    }
}

fn byte(chance: &mut Chance, tape: &[u8]) -> Vec<u8> {
    let (at, any) = (chance.under(tape.len()), chance.word() as u8);
    changed(chance, tape, at, any)
}

/// A byte set to `any`, or one up, one down, or with one bit turned.
fn changed(chance: &mut Chance, tape: &[u8], at: usize, any: u8) -> Vec<u8> {
    let mut tape = tape.to_vec();
    let old = tape[at];
    tape[at] = chance.one_of(&[any, old.wrapping_add(1), old.wrapping_sub(1), old ^ (1 << (any % 8))]);
    tape
}

fn put_in(chance: &mut Chance, tape: &[u8]) -> Vec<u8> {
    let (at, count) = (chance.under(tape.len() + 1), 1 + chance.under(3));
    [&tape[..at], &chance.bytes(count), &tape[at..]].concat()
}

fn left_out(chance: &mut Chance, tape: &[u8]) -> Vec<u8> {
    let at = chance.under(tape.len());
    let end = (at + 1 + chance.under(3)).min(tape.len());
    [&tape[..at], &tape[end..]].concat()
}

fn any_command(chance: &mut Chance, tape: &[u8]) -> Range<usize> {
    chance.one_of(&split(tape))
}

/// Ends with a command, or one byte before or behind.
fn cut_at_a_command(chance: &mut Chance, tape: &[u8]) -> Vec<u8> {
    let end = any_command(chance, tape).end + chance.under(3);
    tape[..(end - 1).min(tape.len())].to_vec()
}

/// One byte of one command, spans left as they are; not of an atom's text.
fn operand(chance: &mut Chance, tape: &[u8]) -> Vec<u8> {
    let range = any_command(chance, tape);
    let first = match tape[range.start] {
        0x01 | 0x11 | 0x13 => range.start,
        _ => range.start + 8,
    };
    let end = if tape[range.start] == 0x01 { range.start + 3 } else { range.end };
    let places: Vec<usize> = std::iter::once(range.start).chain(first + 1..end.min(range.end)).collect();
    let (at, small) = (chance.one_of(&places), chance.under(6) as u8);
    let any = chance.one_of(&[small, 0, 0xff, 0x20 + small]);
    changed(chance, tape, at, any)
}

/// Two commands change places, or one is left out, comes twice, or comes elsewhere once more.
fn commands(chance: &mut Chance, tape: &[u8]) -> Vec<u8> {
    let mut all: Vec<&[u8]> = split(tape).into_iter().map(|range| &tape[range]).collect();
    let (one, two) = (chance.under(all.len()), chance.under(all.len()));
    match chance.under(4) {
        0 => all.swap(one, two),
        1 => drop(all.remove(one)),
        2 => all.insert(one, all[one]),
        _ => all.insert(two, all[one]),
    }
    all.concat()
}
