//! A smaller case that still differs: fewer items, symbols, commands, bytes.
use crate::case::{Case, Room};
use crate::judge::{judge, Ours, Verdict};
use reading::commands::split;
use reading::tree::*;
use reading::{read, write};
use std::ops::Range;

/// Bytes of buffers that may be spent: enough for small tapes; a large one may stay larger than it need be.
const MOST_BYTES: usize = 1 << 28;

pub fn shrink(case: &Case, dirt: u64, ours: Ours) -> Case {
    shrink_while(case, |candidate| matches!(judge(candidate, dirt, ours), Verdict::Differs(_)))
}

/// The same for any question of a case.
pub fn shrink_while(case: &Case, differs: impl Fn(&Case) -> bool) -> Case {
    let (mut least, mut spent) = (case.clone(), 0);
    loop {
        let (stage, commands) = (read(&least.tape).ok(), split(&least.tape));
        let smaller = candidates(&least, stage.as_ref(), &commands).find(|candidate| {
            spent += candidate.tape.len() + candidate.output_len() + candidate.work_len();
            spent > MOST_BYTES || differs(candidate)
        });
        match smaller {
            Some(found) if spent <= MOST_BYTES => least = found,
            _ => return least,
        }
    }
}

type Several<'a, T> = Box<dyn Iterator<Item = T> + 'a>;

/// Each is shorter than the case, or as long with less room, fewer rounds or smaller numbers; those that take away most come first.
fn candidates<'a>(case: &'a Case, stage: Option<&'a Stage>, commands: &'a [Range<usize>]) -> Several<'a, Case> {
    let trees = stage.into_iter().flat_map(smaller_stages).map(|stage| write(&stage));
    let size = |tape: &[u8]| (tape.len(), tape.iter().map(|&byte| usize::from(byte)).sum::<usize>());
    let tapes = trees.chain(smaller_tapes(&case.tape, commands)).filter(move |tape| size(tape) < size(&case.tape));
    let tapes = tapes.map(|tape| Case { tape, ..*case });
    let rooms = smaller_rooms(case.room).map(|room| Case { room, ..case.clone() });
    let limits = [0, case.limit / 2, case.limit.saturating_sub(1)].into_iter().filter(|limit| *limit < case.limit);
    Box::new(tapes.chain(rooms).chain(limits.map(|limit| case.clone().within(limit))))
}

fn smaller_rooms(room: Room) -> impl Iterator<Item = Room> {
    let Room { output, work } = room;
    let rooms = [Room { output: 0, work }, Room { output, work: 0 }, Room { output: output / 2, work }, Room { output, work: work / 2 }];
    rooms.into_iter().filter(move |room| room.output.abs() + room.work.abs() < output.abs() + work.abs())
}

/// The list without one half, one quarter, .. one element.
fn without_parts<T: Clone>(list: &[T]) -> Several<'_, Vec<T>> {
    let sizes = std::iter::successors(Some(list.len()), |size| Some(size / 2)).take_while(|&size| size > 0);
    let starts = move |size: usize| (0..list.len()).step_by(size).map(move |start| (start, (start + size).min(list.len())));
    Box::new(sizes.flat_map(starts).map(|(start, end)| [&list[..start], &list[end..]].concat()))
}

fn replaced<T: Clone>(list: &[T], index: usize, new: T) -> Vec<T> {
    let mut list = list.to_vec();
    list[index] = new;
    list
}

// ---- trees

fn smaller_stages(stage: &Stage) -> Several<'_, Stage> {
    // numbers in order of use, and no others
    let renumbered = Stage::new(stage.items.clone());
    let inside = stage.items.iter().enumerate().flat_map(move |(index, item)| {
        let data = if let Item::Nonterminal(data) = item { Some(data) } else { None };
        let smaller = data.into_iter().flat_map(smaller_nonterminals);
        smaller.map(move |data| replaced(&stage.items, index, Item::Nonterminal(data)))
    });
    let lists = without_parts(&stage.items).chain(inside);
    Box::new(std::iter::once(renumbered).chain(lists.map(|items| Stage { atoms: stage.atoms.clone(), items })))
}

fn smaller_nonterminals(data: &Nonterminal) -> Several<'_, Nonterminal> {
    let with = |alternatives| Nonterminal { alternatives, ..data.clone() };
    let plain = Nonterminal { inline: false, public: false, ..data.clone() };
    let fewer_args = without_parts(&data.args).map(|args| Nonterminal { args, ..data.clone() });
    let fewer = without_parts(&data.alternatives).map(with);
    let inside = data.alternatives.iter().enumerate().flat_map(move |(index, alternative)| {
        let at_index = move |changed| with(replaced(&data.alternatives, index, changed));
        smaller_alternatives(alternative).map(at_index)
    });
    Box::new(fewer.chain(fewer_args).chain([plain]).chain(inside))
}

fn smaller_alternatives(data: &Alternative) -> Several<'_, Alternative> {
    let parts = [
        Alternative { attributes: vec![], ..data.clone() },
        Alternative { condition: None, ..data.clone() },
        Alternative { action: Action::None, ..data.clone() },
    ];
    Box::new(parts.into_iter().chain(smaller_lists(&data.symbols).map(|symbols| Alternative { symbols, ..data.clone() })))
}

/// Symbols left out, or one replaced by what is inside it, or made smaller inside.
fn smaller_lists(symbols: &[Symbol]) -> Several<'_, Vec<Symbol>> {
    let opened = symbols.iter().enumerate().filter(|(_, symbol)| !symbol.kind.inner().is_empty());
    let opened = opened.map(|(index, symbol)| [&symbols[..index], symbol.kind.inner(), &symbols[index + 1..]].concat());
    let inside = symbols.iter().enumerate().flat_map(move |(index, symbol)| {
        let inner = smaller_lists(symbol.kind.inner()).filter(|inner| may_hold(&symbol.kind, inner.len()));
        inner.map(move |inner| replaced(symbols, index, Symbol { span: symbol.span, kind: with_inner(&symbol.kind, inner) }))
    });
    Box::new(without_parts(symbols).chain(opened).chain(inside))
}

fn may_hold(kind: &Kind, count: usize) -> bool {
    match kind {
        Kind::Group(_) => true,
        Kind::Macro(..) => count >= 1,
        _ => count == 1,
    }
}

fn with_inner(kind: &Kind, inner: Vec<Symbol>) -> Kind {
    let mut kind = kind.clone();
    match &mut kind {
        Kind::Macro(_, symbols) | Kind::Group(symbols) => *symbols = inner,
        other => other.inner_mut().clone_from_slice(&inner),
    }
    kind
}

// ---- bytes

/// Without some commands; of a short tape, without some bytes, and with a byte zero.
fn smaller_tapes<'a>(tape: &'a [u8], commands: &'a [Range<usize>]) -> Several<'a, Vec<u8>> {
    let joined = |ranges: Vec<Range<usize>>| ranges.into_iter().flat_map(|range| &tape[range]).copied().collect();
    let short = if tape.len() <= 400 { tape } else { &[] };
    let zeroed = (0..short.len()).map(move |index| replaced(short, index, 0));
    Box::new(without_parts(commands).map(joined).chain(without_parts(tape).take(64)).chain(without_parts(short)).chain(zeroed))
}
