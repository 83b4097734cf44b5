//! Tapes at the limits for macros: printed forms of 65,535 bytes and more, as many atoms as there can be, the deepest nesting, long lists and piles.
use crate::case::{at_round_lengths, Case, Room, Rounds};
use crate::renamed::{each_symbol, nonterminals};
use oracle::chance::Chance;
use oracle::Call;
use reading::tree::*;
use reading::{parse, write};

/// A tape, its limit, and how long an output may be.
pub type Edge = (Vec<u8>, u16, usize);

/// What declares the terminal n.
const N: &str = "extern { enum T { n => N } }";

fn tape(grammar: &str) -> Vec<u8> {
    write(&parse(grammar))
}

/// The grammar's tape with so many atoms that nothing names before its own, and these.
pub fn with_atoms(grammar: &str, others: usize, more: &[&str]) -> Vec<u8> {
    let others = (0..others).map(|index| format!("a{index:x}").into_bytes());
    let atoms = others.chain(more.iter().map(|text| text.as_bytes().to_vec())).collect();
    write(&Stage { atoms, ..parse(grammar) })
}

/// The grammar with another text for its literals.
fn with_literal(grammar: &str, text: &str) -> Vec<u8> {
    let mut stage = parse(grammar);
    for alternative in nonterminals(&mut stage.items).flat_map(|data| &mut data.alternatives) {
        each_symbol(&mut alternative.symbols, &mut |symbol| {
            if let Kind::Quoted(literal) = &mut symbol.kind {
                *literal = text.to_string();
            }
        });
    }
    write(&stage)
}

/// A form of 65,535 bytes is a name; one more is 20. Quotes and backslashes count twice.
fn long_forms() -> Vec<Edge> {
    let name = |length: usize| "n".repeat(length);
    let starred = |length| tape(&format!("S = {0}*; extern {{ enum T {{ {0} => N }} }}", name(length)));
    let called = |length| tape(&format!("S = {0}<\"x\">; {0}<P> = P;", name(length)));
    let grouped = |count: usize| tape(&format!("S = ({}); {N}", "n ".repeat(count)));
    let quoted = |count: usize, mark: &str| with_literal(r#"S = "x"?;"#, &mark.repeat(count));
    let tapes = [
        starred(65_534),
        starred(65_535),
        called(65_530),
        called(65_531),
        grouped(32_767),
        grouped(32_768),
        quoted(32_766, "\""),
        quoted(32_767, "\\"),
        quoted(65_532, "x"),
        quoted(65_533, "x"),
    ];
    tapes.into_iter().map(|tape| (tape, 3, 2_000_000)).collect()
}

/// An argument that doubles in each round, up to 20; it is 18 within a lower limit, and 21 before with less room.
fn doubling() -> Vec<Edge> {
    let of_length = |length| with_literal(r#"S = M<"x">; M<P> = M<(P P)>;"#, &"x".repeat(length));
    let limits = [(0, 9_000), (1, 9_000), (8, 900_000), (13, 900_000), (14, 900_000), (64, 9_000), (64, 900_000), (65_535, 900_000)];
    let small = limits.map(|(limit, longest)| (of_length(1), limit, longest));
    let large = [40_000, 20_000, 10_000, 5_000].map(|length| (of_length(length), 5, 900_000));
    small.into_iter().chain(large).collect()
}

/// `n*` makes one text in its first stage, then two, one and three: the last one is the 65,536th atom, or some is one more.
fn many_atoms() -> Vec<Edge> {
    let stage = |others, more: &[&str]| with_atoms(&format!("S = n*; {N}"), others, more);
    let most = 65_536 - 2;
    let fewer = [0, 1, 3, 4, 7].map(|texts| stage(most - texts, &[]));
    let known = [stage(most - 7, &["n+"]), stage(most - 7, &["v", "v*"])];
    fewer.into_iter().chain(known).map(|tape| (tape, 2, 2_000_000)).collect()
}

/// Choices around a symbol, up to what is allowed, then something that makes it deeper: a star's `v:X+`, a parameter's place.
fn deep() -> Vec<Edge> {
    let around = |count: usize, text: &str| format!("{}{text}{}", "<".repeat(count), ">".repeat(count));
    let repeated = |count, op: &str| tape(&format!("S = {}{op}; {N}", around(count, "n")));
    let put_in = |outside, inside| tape(&format!("S = M<{}>; M<P> = {}; {N}", around(outside, "n"), around(inside, "P")));
    let named = |outside| tape(&format!("S = M<{}>; M<P> = <v:P?>; {N}", around(outside, "n")));
    let grouped = |outside, inside| tape(&format!("S = M<{}>; M<P> = ({} \"x\")+; {N}", around(outside, "n"), around(inside, "P")));
    let mut tapes = vec![named(60), named(61), named(62), grouped(30, 31), grouped(30, 32), grouped(30, 33)];
    tapes.extend(["*", "+", "?"].iter().flat_map(|op| [60, 61, 62].map(|count| repeated(count, op))));
    tapes.extend([(62, 0), (62, 1), (62, 2), (0, 63), (1, 63), (31, 32), (31, 33)].map(|(outside, inside)| put_in(outside, inside)));
    tapes.into_iter().map(|tape| (tape, 4, 60_000)).collect()
}

/// Ten towers of 63 layers, each of which is expanded: the highest pile for the length of the tape.
fn towers() -> Vec<Edge> {
    let layers = [("", "*", 63), ("", "?", 63), ("(", ")", 63), ("M<", ">", 63), ("M<(", ")+>", 21), ("<", ">?*", 21)];
    let tower =
        |leaf: usize, (before, behind, count): (&str, &str, usize)| format!("{}\"{leaf}\"{}", before.repeat(count), behind.repeat(count));
    let grammar = |layer| format!("S = {}; M<P> = P?;", (0..10).map(|leaf| tower(leaf, layer)).collect::<Vec<_>>().join(" "));
    layers.into_iter().flat_map(|layer| [0, 1, 4].map(|limit| (tape(&grammar(layer)), limit, 2_000_000))).collect()
}

/// 255 arguments, 65,535 symbols and alternatives, and piles of thousands.
fn long_lists() -> Vec<Edge> {
    let list = |count: usize, each: &dyn Fn(usize) -> String, between: &str| (0..count).map(each).collect::<Vec<_>>().join(between);
    let parameters = list(255, &|index| format!("P{index}"), ", ");
    let arguments = list(255, &|index| format!("\"{index}\""), ", ");
    let handed_on = list(255, &|index| format!("P{}", (index + 1) % 255), ", ");
    let called = format!("S = M<{arguments}>; M<{parameters}> = {{ P7 if P254 == \"254\", M<{handed_on}> }};");
    let same = format!("S = {}; {N}", "n? ".repeat(65_535));
    let chosen = format!("S = M<\"5\">; M<P> = {{ {} }};", list(65_535, &|index| format!("P if P != \"{}\"", index % 7), ", "));
    let different = format!("S = {};", list(3_000, &|index| format!("\"{index}\"?"), " "));
    let nested = format!("S = {};", list(300, &|index| format!("(M<\"{index}\"*>)?"), " ") + "; M<P> = P* @L @R");
    let tapes = [called, same, chosen, different, nested];
    tapes.iter().zip([3, 1, 1, 1, 4]).map(|(grammar, limit)| (tape(grammar), limit, 4_000_000)).collect()
}

pub fn all() -> Vec<Edge> {
    [long_forms(), doubling(), many_atoms(), deep(), towers(), long_lists()].concat()
}

/// Each for this call at the lengths of its stages, with work just long enough; very long tapes, which take time, only with an ample output.
pub fn cases(call: Call, edges: Vec<Edge>) -> Vec<Case> {
    let mut chance = Chance(21);
    let at_lengths = |(tape, limit, longest): Edge| {
        let cases = at_round_lengths(&mut chance, &tape, Rounds { call, limit, longest }).into_iter().rev();
        cases.enumerate().filter(move |(index, _)| tape.len() < 500_000 || *index == 0).map(|(_, case)| case)
    };
    let cases = edges.into_iter().flat_map(at_lengths);
    cases.map(|case| Case { room: Room { work: 0, ..case.room }, ..case }).collect()
}
