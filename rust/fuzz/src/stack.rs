//! The stack that each call takes, on tapes at the limits, the ten rich ones, and random ones.
use crate::calls::{Exported, ALL};
use crate::every;
use crate::system::stack::depth;
use compare::grow::Size;
use compare::levels::spelled;
use compare::macro_edges::Edge;
use compare::macros::LIMITS;
use compare::{edges, macro_edges, whole};
use normalize::{work_len, Words};
use oracle::chance::Chance;
use reading::{parse, write};

/// The most stack that a call took, and the tape.
#[derive(Default)]
struct Most {
    bytes: usize,
    tape: String,
    calls: usize,
}

/// Prints what each call takes; so many random tapes are among the tapes.
pub fn run(seed: u64, random: usize) {
    oracle::panics_are_answers();
    let mut most: [Most; ALL.len()] = Default::default();
    for (name, (tape, limit, output)) in at_limits().chain(random_tapes(seed, random)) {
        for (call, most) in ALL.iter().zip(&mut most) {
            most.meet(&name, taken(*call, &tape, limit, output));
        }
    }
    for (call, Most { bytes, tape, calls }) in ALL.iter().zip(most) {
        println!("{call:?}: {bytes} bytes of stack at most in {calls} calls, by {tape}");
    }
}

impl Most {
    fn meet(&mut self, name: &str, bytes: usize) {
        self.calls += 1;
        if bytes > self.bytes {
            (self.bytes, self.tape) = (bytes, name.to_string());
        }
    }
}

/// The bytes that a call takes below its caller's frame.
fn taken(call: Exported, tape: &[u8], limit: u16, output: usize) -> usize {
    let work = work_len(tape.len(), output);
    let (mut output, mut work, mut answer) = (vec![0; output], vec![0; work], Words::default());
    depth(&mut || call.made()(tape, limit, &mut output, &mut work, &mut answer))
}

type Named = (String, Edge);

fn named(kind: &str, number: usize, edge: Edge) -> Named {
    (format!("{kind} {number}, {} bytes, limit {}, output {}", edge.0.len(), edge.1, edge.2), edge)
}

/// Nesting of 64 and all else that a tape can have most of.
fn at_limits() -> impl Iterator<Item = Named> {
    let cases = edges::cases().into_iter().chain(edges::level_cases());
    let of_tapes = cases.map(|case| (case.output_len(), case.tape)).map(|(output, tape)| (tape, 64, output)).collect();
    let towers = towers().map(|tape| (tape, 64, 100_000)).collect();
    let rich = every::tapes().into_iter().map(|(_, tape)| (tape, 64, 20_000)).collect();
    let lists: [(&str, Vec<Edge>); 5] = [
        ("limits of tapes and levels", of_tapes),
        ("limits of macros", macro_edges::all()),
        ("limits of the whole", whole::edges()),
        ("towers", towers),
        ("rich", rich),
    ];
    lists.into_iter().flat_map(|(kind, edges)| edges.into_iter().enumerate().map(move |(number, edge)| named(kind, number, edge)))
}

/// What stands before and behind a symbol.
const LAYERS: [(&str, &str); 7] = [("(", ")"), ("(\"x\" ", ")"), ("<", ">"), ("", "?"), ("", "+"), ("", "*"), ("M<", ">")];

/// One kind of layer around an argument and one around its parameter, 63 together, in an alternative of a level.
fn towers() -> impl Iterator<Item = Vec<u8>> {
    let around = |(before, behind): (&str, &str), count: usize, text: &str| before.repeat(count) + text + &behind.repeat(count);
    let grammar = move |outer, inner, count| {
        let (argument, body) = (around(outer, count, "E"), around(inner, 63 - count, "P"));
        spelled(&format!("E = {{ #\"1\" \"n\", #\"2\" #left E N<{argument}> }}; N<P> = {body}; M<P> = P?;"))
    };
    let pairs = LAYERS.into_iter().flat_map(|outer| LAYERS.map(|inner| (outer, inner)));
    pairs.flat_map(move |(outer, inner)| [0, 20, 31, 42, 62].map(|count| write(&parse(&grammar(outer, inner, count)))))
}

/// Random trees for the whole call, some with towers of 60 layers and more.
fn random_tapes(seed: u64, count: usize) -> impl Iterator<Item = Named> {
    let mut chance = Chance(seed);
    (0..count).map(move |number| {
        let size = chance.one_of(&[Size::Few, Size::Some]);
        let tape = write(&whole::random(&mut chance, size));
        let output = 2 * tape.len() + 20_000;
        named("random", number, (tape, chance.one_of(&LIMITS), output))
    })
}

#[cfg(test)]
mod tests {
    use super::*;

    /// Groups in a group, so deep, each of which is expanded.
    fn groups(count: usize, call: Exported) -> usize {
        let tape = write(&parse(&format!("S = {}n{}; extern {{ enum T {{ n => N }} }}", "(".repeat(count), ")".repeat(count))));
        taken(call, &tape, 64, 20_000)
    }

    #[test]
    fn what_is_nested_deeper_takes_more() {
        for call in ALL {
            let [flat, deep] = [groups(1, call), groups(63, call)];
            assert!(flat < deep && deep < 100_000, "{call:?}: {flat} and {deep}");
        }
    }
}
