//! Every one-byte change and every cut of ten rich tapes, put to validating and to the call for all three passes.
use crate::calls::Exported;
use crate::session::Session;
use compare::case::{round_lengths, Room, Rounds};
use compare::levels::spelled;
use oracle::Call;
use reading::tree::{Alternative, Nonterminal, Stage, Symbol};
use reading::{parse, write};

/// The example of README.
const QUERY: &[u8] = include_bytes!("../../../docs/examples/query.tape");

const LIMIT: u16 = 64;
/// How much longer than the tape's longest stage the output is.
const MORE: usize = 40;

/// Items in LALRPOP's notation; `#"1"` is short for `#[precedence(level="1")]`, `#left` for `#[assoc(side="left")]`.
const GRAMMARS: [(&str, &str); 7] = [
    ("levels with each side", r#"pub E = { #"1" "n", #"2" #left E "*" E, #"3" #right E "^" E, #"4" #none E "<" E, #"5" #all E "," E };"#),
    (
        "levels, a repeat and a macro over them",
        r#"E = { #"1" n => x, #"+2" #left M<E> "+" E? =>? y, (E "-")+ }; #[inline] pub M<P> = P "m"; extern { enum T { n => N } }"#,
    ),
    (
        "conditions and a macro that ends by one",
        r#"S = C<"0"> K<n, "x">; C<P> = { P C<"1"> if P == "0", "end" if P != "0" }; K<P, Q> = { P* if Q == "x", Q }; match { "n" => n }"#,
    ),
    (
        "repeats of groups, choices and names",
        r#"S = (n <m>)* <mut a:n> <b:(n m)+> (n <<y:m>>)? => f(<>); T = (<<v:n>> <<w:m>>)*; extern { enum E { n => N } } match { "m" => m }"#,
    ),
    ("a macro that calls itself with more, for ever", r#"S = M<n, "x">; M<P, Q> = M<(P Q), <Q>> M<Q*, P?>; extern { enum E { n => N } }"#),
    ("arguments that hide items", r#"S = M<A, "x">; M<A, B> = A B* (A <B>)? N<B>; N<B> = { @R B+, <a:A> }; A = "a"; B = { A "b", =>@L };"#),
    (
        "names of levels met again in macros",
        r#"S = E* F?; E = { #"1" "n", #"2" #none L<E, (E)> }; L<P, Q> = P (Q <P>)*; F = { #"7" E, #"12" #right F F };"#,
    ),
];

/// Lookarounds, `error`, a regex, attributes, names that are resolved.
fn kinds() -> Stage {
    let resolved = [Symbol::bare("n"), Symbol::nonterminal("S")];
    let last = Nonterminal::new("U").alternative(Alternative::new(resolved));
    let items = r#"S = { #[cfg] n, #[cfg(k="v")] #[cfg(k="")] =>@L }; #[inline] pub T = { @L ! r"[a-z]*" @R "" =>@R, => 0 }; extern { enum E { n => N } }"#;
    let mut stage = parse(items);
    stage.items.push(last.into());
    stage
}

/// Layers around a name, nested as deep as may be.
fn tower() -> String {
    let [before, behind] = [format!("{}(", "<".repeat(19)), format!(")+{}", ">".repeat(19))];
    format!("S = {}n{}; extern {{ enum T {{ n => N }} }}", before.repeat(3), behind.repeat(3))
}

/// The ten, with what each is.
pub fn tapes() -> Vec<(&'static str, Vec<u8>)> {
    let written = |grammar: &str| write(&parse(&spelled(grammar)));
    let others = [("docs/examples/query.tape", QUERY.to_vec()), ("63 layers", written(&tower())), ("each kind of symbol", write(&kinds()))];
    others.into_iter().chain(GRAMMARS.iter().map(|(about, grammar)| (*about, written(grammar)))).collect()
}

/// Of the tapes from one number up to another.
pub fn run(session: &mut Session, from: usize, to: usize) {
    for (about, tape) in tapes().drain(from..to) {
        let before = session.tapes();
        let output = longest(&tape) + MORE;
        changes(&tape).chain(cuts(&tape)).for_each(|changed| put(session, changed, output));
        println!("{about}: {} bytes, {} tapes", tape.len(), session.tapes() - before);
    }
}

/// The longest stage's length, of those that aren't much longer than the tape.
fn longest(tape: &[u8]) -> usize {
    let rounds = Rounds { call: Call::Whole, limit: LIMIT, longest: tape.len() + 1_500 };
    round_lengths(tape, rounds).into_iter().max().unwrap_or(tape.len())
}

fn put(session: &mut Session, tape: Vec<u8>, output: usize) {
    let room = Room { output: output as isize - tape.len() as isize, work: 0 };
    session.put([Exported::Validate, Exported::Whole].map(|call| (call, call.case(tape.clone(), LIMIT, room))));
}

/// Each byte set to each of the 255 other values.
fn changes(tape: &[u8]) -> impl Iterator<Item = Vec<u8>> + '_ {
    (0..tape.len()).flat_map(move |at| {
        (1..=255).map(move |more: u8| {
            let mut changed = tape.to_vec();
            changed[at] = changed[at].wrapping_add(more);
            changed
        })
    })
}

/// The tape's first bytes, of each number up to all.
fn cuts(tape: &[u8]) -> impl Iterator<Item = Vec<u8>> + '_ {
    (0..=tape.len()).map(|length| tape[..length].to_vec())
}

#[cfg(test)]
mod tests {
    use super::*;
    use compare::case::Case;
    use compare::judge::expected;
    use reading::commands::split;

    #[test]
    fn they_are_rich_and_have_every_command() {
        let tapes = tapes();
        assert_eq!(tapes.len(), 10);
        let mut codes: Vec<u8> = tapes.iter().flat_map(|(_, tape)| split(tape).into_iter().map(|range| tape[range.start])).collect();
        codes.sort();
        codes.dedup();
        let all = [0x01, 0x10, 0x11, 0x12, 0x13, 0x14].into_iter().chain(0x20..=0x2c).chain([0x30, 0x31]);
        assert_eq!(codes, all.collect::<Vec<u8>>());
        for (about, tape) in tapes {
            assert!((240..700).contains(&tape.len()), "{about}: {} bytes", tape.len());
        }
    }

    #[test]
    fn they_are_accepted_but_for_the_one_without_end() {
        oracle::panics_are_answers();
        for (about, tape) in tapes().into_iter().take_while(|_| oracle::is_there()) {
            let output = longest(&tape) + MORE;
            let case = Case { room: Room { output: output as isize - tape.len() as isize, work: 0 }, limit: LIMIT, tape };
            let number = expected(&case, Call::Whole).expect("the Rust is there").err().map_or(0, |refusal| refusal.number);
            assert_eq!(number, if about.ends_with("for ever") { 21 } else { 0 }, "{about}");
        }
    }
}
