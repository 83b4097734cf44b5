//! The cases of crates/passes/proofs/Chosen.antt: each shows a misreading of document 01.
use crate::case::{lengths, Case};
use oracle::Call;
use reading::tree::{Item, Kind, Stage, Symbol};
use reading::{parse, work_needed, write};
use Call::*;
use Room::*;

/// The output's length: as long as the longest stage, as stage k, or one byte shorter than stage k.
enum Room {
    Longest,
    Stage(usize),
    Under(usize),
}

const CHOSEN: [(&str, Call, u16, Room, &str); 35] = [
    (
        "every command is read and written",
        Resolve,
        0,
        Longest,
        r#"#[inline] pub M<P, Q> = { #[cfg] #[a(k="v")] M<P, `Q`> <x:<P>*> (r"z" @L)+ if P == "y" => t, if Q != "y" =>? f, <mut y:`P`?> @R ! =>@L, "$n" =>@R }; #[inline] A = n; pub B = m; extern { enum T { n => N } } match { "m" => m }"#,
    ),
    ("`+` holds the nonterminal of its own name", Whole, 1, Longest, "L = !+;"),
    ("and its stage must fit", Whole, 1, Under(3), "L = !+;"),
    ("op codes 1 and 2; `?` is inline; `Some(<>)` and `None`", Whole, 1, Longest, "S = n+ n?; extern { enum T { n => N } }"),
    ("an appending stage's atoms come before the next replacing stage's", Whole, 2, Longest, "S = n? n*; extern { enum T { n => N } }"),
    ("left", Levels, 0, Longest, r#"E = { #[precedence(level="1")] "n", #[precedence(level="2")] #[assoc(side="left")] E "+" E };"#),
    ("17 at the condition", Whole, 9, Longest, r#"S = M<n>; M<P> = "x" if P == "x"; extern { enum T { n => N } }"#),
    ("conditions of a quoted literal", Whole, 9, Longest, r#"S = M<"x">; M<P> = { "a" if P == "x", "b" if P != "x", "c" };"#),
    ("19 before the appending stage's 21", Whole, 9, Longest, r#"S = (<m:"x">);"#),
    ("a name behind a choice is no direct one", Whole, 9, Longest, r#"S = (<<m:"x">>);"#),
    ("the empty group is `(<>)`", Whole, 9, Longest, "S = ();"),
    ("only chosen symbols count", Whole, 9, Longest, r#"S = ("x" <"y">);"#),
    ("of two symbols none is chosen", Whole, 9, Longest, r#"S = ("x" "y");"#),
    (
        "only the first attribute of each id is removed",
        Levels,
        0,
        Longest,
        r#"E = #[precedence(level="1")] #[precedence(level="2")] #[assoc(side="all")] #[assoc(side="left")] "n";"#,
    ),
    ("levels keep the flags", Levels, 0, Longest, r#"#[inline] pub E = { #[precedence(level="1")] "n", #[precedence(level="2")] E };"#),
    ("14 before 15", Levels, 0, Longest, r#"E = #[assoc(side="x")] #[precedence(level="x")] "n";"#),
    ("one plus at most", Levels, 0, Longest, r#"E = #[precedence(level="++1")] "n";"#),
    ("a level has a value", Levels, 0, Longest, r#"E = #[precedence] "n";"#),
    ("a side has a value", Levels, 0, Longest, r#"E = #[assoc] "n";"#),
    (
        "level and side are inherited",
        Levels,
        0,
        Longest,
        r#"E = { #[precedence(level="1")] "n", #[precedence(level="2")] #[assoc(side="left")] E "+" E, E "-" E };"#,
    ),
    ("the first alternative annotates", Levels, 0, Longest, r#"E = { "n", #[precedence(level="1")] E };"#),
    (
        "16 at the first alternative of the lowest level that has a side",
        Levels,
        0,
        Longest,
        r#"E = { #[precedence(level="2")] #[assoc(side="left")] E E, #[precedence(level="1")] "n", #[assoc(side="left")] "m", #[assoc(side="right")] "k" };"#,
    ),
    (
        "16 of one nonterminal before 14 of the next",
        Levels,
        0,
        Longest,
        r#"A = #[assoc(side="left")] "n"; B = #[precedence(level="x")] "n";"#,
    ),
    ("21 of the resolved stage before 14", Levels, 0, Under(0), r#"E = #[precedence(level="x")] "n";"#),
    ("macros alone asks 21 of the resolved stage", Macros, 9, Under(0), r#"S = "x"; M<P> = P;"#),
    ("which must only fit", Macros, 9, Stage(0), r#"S = "x"; M<P> = P;"#),
    ("macros alone makes no levels", Macros, 9, Longest, r#"E = { #[precedence(level="1")] "n", #[precedence(level="2")] E "x"? };"#),
    ("an expanded macro keeps attributes, action, flags", Whole, 9, Longest, r#"S = M<"x">; #[inline] pub M<P> = #[cfg(a="b")] P =>? f;"#),
    ("what is put in takes the parameter's span", Whole, 9, Longest, r#"S = M<("x")>; M<P> = <P> "y";"#),
    (
        "the levelled stage's atoms come before the replacing stage's",
        Whole,
        9,
        Longest,
        r#"S = "n"*; E = { #[precedence(level="1")] "n", #[precedence(level="2")] E };"#,
    ),
    ("a name that is some text already is not pushed yet", Whole, 9, Longest, "S = n? => n?; extern { enum T { n => N } }"),
    ("18 before 21 of its stage", Whole, 0, Stage(0), r#"S = "abcdefgh"*;"#),
    ("21 of that stage", Whole, 1, Stage(0), r#"S = "abcdefgh"*;"#),
    ("later is not in tape order", Resolve, 0, Longest, r#"extern { enum T { A => A } } A = "x";"#),
    ("a macro that nothing calls is not asked", Whole, 9, Longest, r#"S = "x"; M<P> = (<m:P>) if P == "y";"#),
];

/// Each case with what it shows and its grammar.
pub fn cases() -> Vec<(String, Case)> {
    CHOSEN.iter().map(|(shows, call, limit, room, grammar)| (format!("{shows}: {grammar}"), case(*call, *limit, room, grammar))).collect()
}

/// A literal that begins with `$` stands for a bare terminal, for which LALRPOP's notation has no form.
fn stage(grammar: &str) -> Stage {
    let mut stage = parse(grammar);
    for item in &mut stage.items {
        if let Item::Nonterminal(data) = item {
            data.alternatives.iter_mut().flat_map(|alternative| &mut alternative.symbols).for_each(bare);
        }
    }
    stage
}

fn bare(symbol: &mut Symbol) {
    symbol.kind.inner_mut().iter_mut().for_each(bare);
    if let Kind::Quoted(text) = &symbol.kind {
        if let Some(name) = text.strip_prefix('$') {
            symbol.kind = Kind::Bare(name.to_string());
        }
    }
}

fn case(call: Call, limit: u16, room: &Room, grammar: &str) -> Case {
    let tape = write(&stage(grammar));
    let lengths = lengths(&tape, call, limit);
    let output = match room {
        Longest => lengths.iter().copied().max().unwrap_or(tape.len()),
        Stage(k) => lengths[*k],
        Under(k) => lengths[*k] - 1,
    };
    Case::new(&tape, call, limit, output, work_needed(tape.len(), output))
}
