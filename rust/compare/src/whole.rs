//! Grammars for the whole call: chosen ones on which readings of document 01 part, random ones with levels and macros, and some at the limits.
//! `#"1"` is short for `#[precedence(level="1")]`, `#left` for `#[assoc(side="left")]`.
use crate::case::{at_every_length, every_room, round_lengths, Case, Rounds};
use crate::grammars;
use crate::grow::{tree, tree_so_wild, Size};
use crate::ladders::{with_levels, Often};
use crate::levels::{spelled, tape, CASES, OTHERS, REFUSED};
use crate::macro_edges::{with_atoms, Edge};
use crate::rounds::{alike, chain, counting, made_texts, with_calls};
use oracle::chance::Chance;
use oracle::Call;
use reading::tree::Stage;
use reading::{parse, write};

/// Limits of the stored cases and of the chosen grammars; random tapes take `macros::LIMITS`.
pub const LIMITS: [u16; 6] = [0, 1, 2, 3, 64, 65_535];

/// The grammars of LALRPOP's unit tests, those chosen for levels, and these, within each limit, with an output as long as each stage that is at most so
/// many bytes longer than the tape, and one byte less.
pub fn cases(chance: &mut Chance, more: usize) -> Vec<Case> {
    let of_levels = CASES.iter().chain(&OTHERS).map(|case| case.stage()).chain(REFUSED.iter().map(|case| case.stage()));
    let known = grammars::all().map(|known| known.stage()).chain(of_levels).map(|stage| write(&stage));
    let tapes = known.chain(chosen());
    let within_each = tapes.flat_map(|tape| LIMITS.map(|limit| (tape.clone(), limit)));
    let rounds = |tape: &[u8], limit| Rounds { call: Call::Whole, limit, longest: tape.len() + more };
    within_each.flat_map(|(tape, limit)| at_every_length(chance, &tape, rounds(&tape, limit))).collect()
}

/// The tapes of the chosen grammars.
pub fn chosen() -> impl Iterator<Item = Vec<u8>> {
    GRAMMARS.iter().map(|(_, grammar)| tape(grammar))
}

/// Two levels, the higher with a repeat, within a limit, with every length of output and work around the boundary.
pub fn in_every_room(limit: u16) -> Vec<Case> {
    let tape = tape(r#"E = { #"1" n, #"2" E n? }; extern { enum T { n => N } }"#);
    let longest = round_lengths(&tape, Rounds { call: Call::Whole, limit, longest: usize::MAX }).into_iter().max().unwrap_or(0);
    every_room(&tape, longest).map(|case| case.within(limit)).collect()
}

// ---- random trees

/// Few annotated macros and names alike: most trees come as far as macros.
const SELDOM: Often = Often { alike: 12, macros: 5, fine: 85 };

pub fn random(chance: &mut Chance, size: Size) -> Stage {
    let stage = match chance.under(20) {
        0..=7 => return grown(chance, size),
        8..=15 => return operators(chance),
        16 | 17 => chain(chance),
        18 => counting(chance),
        _ => alike(chance),
    };
    with_levels(chance, stage, SELDOM)
}

/// A grown tree with levels, then with more calls.
fn grown(chance: &mut Chance, size: Size) -> Stage {
    let stage = if chance.percent(90) { tree_so_wild(chance, size, 0) } else { tree(chance, size) };
    let stage = with_levels(chance, stage, SELDOM);
    with_calls(chance, stage, Call::Whole)
}

/// What stands around an occurrence; with the last two it may be refused: a name in a group, a condition on what is no literal.
const AROUND: [&str; 13] =
    ["_", "_", "_*", "_+", "_?", "<_>", "(_ \"+\")", "(<_> @L)", "M<_>", "K<_, \"x\">", "(_)", "(<v:_>)", "K<\"y\", _>"];
/// Levels of an operator's alternatives.
const STEPS: [[&str; 4]; 5] =
    [["1", "2", "3", "4"], ["1", "2", "1", "2"], ["3", "1", "2", "9"], ["0", "+1", "001", "10"], ["1", "11", "12", "2"]];
/// Items that a made name can meet, or that only look like it.
const DECLARED: [&str; 8] = [
    r#"E1 = "x";"#,
    "extern { enum T { E1 => E1 } }",
    r#"match { "e2" => E2 }"#,
    "E1<P> = P;",
    "E11 = E;",
    "F1 = F*;",
    r#"pub E01 = "x";"#,
    r#"match { "e12" => E12 }"#,
];

/// `M` with levels: resolving again refuses it, unless an argument hides the lower level, or there is only one.
const WITH_LEVELS: [&str; 4] = [
    r#"M<P> = { #"1" P, #"2" P "+" };"#,
    r#"M<M1> = { #"1" M1, #"2" M1* };"#,
    r#"M<M> = { #"1" M, #"2" #none M };"#,
    r#"M<P> = { #"1" P, P? };"#,
];

fn layered(chance: &mut Chance, name: &str, most: usize) -> String {
    let count = if chance.percent(10) { AROUND.len() } else { AROUND.len() - 2 };
    (0..chance.under(most + 1)).fold(name.to_string(), |text, _| chance.one_of(&AROUND[..count]).replace('_', &text))
}

/// Two nonterminals of several levels each, which name themselves and each other under repeats, groups and in macro arguments; macros; now and then an item
/// whose name is made. The items stand in any order, and some of the texts that are made are atoms already.
fn operators(chance: &mut Chance) -> Stage {
    let mut items = vec![operator(chance, "E", "F"), if chance.percent(60) { operator(chance, "F", "E") } else { r#"F = E "f";"#.into() }];
    items.push(format!("S = {} {};", layered(chance, "E", 3), layered(chance, "F", 2)));
    let plain = format!("M<P> = {} {};", layered(chance, "P", 1), chance.one_of(&["", "\"m\"", "P", "E"]));
    items.push(if chance.percent(8) { chance.one_of(&WITH_LEVELS).into() } else { plain });
    items.push(format!("K<P, Q> = {{ P {} if Q == \"x\", Q if Q != \"x\" }};", layered(chance, "Q", 1)));
    if chance.percent(12) {
        items.push(chance.one_of(&DECLARED).into());
    }
    chance.shuffle(&mut items);
    let mut stage = parse(&spelled(&(items.join(" ") + "extern { enum T { n => N } }")));
    if chance.percent(30) {
        made_texts(chance, &mut stage, Call::Whole);
    }
    stage
}

fn operator(chance: &mut Chance, name: &str, other: &str) -> String {
    let (steps, count, depth) = (chance.one_of(&STEPS), 2 + chance.under(3), 1 + chance.under(3));
    let alternative = |index: usize| {
        let side = if index == 0 { "" } else { chance.one_of(&["", "#left ", "#right ", "#none ", "#all "]) };
        let level = if index > 0 && chance.percent(15) { String::new() } else { format!("#\"{}\" ", steps[index]) };
        let symbols: Vec<String> = (0..1 + chance.under(3)).map(|_| operand(chance, [name, other], depth)).collect();
        format!("{level}{side}{}", symbols.join(" "))
    };
    let alternatives: Vec<String> = (0..count).map(alternative).collect();
    format!("{name} = {{ {} }};", alternatives.join(", "))
}

/// Often the nonterminal itself.
fn operand(chance: &mut Chance, [name, other]: [&str; 2], depth: usize) -> String {
    let leaf = chance.one_of(&[name, name, other, "n", "\"x\"", "@R"]);
    layered(chance, leaf, depth)
}

// ---- at the limits

/// A level's name that is 65,535 bytes long as it is, or with a star behind, or not even by itself.
fn long_names() -> Vec<Edge> {
    let grammar = |length: usize, symbol: &str| {
        format!("{0} = {{ #\"1\" \"n\", #\"2\" #none {symbol} }}; M<P> = P;", "E".repeat(length)).replace('_', &"E".repeat(length))
    };
    let tapes = [
        (65_534, "_"),
        (65_535, "_"),
        (65_533, "_*"),
        (65_534, "_*"),
        (65_531, "M<_>"),
        (65_532, "M<_>"),
        (32_765, "(_ _)"),
        (32_766, "(_ _)"),
    ];
    tapes.into_iter().map(|(length, symbol)| (tape(&grammar(length, symbol)), 3, 3_000_000)).collect()
}

/// As many atoms as there can be behind levels, behind the replacing stage, behind the appending one; and one more.
fn many_atoms() -> Vec<Edge> {
    let grammar = spelled(r#"E = { #"1" n, #"2" #none E? }; extern { enum T { n => N } }"#);
    let stage = |others, more: &[&str]| with_atoms(&grammar, others, more);
    // E, n, precedence, level, 1, 2, assoc, side, none; made: E1; `E1?`; `Some(<>)` and None
    let most = 65_536 - 9;
    let fewer = [0, 1, 2, 3, 4, 5].map(|texts| stage(most - texts, &[]));
    let known = [stage(most - 4, &["E1"]), stage(most - 4, &["E1?"]), stage(most - 4, &["E?"])];
    fewer.into_iter().chain(known).map(|tape| (tape, 2, 2_000_000)).collect()
}

/// An occurrence under 60 and more layers, in the level's alternative or in a macro's argument there.
fn deep() -> Vec<Edge> {
    let around = |count: usize, text: &str| format!("{}{text}{}", "<".repeat(count), ">".repeat(count));
    let grammar = |symbol: String| format!("E = {{ #\"1\" \"n\", #\"2\" #left E {symbol} }}; M<P> = {};", around(30, "P?"));
    let starred = [60, 61, 62].map(|count| grammar(format!("{}*", around(count, "E"))));
    let called = [30, 31, 32, 33, 62].map(|count| grammar(format!("M<{}>", around(count, "E"))));
    let groups = [62, 63].map(|count| grammar(format!("{}E{}", "(".repeat(count), ")".repeat(count))));
    starred.into_iter().chain(called).chain(groups).map(|grammar| (tape(&grammar), 64, 60_000)).collect()
}

/// Many levels, each with a repeat over the nonterminal; a ladder whose names are all met again in a macro's arguments; a macro that doubles its argument.
fn many_levels() -> Vec<Edge> {
    let ladder = |count: usize, symbol: &str| {
        let rungs: Vec<String> = (1..count).map(|level| format!("#\"{level}\" #left E \"{level}\" {symbol}")).collect();
        tape(&format!("E = {{ #\"0\" \"n\", {} }}; M<P, Q> = P (Q P)?;", rungs.join(", ")))
    };
    let doubling = tape(r#"E = { #"1" "n", #"2" #none M<E> }; M<P> = M<(P P)>;"#);
    let ladders = [(ladder(300, "E*"), 3, 900_000), (ladder(200, "M<E, E>"), 3, 900_000), (ladder(60, "(E M<E, (E)>)+"), 9, 900_000)];
    let limits = [0, 3, 9, 64, 65_535].map(|limit| (doubling.clone(), limit, 60_000));
    ladders.into_iter().chain(limits).collect()
}

/// A macro that counts by conditions, so many rounds, over an argument that is a level's name.
fn many_rounds() -> Vec<Edge> {
    let alternatives: Vec<String> = (0..40).map(|number| format!("P C<P, \"{}\"> if Q == \"{number}\"", number + 1)).collect();
    let counter = tape(&format!("E = {{ #\"1\" \"n\", #\"2\" #none C<E, \"0\"> }}; C<P, Q> = {{ {}, P }};", alternatives.join(", ")));
    [0, 1, 39, 40, 41, 42, 65_535].map(|limit| (counter.clone(), limit, 90_000)).to_vec()
}

/// An argument of so many bytes, a level's name, that doubles in each round: 20 in the first round, the second, and so on.
fn doubling() -> Vec<Edge> {
    let grammar = |length: usize| format!("{0} = {{ #\"1\" \"n\", #\"2\" #none M<{0}> }}; M<P> = M<(P P)>;", "E".repeat(length));
    [65_000, 40_000, 20_000, 10_000, 5_000, 2_500].map(|length| (tape(&grammar(length)), 9, 900_000)).to_vec()
}

pub fn edges() -> Vec<Edge> {
    [few_edges(), many_atoms()].concat()
}

/// Those that take little time.
pub fn few_edges() -> Vec<Edge> {
    [long_names(), doubling(), deep(), many_levels(), many_rounds(), many_atoms()[3..4].to_vec()].concat()
}

// ---- chosen

static GRAMMARS: [(&str, &str); 59] = [
    ("nothing at all", ""),
    ("document 01's star", "pub L = n*; extern { enum T { n => N } }"),
    ("two levels, no macro", r#"E = { #"1" "n", #"2" #left E "+" E };"#),
    ("a level's name in a macro argument", r#"S = E; E = { #"1" "n", #"2" #left M<E> E }; M<P> = P "m" P?;"#),
    ("both ends of a macro argument", r#"E = { #"1" "n", #"2" #right K<E, E> "x" }; K<P, Q> = P "+" Q;"#),
    ("a repeat over each level", r#"E = { #"1" "n", #"2" #none E* E+ E?, #"3" E* E+ E? };"#),
    ("the same repeat elsewhere is another", r#"S = E*; E = { #"1" "n", #"2" #none E* "+" };"#),
    ("a group over a level", r#"E = { #"1" "n", #"2" #left (E "+" <E>), #"3" #right (E "+" <E>) };"#),
    ("groups in groups", r#"E = { #"1" ("n"), #"2" #none ((E) (E (E)))? };"#),
    ("a level's name declared behind: 5", r#"E = { #"1" "n", #"2" E* }; E1 = "x";"#),
    ("declared before: 5", r#"E1 = "x"; E = { #"1" "n", #"2" E* };"#),
    ("a terminal behind: 6", r#"E = { #"1" "n", #"2" E? }; extern { enum T { E1 => E1 } }"#),
    ("a match terminal before", r#"match { "e1" => E1 } E = { #"1" "n", #"2" E? };"#),
    ("a macro of that name: 6", r#"E = { #"1" "n", #"2" E1<E> }; E1<P> = P;"#),
    ("two levels' names meet: 5", r#"E = { #"11" "n", #"12" E }; E1 = { #"1" "m", #"2" E1 };"#),
    ("a name used by nobody else", r#"E = { #"1" "n", #"2" "E1" E* }; S = "E1*";"#),
    ("a level's name is an action's text", r#"E = { #"1" "n" => E1, #"2" #none E => E1* };"#),
    ("a level's name is a name given to a symbol", r#"E = { #"1" <E1:"n">, #"2" #none <E1:E> <E11:E?> };"#),
    ("a macro with two levels: 10", r#"S = M<"x">; M<P> = { #"1" "n", #"2" P "+" };"#),
    ("a macro with one level", r#"S = M<"x">; M<P> = { #"1" P, P? };"#),
    ("one that nothing calls: 10", r#"S = "x"; M<P> = { #"1" "n", #"2" P };"#),
    ("an argument of its name", r#"S = M<"x">; M<M> = { #"1" "n", #"2" #left M M };"#),
    ("an argument of the lower level's name", r#"S = M<"x">; M<M1> = { #"1" "n", #"2" "+" };"#),
    ("three levels, one such argument: 10", r#"S = M<"x">; M<M1> = { #"1" "n", #"2" "+", #"3" M1 };"#),
    ("three levels, both arguments", r#"S = M<"x", "y">; M<M1, M2> = { #"1" "n", #"2" "+", #"3" M1 };"#),
    ("the lower level is called too", r#"S = M<"x"> M1<"y">; M<M1> = { #"1" "n", #"2" "+" };"#),
    ("10 before 17 and 19", r#"S = M<n> (<m:n>); M<P> = { #"1" "n" if P == "x", #"2" P }; extern { enum T { n => N } }"#),
    ("5 before 18", r#"S = "x"*; E = { #"1" "n", #"2" E }; E1 = "x";"#),
    ("14 before 17", r#"S = M<n>; M<P> = "x" if P == "x" =>@L; E = #"x" "n"; extern { enum T { n => N } }"#),
    ("15 before 19", r#"S = (<m:n>); E = #[assoc(side="x")] "n"; extern { enum T { n => N } }"#),
    ("16 before 18", r#"S = n*; E = #left "n"; extern { enum T { n => N } }"#),
    ("14 to 16 of macros that nothing calls", r#"S = "x"; M<P> = { #"1" P, #"x" P };"#),
    ("17 of a level", r#"E = { #"1" "n", #"2" K<E> }; K<P> = "x" if P == "x";"#),
    ("17 behind a level's fall-through", r#"E = { #"1" K<"x">, #"2" #none E K<n> }; K<P> = P if P != "x"; extern { enum T { n => N } }"#),
    ("19 in the higher level", r#"E = { #"1" "n", #"2" (<v:E> "+") };"#),
    ("19 in an argument that a level is put in", r#"S = M<E>; E = { #"1" "n", #"2" E "+" }; M<P> = (<v:P>)*;"#),
    ("17 behind one round", r#"S = M<E>; M<P> = K<P>; K<P> = if P == "x" =>@L; E = { #"1" "n", #"2" E };"#),
    ("17 behind two", r#"S = M<E>; M<P> = K<P>; K<P> = L<P>; L<P> = if P == "x" =>@L; E = { #"1" "n", #"2" E };"#),
    ("17 behind three", r#"S = M<E>; M<P> = K<P>; K<P> = L<P>; L<P> = N<P>; N<P> = if P == "x" =>@L; E = { #"1" "n", #"2" E };"#),
    (
        "17 behind four",
        r#"S = M<E>; M<P> = K<P>; K<P> = L<P>; L<P> = N<P>; N<P> = O<P>; O<P> = if P == "x" =>@L; E = { #"1" "n", #"2" E };"#,
    ),
    ("19 behind one round", r#"S = M<E>; M<P> = (<v:P>); E = { #"1" "n", #"2" E };"#),
    ("19 behind two", r#"S = M<E>; M<P> = K<P>; K<P> = (<v:P>); E = { #"1" "n", #"2" E };"#),
    ("19 behind three", r#"S = M<E>; M<P> = K<P>; K<P> = L<P>; L<P> = (<v:P>); E = { #"1" "n", #"2" E };"#),
    ("19 behind four", r#"S = M<E>; M<P> = K<P>; K<P> = L<P>; L<P> = N<P>; N<P> = (<v:P>); E = { #"1" "n", #"2" E };"#),
    ("18 at the last of the higher level", r#"E = { #"1" "n"*, #"2" #left E* "+" E* };"#),
    ("18 at what only the lower level has", r#"E = { #"2" #none "m" E*, #"1" "n"* "k"? };"#),
    ("levels in any order, texts by first reference", r#"E = { #"3" #left E "a" E?, #"1" "n", #"2" #right (E "b") E };"#),
    ("a call for ever over a level", r#"E = { #"1" "n", #"2" #none M<E> }; M<P> = P M<P*>;"#),
    ("two calls for ever over a level", r#"E = { #"1" "n", #"2" #none M<E> }; M<P> = M<(P)> M<P?>;"#),
    (
        "all arguments put in together",
        r#"S = M<Q, P>; M<P, Q> = P Q (Q P)*; P = { #"1" "p", #"2" #left P Q }; Q = { #"1" "q", #"2" #right P Q };"#,
    ),
    ("an argument that bears a level's name", r#"S = M<E>; E = { #"1" "n", #"2" #none E "+" }; M<E1> = E1* E1;"#),
    ("an occurrence named 24", r#"E = { #"1" "n", #"2" #left `E`* "+" `E` };"#),
    ("flags", r#"#[inline] pub E = { #"1" "n", #"2" #left M<E> "+" E }; #[inline] pub M<P> = P?;"#),
    ("leftover attributes", r#"E = { #"1" #"2" #[cfg(k="v")] "n"?, #"2" #left #right E E* }; M<P> = #[cfg] P;"#),
    ("a long chain of rounds", r#"E = { #"1" "n", #"2" #none M<E> }; M<P> = K<(P), P?>; K<P, Q> = L<Q*, P>; L<A, B> = A B+ @L @R;"#),
    (
        "the book's expressions",
        r#"pub Expr = { #"1" Term, #"2" #left <l:Expr> "*" <r:Expr> => l * r, <l:Expr> "/" <r:Expr> => l / r,
         #"3" #left <l:Expr> "+" <r:Expr> => l + r, <l:Expr> "-" <r:Expr> => l - r };
         Term = { r"[0-9]+" => i32::from_str(<>).unwrap(), "(" <Expr> ")" };"#,
    ),
    (
        "the book's lists over them",
        r#"pub Exprs = Comma<Expr>; Comma<T> = <mut v:(<T> ",")*> <e:T?> => match e;
         Expr = { #"0" Num, #"1" #left Expr "+" Expr }; Num = r"[0-9]+";"#,
    ),
    (
        "the book's tiers",
        r#"Expr = Tier<ExprOp, Factor>; Factor = Tier<FactorOp, Term>; Tier<Op, Next> = { Tier<Op, Next> Op Next => t, Next };
         ExprOp = { "+", "-" }; FactorOp = { "*", "/" }; Term = { #"1" "n", #"2" #right Term "^" Term, "(" <Expr> ")" };"#,
    ),
    (
        "the book's conditions",
        r#"S = { Expr<"stmt">, Expr<"call"> }; Expr<M> = { "if" if M == "stmt", Tern if M != "stmt", M };
         Tern = { #"1" "n", #"2" #right Tern "?" Tern ":" Tern };"#,
    ),
];
