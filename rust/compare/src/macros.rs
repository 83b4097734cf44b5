//! Grammars for macros on which readings of document 01 part. What each becomes is the Rust's to say.
use crate::case::{at_round_lengths, every_room, round_lengths, Case, Rounds};
use crate::grammars;
use oracle::chance::Chance;
use oracle::Call;
use reading::tree::*;
use reading::{parse, write};

/// Rounds that are allowed.
pub const LIMITS: [u16; 7] = [0, 1, 2, 3, 7, 64, 65_535];

/// The grammars of LALRPOP's unit tests and these, within each limit, with outputs up to so many bytes longer than the tape.
pub fn cases(chance: &mut Chance, more: usize) -> Vec<Case> {
    let tapes = grammars::all().map(|known| known.tape()).chain(chosen());
    let within_each = tapes.flat_map(|tape| LIMITS.map(|limit| (tape.clone(), limit)));
    let rounds = |tape: &[u8], limit| Rounds { call: Call::Macros, limit, longest: tape.len() + more };
    within_each.flat_map(|(tape, limit)| at_round_lengths(chance, &tape, rounds(&tape, limit))).collect()
}

/// The tapes of the chosen grammars.
pub fn chosen() -> impl Iterator<Item = Vec<u8>> {
    GRAMMARS.iter().map(|(_, grammar)| write(&parse(grammar))).chain(with_bare().map(|stage| write(&stage)))
}

/// With bare terminals, for which LALRPOP's notation has no form: nothing to expand; names that are printed alike share one item, the first one's; the
/// other one's.
fn with_bare() -> [Stage; 3] {
    let item = |name: &str, symbols: &[Symbol]| Item::from(Nonterminal::new(name).alternative(Alternative::new(symbols.to_vec())));
    let star = |symbol: Symbol, from| symbol.at(Span(from, from + 1)).repeated(Repeat::Star).at(Span(from, from + 2));
    let (s, t) = (item("S", &[star(Symbol::bare("A"), 4)]), item("T", &[star(Symbol::name("A"), 12)]));
    let a = item("A", &[Symbol::quoted("x")]);
    let all = [item("S", &[Symbol::name("n"), Symbol::nonterminal("T")]), item("T", &[Symbol::bare("n"), Symbol::error()])];
    [
        Stage::new(all.into_iter().chain([Item::external("n"), Item::matched("m")])),
        Stage::new([s.clone(), t.clone(), a.clone()]),
        Stage::new([t, s, a]),
    ]
}

/// Document 01's case: two rounds.
const STAR: &str = "L = n*; extern { enum T { n => N } }";

/// The star within a limit, with every length of output and work around the boundary.
pub fn star_in_every_room(limit: u16) -> Vec<Case> {
    let tape = write(&parse(STAR));
    let rounds = Rounds { call: Call::Macros, limit, longest: usize::MAX };
    let longest = round_lengths(&tape, rounds).into_iter().max().unwrap_or(0);
    every_room(&tape, longest).map(|case| case.within(limit)).collect()
}

static GRAMMARS: [(&str, &str); 49] = [
    ("document 01's case", STAR),
    ("nothing at all", ""),
    ("9 comes first", r#"S = (<m:n>); M<P> = P if n == "x"; extern { enum T { n => N } }"#),
    ("10 comes first", "S = (<m:n>) `n`; extern { enum T { n => N } }"),
    ("11 comes first", r#"S = (<m:n>) n<"x">; extern { enum T { n => N } }"#),
    ("12 comes first", r#"S = (<m:n>) M<"x", "y">; M<P> = P; extern { enum T { n => N } }"#),
    ("13 comes first", "S = (<m:n>) M; M<P> = P; extern { enum T { n => N } }"),
    ("14 to 16 are not asked", r#"S = #[precedence(level="x")] #[assoc(side="left")] "x"?;"#),
    ("a macro that nothing calls", r#"S = "x"; M<P> = (<m:P>) if P == "y";"#),
    ("a macro alone", "M<P> = P;"),
    ("each repeat", "S = n+ n? n*; extern { enum T { n => N } }"),
    ("`*` makes the `+` that is there already", "S = n* n+; extern { enum T { n => N } }"),
    ("and the other way round", "S = n+ n*; extern { enum T { n => N } }"),
    ("repeats of repeats", "S = n*+? n?*+; extern { enum T { n => N } }"),
    ("one symbol twice", "S = { n*, n* n* }; T = (n*)+; extern { enum T { n => N } }"),
    ("a literal and a name are not alike", r#"S = "A"* A* r"A"*; A = "x";"#),
    ("last in, first out", "S = n? (n m) @R n* @L; extern { enum T { n => N, m => M } }"),
    ("the inner one is pushed before the outer", "S = ((n m)* @L)?; extern { enum T { n => N, m => M } }"),
    ("lookarounds", "S = @L @R @L; T = (@R)*;"),
    ("the empty group", "S = () ()*;"),
    ("only chosen symbols count", r#"S = ("x" <"y">) (<"x"> <"y">) ("x" "y") (<"y">) ("y");"#),
    ("a choice in a choice", r#"S = (<<"y">> "x") <<"y">>*;"#),
    ("19: a name in a group", r#"S = (<m:"x">);"#),
    ("19 behind other symbols, of the last pushed first", r#"S = ("x" <n:"y">) ("y" <m:"x">);"#),
    ("a name behind a choice is no direct one", r#"S = (<<m:"x">>) (<mut m:"x">)?;"#),
    ("names that are mutable", r#"S = <mut m:"x"*> (<<mut m:"x"*>>)+;"#),
    ("19 of a name that is put in", r#"S = M<<x:n>>; M<P> = (P); extern { enum T { n => N } }"#),
    ("the same after three rounds", "S = A<<x:n>>; A<P> = B<P>; B<P> = C<P>; C<P> = (P); extern { enum T { n => N } }"),
    ("and after four", r#"S = A<<x:n>>; A<P> = B<P>; B<P> = C<P>; C<P> = D<P>; D<P> = (P "y")*; extern { enum T { n => N } }"#),
    ("no 19 of one that is put in elsewhere", r#"S = M<<x:n>> M<(<<x:n>>)>; M<P> = P <P> P*; extern { enum T { n => N } }"#),
    ("all arguments are put in together", r#"S = M<Q, P>; M<P, Q> = P Q (Q P)*; P = "p"; Q = "q";"#),
    ("what is put in takes the parameter's span", r#"S = M<("x")>; M<P> = <P> "y" P;"#),
    ("an expanded macro keeps attributes, action, flags", r#"S = M<"x">; #[inline] pub M<P> = { #[cfg(a="b")] P =>? f, =>@R };"#),
    ("a plain nonterminal keeps its condition's place", r#"pub S = #[precedence(level="1")] M<"x"> => v; M<P> = P =>@L;"#),
    ("a macro in a macro", r#"S = M<M<M<"x">>>; M<P> = P*;"#),
    ("macros that call each other", r#"S = M<"x">; M<P> = K<P, "y">; K<P, Q> = L<Q, P>; L<A, B> = A B?;"#),
    ("a call that is there already ends", r#"S = M<"x">; M<P> = "y" M<P>;"#),
    ("a call for ever", r#"S = M<"x">; M<P> = P M<P*>;"#),
    ("two calls for ever", r#"S = M<"x">; M<P> = M<(P)> M<P?>;"#),
    ("conditions", r#"S = M<"x"> M<"y">; M<P> = { "a" if P == "x", "b" if P != "x", P };"#),
    ("no condition holds", r#"S = M<"y">; M<P> = "a" if P == "x";"#),
    ("17 at the condition", r#"S = M<n>; M<P> = "x" if P == "x"; extern { enum T { n => N } }"#),
    ("17 of what only looks like a literal", r#"S = M<<"x">>; M<P> = "x" if P == "x";"#),
    ("17 of a regex", r#"S = M<r"x">; M<P> = { "x", "y" if P != "x" };"#),
    ("17 in a later round", r#"S = M<n>; M<P> = K<P>; K<Q> = "x" if Q == "x"; extern { enum T { n => N } }"#),
    ("17 or 19, which is popped first", r#"S = M<n> (<m:n>); T = (<m:n>) M<n>; M<P> = if P == "x" =>@L; extern { enum T { n => N } }"#),
    ("an argument hides a nonterminal and a terminal", r#"S = M<"x", "y">; M<n, S> = n S; extern { enum T { n => N } }"#),
    ("escapes", r#"S = "\\"* r"\"* M<"\\">; M<P> = P?;"#),
    ("texts that are made are texts already", r#"S = n* "n*" r"n+" "v" "e" => alloc::vec![]; T = "n?" => v; extern { enum T { n => N } }"#),
];
