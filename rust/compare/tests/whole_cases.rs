//! The whole call on document 01's cases and some more, each answered by us and by the Rust as the document says. The document's words are written out here:
//! `#"1"` is short for `#[precedence(level="1")]`, `#left` for `#[assoc(side="left")]`. Trees are printed.
use compare::levels::{spelled, unmarked};
use compare::the_rust_is_there;
use compare::whole::chosen;
use normalize::{whole, work_len};
use oracle::{staged, Call};
use reading::tree::{Action, Alternative, Item, Nonterminal, Stage};
use reading::{listing, parse, printed, read, read_made, write, Refusal, Step};

/// What it shows, the limit, the grammar, and the tree's nonterminals.
const TREES: [(&str, u16, &str, &str); 19] = [
    ("left", 0, r#"E = { #"1" "n", #"2" #left E "+" E };"#, r#"E1 = "n"; E = E "+" E1 | E1;"#),
    ("right", 0, r#"E = { #"1" "n", #"2" #right E "+" E };"#, r#"E1 = "n"; E = E1 "+" E | E1;"#),
    ("none", 0, r#"E = { #"1" "n", #"2" #none E "+" E };"#, r#"E1 = "n"; E = E1 "+" E1 | E1;"#),
    ("all", 0, r#"E = { #"1" "n", #"2" #all E "+" E };"#, r#"E1 = "n"; E = E "+" E | E1;"#),
    ("right of three", 0, r#"E = { #"1" "n", #"2" #right E "?" E ":" E };"#, r#"E1 = "n"; E = E1 "?" E1 ":" E | E1;"#),
    ("left, the first in a macro", 1, r#"E = { #"1" "n", #"2" #left M<E> E }; M<P> = P;"#, r#"E1 = "n"; E = M<E> E1 | E1; M<E> = E;"#),
    ("the empty tape", 0, "", ""),
    ("level `+1` is 1", 0, r#"E = { #"+1" "n", #"2" E };"#, r#"E1 = "n"; E = E | E1;"#),
    ("the highest level", 0, r#"E = #"4294967295" "n";"#, r#"E = "n";"#),
    ("`assoc` all alone: level 0", 0, r#"E = { #all "n", #"1" E "+" E };"#, r#"E0 = "n"; E = E "+" E | E0;"#),
    ("an argument of the lower level's name", 1, r#"S = M<"x">; M<M1> = { #"1" "n", #"2" "+" };"#, r#"S = M<"x">; M<"x"> = "+" | "x";"#),
    (
        "the star",
        2,
        "pub L = n*; extern { enum T { n => N } }",
        "pub L = n*; inline n* = => alloc::vec![] | v:n+ => v; n+ = n => alloc::vec![<>] | v:n+ e:n => { let mut v = v; v.push(e); v };",
    ),
    (
        "the pile is last in, first out",
        1,
        "S = n? m?; extern { enum T { n => N, m => M } }",
        "S = n? m?; inline m? = m => Some(<>) | => None; inline n? = n => Some(<>) | => None;",
    ),
    (
        "arguments are put in together",
        1,
        r#"S = M<Q, P>; M<P, Q> = P Q; P = "p"; Q = "q";"#,
        r#"S = M<Q, P>; P = "p"; Q = "q"; M<Q, P> = Q P;"#,
    ),
    ("a new level is `all` again", 0, r#"E = { #"1" "n", #"2" #left E E, #"3" E E };"#, r#"E1 = "n"; E2 = E2 E1 | E1; E = E E | E2;"#),
    ("the second alternative doesn't annotate", 0, r#"E = { "n", #"1" #left E E };"#, r#"E = "n" | E E;"#),
    (
        "right: macro arguments backward",
        1,
        r#"E = { #"1" "n", #"2" #right M<E, E> }; M<P, Q> = P Q;"#,
        r#"E1 = "n"; E = M<E1, E> | E1; M<E1, E> = E1 E;"#,
    ),
    (
        "a repeat over the lower level",
        1,
        r#"E = { #"1" "n", #"2" #none E? };"#,
        r#"E1 = "n"; E = E1? | E1; inline E1? = E1 => Some(<>) | => None;"#,
    ),
    (
        "a group over both",
        1,
        r#"E = { #"1" "n", #"2" #left (E "+" E) };"#,
        r#"E1 = "n"; E = (E "+" E1) | E1; inline (E "+" E1) = E "+" E1 => (<>);"#,
    ),
];

/// What it shows, the number, the limit, and the grammar; `[[` and `]]` mark the place.
const REFUSED: [(&str, u8, u16, &str); 15] = [
    ("left on level 1", 16, 9, r#"E = { #"1" #left [["n"]], #"2" E "+" E };"#),
    ("`-1`", 14, 9, r#"E = #"-1" [["n"]];"#),
    ("one more than a `u32`", 14, 9, r#"E = #"4294967296" [["n"]];"#),
    ("a declared E1 after E", 5, 9, r#"E = { #"1" "n", #"2" E "+" E }; [[E1]] = "x";"#),
    ("before E", 5, 9, r#"E1 = "x"; [[E]] = { #"1" "n", #"2" E "+" E };"#),
    ("a terminal E1", 6, 9, r#"E = { #"1" "n", #"2" E "+" E }; extern { enum T { [[E1 => E1 ]]} }"#),
    ("a macro with two levels", 10, 9, r#"S = M<"x">; [[M<P>]] = { #"1" "n", #"2" P "+" };"#),
    ("an argument of its name: 10 where it stands", 10, 9, r#"S = M<"x">; M<M> = { #"1" "n", #"2" #left M [[M]] };"#),
    ("and at the macro's span where it keeps its level", 10, 9, r#"S = M<"x">; [[M<M>]] = { #"1" "n", #"2" M M };"#),
    ("three levels, an argument of the lowest's name", 10, 9, r#"[[M<M1>]] = { #"1" "n", #"2" "m", #"3" M1 };"#),
    ("the star with one round", 18, 1, "L = [[n*]]; extern { enum T { n => N } }"),
    ("18 at the last pushed", 18, 0, r#"E = { #"1" "n"?, #"2" #none (E) [[E*]] };"#),
    ("17 at the condition", 17, 9, r#"E = { #"1" "n", #"2" M<E> }; M<P> = "x" if [[P == "x"]];"#),
    ("19 at the group", 19, 9, r#"E = { #"1" "n", #"2" [[(<v:E>)]] };"#),
    ("16 before 18", 16, 0, r#"S = "x"*; E = #left [["n"]];"#),
];

/// The tree that our call makes within a limit.
fn tree(tape: &[u8], limit: u16, output: usize) -> Result<Vec<u8>, Refusal> {
    let (mut output, mut work) = (vec![0; output], vec![0; work_len(tape.len(), output)]);
    let length = whole(tape, limit, &mut output, &mut work)?;
    output.truncate(length);
    Ok(output)
}

fn ours(stage: &Stage, limit: u16) -> Result<Vec<Item>, Refusal> {
    tree(&write(stage), limit, 9_999).map(|tree| read_made(&tree).expect("a tree that can be read").items)
}

/// The Rust's answer, where it is there.
fn theirs(stage: &Stage, limit: u16) -> Option<Result<Vec<Item>, Refusal>> {
    oracle::panics_are_answers();
    match staged(stage, Call::Whole, limit)?.pop().expect("a stage or a refusal") {
        Step::Finished(items) => Some(Ok(items)),
        Step::Refused(refusal) => Some(Err(refusal)),
    }
}

/// The nonterminals in one line, printed as document 01 says.
fn in_short(items: &[Item]) -> String {
    let nonterminals = items.iter().filter_map(|item| if let Item::Nonterminal(data) = item { Some(nonterminal(data)) } else { None });
    nonterminals.collect::<Vec<_>>().join(" ")
}

fn nonterminal(data: &Nonterminal) -> String {
    let flags = [if data.public { "pub " } else { "" }, if data.inline { "inline " } else { "" }].concat();
    let alternatives: Vec<String> = data.alternatives.iter().map(alternative).collect();
    format!("{flags}{} = {};", data.name, alternatives.join(" | "))
}

fn alternative(data: &Alternative) -> String {
    let action = match &data.action {
        Action::None => None,
        Action::User(text) => Some(format!("=> {text}")),
        other => panic!("{other:?} is in none of these"),
    };
    data.symbols.iter().map(printed).chain(action).collect::<Vec<_>>().join(" ")
}

#[test]
fn trees_are_as_document_01_says() {
    the_rust_is_there(TREES.len());
    for (about, limit, grammar, behind) in TREES {
        let stage = parse(&spelled(grammar));
        assert_eq!(ours(&stage, limit).map(|items| in_short(&items)), Ok(behind.to_string()), "{about}");
        if let Some(theirs) = theirs(&stage, limit) {
            assert_eq!(theirs.map(|items| in_short(&items)), Ok(behind.to_string()), "the Rust: {about}");
        }
    }
}

#[test]
fn refusals_are_as_document_01_says() {
    the_rust_is_there(REFUSED.len());
    for (about, number, limit, marked) in REFUSED {
        let (text, place) = unmarked(&spelled(marked));
        let (stage, refusal) = (parse(&text), Refusal { number, place: place.expect("marks") });
        assert_eq!(ours(&stage, limit), Err(refusal), "{about}");
        if let Some(theirs) = theirs(&stage, limit) {
            assert_eq!(theirs, Err(refusal), "the Rust: {about}");
        }
    }
}

/// Document 01's listing of its example.
#[test]
fn the_example_is_listed() {
    let example = include_bytes!("../../../docs/examples/listing.tape");
    let expected = [
        "L 0-9 pub\n  n*\n",
        "n* 4-6 inline\n   => alloc::vec![]\n  v:n+ => v\n",
        "n+ 4-6\n  n => alloc::vec![<>]\n  v:n+ e:n => { let mut v = v; v.push(e); v }\n",
    ]
    .concat();
    let tree = tree(example, 64, 4_096).expect("a tree");
    assert_eq!(listing(&read_made(&tree).expect("a tree that can be read").items), expected);
    assert!(read(&tree).is_err_and(|refusal| refusal.number == 4), "printed forms are no names");
}

/// Any higher limit and any longer output give the same answer and tree.
#[test]
fn a_higher_limit_changes_nothing() {
    let mut accepted = 0;
    for tape in chosen() {
        let Some(limit) = (0..9).find(|limit| tree(&tape, *limit, 9_999).is_ok()) else { continue };
        let made = tree(&tape, limit, 9_999);
        for (higher, output) in [(limit + 1, 9_999), (64, 10_000), (65_535, 12_345)] {
            assert_eq!(tree(&tape, higher, output), made, "limit {higher}");
        }
        accepted += 1;
    }
    assert!(accepted > 25, "{accepted} of the chosen grammars are accepted");
}
